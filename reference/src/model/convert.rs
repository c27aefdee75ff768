//! The converter from edition 1 to edition 2.

use super::geometry::{Edition, Geometry, WORD};
use super::image::{write_fresh, Volume};
use super::refusals::{FOREIGN, SMALL};
use super::{Answer, Refusal};

/// "Bring a converter from 1 to 2 (an edition 2 input gives 2) into a second
/// buffer, where the size is k·4,096 and maps that no chunk names become X
/// throughout; a buffer not of exactly the new length gives 10." (02,
/// request 4)
///
/// "2 on whatever is not read as edition 1, sound or damaged, since the lowest
/// number wins" (Decision 69), so the edition is asked before the rest of the
/// image. Answers the bytes written.
pub fn convert(image: &[u8], out: &mut [u8]) -> Answer<u64> {
    if Edition::of_image(image)?.0 != Edition::One {
        return Err(Refusal::plain(FOREIGN));
    }
    let volume = Volume::open(image)?;
    // "the converter writes 0" for R (02, request 5), which edition 1 behaves
    // as.
    let geometry = Geometry {
        edition: Edition::Two,
        ..volume.geometry
    };
    let needed = geometry.image_len();
    if out.len() != needed {
        return Err(Refusal::at(SMALL, needed as u64));
    }

    // X everywhere first, so that what is not written below is absent.
    write_fresh(out, &geometry);
    let mut put = |at: usize, value: u64| out[at..at + WORD].copy_from_slice(&value.to_le_bytes());
    for (chunk, map) in volume.links() {
        let number = map as usize;
        put(geometry.entry_at(chunk), map);
        // In edition 1 a map's size is k·4,096.
        put(geometry.map_word_at(number, 0), volume.size_in(number));
        for (j, unit) in volume.units_in(number).enumerate() {
            put(geometry.unit_at(number, j), unit);
        }
    }
    Ok(needed as u64)
}
