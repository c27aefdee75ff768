//! Repair of a damaged image.

use core::ops::Range;

use super::bits::BitSet;
use super::geometry::{Geometry, CHUNK_WORDS, MAP_WORDS, UNIT_WORDS, WORD};
use super::image::{Words, X};
use super::refusals::SMALL;
use super::{Answer, Refusal};

/// Bytes of a chunk in the list: "a u32 each" (02, request 3).
pub const LISTED: usize = 4;

type Chunks = BitSet<CHUNK_WORDS>;

/// Maps or units that chunks name: those that nobody has named yet, and those
/// that have been named more than once.
struct Claims<const WORDS: usize> {
    unclaimed: BitSet<WORDS>,
    contested: BitSet<WORDS>,
}

impl<const WORDS: usize> Claims<WORDS> {
    /// Of these numbers none is claimed.
    fn none(numbers: Range<usize>) -> Self {
        Claims {
            unclaimed: BitSet::of(numbers),
            contested: BitSet::empty(),
        }
    }

    fn claim(&mut self, number: u64) {
        if !self.unclaimed.remove(number as usize) {
            self.contested.insert(number as usize);
        }
    }

    fn is_contested(&self, number: u64) -> bool {
        self.contested.contains(number as usize)
    }
}

/// The chunks to unlink: "every chunk with a bad link or bad map, and then,
/// among chunks with good links and maps, every chunk that shares a map or
/// unit with another or names a unit twice" (02, request 3).
fn faulty(image: &[u8], geometry: &Geometry) -> Chunks {
    let words = Words::of_image(image, geometry);
    let mut faulty = Chunks::empty();
    let mut maps: Claims<MAP_WORDS> = Claims::none(0..geometry.m);
    let mut units: Claims<UNIT_WORDS> = Claims::none(geometry.units());
    for (chunk, map) in words.links() {
        // Rows 4 and 5, asked of this chunk by itself. What it names counts
        // for nobody, so only the others make claims, and none of them on a
        // reserved unit.
        if map >= geometry.m as u64 || !words.is_well_formed(map) {
            faulty.insert(chunk);
            continue;
        }
        maps.claim(map);
        words.held(map).for_each(|unit| units.claim(unit));
    }
    // One judgement over all claims at once: both sides of a clash go, and
    // what they claimed stays contested for the others. A unit twice in one
    // map has been claimed twice as well.
    for (chunk, map) in words.links() {
        if faulty.contains(chunk) {
            continue;
        }
        let mut held = words.held(map);
        if maps.is_contested(map) || held.any(|unit| units.is_contested(unit)) {
            faulty.insert(chunk);
        }
    }
    faulty
}

/// Repair. "Only the entries of those chunks change, to X; the list of
/// unlinked chunks comes out in rising order, a u32 each." "Answers 1 to 3
/// still refuse. A list buffer too short gives 10." (02, request 3) Its place
/// is the "bytes needed" (01); an empty list needs none. Answers the number of
/// chunks in the list.
pub fn repair(image: &mut [u8], out: &mut [u8]) -> Answer<u64> {
    let geometry = Geometry::of_image(image)?;
    let faulty = faulty(image, &geometry);
    let count = faulty.count();
    let needed = count * LISTED as u64;
    if (out.len() as u64) < needed {
        return Err(Refusal::at(SMALL, needed));
    }
    for (chunk, slot) in faulty.iter().zip(out.chunks_exact_mut(LISTED)) {
        let at = geometry.entry_at(chunk);
        image[at..at + WORD].copy_from_slice(&X.to_le_bytes());
        // The chunk is below 256.
        slot.copy_from_slice(&(chunk as u32).to_le_bytes());
    }
    Ok(count)
}
