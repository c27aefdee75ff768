//! The slow path: which of rows 4 to 6 an image breaks, and where.

use super::pass::X;
use super::shape::{Shape, Word};
use crate::model::refusals::{BAD_LINK, BAD_MAP, SHARED};
use crate::model::{Refusal, MAX_MAPS, MAX_UNITS_PER_CHUNK};

/// Who has claimed each unit first.
const NOBODY: u16 = u16::MAX;
const UNITS: usize = MAX_MAPS * MAX_UNITS_PER_CHUNK;

/// Chunk and entry of each chunk that is not absent.
pub(super) fn links(entries: &[Word]) -> impl Iterator<Item = (usize, u64)> + '_ {
    let entries = entries.iter().map(|entry| u64::from_le_bytes(*entry));
    entries.enumerate().filter(|(_, entry)| *entry != X)
}

/// The units that a map names before its first X.
pub(super) fn held<'a>(
    shape: &Shape,
    maps: &'a [Word],
    map: u64,
) -> impl Iterator<Item = u64> + 'a {
    let words = &maps[map as usize * shape.width()..][..shape.width()][shape.head..];
    let words = words.iter().map(|word| u64::from_le_bytes(*word));
    words.take_while(|word| *word != X)
}

/// "each named map holds 1 to P units below N, then only X" (01), none of them
/// reserved, and in edition 2 with a size that takes just these.
pub(super) fn is_good_map(shape: &Shape, maps: &[Word], map: u64) -> bool {
    let words = &maps[map as usize * shape.width()..][..shape.width()];
    let k = held(shape, maps, map).count();
    let units = shape.r as u64..shape.n as u64;
    let size_fits = || u64::from_le_bytes(words[0]).div_ceil(4096) == k as u64;
    k > 0
        && held(shape, maps, map).all(|unit| units.contains(&unit))
        && words[shape.head + k..]
            .iter()
            .all(|word| *word == [0xFF; 8])
        && (shape.head == 0 || size_fits())
}

/// The lowest row that holds, of an image of which one does. A row is asked of
/// all chunks before the next row (Decision 3).
#[cold]
#[inline(never)]
pub(super) fn verdict(shape: &Shape, image: &[u8]) -> Refusal {
    let (entries, maps) = shape.tables(image);
    let bad_link = |&(_, map): &(usize, u64)| map >= shape.m as u64;
    let bad_map = |&(_, map): &(usize, u64)| !is_good_map(shape, maps, map);
    if let Some((chunk, _)) = links(entries).find(bad_link) {
        return Refusal::at(BAD_LINK, chunk as u64);
    }
    if let Some((chunk, _)) = links(entries).find(bad_map) {
        return Refusal::at(BAD_MAP, chunk as u64);
    }
    shared(shape, entries, maps)
}

/// Row 6: "the second chunk is the lowest that claims a map or unit of a lower
/// chunk, or one unit twice. The first chunk is the lowest one it clashes with,
/// or itself if none is lower." (01) Who shares a map shares its units.
fn shared(shape: &Shape, entries: &[Word], maps: &[Word]) -> Refusal {
    let mut owners = [NOBODY; UNITS];
    for (chunk, map) in links(entries) {
        let mut first = NOBODY;
        for unit in held(shape, maps, map) {
            let owner = &mut owners[unit as usize];
            match *owner {
                NOBODY => *owner = chunk as u16,
                lower => first = first.min(lower),
            }
        }
        if first != NOBODY {
            return Refusal {
                number: SHARED,
                place: u64::from(first),
                second: chunk as u64,
            };
        }
    }
    unreachable!("something is claimed twice")
}
