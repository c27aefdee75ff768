//! Repair of an image that is not sound.

use super::pass::MAP_WORDS;
use super::refuse::{held, is_good_map, links};
use super::shape::Shape;
use crate::model::refusals::SMALL;
use crate::model::{Answer, Refusal, LISTED, MAX_MAPS, MAX_UNITS_PER_CHUNK};

const CHUNKS: usize = 256;
const MAPS: usize = 64 * MAP_WORDS;
const UNITS: usize = MAX_MAPS * MAX_UNITS_PER_CHUNK;

/// "every chunk with a bad link or bad map, and then, among chunks with good
/// links and maps, every chunk that shares a map or unit with another or names a
/// unit twice" (02, request 3).
fn faulty(shape: &Shape, image: &[u8]) -> [bool; CHUNKS] {
    let (entries, maps) = shape.tables(image);
    let mut faulty = [false; CHUNKS];
    let mut on_map = [0u16; MAPS];
    let mut on_unit = [0u16; UNITS];
    for (chunk, map) in links(entries) {
        if map >= shape.m as u64 || !is_good_map(shape, maps, map) {
            faulty[chunk] = true;
            continue;
        }
        on_map[map as usize] += 1;
        held(shape, maps, map).for_each(|unit| on_unit[unit as usize] += 1);
    }
    for (chunk, map) in links(entries) {
        faulty[chunk] = faulty[chunk]
            || on_map[map as usize] > 1
            || held(shape, maps, map).any(|unit| on_unit[unit as usize] > 1);
    }
    faulty
}

/// "Only the entries of those chunks change, to X; the list of unlinked chunks
/// comes out in rising order, a u32 each." (02, request 3)
#[cold]
#[inline(never)]
pub(super) fn unlink(shape: &Shape, image: &mut [u8], out: &mut [u8]) -> Answer<u64> {
    let faulty = faulty(shape, image);
    let chunks = || (0..CHUNKS).filter(|chunk| faulty[*chunk]);
    let count = chunks().count();
    if out.len() < LISTED * count {
        return Err(Refusal::at(SMALL, (LISTED * count) as u64));
    }
    for (chunk, slot) in chunks().zip(out.chunks_exact_mut(LISTED)) {
        image[8 * chunk..][..8].fill(0xFF);
        slot.copy_from_slice(&(chunk as u32).to_le_bytes());
    }
    Ok(count as u64)
}
