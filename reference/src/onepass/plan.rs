//! The planner.

use super::pass::{Claims, X};
use super::shape::Shape;
use crate::model::refusals::{NO_ROOM, SMALL};
use crate::model::{Answer, Refusal, ABSENT, MAX_UNITS_PER_CHUNK, STEP};

pub(super) const DATA: u32 = 1;
pub(super) const MAP: u32 = 2;
pub(super) const LINK: u32 = 3;
pub(super) const FENCE: u32 = 4;

/// The words of the longest map.
pub(super) const MAX_WIDTH: usize = MAX_UNITS_PER_CHUNK + 1;

/// A step as two words: the kind below its first field, then the two others.
pub(super) fn step(kind: u32, first: u32, second: u32, third: u32) -> [u8; STEP] {
    let [kind, first, second, third] = [kind, first, second, third].map(u128::from);
    (kind | first << 32 | second << 64 | third << 96).to_le_bytes()
}

/// A write, and the words of the map that it stores: the size in edition 2, the
/// k lowest free units, then X, to the end of the longest map.
pub(super) struct Write {
    pub chunk: usize,
    pub k: usize,
    pub words: [u32; MAX_WIDTH],
    /// How many of the k units there were.
    pub found: usize,
}

impl Write {
    /// Takes the units word by word, by trailing zeros.
    #[inline(always)]
    pub fn new(shape: &Shape, claims: &Claims, chunk: usize, size: u64, k: usize) -> Self {
        let mut words = [ABSENT; MAX_WIDTH];
        if shape.head == 1 {
            words[0] = size as u32;
        }
        let mut slots = words[shape.head..][..k].iter_mut();
        let mut from = 0;
        'all: for claimed in &claims.units[..shape.unit_words()] {
            let mut free = !claimed;
            while free != 0 {
                let Some(slot) = slots.next() else {
                    break 'all;
                };
                *slot = from + free.trailing_zeros();
                free &= free - 1;
            }
            from += 64;
        }
        let found = k - slots.len();
        Write {
            chunk,
            k,
            words,
            found,
        }
    }
}

/// The lowest free map: "M is above C", so there is one.
fn lowest_map(claims: &Claims) -> u32 {
    let mut from = 0;
    for claimed in &claims.maps {
        if *claimed != X {
            return from + claimed.trailing_ones();
        }
        from += 64;
    }
    unreachable!("more maps than chunks")
}

/// Rows 9 and 10, then "DATA for pieces 0 to k-1 on the k lowest free units,
/// rising; MAP for words 0 to P-1 of the lowest free map (units, then X); FENCE;
/// LINK; FENCE." (01) In edition 2 the size comes first.
#[inline(always)]
pub(super) fn put_write(
    shape: &Shape,
    claims: &Claims,
    write: &Write,
    out: &mut [u8],
) -> Answer<u64> {
    let Write {
        chunk,
        k,
        ref words,
        found,
    } = *write;
    if found < k {
        return Err(Refusal::at(NO_ROOM, found as u64));
    }
    let width = shape.width();
    let count = k + width + 3;
    let (slots, _) = out.as_chunks_mut::<STEP>();
    let Some(slots) = slots.get_mut(..count) else {
        return Err(Refusal::at(SMALL, (STEP * count) as u64));
    };
    let map = lowest_map(claims);
    let (data, rest) = slots.split_at_mut(k);
    let (stores, end) = rest.split_at_mut(width);
    for ((slot, unit), piece) in data.iter_mut().zip(&words[shape.head..]).zip(0..) {
        *slot = step(DATA, *unit, piece, 0);
    }
    for ((slot, value), word) in stores.iter_mut().zip(words).zip(0..) {
        *slot = step(MAP, map, word, *value);
    }
    let link = step(LINK, chunk as u32, 0, map);
    let fence = step(FENCE, 0, 0, 0);
    end.copy_from_slice(&[fence, link, fence]);
    Ok(count as u64)
}

/// "Discard of a mapped chunk: LINK to X, FENCE. Of an unmapped one: an empty
/// plan." (01)
pub(super) fn put_discard(chunk: usize, mapped: bool, out: &mut [u8]) -> Answer<u64> {
    if !mapped {
        return Ok(0);
    }
    let (slots, _) = out.as_chunks_mut::<STEP>();
    let [link, fence, ..] = slots else {
        return Err(Refusal::at(SMALL, 2 * STEP as u64));
    };
    *link = step(LINK, chunk as u32, 0, ABSENT);
    *fence = step(FENCE, 0, 0, 0);
    Ok(2)
}
