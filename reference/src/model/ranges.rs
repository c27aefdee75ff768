//! Byte ranges of the volume, and the held words and stored size of a chunk.

use core::ops::Range;

use super::geometry::{Geometry, UNIT, WORD};
use super::image::Volume;
use super::refusals::{RANGE, SMALL};
use super::{Answer, Refusal};

/// Bytes of a piece in the lent output: "three u32" (01).
pub const PIECE: usize = 12;

/// How one piece is read before anything else happens to it.
#[derive(Clone, Copy, Debug, PartialEq, Eq)]
pub enum Access {
    ReadsNothing,
    ReadsZeros,
    ReadsChunk,
}

/// Row 7 for ranges: "byte range empty, off the 4,096 grain, past C·P·4,096"
/// (01). Answers the end of the range; nothing wraps (Decision 1).
fn range_end(geometry: &Geometry, offset: u64, length: u64) -> Answer<u64> {
    let on_grain = offset.is_multiple_of(UNIT) && length.is_multiple_of(UNIT);
    match offset.checked_add(length) {
        Some(end) if length > 0 && on_grain && end <= geometry.volume_bytes() => Ok(end),
        _ => Err(Refusal::plain(RANGE)),
    }
}

/// Split. "A byte range splits at chunk boundaries into pieces (chunk, offset
/// within it, length), in rising order, none empty, each written to a lent
/// output as three u32." (01)
pub fn split(image: &[u8], offset: u64, length: u64, out: &mut [u8]) -> Answer<u64> {
    let geometry = Volume::open(image)?.geometry;
    let end = range_end(&geometry, offset, length)?;
    let chunk_bytes = geometry.chunk_bytes();
    let first = offset / chunk_bytes;
    let pieces = (end - 1) / chunk_bytes - first + 1;
    let needed = pieces * PIECE as u64;
    if (out.len() as u64) < needed {
        return Err(Refusal::at(SMALL, needed));
    }

    let slots = out.chunks_exact_mut(PIECE).take(pieces as usize);
    for (chunk, slot) in (first..).zip(slots) {
        let start = chunk * chunk_bytes;
        let from = offset.max(start);
        let to = end.min(start + chunk_bytes);
        // The chunk is below 256 and both others are at most 65,536.
        for (field, value) in slot
            .chunks_exact_mut(4)
            .zip([chunk, from - start, to - from])
        {
            field.copy_from_slice(&(value as u32).to_le_bytes());
        }
    }
    Ok(pieces)
}

/// Access. "A write piece that covers its chunk reads nothing first. Any other
/// piece reads as zeros on an unmapped chunk; on a mapped one, the whole
/// chunk's units are read in map order." A range "asked as one piece, across
/// chunks" is row 7 (01). A read never counts as covering (Decision 16).
pub fn access(image: &[u8], write: bool, offset: u64, length: u64) -> Answer<Access> {
    access_on(&Volume::open(image)?, write, offset, length)
}

/// Access by these tables: whether the entry of the chunk that the range lies in
/// is X (Decision 101).
pub(crate) fn access_on(volume: &Volume, write: bool, offset: u64, length: u64) -> Answer<Access> {
    let end = range_end(&volume.geometry, offset, length)?;
    let chunk_bytes = volume.geometry.chunk_bytes();
    let chunk = offset / chunk_bytes;
    if (end - 1) / chunk_bytes != chunk {
        return Err(Refusal::plain(RANGE));
    }
    Ok(if write && length == chunk_bytes {
        Access::ReadsNothing
    } else if volume.link(chunk as usize).is_none() {
        Access::ReadsZeros
    } else {
        Access::ReadsChunk
    })
}

/// Held words. "The held words of a chunk's map are handed back as that part
/// of the caller's own image" (01): the k unit words, 8·k bytes
/// (Decision 15), as a byte range; 0..0 for an unmapped chunk. In edition 2
/// "The words handed back are still the units" (02, request 4).
pub fn held(image: &[u8], chunk: u64) -> Answer<Range<usize>> {
    held_on(&Volume::open(image)?, chunk)
}

/// Held words by these tables.
pub(crate) fn held_on(volume: &Volume, chunk: u64) -> Answer<Range<usize>> {
    let chunk = volume.chunk(chunk)?;
    Ok(match volume.link(chunk) {
        None => 0..0,
        Some(map) => {
            let first = volume.geometry.unit_at(map, 0);
            first..first + WORD * volume.held_in(map)
        }
    })
}

/// Stored size. "a call answers a chunk's stored size, k·4,096 in edition 1 and
/// 0 for an unmapped chunk" (02, request 4); in edition 2 the size word. "7 for
/// a chunk not below C" (Decision 68).
pub fn stored_size(image: &[u8], chunk: u64) -> Answer<u64> {
    stored_size_on(&Volume::open(image)?, chunk)
}

/// Stored size by these tables.
pub(crate) fn stored_size_on(volume: &Volume, chunk: u64) -> Answer<u64> {
    let chunk = volume.chunk(chunk)?;
    Ok(volume.link(chunk).map_or(0, |map| volume.size_in(map)))
}
