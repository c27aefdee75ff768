//! Steps and the planner.

use super::geometry::{Geometry, MAX_UNITS_PER_CHUNK, UNIT};
use super::image::{Volume, X};
use super::refusals::{NO_ROOM, SIZE, SMALL};
use super::{Answer, Refusal};

/// "A step is 16 bytes, four u32" (01).
pub const STEP: usize = 16;
/// "X is written 4294967295" in a step (01).
pub const ABSENT: u32 = u32::MAX;

/// "A MAP or LINK value is a number or X" (01).
#[derive(Clone, Copy, Debug, PartialEq, Eq)]
pub(crate) enum Value {
    Number(u32),
    Absent,
}

impl Value {
    /// A number below the limit, or X; anything else breaks rule 1.
    fn decode(raw: u32, limit: usize) -> Option<Self> {
        if raw == ABSENT {
            Some(Value::Absent)
        } else {
            ((raw as usize) < limit).then_some(Value::Number(raw))
        }
    }

    fn encode(self) -> u32 {
        match self {
            Value::Number(number) => number,
            Value::Absent => ABSENT,
        }
    }

    /// "X is written 4294967295 and stored as 2^64-1." (01)
    pub fn stored(self) -> u64 {
        match self {
            Value::Number(number) => u64::from(number),
            Value::Absent => X,
        }
    }
}

/// "DATA: 1, unit, piece, 0. MAP: 2, map, word, value. LINK: 3, chunk, 0,
/// value. FENCE: 4, 0, 0, 0." (01)
#[derive(Clone, Copy, Debug, PartialEq, Eq)]
pub(crate) enum Step {
    Data { unit: u32, piece: u32 },
    Map { map: u32, word: u32, value: Value },
    Link { chunk: u32, value: Value },
    Fence,
}

impl Step {
    pub fn encode(self) -> [u8; STEP] {
        let fields = match self {
            Step::Data { unit, piece } => [1, unit, piece, 0],
            Step::Map { map, word, value } => [2, map, word, value.encode()],
            Step::Link { chunk, value } => [3, chunk, 0, value.encode()],
            Step::Fence => [4, 0, 0, 0],
        };
        let mut bytes = [0; STEP];
        for (slot, field) in bytes.chunks_exact_mut(4).zip(fields) {
            slot.copy_from_slice(&field.to_le_bytes());
        }
        bytes
    }

    /// One step, if it keeps rule 1: "of the four kinds; units below N, pieces
    /// and words below P, maps below M, chunks below C; a MAP value below N or
    /// X, a LINK value below M or X; unused fields 0." (01) In edition 2 "MAP
    /// words run from 0 to P: word 0 holds 1 to P·4,096" (02, request 4). A
    /// reserved unit is below N and keeps the rule (Decision 76).
    pub fn decode(bytes: &[u8; STEP], geometry: &Geometry) -> Option<Self> {
        let field = |i: usize| {
            let b = &bytes[4 * i..4 * i + 4];
            u32::from_le_bytes([b[0], b[1], b[2], b[3]])
        };
        let below = |number: u32, limit: usize| (number as usize) < limit;
        let Geometry { p, c, m, n, .. } = *geometry;
        match [field(0), field(1), field(2), field(3)] {
            [1, unit, piece, 0] if below(unit, n) && below(piece, p) => {
                Some(Step::Data { unit, piece })
            }
            [2, map, word, value] if below(map, m) && below(word, geometry.map_words()) => {
                let value = if below(word, geometry.edition.size_words()) {
                    // X is far above P·4,096, which is at most 65,536.
                    units_of(geometry, u64::from(value)).ok()?;
                    Value::Number(value)
                } else {
                    Value::decode(value, n)?
                };
                Some(Step::Map { map, word, value })
            }
            [3, chunk, 0, value] if below(chunk, c) => {
                let value = Value::decode(value, m)?;
                Some(Step::Link { chunk, value })
            }
            [4, 0, 0, 0] => Some(Step::Fence),
            _ => None,
        }
    }
}

/// "A compressed size s takes k = s/4,096 rounded up units", and row 8:
/// "compressed size 0 or above P·4,096" (01).
pub(crate) fn units_of(geometry: &Geometry, size: u64) -> Answer<usize> {
    if (1..=geometry.chunk_bytes()).contains(&size) {
        Ok(size.div_ceil(UNIT) as usize)
    } else {
        Err(Refusal::plain(SIZE))
    }
}

/// The value of a word of a write's map: "word 0 holds [..] the request's size
/// (rule 3), and word j+1 is piece j's unit or X" (02, request 4); in edition 1
/// "word j is piece j's unit for j below k, else X" (01). The size is good, so
/// it fits.
pub(crate) fn map_value(
    geometry: &Geometry,
    size: u64,
    word: usize,
    unit_of_piece: impl FnOnce(usize) -> Option<u32>,
) -> Value {
    match word.checked_sub(geometry.edition.size_words()) {
        None => Value::Number(size as u32),
        Some(piece) => unit_of_piece(piece).map_or(Value::Absent, Value::Number),
    }
}

/// Row 10: "lent output too short", the place being the bytes that this very
/// answer takes (Decision 10); then writes the steps.
fn write_plan(out: &mut [u8], steps: impl Iterator<Item = Step>, count: usize) -> Answer<u64> {
    if out.len() < STEP * count {
        return Err(Refusal::at(SMALL, (STEP * count) as u64));
    }
    let (slots, _) = out.as_chunks_mut::<STEP>();
    for (slot, step) in slots[..count].iter_mut().zip(steps) {
        *slot = step.encode();
    }
    Ok(count as u64)
}

/// The planner's write. "DATA for pieces 0 to k-1 on the k lowest free units,
/// rising; MAP for words 0 to P-1 of the lowest free map (units, then X);
/// FENCE; LINK; FENCE. That is k+P+3 steps, at most 35." (01) In edition 2 the
/// size comes before the units: "The planner's write has k+P+4 steps." (02,
/// request 4) Refusals 7, 8, 9, 10 in that order; the chunk's own old units
/// are not free (Decision 10).
pub fn plan_write(image: &[u8], chunk: u64, size: u64, out: &mut [u8]) -> Answer<u64> {
    write_on(&Volume::open(image)?, chunk, size, out)
}

/// The planner's write by these sets. "A set without a free map gives the
/// planner's core 9 with 0" (Decision 87).
pub(crate) fn write_on(volume: &Volume, chunk: u64, size: u64, out: &mut [u8]) -> Answer<u64> {
    let geometry = volume.geometry;
    let chunk = volume.chunk(chunk)? as u32;
    let k = units_of(&geometry, size)?;

    // Row 9: "fewer than k units free", of which a reserved one is none.
    let mut units = [0; MAX_UNITS_PER_CHUNK];
    let mut found = 0;
    for (slot, unit) in units[..k].iter_mut().zip(volume.free_units.iter()) {
        *slot = unit as u32;
        found += 1;
    }
    if found < k {
        return Err(Refusal::at(NO_ROOM, volume.free_units.count()));
    }
    let units = &units[..k];
    // M is above C, so the C entries of an image cannot name every map.
    let map = volume.free_maps.iter().next();
    let map = map.ok_or(Refusal::at(NO_ROOM, 0))? as u32;

    let data = (0..)
        .zip(units)
        .map(|(piece, &unit)| Step::Data { unit, piece });
    let words = (0..geometry.map_words()).map(|word| Step::Map {
        map,
        word: word as u32,
        value: map_value(&geometry, size, word, |piece| units.get(piece).copied()),
    });
    let link = Step::Link {
        chunk,
        value: Value::Number(map),
    };
    let steps = data.chain(words).chain([Step::Fence, link, Step::Fence]);
    write_plan(out, steps, k + geometry.map_words() + 3)
}

/// The planner's discard. "Discard of a mapped chunk: LINK to X, FENCE. Of an
/// unmapped one: an empty plan." (01)
pub fn plan_discard(image: &[u8], chunk: u64, out: &mut [u8]) -> Answer<u64> {
    discard_on(&Volume::open(image)?, chunk, out)
}

/// The planner's discard by these tables.
pub(crate) fn discard_on(volume: &Volume, chunk: u64, out: &mut [u8]) -> Answer<u64> {
    let chunk = volume.chunk(chunk)?;
    let count = if volume.link(chunk).is_some() { 2 } else { 0 };
    let link = Step::Link {
        chunk: chunk as u32,
        value: Value::Absent,
    };
    write_plan(out, [link, Step::Fence].into_iter(), count)
}
