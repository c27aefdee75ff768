//! Chunks, sizes, ranges, rooms and alarm levels, good and bad.

use super::*;

/// A compressed size that a write may have; whole units and one past them come
/// up often.
pub fn good_size(rng: &mut Rng, shape: &Shape) -> u64 {
    let k = match rng.below(4) {
        0 => 1,
        1 => shape.p,
        _ => rng.between(1, shape.p),
    };
    size_of(rng, k)
}

/// A size that takes k units.
pub fn size_of(rng: &mut Rng, k: u64) -> u64 {
    match rng.below(3) {
        0 => (k - 1) * UNIT + 1,
        1 => k * UNIT,
        _ => rng.between((k - 1) * UNIT + 1, k * UNIT),
    }
}

/// A chunk number, mostly in range.
pub fn chunk(rng: &mut Rng, shape: &Shape) -> u64 {
    match rng.below(10) {
        0 => 0,
        1 => shape.c - 1,
        2..=7 => rng.below(shape.c),
        _ => {
            let far = [
                shape.c,
                shape.c + 1,
                256,
                TWO_32 - 1,
                TWO_32,
                TWO_32 + rng.below(shape.c),
                1 << 63,
                u64::MAX,
            ];
            rng.pick(&far)
        }
    }
}

/// A compressed size, mostly good.
pub fn size(rng: &mut Rng, shape: &Shape) -> u64 {
    let full = shape.chunk_bytes();
    match rng.below(10) {
        0..=5 => good_size(rng, shape),
        6 | 7 => rng.pick(&[1, 4095, 4096, 4097, full - 1, full]).min(full),
        _ => rng.pick(&[
            0,
            full + 1,
            full + UNIT,
            TWO_32,
            TWO_32 + 1,
            TWO_32 + UNIT,
            u64::MAX - 4094,
            u64::MAX,
        ]),
    }
}

/// A byte range: on and off the grain, at and past the end, empty, wrapping,
/// within a chunk and across chunks.
pub fn range(rng: &mut Rng, shape: &Shape) -> (u64, u64) {
    let chunk_bytes = shape.chunk_bytes();
    let end = shape.volume_bytes();
    let units = end / UNIT;
    let (mut offset, mut length) = match rng.below(12) {
        0 => (0, end),
        1 => (rng.below(shape.c) * chunk_bytes, chunk_bytes),
        2..=4 => {
            // Within one chunk.
            let from = rng.below(shape.p);
            let to = rng.between(from + 1, shape.p);
            let start = rng.below(shape.c) * chunk_bytes;
            (start + from * UNIT, (to - from) * UNIT)
        }
        5..=7 => {
            let from = rng.below(units);
            let to = rng.between(from + 1, units);
            (from * UNIT, (to - from) * UNIT)
        }
        8 => {
            // To the end, or just past it.
            let from = rng.below(units) * UNIT;
            (from, end - from + rng.pick(&[0, UNIT, chunk_bytes]))
        }
        9 => {
            let from = rng.pick(&[end, end + UNIT, TWO_32, TWO_32 + UNIT, u64::MAX - 4095]);
            (from, rng.pick(&[UNIT, 2 * UNIT, chunk_bytes]))
        }
        10 => {
            let length = rng.pick(&[0, TWO_32, TWO_32 + UNIT, u64::MAX - 4095, u64::MAX]);
            (rng.below(units + 1) * UNIT, length)
        }
        _ => (rng.next_u64(), rng.next_u64()),
    };
    if rng.chance(12) {
        let off = rng.pick(&[1, 511, 512, 2048, 4095]);
        match rng.below(3) {
            0 => offset = offset.wrapping_add(off),
            1 => length = length.wrapping_add(off),
            // Off the grain at both ends, the sum on it.
            _ => {
                offset = offset.wrapping_add(off);
                length = length.wrapping_sub(off);
            }
        }
    }
    (offset, length)
}

/// The length of a lent output for an answer that takes `needed` bytes or
/// words.
pub fn room(rng: &mut Rng, needed: u64) -> usize {
    let needed = needed as usize;
    match rng.below(10) {
        0 => 0,
        1 => needed.saturating_sub(1),
        2 => rng.index(needed + 1),
        3 | 4 => needed,
        5 => needed + 1,
        6 => needed + 15,
        _ => needed + rng.index(200),
    }
}

/// An alarm level as a count of free units.
pub fn count(rng: &mut Rng, shape: &Shape, free: u64) -> u64 {
    match rng.below(8) {
        0 => 0,
        1 => free,
        2 => free.saturating_sub(1),
        3 => free + 1,
        // What is free would be more if reserved units were.
        4 => rng.pick(&[shape.n, shape.n - shape.r, free + shape.r]),
        5 => TWO_32 + free,
        6 => u64::MAX,
        _ => rng.next_u64() >> rng.below(64),
    }
}

/// An alarm level as a fraction: 01's limits, and products near the count of
/// free units, also with N-R for N or with the reserved units counted free.
pub fn fraction(rng: &mut Rng, shape: &Shape, free: u64) -> f64 {
    let near = |free: u64| free as f64 / shape.n as f64;
    let step = |value: f64, by: i64| f64::from_bits(value.to_bits().wrapping_add_signed(by));
    match rng.below(13) {
        12 => {
            let others = [
                near((free + shape.r).min(shape.n)),
                free as f64 / (shape.n - shape.r) as f64,
            ];
            let other = rng.pick(&others).max(f64::from_bits(4));
            step(other, rng.pick(&[-2, -1, 0, 0]))
        }
        0 => rng.pick(&[0.0, -0.0, 0.5, 0.75, 0.875, 1.0]),
        1 => rng.pick(&[f64::from_bits(1), f64::MIN_POSITIVE, step(1.0, -1)]),
        2 => rng.pick(&[
            f64::NAN,
            -f64::NAN,
            f64::from_bits(0x7FF0_0000_0000_0001),
            f64::INFINITY,
            f64::NEG_INFINITY,
        ]),
        3 => rng.pick(&[
            step(1.0, 1),
            -1.0,
            -f64::from_bits(1),
            -0.5,
            2.0,
            f64::MAX,
            f64::MIN,
        ]),
        4 => near(free),
        5..=7 => step(near(free.max(1)), rng.pick(&[-2, -1, 1, 2])),
        8 => near(free.saturating_sub(1)),
        9 => near((free + 1).min(shape.n)),
        10 => (rng.next_u64() >> 11) as f64 / (1u64 << 53) as f64,
        _ => f64::from_bits(rng.next_u64()),
    }
}
