//! A third reading of what a call with an index refuses: each row of Decision 100
//! as a condition of its own, without the model. All that hold are given, in the
//! order that the decision says; the first is the answer.

use sumbilak_reference::inputs::{word, X};
use sumbilak_reference::model::Shape;

use crate::call::{Call, Case, WORDS, WORDS_BYTES};

/// Edition, P, C, M, N and R by the trailer, or the row that it gives.
fn trailer(image: &[u8]) -> Result<Shape, u64> {
    if image.len() < 32 {
        return Err(1);
    }
    let starts = |len: usize, version: u8| {
        let from = image.len().checked_sub(len)?;
        (image[from..from + 6] == [0x52, 0x4D, 0x41, 0x50, version, 0]).then_some(from)
    };
    let (edition, at) = match (starts(32, 1), starts(40, 2)) {
        (Some(at), _) => (1, at),
        (None, Some(at)) => (2, at),
        (None, None) => return Err(2),
    };
    let number = |from: usize| {
        let bytes = &image[at + from..at + from + 4];
        u64::from(u32::from_le_bytes(bytes.try_into().expect("four bytes")))
    };
    let p = u64::from(image[at + 6]) + 256 * u64::from(image[at + 7]);
    let [c, m, n] = [8, 12, 16].map(number);
    let r = if edition == 2 { number(32) } else { 0 };
    let shape = Shape {
        edition,
        p,
        c,
        m,
        n,
        r,
    };
    let maps = 8 * m * (p + edition - 1);
    let limits = (2..=16).contains(&p)
        && (1..=256).contains(&c)
        && m > c
        && m <= c + 32
        && n >= p
        && n <= p * m
        && r + p <= n;
    let whole = 8 * c + maps + image.len() as u64 - at as u64;
    let agrees = number(20) == 8 * c + maps
        && number(24) == maps
        && number(28) == whole
        && whole == image.len() as u64
        && (edition == 1 || number(36) == 0);
    if limits && agrees {
        Ok(shape)
    } else {
        Err(3)
    }
}

/// How many of a set's numbers below a limit there are.
fn members(words: &[u64], limit: u64) -> u64 {
    let is_in = |number: &u64| words[*number as usize / 64] >> (number % 64) & 1 == 1;
    (0..limit).filter(is_in).count() as u64
}

/// Number and place of all rows that hold, a plan's rules aside. Not for open.
pub fn rows(case: &Case) -> Vec<[u64; 2]> {
    let shape = match trailer(&case.image) {
        Ok(shape) => shape,
        Err(row) => return vec![[row, 0]],
    };
    let mut rows = Vec::new();
    if shape != case.index {
        rows.push([3, 0]);
    }
    let chunk = match case.call {
        Call::PlanWrite { chunk, .. }
        | Call::PlanDiscard { chunk }
        | Call::CheckWrite { chunk, .. }
        | Call::CheckDiscard { chunk }
        | Call::CarryWrite { chunk, .. }
        | Call::CarryDiscard { chunk, .. }
        | Call::Held { chunk }
        | Call::StoredSize { chunk } => Some(chunk),
        _ => None,
    };
    let entry = chunk.filter(|&chunk| chunk < shape.c);
    let entry = entry.map(|chunk| (chunk, word(&case.image, 8 * chunk as usize)));
    if let Some((chunk, map)) = entry {
        if map != X && map >= shape.m {
            rows.push([4, chunk]);
        }
    }
    if case.sets.len() < WORDS {
        rows.push([10, WORDS_BYTES]);
    }

    let chunk_bytes = 4096 * shape.p;
    let mut range = chunk.is_some_and(|chunk| chunk >= shape.c);
    if let Some(n) = case.call.carries() {
        range |= n > case.plan.len() as u64 / 16;
    }
    if let Call::Access { offset, length, .. } = case.call {
        let end = u128::from(offset) + u128::from(length);
        let within = u128::from(offset % chunk_bytes) + u128::from(length);
        range |= length == 0
            || offset % 4096 != 0
            || length % 4096 != 0
            || end > u128::from(shape.c * chunk_bytes)
            || within > u128::from(chunk_bytes);
    }
    if range {
        rows.push([7, 0]);
    }
    let size = match case.call {
        Call::PlanWrite { size, .. }
        | Call::CheckWrite { size, .. }
        | Call::CarryWrite { size, .. } => Some(size),
        _ => None,
    };
    let bad_size = size.is_some_and(|size| size == 0 || size > chunk_bytes);
    if bad_size {
        rows.push([8, 0]);
    }
    if let Call::PlanWrite { size, .. } = case.call {
        let k = size.div_ceil(4096);
        if case.sets.len() >= WORDS && !bad_size {
            let free = members(&case.sets[..72], shape.n);
            if free < k {
                rows.push([9, free]);
            }
            if members(&case.sets[72..], shape.m) == 0 {
                rows.push([9, 0]);
            }
        }
        if !bad_size {
            let needed = 16 * (k + shape.p + shape.edition - 1 + 3);
            if (case.out.len() as u64) < needed {
                rows.push([10, needed]);
            }
        }
    }
    if let (Call::PlanDiscard { .. }, Some((_, map))) = (case.call, entry) {
        if map != X && case.out.len() < 32 {
            rows.push([10, 32]);
        }
    }
    if let Call::AlarmFraction { fraction } = case.call {
        // Not a number is in no range.
        if !(0.0..=1.0).contains(&fraction) {
            rows.push([12, 0]);
        }
    }
    rows
}
