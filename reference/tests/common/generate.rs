//! Cases for each entry point, drawn from a pool of sound volumes.

use sumbilak_reference::ffi::LOAD_WORDS;
use sumbilak_reference::inputs::{self, Base, Edition, Shape, TWO_32};
use sumbilak_reference::model;
use sumbilak_reference::rng::Rng;

use super::cases::{Call, Case, Entry};

/// A case for the entry point. Image and request go wrong independently of
/// each other, so every row of the one meets every row of the other.
pub fn case(rng: &mut Rng, entry: Entry, pool: &[Base]) -> Case {
    match entry {
        Entry::Format => return format(rng, Edition::One),
        Entry::Format2 => return format(rng, Edition::Two),
        _ => {}
    }
    let base = &pool[rng.index(pool.len())];
    let shape = &base.shape;
    let image = match entry {
        Entry::Repair => inputs::damaged(rng, base),
        _ => inputs::image(rng, base),
    };
    let mut plan = Vec::new();
    let mut room = 0;
    let call = match entry {
        Entry::Format | Entry::Format2 => unreachable!("made above"),
        Entry::Load => {
            room = 8 * inputs::room(rng, LOAD_WORDS as u64);
            Call::Load
        }
        Entry::Split => {
            let (offset, length) = inputs::range(rng, shape);
            let end = offset.wrapping_add(length).min(shape.volume_bytes());
            let first = offset / shape.chunk_bytes();
            let pieces = end.div_ceil(shape.chunk_bytes()).saturating_sub(first);
            room = inputs::room(rng, (model::PIECE as u64) * pieces);
            Call::Split { offset, length }
        }
        Entry::Access => {
            let (offset, length) = inputs::range(rng, shape);
            Call::Access {
                write: rng.chance(60),
                offset,
                length,
            }
        }
        Entry::Held => Call::Held {
            chunk: inputs::chunk(rng, shape),
        },
        Entry::PlanWrite => {
            let size = inputs::size(rng, shape);
            let k = size.div_ceil(model::UNIT).clamp(1, shape.p);
            room = inputs::room(rng, 16 * shape.write_steps(k));
            Call::PlanWrite {
                chunk: inputs::chunk(rng, shape),
                size,
            }
        }
        Entry::PlanDiscard => {
            room = inputs::room(rng, 32);
            Call::PlanDiscard {
                chunk: inputs::chunk(rng, shape),
            }
        }
        Entry::CheckWrite | Entry::CarryWrite => {
            let chunk = inputs::chunk(rng, shape);
            let size = inputs::size(rng, shape);
            plan = inputs::plan(rng, base, chunk, Some(size));
            match entry {
                Entry::CheckWrite => Call::CheckWrite { chunk, size },
                _ => Call::CarryWrite {
                    chunk,
                    size,
                    n: inputs::step_count(rng, &plan),
                },
            }
        }
        Entry::CheckDiscard | Entry::CarryDiscard => {
            let chunk = inputs::chunk(rng, shape);
            plan = inputs::plan(rng, base, chunk, None);
            match entry {
                Entry::CheckDiscard => Call::CheckDiscard { chunk },
                _ => Call::CarryDiscard {
                    chunk,
                    n: inputs::step_count(rng, &plan),
                },
            }
        }
        Entry::AlarmCount => {
            let free = inputs::free_units(shape, &base.image).len() as u64;
            Call::AlarmCount {
                units: inputs::count(rng, shape, free),
            }
        }
        Entry::AlarmFraction => {
            let free = inputs::free_units(shape, &base.image).len() as u64;
            Call::AlarmFraction {
                fraction: inputs::fraction(rng, shape, free),
            }
        }
        Entry::Report => Call::Report,
        Entry::Repair => {
            // Only the length of the list is asked here, for a room around it.
            let mut list = [0; 4 * 256];
            let unlinked = model::repair(&mut image.clone(), &mut list).unwrap_or(0);
            room = inputs::room(rng, 4 * unlinked);
            Call::Repair
        }
        Entry::Shape => Call::Shape,
        Entry::StoredSize => Call::StoredSize {
            chunk: inputs::chunk(rng, shape),
        },
        Entry::Convert => {
            // The new length, for an image of edition 2 its own.
            let needed = shape.in_edition(Edition::Two).image_len();
            room = match rng.below(12) {
                0..=6 => needed,
                7 => needed - rng.pick(&[1, 8]),
                8 => needed + rng.pick(&[1, 8]),
                9 => image.len(),
                10 => inputs::shape(rng).image_len(),
                _ => inputs::room(rng, needed as u64),
            };
            Call::Convert
        }
    };
    let mut out = vec![0; room];
    rng.fill(&mut out);
    Case {
        call,
        image,
        out,
        plan,
        skew: rng.index(16),
        due: None,
    }
}

/// R for a format of N units with P in a chunk, both good or not: mostly the
/// good one that was drawn, else at or past N-P, where N-P may wrap, or good but
/// for 2^32.
fn reserved(rng: &mut Rng, p: u64, n: u64, good: u64) -> u64 {
    let most = n.wrapping_sub(p);
    match rng.below(20) {
        0..=12 => good,
        13 => most,
        14 | 15 => most.wrapping_add(1),
        16 => rng.pick(&[1, p, n, most.wrapping_add(2), most.wrapping_sub(1)]),
        17 | 18 => TWO_32 * rng.between(1, 9) + good,
        _ => rng.pick(&[TWO_32, TWO_32 - 1, 1 << 63, u64::MAX]),
    }
}

/// Format: good geometries and each limit broken, on buffers of the right
/// length and of others, the other edition's among them.
fn format(rng: &mut Rng, edition: Edition) -> Case {
    let shape = inputs::shape(rng).in_edition(edition);
    let Shape {
        mut p,
        mut c,
        mut m,
        mut n,
        ..
    } = shape;
    match rng.below(10) {
        0..=5 => {}
        6 => p = rng.pick(&[0, 1, 17, 18, p + 16, TWO_32 + p, u64::MAX, (1 << 16) + p]),
        7 => c = rng.pick(&[0, 257, c + 256, TWO_32 + c, u64::MAX]),
        8 => m = rng.pick(&[c, c + 33, 0, TWO_32 + m, u64::MAX, u64::MAX / p + 2]),
        _ => n = rng.pick(&[p - 1, p * m + 1, 0, TWO_32 + n, u64::MAX]),
    }
    // The length that the formula gives, even if it wraps, as long as it can
    // be lent.
    let words = p.wrapping_add(shape.size_words());
    let whole = m.wrapping_mul(words).wrapping_add(c).wrapping_mul(8);
    let len = match whole.wrapping_add(shape.trailer_len() as u64) {
        len @ 0..=60_000 => len as usize,
        _ => shape.image_len(),
    };
    let len = match rng.below(13) {
        0 => len.saturating_sub(1),
        1 => len + 1,
        2 => rng.pick(&[0, 1, 31, 32, 33, 39, 40, 41]),
        5 => inputs::Edition::ALL
            .map(|edition| shape.in_edition(edition).image_len())
            .into_iter()
            .find(|&other| other != len)
            .unwrap_or(len),
        3 => rng.index(400),
        4 => inputs::shape(rng).image_len(),
        _ => len,
    };
    let mut image = vec![0; len];
    rng.fill(&mut image);
    let call = match edition {
        Edition::One => Call::Format { p, c, m, n },
        Edition::Two => {
            let r = reserved(rng, p, n, shape.r);
            Call::Format2 { p, c, m, n, r }
        }
    };
    Case {
        call,
        image,
        out: Vec::new(),
        plan: Vec::new(),
        skew: rng.index(16),
        due: None,
    }
}
