//! Times of short calls, in nanoseconds: many batches of equal length, and what
//! they say together.

use std::time::{Duration, Instant};

/// Turns of all rows of a table; batches of each side in one row and turn; how
/// long a batch is to take.
pub const TURNS: usize = 60;
pub const BATCHES: usize = 100;
pub const BATCH: Duration = Duration::from_micros(50);

/// Nanoseconds of one call in a batch of so many.
pub fn batch(repeats: u32, mut call: impl FnMut()) -> f64 {
    let start = Instant::now();
    for _ in 0..repeats {
        call();
    }
    start.elapsed().as_secs_f64() * 1e9 / f64::from(repeats)
}

/// Repeats that make a batch of the length wanted.
pub fn repeats(mut call: impl FnMut()) -> u32 {
    let mut repeats = 1;
    while batch(repeats, &mut call) * f64::from(repeats) < BATCH.as_secs_f64() * 1e9 {
        repeats *= 2;
    }
    repeats
}

/// What else the machine does can only make a batch slower.
pub fn least(batches: &[f64]) -> f64 {
    batches.iter().copied().fold(f64::INFINITY, f64::min)
}

pub fn median(batches: &[f64]) -> f64 {
    let mut sorted = batches.to_vec();
    sorted.sort_by(f64::total_cmp);
    sorted[sorted.len() / 2]
}
