//! Test inputs: geometries, sound images, damage, requests and plans, biased
//! to limits. Everything is drawn from a seeded [`Rng`].
//!
//! Volumes evolve through the model's own planner and carrier; damage and
//! plans are put together word by word, so that they do not depend on it.

mod damage;
mod plan;
mod request;
mod shape;
#[cfg(test)]
mod tests;
mod volume;

use crate::model;
use crate::rng::Rng;

pub use crate::model::Edition;

pub use damage::{damage, damaged, image, tables_damaged, wild};
pub use plan::{
    assemble, decode, discard_plan, encode, miscounted, mutate, orders, other_units, plan, put_on,
    step_count, write_plan, Fields, FENCE,
};
pub use request::{chunk, count, fraction, good_size, range, room, size, size_of};
pub use shape::{blank, fresh, past_a_limit, reserved_unit, shape, Shape};
pub use volume::{
    entry, evolve, fill, free_maps, free_units, holding, litter, mapped, pool, populate, put_entry,
    put_map, put_units, put_word, scatter, size_in, sound, units_in, with_free, word, Base,
    Content,
};

/// X as stored in an image.
pub const X: u64 = u64::MAX;
/// X as written in a step.
pub const X32: u32 = u32::MAX;
/// 2^32, past which a careless 32-bit reading wraps.
pub const TWO_32: u64 = 1 << 32;

const UNIT: u64 = model::UNIT;
/// Bytes of the longest plan of the planner: 36 steps, in edition 2.
pub const LONGEST_PLAN: usize = 16 * 36;
