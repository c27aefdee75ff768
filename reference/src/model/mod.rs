//! The model: format, load, split, plan, check, carry out, report, alarm,
//! repair and conversion on the metadata image of one compressed volume, of
//! either edition; and the same calls with a held index ([`index`]).
//!
//! Nothing here allocates. Every function settles all refusals before its
//! first store, so "a refusal changes nothing lent" (01) holds by order.

mod bits;
mod carry;
mod convert;
mod figures;
mod geometry;
mod image;
pub mod index;
mod plan;
mod ranges;
mod repair;
mod rules;
#[cfg(test)]
mod tests;

pub use carry::{carry_discard, carry_write};
pub use convert::convert;
pub use figures::{alarm_count, alarm_fraction, report, Report};
pub use geometry::{Edition, MAX_IMAGE2_LEN, MAX_IMAGE_LEN, MAX_MAPS, MAX_UNITS_PER_CHUNK, UNIT};
pub use image::{format, format2, load, shape, Loaded, Shape};
pub use plan::{plan_discard, plan_write, ABSENT, STEP};
pub use ranges::{access, held, split, stored_size, Access, PIECE};
pub use repair::{repair, LISTED};
pub use rules::{check_discard, check_write, MAX_STEPS};

/// The numbers of 01's table "When the loader or planner says no".
pub mod refusals {
    pub const SHORT: u64 = 1;
    pub const FOREIGN: u64 = 2;
    pub const GEOMETRY: u64 = 3;
    pub const BAD_LINK: u64 = 4;
    pub const BAD_MAP: u64 = 5;
    pub const SHARED: u64 = 6;
    pub const RANGE: u64 = 7;
    pub const SIZE: u64 = 8;
    pub const NO_ROOM: u64 = 9;
    pub const SMALL: u64 = 10;
    pub const BAD_PLAN: u64 = 11;
    pub const BAD_ALARM: u64 = 12;
}

/// A refusal: its number and its place. "A place is two numbers, the second 0
/// except for row 6" (Decision 2).
#[derive(Clone, Copy, Debug, PartialEq, Eq)]
pub struct Refusal {
    pub number: u64,
    pub place: u64,
    pub second: u64,
}

impl Refusal {
    pub(crate) const fn at(number: u64, place: u64) -> Self {
        Refusal {
            number,
            place,
            second: 0,
        }
    }

    pub(crate) const fn plain(number: u64) -> Self {
        Refusal::at(number, 0)
    }
}

pub type Answer<T> = Result<T, Refusal>;
