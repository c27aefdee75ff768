//! Events: "a request, a payload (k pieces for a write), a plan from any hand,
//! a count n and, for a cut, which steps landed and what unlanded DATA steps
//! left" (01).

use std::fmt;

use sumbilak_reference::inputs::{decode, Fields, Shape, X32};
use sumbilak_reference::rng::mix;

use crate::rules::{landed, Library};

/// Kinds of a step.
pub const DATA: u32 = 1;
pub const MAP: u32 = 2;
pub const LINK: u32 = 3;
pub const FENCE: u32 = 4;

/// A write of a compressed size, or a discard.
#[derive(Clone, Copy, Debug, PartialEq, Eq)]
pub struct Request {
    pub chunk: u64,
    /// None for a discard.
    pub size: Option<u64>,
}

impl Request {
    /// "A request is good if its chunk is below C and a write's size is 1 to
    /// P·4,096." (01)
    pub fn is_good(&self, shape: &Shape) -> bool {
        let size_good = |size| (1..=shape.chunk_bytes()).contains(&size);
        self.chunk < shape.c && self.size.is_none_or(size_good)
    }

    /// "A compressed size s takes k = s/4,096 rounded up units" (01); none
    /// for a discard.
    pub fn k(&self) -> u64 {
        self.size.map_or(0, |size| size.div_ceil(4096))
    }
}

/// "A payload is a function from piece numbers, so that it exists for bad
/// requests too; pieces 0 to k-1 of it count." (Decision 22) The tags of one
/// payload follow each other from its base, a multiple of 64.
#[derive(Clone, Copy, Debug, PartialEq, Eq)]
pub struct Payload {
    pub base: u64,
}

impl Payload {
    pub fn piece(self, number: u64) -> u64 {
        self.base + number
    }
}

/// "a DATA step that hasn't landed may leave anything in its own unit" (01),
/// "also one past the point" (Decision 21).
#[derive(Clone, Copy, Debug, PartialEq, Eq)]
pub enum Leftovers {
    Unchanged,
    /// A content that nobody wrote, one for each step.
    Garbage(u64),
    /// For each step the old content, garbage, the piece itself or another
    /// piece of the payload.
    Mixed(u64),
}

impl Leftovers {
    pub fn of(self, step: usize, piece: u64, before: u64, payload: Payload) -> u64 {
        match self {
            Leftovers::Unchanged => before,
            Leftovers::Garbage(seed) => mix(seed ^ step as u64),
            Leftovers::Mixed(seed) => {
                let drawn = mix(seed ^ step as u64);
                match drawn % 4 {
                    0 => before,
                    1 => mix(drawn),
                    2 => payload.piece(piece),
                    _ => payload.piece(piece ^ 1),
                }
            }
        }
    }
}

/// Who made a plan.
#[derive(Clone, Copy, Debug, PartialEq, Eq)]
pub enum Hand {
    /// The library's planner.
    Planner,
    /// A legal plan by another map or in another order.
    Other,
    /// A legal plan with one defect that breaks this rule first.
    Damaged(u64),
    /// A plan that is legal but for reserved units that it writes on: where
    /// there is room, in the place of free ones, else for want of them.
    Reserved { room: bool },
    /// A plan that is legal but for its units, free ones other than the lowest or
    /// in another order: it passed until request 6.
    Scattered,
    /// The same with the chunk's own old units or another chunk's among them:
    /// where there is room, in the place of free ones, else for want of them.
    Held { room: bool },
    /// Changed at random: the checker's verdict is followed.
    Mutated,
    /// A plan of an earlier event once more.
    Replayed,
    /// A plan for a bad request, or one where the planner had no room.
    Stray,
}

impl Hand {
    pub const NAMES: [&'static str; 11] = [
        "the planner's own",
        "legal, another hand",
        "damaged",
        "mutated",
        "replayed",
        "no room, bad request",
        "on reserved units",
        "no room, on reserved units",
        "on other free units",
        "on held units",
        "no room, on held units",
    ];

    pub fn index(self) -> usize {
        match self {
            Hand::Planner => 0,
            Hand::Other => 1,
            Hand::Damaged(_) => 2,
            Hand::Mutated => 3,
            Hand::Replayed => 4,
            Hand::Stray => 5,
            Hand::Reserved { room: true } => 6,
            Hand::Reserved { room: false } => 7,
            Hand::Scattered => 8,
            Hand::Held { room: true } => 9,
            Hand::Held { room: false } => 10,
        }
    }
}

#[derive(Clone, Debug)]
pub struct Event {
    pub request: Request,
    pub payload: Payload,
    pub plan: Vec<u8>,
    pub hand: Hand,
    /// Steps passed.
    pub n: u64,
    /// Which steps landed, bit i for step i: "Any choice of landed steps is an
    /// event: it is clipped to the steps between the last FENCE passed and the
    /// point" (Decision 20). No accepted plan has a step past bit 63.
    pub choice: u64,
    pub leftovers: Leftovers,
}

/// One step in 01's words.
fn step_text(step: &Fields) -> String {
    let value = |value: u32| match value {
        X32 => "X".to_string(),
        number => number.to_string(),
    };
    match *step {
        [DATA, unit, piece, 0] => format!("DATA unit {unit} piece {piece}"),
        [MAP, map, word, v] => format!("MAP map {map} word {word} value {}", value(v)),
        [LINK, chunk, 0, v] => format!("LINK chunk {chunk} value {}", value(v)),
        [FENCE, 0, 0, 0] => "FENCE".to_string(),
        _ => format!("{step:?}"),
    }
}

impl fmt::Display for Event {
    fn fmt(&self, f: &mut fmt::Formatter) -> fmt::Result {
        let Request { chunk, size } = self.request;
        match size {
            Some(size) => write!(
                f,
                "write chunk {chunk} size {size} payload {:#x}",
                self.payload.base
            )?,
            None => write!(f, "discard chunk {chunk}")?,
        }
        let steps = decode(&self.plan);
        writeln!(
            f,
            ", plan {:?}, {} bytes, n {}, choice {:#x}, left {:x?}",
            self.hand,
            self.plan.len(),
            self.n,
            self.choice,
            self.leftovers
        )?;
        // What landed, should the plan have been accepted.
        let n = steps
            .len()
            .min(usize::try_from(self.n).unwrap_or(usize::MAX));
        let landed = landed(&Library, &steps, n, self.choice);
        for (at, step) in steps.iter().enumerate() {
            let fate = match at {
                64.. => "",
                _ if landed >> at & 1 == 1 => "landed",
                _ if at < n => "passed",
                _ => "",
            };
            writeln!(f, "      {at:2} {fate:6} {}", step_text(step))?;
        }
        if !self.plan.len().is_multiple_of(16) {
            let rest = &self.plan[self.plan.len() / 16 * 16..];
            writeln!(f, "      and the bytes {rest:02X?}")?;
        }
        Ok(())
    }
}
