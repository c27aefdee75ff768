//! What the simulator takes from outside itself: the library's entry points
//! and the cut rule. Each can be swapped for a wrong one, to see that the
//! simulator notices.

use sumbilak_reference::ffi::{self, CAnswer};
use sumbilak_reference::inputs::{put_word, Fields, Shape, X, X32};

use crate::event::{Event, Request, DATA, FENCE, LINK, MAP};
use crate::volume::Volume;
use crate::wrong::carry_as_judged;

/// The right rules, unless a method is overridden.
pub trait Rules {
    /// Whether the answers can also be compared with the model's. Not where a
    /// rule is wrong on purpose: there the volume itself has to give it away.
    const RIGHT: bool = false;

    /// Whether the carrier believes this checker; the library's checks for
    /// itself.
    const BELIEVED: bool = false;

    fn load(&self, _shape: &Shape, image: &[u8], out: &mut [u64]) -> CAnswer {
        ffi::load(image, out)
    }

    fn plan(&self, _shape: &Shape, image: &[u8], request: Request, out: &mut [u8]) -> CAnswer {
        match request.size {
            Some(size) => ffi::plan_write(image, request.chunk, size, out),
            None => ffi::plan_discard(image, request.chunk, out),
        }
    }

    fn check(&self, _shape: &Shape, image: &[u8], request: Request, plan: &[u8]) -> CAnswer {
        check(image, request, plan)
    }

    fn carry(
        &self,
        shape: &Shape,
        image: &mut [u8],
        request: Request,
        plan: &[u8],
        n: u64,
    ) -> CAnswer {
        match request.size {
            _ if Self::BELIEVED => {
                let verdict = self.check(shape, image, request, plan);
                carry_as_judged(shape, image, plan, n, verdict)
            }
            Some(size) => ffi::carry_write(image, request.chunk, size, plan, n),
            None => ffi::carry_discard(image, request.chunk, plan, n),
        }
    }

    fn repair(&self, _shape: &Shape, image: &mut [u8], out: &mut [u8]) -> CAnswer {
        ffi::repair(image, out)
    }

    /// `one` is the geometry of the image, of edition 1.
    fn convert(&self, _one: &Shape, image: &[u8], out: &mut [u8]) -> CAnswer {
        ffi::convert(image, out)
    }

    /// What a repaired image is on the device: "wholly written back and
    /// fenced" (02, request 3).
    fn write_back(&self, _damaged: &[u8], _repaired: &mut [u8]) {}

    /// How many of the first `n` steps are known to have landed.
    fn fenced(&self, steps: &[Fields], n: usize) -> usize {
        fenced(steps, n)
    }

    /// What becomes of a MAP or LINK word. "A word lands whole" (01), and one
    /// that has not landed leaves nothing.
    fn store(&self, image: &mut [u8], at: usize, value: u64, fate: Fate) {
        if fate == Fate::Landed {
            put_word(image, at, value);
        }
    }
}

/// What has become of a step.
#[derive(Clone, Copy, Debug, PartialEq, Eq)]
pub enum Fate {
    Landed,
    /// Before the point, but it has not landed.
    Passed,
    /// Past the point.
    Later,
}

/// The proved library and 01's cut rule.
pub struct Library;

impl Rules for Library {
    const RIGHT: bool = true;
}

/// The library's checker.
pub fn check(image: &[u8], request: Request, plan: &[u8]) -> CAnswer {
    match request.size {
        Some(size) => ffi::check_write(image, request.chunk, size, plan),
        None => ffi::check_discard(image, request.chunk, plan),
    }
}

/// The first `count` steps as a mask.
pub fn first(count: usize) -> u64 {
    if count < 64 {
        (1 << count) - 1
    } else {
        u64::MAX
    }
}

/// "A cut at a point: every step up to the last FENCE passed has landed" (01):
/// the number of these.
pub fn fenced(steps: &[Fields], n: usize) -> usize {
    let last_passed = steps[..n].iter().rposition(|step| step[0] == FENCE);
    last_passed.map_or(0, |at| at + 1)
}

/// The steps that have landed at point `n`: every fenced one, "of the steps
/// between it and the point any subset has; later steps none" (01). The rule
/// is used "for every n" (Decision 19), a finished plan's too.
pub fn landed<R: Rules>(rules: &R, steps: &[Fields], n: usize, choice: u64) -> u64 {
    let fenced = first(rules.fenced(steps, n));
    fenced | (choice & first(n) & !fenced)
}

/// "X is written 4294967295 and stored as 2^64-1." (01)
fn stored(value: u32) -> u64 {
    match value {
        X32 => X,
        number => u64::from(number),
    }
}

/// Byte position and value of the word that a MAP or LINK step stores.
pub fn word_of(shape: &Shape, step: &Fields) -> Option<(usize, u64)> {
    match *step {
        [MAP, map, word, value] => {
            let at = shape.word_at(u64::from(map), u64::from(word));
            Some((at, stored(value)))
        }
        [LINK, chunk, _, value] => Some((8 * chunk as usize, stored(value))),
        _ => None,
    }
}

/// Lands a plan on a volume: "The landed MAP and LINK words are stored in the
/// image"; a unit's content is "the payload piece that last landed on it or
/// what a later unlanded DATA step left" (01).
pub fn land<R: Rules>(
    rules: &R,
    shape: &Shape,
    volume: &mut Volume,
    event: &Event,
    steps: &[Fields],
    landed: u64,
) {
    for (at, step) in steps.iter().enumerate() {
        let fate = match landed >> at & 1 {
            1 => Fate::Landed,
            _ if (at as u64) < event.n => Fate::Passed,
            _ => Fate::Later,
        };
        if let [DATA, unit, piece, _] = *step {
            let content = &mut volume.units[unit as usize];
            let piece = u64::from(piece);
            *content = if fate == Fate::Landed {
                event.payload.piece(piece)
            } else {
                event.leftovers.of(at, piece, *content, event.payload)
            };
        } else if let Some((at, value)) = word_of(shape, step) {
            rules.store(&mut volume.image, at, value, fate);
        }
    }
}

/// "stores the MAP and LINK words of those n and no other byte" (01): one more
/// step of it.
pub fn carry_step(shape: &Shape, image: &mut [u8], step: &Fields) {
    if let Some((at, value)) = word_of(shape, step) {
        put_word(image, at, value);
    }
}
