//! All lists of calls on the smallest volumes: every request, by the planner's
//! plan and by others, carried out at every point, from every image that is
//! reached. A list of calls leaves an image and its index; as the index is
//! current each time, lists that leave the same image go on alike, and one of
//! them is followed.

use std::collections::HashSet;

use sumbilak_reference::inputs::{assemble, encode, entry, Shape, FENCE, X};
use sumbilak_reference::model;

use crate::call::{current_words, index_of, Bench, Call, Case, WORDS};
use crate::guard::Stand;
use crate::lists::compare;
use crate::tally::Tally;

/// A volume, and up to how many calls that store anything a list has; with none
/// lists go on until no new image comes up.
pub struct Scope {
    pub shape: Shape,
    pub length: Option<usize>,
}

struct Search<'a> {
    shape: Shape,
    image: Vec<u8>,
    sets: Vec<u64>,
    bench: &'a mut Bench,
    tally: &'a mut Tally,
    found: Vec<Vec<u8>>,
    calls: usize,
}

impl Search<'_> {
    fn call(&mut self, call: Call, out: usize, plan: &[u8]) -> crate::call::Outcome {
        self.calls += 1;
        let case = Case {
            call,
            index: index_of(&self.shape),
            sets: self.sets.clone(),
            image: self.image.clone(),
            out: vec![0xEE; out],
            plan: plan.to_vec(),
            stand: match self.calls % 3 {
                0 => Stand::First,
                1 => Stand::Last,
                _ => Stand::Within(self.calls % 8),
            },
        };
        let outcome = compare(self.bench, &case);
        self.tally.answer(&case, &outcome);
        outcome
    }

    /// The plans to try for a request: the planner's, and for a write the same by
    /// every other free map, its first steps the other way round and a fence
    /// more, and on the units one place too high.
    fn plans(&mut self, chunk: u64, size: Option<u64>) -> Vec<Vec<u8>> {
        let call = match size {
            Some(size) => Call::PlanWrite { chunk, size },
            None => Call::PlanDiscard { chunk },
        };
        let outcome = self.call(call, 16 * 36, &[]);
        let mut plans = Vec::new();
        if outcome.number() == 0 {
            plans.push(outcome.out[..16 * outcome.answer[3] as usize].to_vec());
            for short in [outcome.answer[3] * 16 - u64::from(outcome.answer[3] > 0), 0] {
                self.call(call, short as usize, &[]);
            }
        }
        let Some(size) = size else {
            plans.push(encode(&[[3, chunk as u32, 0, u32::MAX], FENCE]));
            plans.push(encode(&[FENCE]));
            plans.push(Vec::new());
            return plans;
        };
        let shape = self.shape;
        let free = |words: &[u64], limit: u64| -> Vec<u64> {
            let is_free = |at: &u64| words[*at as usize / 64] >> (at % 64) & 1 == 1;
            (0..limit).filter(is_free).collect()
        };
        let units = free(&self.sets[..72], shape.n);
        let maps = free(&self.sets[72..], shape.m);
        let k = size.div_ceil(model::UNIT) as usize;
        for &map in &maps {
            if let Some(lowest) = units.get(..k) {
                let mut steps = assemble(&shape, chunk, size, lowest, map);
                let stores = steps.len() - 3;
                steps[..stores].reverse();
                steps.insert(1, FENCE);
                plans.push(encode(&steps));
            }
            if let Some(higher) = units.get(1..k + 1) {
                plans.push(encode(&assemble(&shape, chunk, size, higher, map)));
            }
        }
        plans
    }

    /// Every call on this image.
    fn expand(&mut self) {
        let shape = self.shape;
        let mut sizes: Vec<Option<u64>> = (1..=shape.p).map(|k| Some(k * model::UNIT)).collect();
        sizes.push(Some(model::UNIT + 1));
        sizes.push(None);
        for chunk in 0..shape.c {
            for &size in &sizes {
                for plan in self.plans(chunk, size) {
                    self.try_plan(chunk, size, &plan);
                }
            }
            self.call(Call::Held { chunk }, 0, &[]);
            self.call(Call::StoredSize { chunk }, 0, &[]);
            for write in [false, true] {
                let (offset, length) = (chunk * shape.chunk_bytes(), shape.chunk_bytes());
                for length in [length, length - model::UNIT, length + model::UNIT] {
                    let call = Call::Access {
                        write,
                        offset,
                        length,
                    };
                    self.call(call, 0, &[]);
                }
            }
        }
        self.call(Call::Report, 0, &[]);
        for units in 0..=shape.n + 1 {
            self.call(Call::AlarmCount { units }, 0, &[]);
            let fraction = units as f64 / shape.n as f64;
            self.call(Call::AlarmFraction { fraction }, 0, &[]);
        }
    }

    fn try_plan(&mut self, chunk: u64, size: Option<u64>, plan: &[u8]) {
        let check = match size {
            Some(size) => Call::CheckWrite { chunk, size },
            None => Call::CheckDiscard { chunk },
        };
        let passed = self.call(check, 0, plan).number() == 0;
        let whole = plan.len() as u64 / 16;
        // A plan that is refused is refused at every point.
        let points = if passed { 0..=whole + 1 } else { whole..=whole };
        for n in points {
            let call = match size {
                Some(size) => Call::CarryWrite { chunk, size, n },
                None => Call::CarryDiscard { chunk, n },
            };
            let outcome = self.call(call, 0, plan);
            if outcome.image != self.image {
                self.found.push(outcome.image);
            }
        }
    }
}

/// Goes through a scope; answers how many images there were and how long the
/// longest list was.
pub fn run(scope: &Scope, bench: &mut Bench, tally: &mut Tally) -> (usize, usize) {
    let fresh = sumbilak_reference::inputs::fresh(&scope.shape);
    let mut seen = HashSet::from([fresh.clone()]);
    let mut front = vec![fresh];
    let mut length = 0;
    while !front.is_empty() {
        let mut next = Vec::new();
        for image in front {
            let mut sets = current_words(&image).to_vec();
            // Two words more, which nobody looks at.
            sets.extend([u64::MAX, 0x5A5A]);
            assert_eq!(sets.len(), WORDS + 2);
            let all_mapped = (0..scope.shape.c).all(|chunk| entry(&image, chunk) != X);
            if all_mapped {
                tally.note("images with every chunk mapped");
            }
            let mut search = Search {
                shape: scope.shape,
                image,
                sets,
                bench,
                tally,
                found: Vec::new(),
                calls: 0,
            };
            search.expand();
            for image in search.found {
                if !seen.contains(&image) {
                    seen.insert(image.clone());
                    next.push(image);
                }
            }
        }
        length += 1;
        if scope.length == Some(length) {
            break;
        }
        front = next;
    }
    (seen.len(), length)
}
