//! "Over any calls that begin with an accepted load, where only these calls store
//! to the image and each is given the newest index, answers and bytes equal those
//! of the scanning calls." (02, request 7) Random lists of calls.

use sumbilak_reference::inputs::{self, Base};
use sumbilak_reference::model::Shape;
use sumbilak_reference::rng::{mix, Rng};

use crate::call::{
    by_scan, current_words, describe, differences, index_of, model_words, Bench, Call, Case,
    Outcome, WORDS,
};
use crate::guard::Stand;
use crate::tally::Tally;

/// Any of the three ways to stand.
pub fn stand(rng: &mut Rng) -> Stand {
    match rng.below(4) {
        0 | 1 => Stand::Last,
        2 => Stand::First,
        _ => Stand::Within(rng.index(16)),
    }
}

/// A buffer of random bytes.
pub fn bytes(rng: &mut Rng, len: usize) -> Vec<u8> {
    let mut bytes = vec![0; len];
    rng.fill(&mut bytes);
    bytes
}

/// A request and a plan that was tried for it.
type Tried = (u64, Option<u64>, Vec<u8>);

/// One list: an image, and the newest index.
struct List<'a> {
    rng: Rng,
    base: Base,
    index: Shape,
    /// The words, and some more behind them.
    sets: Vec<u64>,
    past: Vec<Tried>,
    bench: &'a mut Bench,
    tally: &'a mut Tally,
}

impl List<'_> {
    fn case(&mut self, call: Call, out: usize, plan: &[u8]) -> Case {
        Case {
            call,
            index: self.index,
            sets: self.sets.clone(),
            image: self.base.image.clone(),
            out: bytes(&mut self.rng, out),
            plan: plan.to_vec(),
            stand: stand(&mut self.rng),
        }
    }

    /// The library's indexed call against the model's, and against the library's
    /// scanning call on a copy. What it leaves is a current index.
    fn compare(&mut self, case: &Case) -> Outcome {
        let outcome = compare(self.bench, case);
        self.tally.answer(case, &outcome);
        outcome
    }

    /// The outcome is what the list goes on with.
    fn keep(&mut self, outcome: Outcome) {
        self.base.image = outcome.image;
        self.sets = outcome.sets;
    }

    fn request(&mut self) -> (u64, Option<u64>) {
        let (rng, shape) = (&mut self.rng, &self.base.shape);
        let chunk = match rng.chance(92) {
            true => rng.below(shape.c),
            false => inputs::chunk(rng, shape),
        };
        let size = match rng.below(100) {
            0..=24 => None,
            25..=92 => Some(inputs::good_size(rng, shape)),
            _ => Some(inputs::size(rng, shape)),
        };
        (chunk, size)
    }

    /// Asks the planner through the index; its plan, if it has one.
    fn planned(&mut self, chunk: u64, size: Option<u64>, out: usize) -> Option<Vec<u8>> {
        let call = match size {
            Some(size) => Call::PlanWrite { chunk, size },
            None => Call::PlanDiscard { chunk },
        };
        let case = self.case(call, out, &[]);
        let outcome = self.compare(&case);
        let steps = outcome.answer[3] as usize;
        (outcome.number() == 0).then(|| outcome.out[..16 * steps].to_vec())
    }

    /// A plan for a request, or an earlier one with its own request.
    fn plan(&mut self) -> Tried {
        let (chunk, size) = self.request();
        if !self.past.is_empty() && self.rng.chance(8) {
            self.tally.note("plans tried once more");
            return self.past[self.rng.index(self.past.len())].clone();
        }
        let planned = match self.rng.chance(55) {
            true => self.planned(chunk, size, inputs::LONGEST_PLAN),
            false => None,
        };
        let plan = match planned {
            Some(plan) => {
                self.tally.note("plans of the planner with an index");
                plan
            }
            None => {
                self.tally.note("plans from another hand, good and broken");
                inputs::plan(&mut self.rng, &self.base, chunk, size)
            }
        };
        if self.past.len() == 6 {
            self.past.remove(self.rng.index(6));
        }
        self.past.push((chunk, size, plan.clone()));
        (chunk, size, plan)
    }

    fn check(&mut self, (chunk, size, plan): &Tried) -> bool {
        let chunk = *chunk;
        let call = match *size {
            Some(size) => Call::CheckWrite { chunk, size },
            None => Call::CheckDiscard { chunk },
        };
        let case = self.case(call, 0, plan);
        self.compare(&case).number() == 0
    }

    fn carry(&mut self, (chunk, size, plan): &Tried, n: u64) -> Outcome {
        let chunk = *chunk;
        let call = match *size {
            Some(size) => Call::CarryWrite { chunk, size, n },
            None => Call::CarryDiscard { chunk, n },
        };
        let case = self.case(call, 0, plan);
        self.compare(&case)
    }

    fn event(&mut self) {
        match self.rng.below(100) {
            0..=9 => {
                let (chunk, size) = self.request();
                let needed = 16 * self.base.shape.write_steps(self.base.shape.p);
                let out = inputs::room(&mut self.rng, needed);
                self.planned(chunk, size, out);
            }
            10..=19 => {
                let tried = self.plan();
                self.check(&tried);
            }
            20..=59 => {
                let tried = self.plan();
                let n = match self.rng.chance(50) {
                    true => tried.2.len() as u64 / 16,
                    false => inputs::step_count(&mut self.rng, &tried.2),
                };
                let outcome = self.carry(&tried, n);
                self.keep(outcome);
            }
            60..=65 => self.every_point(),
            66..=69 => self.step_by_step(),
            70..=76 => {
                let (offset, length) = inputs::range(&mut self.rng, &self.base.shape);
                let write = self.rng.chance(50);
                self.read(Call::Access {
                    write,
                    offset,
                    length,
                });
            }
            77..=83 => {
                let chunk = inputs::chunk(&mut self.rng, &self.base.shape);
                self.read(Call::Held { chunk });
            }
            84..=89 => {
                let chunk = inputs::chunk(&mut self.rng, &self.base.shape);
                self.read(Call::StoredSize { chunk });
            }
            90..=92 => self.read(Call::Report),
            93..=95 => {
                let free = self.free();
                let units = inputs::count(&mut self.rng, &self.base.shape, free);
                self.read(Call::AlarmCount { units });
            }
            _ => {
                let free = self.free();
                let fraction = inputs::fraction(&mut self.rng, &self.base.shape, free);
                self.read(Call::AlarmFraction { fraction });
            }
        }
    }

    fn free(&self) -> u64 {
        let ones = self.sets[..72].iter().map(|word| word.count_ones());
        ones.sum::<u32>().into()
    }

    fn read(&mut self, call: Call) {
        let case = self.case(call, 0, &[]);
        self.compare(&case);
    }

    /// A plan carried out at every point, each on a copy, and one too many; the
    /// list goes on from one of them.
    fn every_point(&mut self) {
        let tried = self.plan();
        let whole = tried.2.len() as u64 / 16;
        let chosen = self.rng.between(0, whole);
        let mut kept = None;
        for n in 0..=whole.min(70) + 1 {
            let outcome = self.carry(&tried, n);
            if outcome.number() == 0 {
                self.tally.note("points of a plan carried out");
            }
            if n == chosen {
                kept = Some(outcome);
            }
        }
        if let Some(outcome) = kept {
            self.keep(outcome);
        }
    }

    /// "Call it again with a larger n as the steps come, up to and including
    /// LINK: from then on the plan is no plan for this image any more (11)" (the
    /// C interface).
    fn step_by_step(&mut self) {
        let tried = self.plan();
        let (_, size, plan) = &tried;
        if size.is_none() || !self.check(&tried) {
            return;
        }
        let is_link = |step: &[u8]| step[0] == 3;
        let link = plan.chunks_exact(16).position(is_link).expect("it passed") as u64;
        for n in 0..=plan.len() as u64 / 16 {
            let outcome = self.carry(&tried, n);
            // With LINK stored the map is not free.
            let due = if n <= link + 1 { 0 } else { 11 };
            assert_eq!(outcome.number(), due, "step {n} of a plan, LINK at {link}");
            self.keep(outcome);
        }
        self.tally.note("plans carried out step by step");
    }
}

/// The library's indexed call against the model's and the library's scanning
/// call, where the index is current; it is current afterwards.
pub fn compare(bench: &mut Bench, case: &Case) -> Outcome {
    let outcome = bench.compare(case);
    let scan = by_scan(case);
    let same = outcome.answer == scan.answer
        && outcome.image == scan.image
        && outcome.out == scan.out
        && outcome.plan == scan.plan;
    if !same {
        let text = differences("scanning", &scan, &outcome);
        panic!("indexed and scanning call differ\n{text}{}", describe(case));
    }
    if outcome.image != case.image {
        let due = current_words(&outcome.image);
        assert_eq!(outcome.sets[..WORDS], due, "current\n{}", describe(case));
        assert_eq!(outcome.sets[WORDS..], case.sets[WORDS..], "the words after");
    } else {
        // Carrying out what was there already changes no byte, and no word.
        assert_eq!(outcome.sets, case.sets, "current\n{}", describe(case));
    }
    outcome
}

/// One list of calls from a sound image.
fn list(seed: u64, base: &Base, events: u64, bench: &mut Bench, tally: &mut Tally) {
    let mut rng = Rng::new(seed);
    let more = rng.pick(&[0, 0, 0, 1, 2, 7]);
    let sets = (0..WORDS + more).map(|_| rng.next_u64()).collect();
    let case = Case {
        call: Call::Open,
        index: index_of(&base.shape),
        sets,
        image: base.image.clone(),
        out: Vec::new(),
        plan: Vec::new(),
        stand: stand(&mut rng),
    };
    let opened = bench.compare(&case);
    let scan = by_scan(&case);
    assert_eq!(opened, scan, "open and load");
    assert_eq!(opened.sets[..WORDS], model_words(&base.image));
    tally.answer(&case, &opened);
    tally.note("lists");
    let mut list = List {
        rng,
        index: index_of(&base.shape),
        base: base.clone(),
        sets: opened.sets,
        past: Vec::new(),
        bench,
        tally,
    };
    for _ in 0..events {
        list.event();
    }
}

/// Lists on a pool of sound images of every shape, both editions, with and
/// without reserved units.
pub fn run(seed: u64, lists: u64, events: u64, tally: &mut Tally) {
    let mut rng = Rng::new(seed);
    let pool = inputs::pool(&mut rng, 400);
    let mut bench = Bench::new();
    for at in 0..lists {
        // Each image once, then small ones more often than large ones.
        let base = match pool.get(at as usize) {
            Some(base) => base,
            None => {
                let (a, b) = (rng.index(pool.len()), rng.index(pool.len()));
                let larger = pool[a].image.len() > pool[b].image.len();
                &pool[if larger { b } else { a }]
            }
        };
        if base.shape.r > 0 {
            tally.note("lists on volumes with reserved units");
        }
        tally.note(format!("lists on edition {}", base.shape.edition.number()));
        list(mix(seed ^ mix(at)), base, events, &mut bench, tally);
    }
}
