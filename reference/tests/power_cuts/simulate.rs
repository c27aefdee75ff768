//! One event on a volume, and all that has to hold after it.

use std::fmt;

use sumbilak_reference::ffi::{self, CAnswer, LOAD_WORDS};
use sumbilak_reference::inputs::{
    assemble, decode, encode, entry, put_entry, put_units, Edition, Fields, Shape, FENCE,
    LONGEST_PLAN, X, X32,
};
use sumbilak_reference::model::{self, Loaded, Refusal};

use crate::event::{Event, Hand, Request, DATA, LINK};
use crate::figures::Figures;
use crate::rules::{carry_step, first, land, landed, Rules};
use crate::volume::{faults, stored, Flaw, Held, Reading, Volume};

/// Up to so many chunks the library is asked for the stored size of each; above,
/// for that of the event's chunk.
const FEW_CHUNKS: u64 = 16;

/// What went wrong.
#[derive(Clone, Debug, PartialEq)]
pub enum Violation {
    /// The image found does not load.
    Load { answer: CAnswer },
    /// The image found is not sound by the model.
    Model { refusal: Refusal },
    /// The image found is not sound by the simulator's own reading.
    Flaw(Flaw),
    /// "the trailer's bytes never change" (Decision 24).
    Trailer,
    /// A reserved unit with another content than the boot loader's.
    Overwritten { unit: u64, holds: u64 },
    /// A plan that passed, with a DATA step on a reserved unit.
    ReservedData { unit: u64 },
    /// A plan that passed, with a DATA step on another unit than its piece's:
    /// "piece j goes on the j-th lowest free unit" (02, request 6).
    NotLowest { piece: u64, unit: u64 },
    /// A chunk whose write landed, on other units than the lowest that were
    /// free.
    Scattered {
        chunk: u64,
        units: Vec<usize>,
        lowest: Vec<usize>,
    },
    /// "Load answers R as its value" (Decision 78), and here it is not.
    LoadValue { value: u64 },
    /// Load's free sets are not what no named map holds.
    FreeSet { unit: Option<u64>, map: Option<u64> },
    /// A chunk does not hold what the ledger gives it.
    Ledger {
        chunk: u64,
        holds: Vec<u64>,
        ledger: Vec<u64>,
    },
    /// A chunk's stored size is not that of the write that last landed on it.
    StoredSize { chunk: u64, size: u64, due: u64 },
    /// "After a cut the chunk in flight holds its new pieces exactly if its
    /// LINK landed" (Decision 24), else all its old ones.
    InFlight {
        chunk: u64,
        link_landed: bool,
        holds: Vec<u64>,
        due: Vec<u64>,
    },
    /// A finished plan with a step that has not landed.
    Unfinished { landed: u64, steps: usize },
    /// A refused event changed something.
    RefusedChanged,
    /// Carrying out n steps is not their MAP and LINK words.
    Carry { n: u64, answer: CAnswer },
    /// "where all n have landed, that is byte for byte what carrying out n
    /// steps leaves" (01).
    NotAsCarried { n: u64 },
    /// The planner's answer is not the one that 01 gives.
    Planner { answer: CAnswer, plan: Vec<Fields> },
    /// A plan that has to pass, or one that must not.
    Verdict { answer: CAnswer, due: Due },
    /// A repair with another answer, list or byte than 02, request 3, gives.
    Repair {
        answer: CAnswer,
        due: Vec<u64>,
        damaged: Vec<u8>,
    },
    /// A conversion with another answer or byte than 02, request 4, gives.
    Convert {
        answer: CAnswer,
        byte: Option<usize>,
    },
    /// Another answer than the model's or the reading's.
    Answer {
        call: &'static str,
        answer: [u64; 3],
        due: [u64; 3],
    },
}

/// What a checker's verdict had to be.
#[derive(Clone, Copy, Debug, PartialEq, Eq)]
pub enum Due {
    Pass,
    Refuse { rule: u64 },
}

impl Violation {
    pub fn name(&self) -> &'static str {
        match self {
            Violation::Load { .. } => "does not load",
            Violation::Model { .. } => "unsound by the model",
            Violation::Flaw(Flaw::Link { .. }) => "bad link",
            Violation::Flaw(Flaw::Map { .. }) => "a map that is not there",
            Violation::Flaw(Flaw::Size { .. }) => "a size of other units",
            Violation::Flaw(Flaw::Reserved { .. }) => "a chunk on a reserved unit",
            Violation::Flaw(Flaw::MapTwice { .. }) => "map with two owners",
            Violation::Flaw(Flaw::UnitTwice { .. }) => "unit with two owners",
            Violation::Trailer => "trailer changed",
            Violation::Overwritten { .. } => "reserved unit overwritten",
            Violation::ReservedData { .. } => "reserved unit planned",
            Violation::NotLowest { .. } => "not the lowest unit planned",
            Violation::Scattered { .. } => "a chunk not on the lowest units",
            Violation::LoadValue { .. } => "load's value",
            Violation::FreeSet { .. } => "free set",
            Violation::Ledger { .. } => "not what the ledger gives",
            Violation::StoredSize { .. } => "another stored size",
            Violation::InFlight { .. } => "neither all new nor all old",
            Violation::Unfinished { .. } => "finished but not landed",
            Violation::RefusedChanged => "refused but changed",
            Violation::Carry { .. } => "carrying out",
            Violation::NotAsCarried { .. } => "not as carried out",
            Violation::Planner { .. } => "planner",
            Violation::Verdict { .. } => "verdict",
            Violation::Repair { .. } => "repair",
            Violation::Convert { .. } => "conversion",
            Violation::Answer { .. } => "answer",
        }
    }
}

impl Violation {
    /// Whether the volume itself is damaged by now, so that nothing that comes
    /// after it tells of anything new.
    pub fn harms(&self) -> bool {
        !matches!(
            self,
            Violation::FreeSet { .. }
                | Violation::LoadValue { .. }
                | Violation::Carry { .. }
                | Violation::Planner { .. }
                | Violation::Verdict { .. }
                | Violation::ReservedData { .. }
                | Violation::NotLowest { .. }
                | Violation::Scattered { .. }
                | Violation::Repair { .. }
                | Violation::Convert { .. }
                | Violation::Answer { .. }
        )
    }
}

impl fmt::Display for Violation {
    fn fmt(&self, f: &mut fmt::Formatter) -> fmt::Result {
        write!(f, "{}: {self:x?}", self.name())
    }
}

/// How an event ended.
#[derive(Clone, Copy, Debug, PartialEq, Eq)]
pub enum Ending {
    Refused(CAnswer),
    /// "a plan with n all its steps is finished" (01).
    Finished,
    /// "with fewer it is cut at point n" (01).
    Cut,
}

pub struct Outcome {
    pub ending: Ending,
    /// Whether the checker accepted the plan; a step count may still be
    /// refused.
    pub plan_passed: bool,
    pub landed: u64,
    pub link_landed: bool,
}

fn triple(answer: CAnswer) -> [u64; 3] {
    [answer.number, answer.place, answer.second]
}

fn triple_of<T>(answer: &model::Answer<T>) -> [u64; 3] {
    match answer {
        Ok(_) => [0; 3],
        Err(refusal) => [refusal.number, refusal.place, refusal.second],
    }
}

fn words_of(loaded: &Loaded) -> [u64; LOAD_WORDS] {
    let Loaded {
        p, c, m, n, maps, ..
    } = *loaded;
    let mut words = [0; LOAD_WORDS];
    words[..4].copy_from_slice(&[p, c, m, n]);
    words[4..76].copy_from_slice(&loaded.units);
    words[76..].copy_from_slice(&maps);
    words
}

/// A plan that the checker accepted.
pub struct Passed {
    pub steps: Vec<Fields>,
    /// The units that a write has to go on, piece by piece: the lowest that were
    /// free, as many as it takes.
    lowest: Vec<usize>,
}

/// The rules at work on volumes of one geometry.
pub struct Simulator<'a, R> {
    pub rules: &'a R,
    pub shape: Shape,
    trailer: Vec<u8>,
}

impl<'a, R: Rules> Simulator<'a, R> {
    pub fn new(rules: &'a R, shape: Shape) -> Self {
        let fresh = Volume::formatted(&shape, || 0);
        let trailer = fresh.trailer(&shape).to_vec();
        Simulator {
            rules,
            shape,
            trailer,
        }
    }

    /// Repairs an image, and holds all of it to 02, request 3: "Only the
    /// entries of those chunks change, to X; the list of unlinked chunks comes
    /// out in rising order, a u32 each."
    pub fn repair(&self, damaged: &[u8], violations: &mut Vec<Violation>) -> Vec<u8> {
        let shape = &self.shape;
        let mut image = damaged.to_vec();
        let mut out = vec![0xEE; 4 * shape.c as usize + 4];
        let mut due_image = image.clone();
        let mut due_out = out.clone();
        let answer = self.rules.repair(shape, &mut image, &mut out);
        let due: Vec<u64> = faults(shape, damaged)
            .into_iter()
            .map(|(chunk, _)| chunk)
            .collect();
        for (at, &chunk) in due.iter().enumerate() {
            put_entry(&mut due_image, chunk, X);
            let slot = &mut due_out[4 * at..4 * at + 4];
            slot.copy_from_slice(&(chunk as u32).to_le_bytes());
        }
        let good = triple(answer) == [0; 3]
            && [answer.value, answer.extent] == [due.len() as u64, 0]
            && image == due_image
            && out == due_out;
        if !good {
            violations.push(Violation::Repair {
                answer,
                due,
                damaged: damaged.to_vec(),
            });
        }
        image
    }

    /// Converts an image of edition 1 to this simulator's geometry, which is
    /// the same in edition 2, and holds all of it to 02, request 4: every chunk
    /// keeps its map and its units, "the size is k·4,096 and maps that no chunk
    /// names become X throughout".
    pub fn convert(&self, image: &[u8], violations: &mut Vec<Violation>) -> Vec<u8> {
        let two = &self.shape;
        let one = two.in_edition(Edition::One);
        let mut due = vec![0xFF; two.image_len()];
        let trailer = due.len() - self.trailer.len();
        due[trailer..].copy_from_slice(&self.trailer);
        for chunk in 0..one.c {
            let map = entry(image, chunk);
            if map != X {
                let units: Vec<u64> = Held::of(&one, image, chunk)
                    .units()
                    .iter()
                    .map(|&unit| unit as u64)
                    .collect();
                put_entry(&mut due, chunk, map);
                put_units(two, &mut due, map, &units);
            }
        }
        // It has to write every byte, so it starts on some that are wrong.
        let mut out = vec![0x5A; two.image_len()];
        let answer = self.rules.convert(&one, image, &mut out);
        let good = triple(answer) == [0; 3]
            && [answer.value, answer.extent] == [out.len() as u64, 0]
            && out == due;
        if !good {
            let byte = (0..due.len()).find(|&at| out[at] != due[at]);
            violations.push(Violation::Convert { answer, byte });
        }
        out
    }

    /// Asks the planner, and holds its answer to 01: the k lowest free units,
    /// the lowest free map, 9 only if fewer than k units are free. "Refusal 9
    /// never occurs for one write when N-R is at least (C+1)·P" (02, request 5)
    /// is no watch of its own: chunks hold at most C·P units, so P are free then.
    pub fn plan(
        &self,
        image: &[u8],
        request: Request,
        violations: &mut Vec<Violation>,
    ) -> Option<Vec<u8>> {
        let shape = &self.shape;
        let mut out = [0xEE; LONGEST_PLAN];
        let answer = self.rules.plan(shape, image, request, &mut out);
        let reading = Reading::of(shape, image);
        let k = request.k();
        let free = reading.free_units().count() as u64;
        let due = match request.size {
            _ if request.chunk >= shape.c => Err([7, 0]),
            _ if !request.is_good(shape) => Err([8, 0]),
            None if entry(image, request.chunk) == X => Ok(Vec::new()),
            None => Ok(vec![[LINK, request.chunk as u32, 0, X32], FENCE]),
            Some(_) if free < k => Err([9, free]),
            Some(size) => {
                let units: Vec<u64> = reading.free_units().take(k as usize).collect();
                let map = reading.free_maps().next().expect("more maps than chunks");
                Ok(assemble(shape, request.chunk, size, &units, map))
            }
        };
        let length = LONGEST_PLAN.min(16 * answer.value.min(64) as usize);
        let good = match &due {
            Ok(steps) => answer.number == 0 && encode(steps) == out[..length],
            Err(refusal) => {
                [answer.number, answer.place] == *refusal
                    && out == [0xEE; LONGEST_PLAN]
                    && answer.value == 0
            }
        };
        let plan = out[..length].to_vec();
        if !good || answer.second != 0 || answer.extent != 0 {
            violations.push(Violation::Planner {
                answer,
                plan: decode(&plan),
            });
        }
        (answer.number == 0).then_some(plan)
    }

    /// Checks a plan; the verdict is compared with the model's.
    pub fn check(
        &self,
        image: &[u8],
        request: Request,
        plan: &[u8],
        violations: &mut Vec<Violation>,
    ) -> CAnswer {
        let answer = self.rules.check(&self.shape, image, request, plan);
        if R::RIGHT {
            let due = match request.size {
                Some(size) => model::check_write(image, request.chunk, size, plan),
                None => model::check_discard(image, request.chunk, plan),
            };
            self.compare("check", answer, triple_of(&due), violations);
        }
        answer
    }

    fn compare(
        &self,
        call: &'static str,
        answer: CAnswer,
        due: [u64; 3],
        violations: &mut Vec<Violation>,
    ) {
        if triple(answer) != due || answer.value != 0 || answer.extent != 0 {
            violations.push(Violation::Answer {
                call,
                answer: triple(answer),
                due,
            });
        }
    }

    /// Carries out every count of steps on a copy, also one too many: "Carrying
    /// out the first n steps checks the plan, then stores the MAP and LINK
    /// words of those n and no other byte." (01) Answers how many were tried.
    pub fn carry_each(
        &self,
        image: &[u8],
        event: &Event,
        steps: &[Fields],
        violations: &mut Vec<Violation>,
    ) -> u64 {
        let Event { request, plan, .. } = event;
        let mut due = image.to_vec();
        let mut copy = image.to_vec();
        for n in 0..=steps.len() {
            if n > 0 {
                carry_step(&self.shape, &mut due, &steps[n - 1]);
            }
            copy.copy_from_slice(image);
            let n = n as u64;
            let answer = self.rules.carry(&self.shape, &mut copy, *request, plan, n);
            if answer.number != 0 || copy != due {
                violations.push(Violation::Carry { n, answer });
            }
        }
        let n = steps.len() as u64 + 1;
        copy.copy_from_slice(image);
        let answer = self.rules.carry(&self.shape, &mut copy, *request, plan, n);
        // Row 7: "step count above the plan's whole steps".
        if triple(answer) != [7, 0, 0] || copy != image {
            violations.push(Violation::Carry { n, answer });
        }
        n + 1
    }

    /// The checker's and the carrier's verdict on an event. "Where checking,
    /// or carrying out n steps, is refused, both stay." (01) Otherwise
    /// `carried` is what carrying out n steps leaves.
    fn judge(
        &self,
        image: &[u8],
        event: &Event,
        carried: &mut Vec<u8>,
        violations: &mut Vec<Violation>,
    ) -> [CAnswer; 2] {
        let Event {
            request, plan, n, ..
        } = event;
        let answer = self.check(image, *request, plan, violations);
        carried.clear();
        carried.extend_from_slice(image);
        let carry = self.rules.carry(&self.shape, carried, *request, plan, *n);
        // "7 for the chunk or for n above the whole steps, 8, then 11"
        // (Decision 11); a sound image gives nothing lower.
        let too_many = *n > plan.len() as u64 / 16;
        let due = if too_many { [7, 0, 0] } else { triple(answer) };
        self.compare("carry", carry, due, violations);
        if carry.number != 0 && carried != image {
            violations.push(Violation::RefusedChanged);
        }
        [answer, carry]
    }

    /// Runs one event on the volume and checks everything after it.
    pub fn event(
        &self,
        volume: &mut Volume,
        event: &Event,
        figures: &mut Figures,
        violations: &mut Vec<Violation>,
    ) -> Outcome {
        let before = volume.clone();
        let mut carried = Vec::new();
        let [checked, carry] = self.judge(&volume.image, event, &mut carried, violations);
        let plan_passed = checked.number == 0;
        let refusal = [checked, carry].into_iter().find(|given| given.number != 0);
        self.expect(event, checked, violations);

        let outcome = match refusal {
            Some(answer) => Outcome {
                ending: Ending::Refused(answer),
                plan_passed,
                landed: 0,
                link_landed: false,
            },
            None => {
                let passed = self.passed(&before.image, event, violations);
                let steps = &passed.steps;
                figures.carried += self.carry_each(&before.image, event, steps, violations);
                let n = event.n as usize;
                let landed = landed(self.rules, steps, n, event.choice);
                land(self.rules, &self.shape, volume, event, steps, landed);
                self.settle(&before, volume, event, &passed, landed, violations)
            }
        };
        if outcome.landed == first(event.n as usize)
            && !matches!(outcome.ending, Ending::Refused(_))
            && volume.image != carried
        {
            violations.push(Violation::NotAsCarried { n: event.n });
        }
        if matches!(outcome.ending, Ending::Refused(_)) && *volume != before {
            violations.push(Violation::RefusedChanged);
        }
        self.verify(&volume.image, violations);
        self.verify_pieces(volume, violations);
        self.verify_sizes(volume, event.request.chunk, violations);
        self.verify_reserved(volume, violations);
        if R::RIGHT {
            self.verify_answers(&volume.image, event.request.chunk, violations);
        }
        figures.count(event, &outcome);
        outcome
    }

    /// The planner's plans and other legal ones pass, damaged ones and those on
    /// other units than the lowest free ones do not.
    pub fn expect(&self, event: &Event, answer: CAnswer, violations: &mut Vec<Violation>) {
        let (due, good) = match event.hand {
            Hand::Planner | Hand::Other => (Due::Pass, triple(answer) == [0; 3]),
            Hand::Damaged(rule) => (Due::Refuse { rule }, triple(answer) == [11, rule, 0]),
            // "A DATA step on a reserved unit breaks rule 2" (Decision 76). "A
            // plan on other free units, accepted until now, gives 11 with rule
            // 2" (02, request 6), and too few of them give no 9 (Decision 83).
            Hand::Reserved { .. } | Hand::Scattered | Hand::Held { .. } => {
                (Due::Refuse { rule: 2 }, triple(answer) == [11, 2, 0])
            }
            _ => return,
        };
        if !good {
            violations.push(Violation::Verdict { answer, due });
        }
    }

    /// After an accepted plan has landed: feeds the ledger, and checks the
    /// plan's end and its chunk.
    pub fn settle(
        &self,
        before: &Volume,
        volume: &mut Volume,
        event: &Event,
        passed: &Passed,
        landed: u64,
        violations: &mut Vec<Violation>,
    ) -> Outcome {
        let Passed { steps, lowest } = passed;
        let links = steps.iter().enumerate().filter(|(_, step)| step[0] == LINK);
        let link_landed = links.into_iter().any(|(at, _)| landed >> at & 1 == 1);
        let finished = event.n as usize == steps.len();
        // "Otherwise a plan with n all its steps is finished, and all have
        // landed" (01), which is to follow "from rule 5's last FENCE"
        // (Decision 19).
        if finished && landed != first(steps.len()) {
            violations.push(Violation::Unfinished {
                landed,
                steps: steps.len(),
            });
        }

        let chunk = event.request.chunk;
        let new = || (0..event.request.k()).map(|j| event.payload.piece(j));
        // "Refused, or cut with no LINK landed: no change. Otherwise a write
        // gives its chunk the payload's pieces 0 to k-1 in order, a discard
        // nothing." (01)
        if finished || link_landed {
            let pieces = &mut volume.ledger[chunk as usize];
            pieces.clear();
            pieces.extend(new());
            // "0 for an unmapped chunk" (02, request 4).
            let size = event.request.size;
            volume.sizes[chunk as usize] = size.map_or(0, |size| stored(&self.shape, size));
        }

        // "Old pieces are those held before the event; new ones the
        // payload's, or none for a discard." (01)
        let now = Held::of(&self.shape, &volume.image, chunk);
        let old = Held::of(&self.shape, &before.image, chunk);
        let good = if link_landed {
            now.pieces(&volume.units).eq(new())
        } else {
            now.pieces(&volume.units).eq(old.pieces(&before.units))
        };
        if !good {
            let due = if link_landed {
                new().collect()
            } else {
                old.pieces(&before.units).collect()
            };
            violations.push(Violation::InFlight {
                chunk,
                link_landed,
                holds: now.pieces(&volume.units).collect(),
                due,
            });
        }
        // A write that landed is on the lowest units that were free, in order.
        if link_landed && event.request.size.is_some() && now.units() != lowest {
            violations.push(Violation::Scattered {
                chunk,
                units: now.units().to_vec(),
                lowest: lowest.clone(),
            });
        }
        Outcome {
            ending: if finished {
                Ending::Finished
            } else {
                Ending::Cut
            },
            plan_passed: true,
            landed,
            link_landed,
        }
    }

    /// What has to hold of any image found: it loads, it is sound by the model
    /// and by the simulator's own reading, nothing is owned twice, and the
    /// free sets are rebuilt from the named maps.
    pub fn verify(&self, image: &[u8], violations: &mut Vec<Violation>) {
        if !image.ends_with(&self.trailer) {
            violations.push(Violation::Trailer);
        }
        let reading = Reading::of(&self.shape, image);
        violations.extend(reading.flaws.iter().cloned().map(Violation::Flaw));
        let due = reading.load_words();

        let mut words = [0; LOAD_WORDS];
        let answer = self.rules.load(&self.shape, image, &mut words);
        if answer.number == 0 && answer.value != self.shape.r {
            let value = answer.value;
            violations.push(Violation::LoadValue { value });
        }
        if answer.number != 0 {
            violations.push(Violation::Load { answer });
        } else if words != due {
            let differing = |from: usize, to: usize| {
                let at = (from..to).find(|&at| words[at] != due[at])?;
                let bit = (words[at] ^ due[at]).trailing_zeros() as usize;
                Some((64 * (at - from) + bit) as u64)
            };
            violations.push(Violation::FreeSet {
                unit: differing(4, 76),
                map: differing(76, LOAD_WORDS),
            });
        }
        let model_differs = |loaded: &Loaded| words_of(loaded) != due || loaded.r != self.shape.r;
        match model::load(image) {
            Err(refusal) => violations.push(Violation::Model { refusal }),
            Ok(loaded) if model_differs(&loaded) => violations.push(Violation::Answer {
                call: "the model's load",
                answer: [0; 3],
                due: [0; 3],
            }),
            Ok(_) => {}
        }
    }

    /// Every chunk holds exactly what the ledger gives it, and its map has the
    /// size of the write that gave it.
    pub fn verify_pieces(&self, volume: &Volume, violations: &mut Vec<Violation>) {
        for (chunk, ledger) in (0..).zip(&volume.ledger) {
            let held = Held::of(&self.shape, &volume.image, chunk);
            let due = volume.sizes[chunk as usize];
            if held.size != due {
                let size = held.size;
                violations.push(Violation::StoredSize { chunk, size, due });
            }
            let holds = held.pieces(&volume.units);
            if !holds.eq(ledger.iter().copied()) {
                violations.push(Violation::Ledger {
                    chunk,
                    holds: held.pieces(&volume.units).collect(),
                    ledger: ledger.clone(),
                });
            }
        }
    }

    /// "a call answers a chunk's stored size" (02, request 4): the library's
    /// for each chunk, or on a volume with many for this one.
    pub fn verify_sizes(&self, volume: &Volume, chunk: u64, violations: &mut Vec<Violation>) {
        let c = self.shape.c;
        let chunks = if c <= FEW_CHUNKS {
            0..c
        } else {
            chunk.min(c - 1)..chunk.min(c - 1) + 1
        };
        for chunk in chunks {
            let answer = ffi::stored_size(&volume.image, chunk);
            let due = volume.sizes[chunk as usize];
            let fields = [answer.value, answer.extent];
            if triple(answer) != [0; 3] || fields != [due, 0] {
                let size = answer.value;
                violations.push(Violation::StoredSize { chunk, size, due });
            }
        }
    }

    /// What is asked of a plan that was accepted: "no accepted plan has a DATA
    /// step there" (Decision 80), on a reserved unit, and each has its piece's
    /// unit, of the lowest that are free.
    pub fn passed(&self, image: &[u8], event: &Event, violations: &mut Vec<Violation>) -> Passed {
        let steps = decode(&event.plan);
        let reading = Reading::of(&self.shape, image);
        let free = reading.free_units().map(|unit| unit as usize);
        let lowest: Vec<usize> = free.take(event.request.k() as usize).collect();
        for step in steps.iter().filter(|step| step[0] == DATA) {
            let [unit, piece] = [step[1], step[2]].map(u64::from);
            if unit < self.shape.r {
                violations.push(Violation::ReservedData { unit });
            }
            if lowest.get(piece as usize) != Some(&(unit as usize)) {
                violations.push(Violation::NotLowest { piece, unit });
            }
        }
        Passed { steps, lowest }
    }

    /// "a reserved unit holds at the end what it held at the start" (Decision
    /// 80).
    pub fn verify_reserved(&self, volume: &Volume, violations: &mut Vec<Violation>) {
        if let Some(unit) = volume.overwritten(&self.shape) {
            let holds = volume.units[unit as usize];
            violations.push(Violation::Overwritten { unit, holds });
        }
    }

    /// The report's counts, an alarm on either side of what is free, the shape,
    /// and the held words of the event's chunk.
    fn verify_answers(&self, image: &[u8], chunk: u64, violations: &mut Vec<Violation>) {
        let mut same = |call: &'static str, answer: [u64; 3], due: [u64; 3]| {
            if answer != due {
                violations.push(Violation::Answer { call, answer, due });
            }
        };
        let Shape { n, r, .. } = self.shape;
        let reading = Reading::of(&self.shape, image);
        let report = ffi::report(image);
        let free = reading.free_units().count() as u64;
        let mapped = reading.named_maps().count() as u64;
        let answer = [report.number, report.mapped, report.free];
        same("report", answer, [0, mapped, free]);
        // "together they are N-R" (Decision 77).
        let answer = [report.held, report.held + report.free, report.second];
        same(
            "report's held units",
            answer,
            [reading.held_units(), n - r, 0],
        );
        for (units, sounds) in [(free, 0), (free + 1, 1)] {
            let alarm = ffi::alarm_count(image, units);
            let answer = [alarm.number, alarm.value, alarm.extent];
            same("alarm", answer, [0, sounds, 0]);
        }
        let shape = ffi::shape(image);
        let due = [self.shape.edition.number(), n, r];
        same("shape", [shape.edition, shape.n, shape.r], due);
        if chunk < self.shape.c {
            let map = entry(image, chunk);
            let k = Held::of(&self.shape, image, chunk).units().len() as u64;
            let due = if k == 0 {
                [0; 3]
            } else {
                [0, self.shape.unit_at(map, 0) as u64, 8 * k]
            };
            let held = ffi::held(image, chunk);
            same("held", [held.number, held.value, held.extent], due);
        }
    }
}
