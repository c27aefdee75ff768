//! "With a stale or made-up index, or an image altered otherwise, a call still
//! ends inside its buffers and a refusal still alters nothing lent" (02,
//! request 7). What else it answers then is in Decisions 100 to 103, and the
//! library is held to it.

use sumbilak_reference::inputs::{
    self, entry, free_maps, put_entry, put_word, Base, Edition, TWO_32, X,
};
use sumbilak_reference::model::{self, index, Shape};
use sumbilak_reference::rng::Rng;

use crate::call::{
    describe, index_of, model_words, Bench, Call, Case, Outcome, NAMES, WORDS, WORDS_BYTES,
};
use crate::lists::{bytes, stand};
use crate::rows::rows;
use crate::tally::Tally;

pub const FIELDS: [&str; 6] = ["edition", "P", "C", "M", "N", "R"];
pub const WRONG: [&str; 5] = ["+ 1", "- 1", "as 0", "+ 2^32", "as 2^64-1"];

/// What may be wrong besides a number of the struct.
pub const KINDS: [&str; 34] = [
    "random words",
    "few random bits",
    "many random bits",
    "all ones",
    "all zeros",
    "reserved units in",
    "bits past N",
    "bits past M",
    "a unit's bit the other way",
    "a map's bit the other way",
    "own units in",
    "own map in",
    "no free map",
    "no free unit",
    "fewer free units than a chunk has",
    "fewer words",
    "more words",
    "another volume's words",
    "another volume's index",
    "own entry outside",
    "other entries outside",
    "own entry absent",
    "own entry another's map",
    "own map damaged",
    "own map full of units",
    "own map absent throughout",
    "own size word",
    "other maps damaged",
    "trailer damaged",
    "shorter",
    "longer",
    "empty",
    "another image",
    "a scanning carry in between",
];

/// The struct's numbers, to change one.
pub fn field(index: &mut Shape, at: usize) -> &mut u64 {
    match at {
        0 => &mut index.edition,
        1 => &mut index.p,
        2 => &mut index.c,
        3 => &mut index.m,
        4 => &mut index.n,
        _ => &mut index.r,
    }
}

pub fn wrong(value: u64, how: usize) -> u64 {
    match how {
        0 => value.wrapping_add(1),
        1 => value.wrapping_sub(1),
        2 => 0,
        3 => TWO_32 + value,
        _ => u64::MAX,
    }
}

fn set(words: &mut [u64], bit: u64, to: bool) {
    if let Some(word) = words.get_mut(bit as usize / 64) {
        let mask = 1 << (bit % 64);
        *word = if to { *word | mask } else { *word & !mask };
    }
}

/// A word that may stand where a unit or an entry is due.
fn odd_word(rng: &mut Rng, base: &Base, limit: u64) -> u64 {
    let shape = &base.shape;
    match rng.below(9) {
        0 => limit,
        1 => limit + rng.below(100),
        2 => TWO_32 - 1,
        3 => TWO_32 + rng.below(limit),
        4 => X - 1,
        5 => 1 << 63,
        6 => shape.r.saturating_sub(1),
        7 => rng.below(limit),
        _ => rng.next_u64(),
    }
}

/// The stage on which one thing or several are made wrong.
struct Scene<'a> {
    rng: Rng,
    base: &'a Base,
    pool: &'a [Base],
    index: Shape,
    sets: Vec<u64>,
    image: Vec<u8>,
    chunk: u64,
}

impl Scene<'_> {
    /// The map that the chunk names in the sound image, if it does.
    fn own_map(&self) -> Option<u64> {
        let map = entry(&self.base.image, self.chunk);
        (map != X).then_some(map)
    }

    /// Whether the image has its tables still, to be damaged.
    fn has_tables(&self) -> bool {
        self.image.len() >= self.base.shape.image_len()
    }

    /// Gives the chunk a map, if it has none, so that there is one to damage.
    fn some_map(&mut self) -> u64 {
        self.own_map().unwrap_or_else(|| {
            let map = free_maps(&self.base.shape, &self.base.image)[0];
            put_entry(&mut self.image, self.chunk, map);
            map
        })
    }

    fn alter(&mut self, kind: usize) {
        let shape = self.base.shape;
        let all = WORDS.min(self.sets.len());
        match KINDS[kind] {
            "random words" => {
                for word in &mut self.sets {
                    *word = self.rng.next_u64();
                }
            }
            "few random bits" => {
                for word in &mut self.sets {
                    let drawn: [u64; 4] = std::array::from_fn(|_| self.rng.next_u64());
                    *word = drawn[0] & drawn[1] & drawn[2] & drawn[3];
                }
            }
            "many random bits" => {
                for word in &mut self.sets {
                    *word = self.rng.next_u64() | self.rng.next_u64() | self.rng.next_u64();
                }
            }
            "all ones" => self.sets.fill(u64::MAX),
            "all zeros" => self.sets.fill(0),
            "reserved units in" => {
                for unit in 0..shape.r {
                    if self.rng.chance(60) {
                        set(&mut self.sets[..all], unit, true);
                    }
                }
            }
            "bits past N" => {
                for bit in shape.n..72 * 64 {
                    if self.rng.chance(50) && all == WORDS {
                        set(&mut self.sets, bit, true);
                    }
                }
            }
            "bits past M" => {
                for bit in shape.m..5 * 64 {
                    if self.rng.chance(50) && all == WORDS {
                        set(&mut self.sets[72..], bit, true);
                    }
                }
            }
            "a unit's bit the other way" => {
                let unit = self.rng.below(shape.n);
                if let Some(word) = self.sets.get_mut(unit as usize / 64) {
                    *word ^= 1 << (unit % 64);
                }
            }
            "a map's bit the other way" => {
                let map = self.rng.below(shape.m);
                if let Some(word) = self.sets.get_mut(72 + map as usize / 64) {
                    *word ^= 1 << (map % 64);
                }
            }
            "own units in" => {
                if let Some(map) = self.own_map() {
                    for unit in inputs::units_in(&shape, &self.base.image, map) {
                        set(&mut self.sets, unit, true);
                    }
                }
            }
            "own map in" => {
                if let Some(map) = self.own_map() {
                    set(&mut self.sets, 72 * 64 + map, true);
                }
            }
            "no free map" => {
                for word in self.sets.iter_mut().take(WORDS).skip(72) {
                    *word = 0;
                }
                if self.rng.chance(50) && all == WORDS {
                    for bit in shape.m..5 * 64 {
                        set(&mut self.sets[72..], bit, true);
                    }
                }
            }
            "no free unit" => self.sets.iter_mut().take(72).for_each(|word| *word = 0),
            "fewer free units than a chunk has" => {
                self.sets.iter_mut().take(72).for_each(|word| *word = 0);
                for _ in 0..self.rng.between(1, shape.p) {
                    let unit = self.rng.below(shape.n);
                    set(&mut self.sets[..all], unit, true);
                }
            }
            "fewer words" => {
                let len = match self.rng.below(4) {
                    0 => 76,
                    1 => 0,
                    _ => self.rng.index(77),
                };
                self.sets.truncate(len);
            }
            "more words" => {
                let more = self.rng.between(1, 40) as usize;
                for _ in 0..more {
                    let word = self.rng.pick(&[0, u64::MAX, 0x0123_4567_89AB_CDEF]);
                    self.sets.push(word);
                }
            }
            "another volume's words" => {
                let other = &self.pool[self.rng.index(self.pool.len())];
                let words = model_words(&other.image);
                let len = self.sets.len().min(WORDS);
                self.sets[..len].copy_from_slice(&words[..len]);
            }
            "another volume's index" => {
                let other = &self.pool[self.rng.index(self.pool.len())];
                let words = model_words(&other.image);
                let len = self.sets.len().min(WORDS);
                self.sets[..len].copy_from_slice(&words[..len]);
                self.index = index_of(&other.shape);
            }
            "own entry outside" if self.has_tables() => {
                let map = match self.rng.below(3) {
                    0 => shape.m,
                    _ => odd_word(&mut self.rng, self.base, shape.m),
                };
                put_entry(&mut self.image, self.chunk, map);
            }
            "other entries outside" if self.has_tables() => {
                for chunk in (0..shape.c).filter(|&chunk| chunk != self.chunk) {
                    if self.rng.chance(50) {
                        let map = odd_word(&mut self.rng, self.base, shape.m);
                        put_entry(&mut self.image, chunk, map);
                    }
                }
            }
            "own entry absent" if self.has_tables() => {
                put_entry(&mut self.image, self.chunk, X);
            }
            "own entry another's map" if self.has_tables() => {
                let map = self.rng.below(shape.m);
                put_entry(&mut self.image, self.chunk, map);
            }
            "own map damaged" if self.has_tables() => {
                let map = self.some_map();
                for _ in 0..self.rng.between(1, 4) {
                    let at = shape.word_at(map, self.rng.below(shape.map_words()));
                    let word = odd_word(&mut self.rng, self.base, shape.n);
                    let word = self.rng.pick(&[word, word, X]);
                    put_word(&mut self.image, at, word);
                }
            }
            "own map full of units" if self.has_tables() => {
                let map = self.some_map();
                for at in 0..shape.p {
                    let unit = self.rng.between(shape.r, shape.n - 1);
                    put_word(&mut self.image, shape.unit_at(map, at), unit);
                }
            }
            "own map absent throughout" if self.has_tables() => {
                let map = self.some_map();
                for at in 0..shape.p {
                    put_word(&mut self.image, shape.unit_at(map, at), X);
                }
            }
            "own size word" if self.has_tables() => {
                let map = self.some_map();
                let any = self.rng.next_u64();
                let size = self
                    .rng
                    .pick(&[0, X, 1, shape.chunk_bytes() + 1, TWO_32, any]);
                put_word(&mut self.image, shape.word_at(map, 0), size);
            }
            "other maps damaged" if self.has_tables() => {
                let own = self.own_map();
                for map in (0..shape.m).filter(|&map| Some(map) != own) {
                    if self.rng.chance(50) {
                        for at in 0..shape.map_words() {
                            let word = odd_word(&mut self.rng, self.base, shape.n);
                            put_word(&mut self.image, shape.word_at(map, at), word);
                        }
                    }
                }
            }
            "trailer damaged" if !self.image.is_empty() => {
                let from = self.image.len().saturating_sub(shape.trailer_len());
                match self.rng.below(3) {
                    0 => {
                        let row = self.rng.between(2, 3);
                        inputs::damage(&mut self.rng, &shape, &mut self.image, row);
                    }
                    1 => {
                        let at = from + self.rng.index(self.image.len() - from);
                        self.image[at] ^= 1 << self.rng.below(8);
                    }
                    _ => {
                        // Another N that is good: a raise.
                        let n = self.rng.between(shape.p + shape.r, shape.p * shape.m);
                        if let Some(field) = self.image.get_mut(from + 16..from + 20) {
                            field.copy_from_slice(&(n as u32).to_le_bytes());
                        }
                    }
                }
            }
            "shorter" => {
                let len = self.image.len();
                let cut = match self.rng.below(5) {
                    0 => 1,
                    1 => self.rng.between(1, 40) as usize,
                    2 => len.saturating_sub(self.rng.index(40)),
                    3 => 8 * self.rng.between(1, 8) as usize,
                    _ => self.rng.index(len + 1),
                };
                // Its beginning or its end.
                if self.rng.chance(50) {
                    self.image.truncate(len.saturating_sub(cut));
                } else {
                    self.image.drain(..cut.min(len));
                }
            }
            "longer" => {
                let more = self.rng.between(1, 64) as usize;
                let more = bytes(&mut self.rng, more);
                if self.rng.chance(50) {
                    self.image.extend(more);
                } else {
                    self.image.splice(..0, more);
                }
            }
            "empty" => self.image.clear(),
            "another image" => {
                let other = &self.pool[self.rng.index(self.pool.len())];
                self.image = other.image.clone();
                if self.rng.chance(30) {
                    self.image = inputs::image(&mut self.rng, other);
                }
            }
            "a scanning carry in between" if self.image == self.base.image => {
                // Of this chunk or of another one, some of them cut.
                let events = self.rng.between(1, 4);
                let before = self.image.clone();
                while self.image == before {
                    inputs::evolve(&mut self.rng, &shape, &mut self.image, events);
                }
            }
            _ => {}
        }
    }
}

/// A call of this number on the scene, its plan most often one that the scene as
/// it is now accepts.
fn call(scene: &mut Scene, number: usize) -> (Call, Vec<u8>, usize) {
    let shape = scene.base.shape;
    let rng = &mut scene.rng;
    let chunk = match rng.chance(85) {
        true => scene.chunk,
        false => inputs::chunk(rng, &shape),
    };
    let size = match rng.chance(85) {
        true => inputs::good_size(rng, &shape),
        false => inputs::size(rng, &shape),
    };
    let writes = matches!(NAMES[number], "check_write" | "carry_write");
    let discards = matches!(NAMES[number], "check_discard" | "carry_discard");
    let mut plan = Vec::new();
    if writes || discards {
        let mut out = [0; inputs::LONGEST_PLAN];
        let planned = match writes {
            true => index::plan_write(
                &scene.index,
                &scene.sets,
                &scene.image,
                chunk,
                size,
                &mut out,
            ),
            false => index::plan_discard(&scene.index, &scene.sets, &scene.image, chunk, &mut out),
        };
        let size = writes.then_some(size);
        plan = match planned {
            Ok(steps) if rng.chance(75) => {
                let mut steps = inputs::decode(&out[..16 * steps as usize]);
                if rng.chance(35) {
                    inputs::mutate(rng, scene.base, chunk, &mut steps);
                }
                inputs::encode(&steps)
            }
            _ => inputs::plan(rng, scene.base, chunk, size),
        };
    }
    let n = match rng.chance(60) {
        true => plan.len() as u64 / 16,
        false => inputs::step_count(rng, &plan),
    };
    let out = match NAMES[number] {
        "plan_write" => {
            let k = size.div_ceil(model::UNIT).clamp(1, shape.p);
            inputs::room(rng, 16 * shape.write_steps(k))
        }
        "plan_discard" => inputs::room(rng, 32),
        _ => 0,
    };
    let ones: u32 = scene
        .sets
        .iter()
        .take(72)
        .map(|word| word.count_ones())
        .sum();
    let call = match NAMES[number] {
        "open" => Call::Open,
        "plan_write" => Call::PlanWrite { chunk, size },
        "plan_discard" => Call::PlanDiscard { chunk },
        "check_write" => Call::CheckWrite { chunk, size },
        "check_discard" => Call::CheckDiscard { chunk },
        "carry_write" => Call::CarryWrite { chunk, size, n },
        "carry_discard" => Call::CarryDiscard { chunk, n },
        "access" => {
            let (offset, length) = match rng.chance(60) {
                true => {
                    let length = rng.between(1, shape.p) * model::UNIT;
                    (scene.chunk * shape.chunk_bytes(), length)
                }
                false => inputs::range(rng, &shape),
            };
            Call::Access {
                write: rng.chance(50),
                offset,
                length,
            }
        }
        "held" => Call::Held { chunk },
        "stored_size" => Call::StoredSize { chunk },
        "report" => Call::Report,
        "alarm_count" => Call::AlarmCount {
            units: inputs::count(rng, &shape, ones.into()),
        },
        "alarm_fraction" => Call::AlarmFraction {
            fraction: inputs::fraction(rng, &shape, u64::from(ones).min(shape.n)),
        },
        name => unreachable!("{name}"),
    };
    (call, plan, out)
}

/// One case with this made wrong: a number of the struct, or one of [`KINDS`].
pub enum Fault {
    Number { at: usize, how: usize },
    Kind(usize),
}

impl Fault {
    pub fn name(&self) -> String {
        match *self {
            Fault::Number { at, how } => format!("struct: {} {}", FIELDS[at], WRONG[how]),
            Fault::Kind(kind) => KINDS[kind].to_string(),
        }
    }

    pub fn all() -> Vec<Fault> {
        let numbers = (0..FIELDS.len()).flat_map(|at| (0..WRONG.len()).map(move |how| (at, how)));
        let numbers = numbers.map(|(at, how)| Fault::Number { at, how });
        numbers.chain((0..KINDS.len()).map(Fault::Kind)).collect()
    }
}

/// Whether this fault can be on the volume at all.
fn possible(fault: &Fault, base: &Base) -> bool {
    match *fault {
        // R as 0 where it is 0 is right.
        Fault::Number { at, how: 2 } => *field(&mut index_of(&base.shape), at) != 0,
        Fault::Number { .. } => true,
        Fault::Kind(kind) => match KINDS[kind] {
            "reserved units in" => base.shape.r > 0,
            "bits past N" => base.shape.n < 72 * 64,
            "own size word" => base.shape.edition == Edition::Two,
            "other entries outside" => base.shape.c > 1,
            _ => true,
        },
    }
}

/// What a test looks for beside the answers.
fn remark(case: &Case, outcome: &Outcome, base: &Base, tally: &mut Tally) {
    let carries = case.call.carries().is_some();
    if outcome.number() == 0 && carries && outcome.sets != case.sets {
        tally.note("a carrying out that is accepted changes words");
        let freed = |from: usize, to: usize| {
            let words = case.sets[from..to].iter().zip(&outcome.sets[from..to]);
            words.into_iter().any(|(before, now)| now & !before != 0)
        };
        if freed(0, 72) {
            tally.note("of these units come in");
        }
        let reserved = |unit: u64| case.sets[unit as usize / 64] >> (unit % 64) & 1 == 1;
        if (0..base.shape.r).any(reserved) {
            tally.note("of these reserved units are in the words");
        }
        if let Call::CarryWrite { chunk, .. } = case.call {
            if entry(&case.image, chunk) == entry(&outcome.image, chunk) {
                tally.note("of these the new map is the old one");
            }
        }
    }
    if outcome.answer[..2] == [9, 0] {
        tally.note("9 with 0");
        let units = case.sets.iter().take(72).any(|&word| word != 0);
        if units {
            tally.note("9 with 0 though units are in the words");
        }
    }
    if let (Call::Report, [0, _, _, mapped, held, free, saved, ..]) = (case.call, outcome.answer) {
        if mapped > base.shape.c {
            tally.note("a report of more mapped chunks than there are");
        }
        if held == 0 && free > base.shape.n - base.shape.r {
            tally.note("a report with held units cut off at 0");
        }
        if saved == 0 && mapped * base.shape.p < held {
            tally.note("a report with saved units cut off at 0");
        }
    }
    if let (Call::Held { chunk }, [0, _, _, first, 0, ..]) = (case.call, outcome.answer) {
        if entry(&case.image, chunk) != X && first > 0 {
            tally.note("a mapped chunk that holds nothing");
        }
    }
}

/// The first row that holds is the answer; where none does, the plan's rules are
/// all that is left. Which two rows held at once is kept.
fn by_rows(case: &Case, outcome: &Outcome, tally: &mut Tally) {
    if let Call::Open = case.call {
        return;
    }
    let rows = rows(case);
    let [number, place, ..] = outcome.answer;
    match rows.first() {
        Some(due) => assert_eq!([number, place], *due, "rows\n{}", describe(case)),
        None => {
            let checks = matches!(case.call.number(), 3..=6);
            assert!(number == 0 || checks && number == 11, "{}", describe(case));
        }
    }
    if let [first, second, ..] = rows[..] {
        let name = |[number, place]: [u64; 2]| match (number, place) {
            (10, WORDS_BYTES) => "words".to_string(),
            _ => number.to_string(),
        };
        tally.note(format!("both {} and {}", name(first), name(second)));
    }
}

/// Rows of which both have to hold somewhere.
pub const PAIRS: [&str; 15] = [
    "both 3 and 4",
    "both 3 and words",
    "both 3 and 7",
    "both 3 and 8",
    "both 3 and 9",
    "both 3 and 10",
    "both 3 and 12",
    "both 4 and words",
    "both 4 and 7",
    "both 4 and 8",
    "both 4 and 9",
    "both 4 and 10",
    "both words and 7",
    "both words and 8",
    "both words and 10",
];

pub const REMARKS: [&str; 9] = [
    "a carrying out that is accepted changes words",
    "of these units come in",
    "of these reserved units are in the words",
    "of these the new map is the old one",
    "9 with 0 though units are in the words",
    "a report of more mapped chunks than there are",
    "a report with held units cut off at 0",
    "a report with saved units cut off at 0",
    "a mapped chunk that holds nothing",
];

/// A case with the fault, and sometimes with another one.
fn case(rng: &mut Rng, fault: &Fault, number: usize, base: &Base, pool: &[Base]) -> Case {
    let chunk = match (inputs::mapped(&base.shape, &base.image), rng.chance(80)) {
        (chunks, true) if !chunks.is_empty() => rng.pick(&chunks),
        _ => rng.below(base.shape.c),
    };
    let mut scene = Scene {
        rng: Rng::new(rng.next_u64()),
        base,
        pool,
        index: index_of(&base.shape),
        sets: model_words(&base.image).to_vec(),
        image: base.image.clone(),
        chunk,
    };
    match *fault {
        Fault::Number { at, how } => {
            let value = field(&mut scene.index, at);
            *value = wrong(*value, how);
        }
        Fault::Kind(kind) => scene.alter(kind),
    }
    if scene.rng.chance(25) {
        let more = scene.rng.index(KINDS.len());
        scene.alter(more);
    }
    let (call, plan, out) = call(&mut scene, number);
    Case {
        call,
        index: scene.index,
        sets: scene.sets,
        image: scene.image,
        out: bytes(&mut scene.rng, out),
        plan,
        stand: stand(&mut scene.rng),
    }
}

/// Every fault with every call, so many times, a wrong number of the struct less
/// often.
pub fn run(seed: u64, times: u64, tally: &mut Tally) {
    let mut rng = Rng::new(seed);
    let pool = inputs::pool(&mut rng, 300);
    let mut bench = Bench::new();
    for fault in Fault::all() {
        // A wrong number of the struct gives 3, whatever else there is.
        let times = match fault {
            Fault::Number { .. } => times.div_ceil(5),
            Fault::Kind(_) => times,
        };
        for (number, name) in NAMES.iter().enumerate() {
            let mut done = 0;
            while done < times {
                // Small volumes more often than large ones.
                let (a, b) = (rng.index(pool.len()), rng.index(pool.len()));
                let larger = pool[a].image.len() > pool[b].image.len();
                let base = &pool[if larger && rng.chance(80) { b } else { a }];
                if !possible(&fault, base) {
                    continue;
                }
                let case = case(&mut rng, &fault, number, base, &pool);
                let outcome = bench.compare(&case);
                by_rows(&case, &outcome, tally);
                tally.answer(&case, &outcome);
                tally.note(format!("{}, {name}", fault.name()));
                remark(&case, &outcome, base, tally);
                done += 1;
            }
        }
    }
}

/// A call of this number, good as far as the volume allows, with the planner's
/// plan for a write or a discard of this chunk.
fn good_call(base: &Base, number: usize, chunk: u64) -> (Call, Vec<u8>) {
    let (index, sets) = (index_of(&base.shape), model_words(&base.image));
    let size = model::UNIT + 1;
    let mut out = [0; inputs::LONGEST_PLAN];
    let steps = match NAMES[number] {
        "check_write" | "carry_write" => {
            index::plan_write(&index, &sets, &base.image, chunk, size, &mut out)
        }
        "check_discard" | "carry_discard" => {
            index::plan_discard(&index, &sets, &base.image, chunk, &mut out)
        }
        _ => Ok(0),
    };
    let steps = steps.expect("room");
    let call = match NAMES[number] {
        "open" => Call::Open,
        "plan_write" => Call::PlanWrite { chunk, size },
        "plan_discard" => Call::PlanDiscard { chunk },
        "check_write" => Call::CheckWrite { chunk, size },
        "check_discard" => Call::CheckDiscard { chunk },
        "carry_write" => Call::CarryWrite {
            chunk,
            size,
            n: steps,
        },
        "carry_discard" => Call::CarryDiscard { chunk, n: steps },
        "access" => Call::Access {
            write: false,
            offset: chunk * base.shape.chunk_bytes(),
            length: model::UNIT,
        },
        "held" => Call::Held { chunk },
        "stored_size" => Call::StoredSize { chunk },
        "report" => Call::Report,
        "alarm_count" => Call::AlarmCount { units: 3 },
        "alarm_fraction" => Call::AlarmFraction { fraction: 0.5 },
        name => unreachable!("{name}"),
    };
    (call, out[..16 * steps as usize].to_vec())
}

/// On two small volumes, one of each edition, and with one thing wrong at a time:
/// every number of words, every length of the image, every bit of the trailer and
/// of the chunk's own entry, every other value of every number of the struct up
/// to 300 and around its powers of two, and a write's output of every length.
pub fn sweeps(tally: &mut Tally) {
    let mut bench = Bench::new();
    let mut rng = Rng::new(9);
    let one = inputs::Shape::one(4, 4, 5, 20);
    for shape in [one, one.reserving(3)] {
        let mut image = inputs::fresh(&shape);
        inputs::evolve(&mut rng, &shape, &mut image, 40);
        let mapped = inputs::mapped(&shape, &image);
        let chunk = *mapped.first().expect("something is mapped");
        let base = Base { shape, image };
        for (number, name) in NAMES.into_iter().enumerate() {
            let (call, plan) = good_call(&base, number, chunk);
            let out = match name {
                "plan_write" | "plan_discard" => inputs::LONGEST_PLAN,
                _ => 0,
            };
            let good = Case {
                call,
                index: index_of(&shape),
                sets: model_words(&base.image).to_vec(),
                image: base.image.clone(),
                out: bytes(&mut rng, out),
                plan,
                stand: stand(&mut rng),
            };
            // Open takes no struct, and another N may be good.
            let takes_none = name == "open";
            let mut run = |what: &str, case: Case| {
                let outcome = bench.compare(&case);
                by_rows(&case, &outcome, tally);
                tally.answer(&case, &outcome);
                tally.note(format!("sweeps: {what}"));
                outcome.number()
            };
            assert_eq!(run("nothing wrong", good.clone()), 0);
            for len in 0..=WORDS + 4 {
                let mut case = good.clone();
                case.sets.resize(len, u64::MAX);
                let due = if len < WORDS { 10 } else { 0 };
                assert_eq!(run("numbers of words", case), due);
            }
            for len in 0..=base.image.len() + 48 {
                let mut case = good.clone();
                let more = len.saturating_sub(case.image.len());
                // The end is kept, for the trailer to be found.
                let less = case.image.len().saturating_sub(len);
                case.image.drain(..less);
                case.image.splice(..0, vec![0xFF; more]);
                let number = run("lengths of the image", case);
                assert_eq!(number == 0, more + less == 0);
            }
            for bit in 0..8 * shape.trailer_len() {
                let mut case = good.clone();
                let at = case.image.len() - shape.trailer_len() + bit / 8;
                case.image[at] ^= 1 << (bit % 8);
                let number = run("bits of the trailer", case);
                let refused = (2..=3).contains(&number);
                assert!(takes_none || refused, "bit {bit} of the trailer");
            }
            for bit in 0..64 {
                let mut case = good.clone();
                case.image[8 * chunk as usize + bit / 8] ^= 1 << (bit % 8);
                run("bits of the own entry", case);
            }
            for (at, what) in FIELDS.into_iter().enumerate() {
                let powers = (0..64).flat_map(|bit| [1 << bit, (1 << bit) - 1, (1 << bit) + 1]);
                for value in (0..300).chain(powers).chain([u64::MAX]) {
                    let mut case = good.clone();
                    let right = *field(&mut case.index, at);
                    *field(&mut case.index, at) = value;
                    let number = run("numbers of the struct", case);
                    let due = if value == right || takes_none { 0 } else { 3 };
                    assert_eq!(number, due, "{what} as {value}");
                }
            }
            for len in 0..out {
                let mut case = good.clone();
                case.out.truncate(len);
                run("lengths of the output", case);
            }
        }
    }
}

/// What the sweeps go over.
pub const SWEEPS: [&str; 7] = [
    "sweeps: nothing wrong",
    "sweeps: numbers of words",
    "sweeps: lengths of the image",
    "sweeps: bits of the trailer",
    "sweeps: bits of the own entry",
    "sweeps: numbers of the struct",
    "sweeps: lengths of the output",
];
