//! "A plan, a check or a carrying out depends on no entry or map but its own
//! chunk's." (02, request 7) "said of two images of one length with the same
//! trailer that agree on the chunk's entry and on the words of the map that it
//! names: answers, stored words and next index are the same" (Decision 106).

use sumbilak_reference::inputs::{
    self, entry, put_entry, put_word, word, Base, Shape, LONGEST_PLAN, X,
};
use sumbilak_reference::model;
use sumbilak_reference::rng::Rng;

use crate::call::{describe, index_of, model_words, Bench, Call, Case, NAMES};
use crate::lists::{bytes, stand};
use crate::tally::Tally;

/// Any word for an entry or a map, a good one or not.
fn any_word(rng: &mut Rng, limit: u64) -> u64 {
    match rng.below(4) {
        0 => X,
        1 => rng.next_u64(),
        _ => rng.below(limit),
    }
}

/// The image with every entry and every map word changed but the chunk's own;
/// with no chunk, every one.
fn elsewhere(rng: &mut Rng, shape: &Shape, image: &[u8], chunk: Option<u64>) -> Vec<u8> {
    let mut other = image.to_vec();
    let own = chunk.map(|chunk| entry(image, chunk));
    let change = |rng: &mut Rng, other: &mut Vec<u8>, at: usize, limit: u64| {
        let before = word(other, at);
        let drawn = any_word(rng, limit);
        put_word(other, at, if drawn == before { before ^ 1 } else { drawn });
    };
    for at in (0..shape.c).filter(|&at| Some(at) != chunk) {
        change(rng, &mut other, 8 * at as usize, shape.m);
    }
    for map in (0..shape.m).filter(|&map| Some(map) != own) {
        for at in 0..shape.map_words() {
            change(rng, &mut other, shape.word_at(map, at), shape.n);
        }
    }
    other
}

/// Byte position and value of each word that the first n steps store.
fn stored(shape: &Shape, plan: &[u8], n: u64) -> Vec<(usize, u64)> {
    let value = |value: u32| match value {
        u32::MAX => X,
        number => u64::from(number),
    };
    let steps = inputs::decode(plan).into_iter().take(n as usize);
    let word = |step: inputs::Fields| match step {
        [2, map, word, v] => Some((shape.word_at(map.into(), word.into()), value(v))),
        [3, chunk, _, v] => Some((8 * chunk as usize, value(v))),
        _ => None,
    };
    steps.filter_map(word).collect()
}

/// A call on this chunk alone, and its plan.
fn call(rng: &mut Rng, number: usize, base: &Base, case: &Case, chunk: u64) -> (Call, Vec<u8>) {
    let shape = &base.shape;
    let size = inputs::good_size(rng, shape);
    let mut plan = Vec::new();
    if matches!(number, 3..=6) {
        let writes = matches!(NAMES[number], "check_write" | "carry_write");
        let mut out = [0; LONGEST_PLAN];
        let planned = match writes {
            true => {
                let (index, sets) = (&case.index, &case.sets);
                model::index::plan_write(index, sets, &case.image, chunk, size, &mut out)
            }
            false => {
                let (index, sets) = (&case.index, &case.sets);
                model::index::plan_discard(index, sets, &case.image, chunk, &mut out)
            }
        };
        plan = match planned {
            Ok(steps) if rng.chance(80) => {
                let mut steps = inputs::decode(&out[..16 * steps as usize]);
                if rng.chance(25) {
                    inputs::mutate(rng, base, chunk, &mut steps);
                }
                inputs::encode(&steps)
            }
            _ => inputs::plan(rng, base, chunk, writes.then_some(size)),
        };
    }
    let n = match rng.chance(60) {
        true => plan.len() as u64 / 16,
        false => inputs::step_count(rng, &plan),
    };
    let call = match NAMES[number] {
        "plan_write" => Call::PlanWrite { chunk, size },
        "plan_discard" => Call::PlanDiscard { chunk },
        "check_write" => Call::CheckWrite { chunk, size },
        "check_discard" => Call::CheckDiscard { chunk },
        "carry_write" => Call::CarryWrite { chunk, size, n },
        "carry_discard" => Call::CarryDiscard { chunk, n },
        "access" => Call::Access {
            write: rng.chance(50),
            offset: chunk * shape.chunk_bytes(),
            length: rng.between(1, shape.p) * model::UNIT,
        },
        "held" => Call::Held { chunk },
        "stored_size" => Call::StoredSize { chunk },
        "report" => Call::Report,
        "alarm_count" => Call::AlarmCount {
            units: rng.below(shape.n + 2),
        },
        _ => Call::AlarmFraction {
            fraction: rng.below(1001) as f64 / 1000.0,
        },
    };
    (call, plan)
}

/// Pairs of images for every call but open, with current and with made-up sets.
pub fn run(seed: u64, pairs: u64, tally: &mut Tally) {
    let mut rng = Rng::new(seed);
    let pool = inputs::pool(&mut rng, 300);
    let mut bench = Bench::new();
    for at in 0..pairs {
        let number = 1 + at as usize % (NAMES.len() - 1);
        let (a, b) = (rng.index(pool.len()), rng.index(pool.len()));
        let larger = pool[a].image.len() > pool[b].image.len();
        let base = &pool[if larger { b } else { a }];
        let shape = base.shape;
        let chunk = rng.below(shape.c);
        let mut case = Case {
            call: Call::Report,
            index: index_of(&shape),
            sets: model_words(&base.image).to_vec(),
            image: base.image.clone(),
            out: bytes(&mut rng, LONGEST_PLAN),
            plan: Vec::new(),
            stand: stand(&mut rng),
        };
        if rng.chance(30) {
            tally.note("pairs with made-up words");
            case.sets
                .iter_mut()
                .for_each(|word| *word = rng.next_u64() & rng.next_u64());
        }
        if rng.chance(15) {
            tally.note("pairs with any entry for the chunk's own");
            put_entry(&mut case.image, chunk, any_word(&mut rng, shape.m));
        }
        let plan;
        (case.call, plan) = call(&mut rng, number, base, &case, chunk);
        case.plan = plan;
        let keeps = !matches!(
            case.call,
            Call::Report | Call::AlarmCount { .. } | Call::AlarmFraction { .. }
        );
        // Of what access goes by, the entry is all.
        let mut other = case.clone();
        other.image = elsewhere(&mut rng, &shape, &case.image, keeps.then_some(chunk));
        let here = bench.compare(&case);
        let there = bench.compare(&other);
        let same = here.answer == there.answer && here.sets == there.sets && here.out == there.out;
        assert!(same, "what lies elsewhere counts\n{}", describe(&other));
        // The words stored are those of the plan, here and there.
        if let (Some(n), 0) = (case.call.carries(), here.number()) {
            let words = stored(&shape, &case.plan, n);
            for (before, after) in [(&case.image, &here.image), (&other.image, &there.image)] {
                let mut due = before.clone();
                words
                    .iter()
                    .for_each(|&(at, value)| put_word(&mut due, at, value));
                assert!(due == *after, "stored words\n{}", describe(&other));
            }
            tally.note("pairs of carryings out that were accepted");
            if here.sets != case.sets {
                tally.note("of these with another index");
            }
        }
        tally.answer(&case, &here);
        tally.note("pairs");
    }
}
