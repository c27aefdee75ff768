//! Holds the benchmark's yardstick to the model, on the inputs that the library
//! is held to it with: the generated ones for each entry point that it has, and
//! every sweep.

#[allow(dead_code)]
mod common;

use std::collections::BTreeSet;

use common::cases::{self, Call, Case, Entry, Outcome};
use common::{generate, sweeps};
use sumbilak_reference::ffi::LOAD_WORDS;
use sumbilak_reference::inputs;
use sumbilak_reference::model::{Answer, Refusal, Report};
use sumbilak_reference::onepass;
use sumbilak_reference::rng::Rng;

/// Generated inputs for each entry point.
const CASES: u64 = 20_000;
/// Sound volumes that they are made from.
const POOL: usize = 500;

const ENTRIES: [Entry; 10] = [
    Entry::Load,
    Entry::PlanWrite,
    Entry::PlanDiscard,
    Entry::CheckWrite,
    Entry::CheckDiscard,
    Entry::CarryWrite,
    Entry::CarryDiscard,
    Entry::Report,
    Entry::StoredSize,
    Entry::Repair,
];

fn fields(answer: Answer<u64>) -> [u64; 9] {
    match answer {
        Ok(value) => [0, 0, 0, value, 0, 0, 0, 0, 0],
        Err(refusal) => {
            let Refusal {
                number,
                place,
                second,
            } = refusal;
            [number, place, second, 0, 0, 0, 0, 0, 0]
        }
    }
}

fn counts(report: Report) -> [u64; 9] {
    let ratios = [report.held_ratio, report.saved_ratio].map(f64::to_bits);
    let Report {
        mapped,
        held,
        free,
        saved,
        ..
    } = report;
    [0, 0, 0, mapped, held, free, saved, ratios[0], ratios[1]]
}

type Load = fn(&[u8], &mut [u64]) -> Answer<u64>;

/// A load into words that hold the bytes lent.
fn load(load: Load, image: &[u8], out: &mut [u8]) -> Answer<u64> {
    let (bytes, _) = out.as_chunks_mut::<8>();
    let mut words: Vec<u64> = bytes.iter().map(|word| u64::from_ne_bytes(*word)).collect();
    let answer = load(image, &mut words);
    for (byte, word) in bytes.iter_mut().zip(words) {
        *byte = word.to_ne_bytes();
    }
    answer
}

/// The ways to load: the yardstick's own first.
const LOADS: [Load; 3] = [onepass::load, onepass::per_p::load, onepass::bytes::load];

/// What the yardstick makes of the case, a load in this way; None if it has no
/// such call.
fn by_yardstick(case: &Case, way: Load) -> Option<Outcome> {
    let mut image = case.image.clone();
    let mut out = case.out.clone();
    let plan = &case.plan;
    let nothing = |answer: Answer<()>| fields(answer.map(|()| 0));
    let answer = match case.call {
        Call::Load => fields(load(way, &image, &mut out)),
        Call::PlanWrite { chunk, size } => {
            fields(onepass::plan_write(&image, chunk, size, &mut out))
        }
        Call::PlanDiscard { chunk } => fields(onepass::plan_discard(&image, chunk, &mut out)),
        Call::CheckWrite { chunk, size } => {
            nothing(onepass::check_write(&image, chunk, size, plan))
        }
        Call::CheckDiscard { chunk } => nothing(onepass::check_discard(&image, chunk, plan)),
        Call::CarryWrite { chunk, size, n } => {
            nothing(onepass::carry_write(&mut image, chunk, size, plan, n))
        }
        Call::CarryDiscard { chunk, n } => {
            nothing(onepass::carry_discard(&mut image, chunk, plan, n))
        }
        Call::Report => match onepass::report(&image) {
            Ok(report) => counts(report),
            Err(refusal) => fields(Err(refusal)),
        },
        Call::Repair => fields(onepass::repair(&mut image, &mut out)),
        Call::StoredSize { chunk } => fields(onepass::stored_size(&image, chunk)),
        _ => return None,
    };
    Some(Outcome {
        answer,
        image,
        out,
        plan: plan.clone(),
    })
}

/// Answers that were seen: number, and the rule of 11.
type Seen = BTreeSet<[u64; 2]>;

fn compare(name: &str, case: &Case, seen: &mut Seen) {
    let ways = match case.call {
        Call::Load => &LOADS[..],
        _ => &LOADS[..1],
    };
    for way in ways {
        let Some(outcome) = by_yardstick(case, *way) else {
            continue;
        };
        let model = cases::by_model(case);
        if outcome != model {
            let text = cases::differences(&model, &outcome, true);
            panic!("{name}\n{text}\n{}", cases::describe(case));
        }
        let [number, place, ..] = model.answer;
        seen.insert([number, if number == 11 { place } else { 0 }]);
    }
}

#[test]
fn generated_inputs() {
    assert_eq!(LOAD_WORDS, onepass::LOAD_WORDS);
    let rng = &mut Rng::new(0x524D_4150_0002);
    let pool = inputs::pool(rng, POOL);
    let mut seen = Seen::new();
    for entry in ENTRIES {
        for _ in 0..CASES {
            compare(entry.name(), &generate::case(rng, entry, &pool), &mut seen);
        }
    }
    let numbers = (0..=10).map(|number| [number, 0]);
    let rules = (1..=5).map(|rule| [11, rule]);
    assert_eq!(seen, numbers.chain(rules).collect());
}

#[test]
fn sweeps() {
    let mut seen = Seen::new();
    for (name, sweep) in sweeps::ALL {
        sweep(&mut |case| compare(name, &case, &mut seen));
    }
}
