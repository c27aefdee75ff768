//! Holds the proved library to the model, entry point by entry point.
//!
//! Every case is run by both; answers, images, outputs and the bytes around
//! them are compared. The rows of 01's table are also judged one by one, which
//! counts the refusals that compete and gives a second opinion on the model.
//! A repair and a conversion are also held to the sentences about their
//! results, and a reading that knows edition 1 alone must give 2 on every sound
//! image of edition 2.
//!
//! First come generated inputs for each entry point, then sweeps that go
//! through a small scope completely. `SUMBILAK_CASES` raises the number of
//! generated inputs for each entry point, `SUMBILAK_SEED` changes the seed,
//! and words on the command line pick entry points and sweeps by name.

mod common;

use std::env;
use std::io::{self, Write};
use std::process::ExitCode;
use std::time::Instant;

use common::cases::{self, Call, Case, Entry, Outcome};
use common::coverage::{self, Coverage};
use common::rows::{self, Verdict};
use common::{conversions, first_edition, generate, repairs, sweeps};
use sumbilak_reference::inputs::{self, Base};
use sumbilak_reference::rng::{mix, Rng};
use sumbilak_reference::settings::number;

/// Generated inputs for each entry point.
const CASES: u64 = 50_000;
const SEED: u64 = 0x524D_4150_0001;
/// Sound volumes that the cases are made from.
const POOL: usize = 500;
/// Mismatches of one entry point that are shown in full.
const SHOWN: u64 = 3;

/// What the cases of one entry point or sweep came to.
#[derive(Default)]
struct Counts {
    failures: u64,
    /// Sound images of edition 2, on each of which edition 1 code gave 2.
    foreign_to_one: u64,
}

/// Runs one case both ways. Cases that differ are counted, and the first few of
/// them are shown whole.
fn compare(name: &str, at: u64, case: &Case, counts: &mut Counts) -> (Outcome, Verdict) {
    let model = cases::by_model(case);
    let (library, intact) = cases::by_library(case);
    let verdict = rows::judge(case);
    let mut text = cases::differences(&model, &library, intact);
    if verdict.answer() != model.answer[..3] {
        text += &format!(
            "  the rows, judged one by one, give {:?}, the model {:?}\n",
            verdict.answer(),
            &model.answer[..3]
        );
    }
    for (name, answer) in [("model", &model.answer), ("library", &library.answer)] {
        if let Some(due) = case.due.filter(|due| due != &answer[..2]) {
            text += &format!("  the {name} gives {:?}, {due:?} is due\n", &answer[..2]);
        }
    }
    let answered = [model.answer[0], library.answer[0]] == [0, 0];
    if answered && matches!(case.call, Call::Repair) {
        text += &repairs::flaws(at, case, &library, &verdict.faults.chunks());
    }
    if answered && matches!(case.call, Call::Convert) {
        text += &conversions::flaws(at, case, &library);
    }
    if answered && (verdict.edition == 2 || matches!(case.call, Call::Convert)) {
        counts.foreign_to_one += 1;
        text += first_edition::flaw_of_two(case, &library);
    }
    text += first_edition::flaw_of_one(case, &verdict);
    if !text.is_empty() {
        counts.failures += 1;
        if counts.failures <= SHOWN {
            println!(
                "\nMISMATCH in {name}, case {at}\n{text}  rows that hold {:?}, rules broken {:?}\n{}",
                verdict.rows(),
                verdict.rules(),
                cases::describe(case)
            );
        }
    }
    (model, verdict)
}

/// Runs one entry point's generated cases; answers what was seen and what they
/// came to.
fn run(entry: Entry, seed: u64, cases: u64, pool: &[Base]) -> (Coverage, Counts) {
    let mut coverage = Coverage::new(entry);
    let mut counts = Counts::default();
    for at in 0..cases {
        let case_seed = mix(mix(seed ^ ((entry as u64) << 48)).wrapping_add(at));
        let case = generate::case(&mut Rng::new(case_seed), entry, pool);
        let (model, verdict) = compare(entry.name(), at, &case, &mut counts);
        coverage.count(&case, &model.answer, &verdict);
    }
    (coverage, counts)
}

/// Says what comes next, so that a crash shows where it was, and starts the
/// clock.
fn announce(name: &str) -> Instant {
    print!("{name:<50}");
    let _ = io::stdout().flush();
    Instant::now()
}

/// Completes the line; mismatches shown in between have broken it off.
fn conclude(name: &str, inputs: u64, failures: u64, begun: Instant) {
    if failures > 0 {
        print!("{name:<50}");
    }
    println!(
        "{inputs:>8} inputs, {failures} mismatches, {:.1?}",
        begun.elapsed()
    );
}

fn main() -> ExitCode {
    let arguments: Vec<String> = env::args().skip(1).collect();
    if arguments.iter().any(|argument| argument == "--list") {
        return ExitCode::SUCCESS;
    }
    let words: Vec<&String> = arguments
        .iter()
        .filter(|argument| !argument.starts_with('-'))
        .collect();
    let wanted = |name: &str| words.is_empty() || words.iter().any(|w| name.contains(w.as_str()));
    let cases = number("SUMBILAK_CASES").map_or(CASES, |cases| cases.max(CASES));
    let seed = number("SUMBILAK_SEED").unwrap_or(SEED);
    println!("seed {seed:#X}, {cases} generated inputs for each entry point");

    let start = Instant::now();
    let pool = inputs::pool(&mut Rng::new(seed), POOL);
    println!("{POOL} sound volumes to draw from: {:.1?}", start.elapsed());

    let mut all = Vec::new();
    let mut total = Counts::default();
    let mut add = |counts: &Counts| {
        total.failures += counts.failures;
        total.foreign_to_one += counts.foreign_to_one;
    };
    for entry in Entry::ALL.into_iter().filter(|entry| wanted(entry.name())) {
        let begun = announce(entry.name());
        let (coverage, counts) = run(entry, seed, cases, &pool);
        conclude(entry.name(), cases, counts.failures, begun);
        add(&counts);
        all.push(coverage);
    }
    let mut inputs: u64 = all.iter().map(|coverage| coverage.inputs).sum();
    for (name, sweep) in sweeps::ALL.into_iter().filter(|(name, _)| wanted(name)) {
        let begun = announce(name);
        let mut count = 0;
        let mut counts = Counts::default();
        sweep(&mut |case| {
            compare(name, count, &case, &mut counts);
            count += 1;
        });
        conclude(name, count, counts.failures, begun);
        add(&counts);
        inputs += count;
    }

    coverage::print(&all);
    let gaps: Vec<String> = all.iter().flat_map(Coverage::gaps).collect();
    println!(
        "\nEdition 1 code gives 2 on each of {} sound images of edition 2",
        total.foreign_to_one
    );
    println!(
        "\n{inputs} inputs, {} mismatches, {} gaps in what had to be seen, {:.1?}",
        total.failures,
        gaps.len(),
        start.elapsed()
    );
    gaps.iter().for_each(|gap| println!("GAP {gap}"));
    if total.failures == 0 && gaps.is_empty() {
        ExitCode::SUCCESS
    } else {
        ExitCode::FAILURE
    }
}
