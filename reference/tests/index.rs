//! Holds the library's calls with a held index (02, request 7) to the library's
//! own scanning calls and to the model.
//!
//! Every call of the library here runs in guarded memory: what it is lent ends
//! at an unreadable page on one side, and has cells around it that must stay as
//! they are on the other.
//!
//! `SUMBILAK_INDEX` runs so many times as much, `SUMBILAK_SEED` changes the seed.
//! A build with debug assertions runs less.

#[path = "index/call.rs"]
mod call;
#[path = "index/every_list.rs"]
mod every_list;
#[path = "index/guard.rs"]
mod guard;
#[path = "index/lists.rs"]
mod lists;
#[path = "index/locality.rs"]
mod locality;
#[path = "index/made_up.rs"]
mod made_up;
#[path = "index/rows.rs"]
mod rows;
#[path = "index/tally.rs"]
mod tally;

use std::time::Instant;

use call::{Bench, NAMES};
use every_list::Scope;
use made_up::{Fault, PAIRS, REMARKS, SWEEPS};
use sumbilak_reference::inputs::{Edition, Shape};
use sumbilak_reference::settings::number;
use tally::{given, Tally};

const SEED: u64 = 0x524D_4150_0007;

fn seed() -> u64 {
    number("SUMBILAK_SEED").unwrap_or(SEED)
}

/// A count, as many times as asked for.
fn times(count: u64) -> u64 {
    let count = count * number("SUMBILAK_INDEX").unwrap_or(1);
    match cfg!(debug_assertions) {
        true => count.div_ceil(5),
        false => count,
    }
}

const RULES: [u64; 5] = [1, 2, 3, 4, 5];

/// "With a current index none of 1 to 6 is given." (Decision 100) What is given
/// then, by call.
fn expect_current(tally: &Tally) {
    tally.expect("plan_write", &given(&[0, 7, 8, 9, 10], &[], false));
    tally.expect("plan_discard", &given(&[0, 7, 10], &[], false));
    for name in ["check_write", "carry_write"] {
        tally.expect(name, &given(&[0, 7, 8], &RULES, false));
    }
    for name in ["check_discard", "carry_discard"] {
        tally.expect(name, &given(&[0, 7], &RULES, false));
    }
    for name in ["access", "held", "stored_size"] {
        tally.expect(name, &given(&[0, 7], &[], false));
    }
    for name in ["open", "report", "alarm_count"] {
        tally.expect(name, &given(&[0], &[], false));
    }
    tally.expect("alarm_fraction", &given(&[0, 12], &[], false));
}

/// Random lists of calls after an accepted open.
#[test]
fn lists_of_calls() {
    let begun = Instant::now();
    let mut tally = Tally::default();
    lists::run(seed(), times(16_000), 60, &mut tally);
    tally.print("lists of calls");
    println!("  {:.1?}", begun.elapsed());
    expect_current(&tally);
    tally.expect_notes([
        "plans of the planner with an index",
        "plans from another hand, good and broken",
        "plans tried once more",
        "points of a plan carried out",
        "plans carried out step by step",
        "lists on volumes with reserved units",
        "lists on edition 1",
        "lists on edition 2",
    ]);
}

/// All lists on small volumes.
#[test]
fn every_list_on_small_volumes() {
    let begun = Instant::now();
    let one = Shape::one;
    let two = |p, c, m, n| Shape::one(p, c, m, n).in_edition(Edition::Two);
    let scopes = [
        (one(2, 1, 2, 2), None),
        (one(2, 1, 2, 4), None),
        (one(2, 1, 3, 3), None),
        (one(2, 2, 3, 2), None),
        (one(2, 2, 3, 4), Some(6)),
        (one(2, 2, 3, 6), Some(4)),
        (one(2, 2, 4, 5), Some(4)),
        (two(2, 1, 2, 2), None),
        (two(2, 1, 2, 4), None),
        (two(2, 2, 3, 4), Some(4)),
        (two(2, 1, 2, 3).reserving(1), None),
        (two(2, 1, 3, 5).reserving(2), Some(4)),
        (two(2, 2, 3, 5).reserving(1), Some(4)),
    ];
    let mut tally = Tally::default();
    let mut bench = Bench::new();
    for (shape, length) in scopes {
        let scope = Scope { shape, length };
        let since = Instant::now();
        let (images, longest) = every_list::run(&scope, &mut bench, &mut tally);
        let how = match length {
            Some(length) => format!("lists of up to {length} storing calls"),
            None => format!("lists of any length, closed after {longest}"),
        };
        println!(
            "  {shape:?}: {images} images, {how}, {:.1?}",
            since.elapsed()
        );
    }
    tally.print("every list on small volumes");
    println!("  {:.1?}", begun.elapsed());
    tally.expect_notes(["images with every chunk mapped"]);
}

/// Stale and made-up indexes of every kind, and images altered otherwise.
#[test]
fn made_up_indexes() {
    let begun = Instant::now();
    let mut tally = Tally::default();
    made_up::sweeps(&mut tally);
    made_up::run(seed() ^ 3, times(2_500), &mut tally);
    tally.print("made-up indexes");
    println!("  {:.1?}", begun.elapsed());
    for fault in Fault::all() {
        let names = NAMES.map(|name| format!("{}, {name}", fault.name()));
        tally.expect_notes(names.iter().map(String::as_str));
    }
    tally.expect_notes(REMARKS);
    tally.expect_notes(SWEEPS);
    tally.expect_notes(PAIRS);
    // "5 and 6 are never given: no map's form is judged" (Decision 100), but by
    // open; 4 not by access, report and alarm.
    tally.expect("open", &given(&[0, 1, 2, 3, 4, 5, 6], &[], true));
    let trailer = [0, 1, 2, 3];
    let with = |more: &[u64]| [&trailer[..], more].concat();
    tally.expect("plan_write", &given(&with(&[4, 7, 8, 9, 10]), &[], true));
    tally.expect("plan_discard", &given(&with(&[4, 7, 10]), &[], true));
    for name in ["check_write", "carry_write"] {
        tally.expect(name, &given(&with(&[4, 7, 8]), &RULES, true));
    }
    for name in ["check_discard", "carry_discard"] {
        tally.expect(name, &given(&with(&[4, 7]), &RULES, true));
    }
    for name in ["held", "stored_size"] {
        tally.expect(name, &given(&with(&[4, 7]), &[], true));
    }
    tally.expect("access", &given(&with(&[7]), &[], true));
    for name in ["report", "alarm_count"] {
        tally.expect(name, &given(&trailer, &[], true));
    }
    tally.expect("alarm_fraction", &given(&with(&[12]), &[], true));
}

/// What lies elsewhere in the image does not count.
#[test]
fn locality() {
    let begun = Instant::now();
    let mut tally = Tally::default();
    locality::run(seed() ^ 4, times(200_000), &mut tally);
    tally.print("locality");
    println!("  {:.1?}", begun.elapsed());
    tally.expect_notes([
        "pairs with made-up words",
        "pairs with any entry for the chunk's own",
        "pairs of carryings out that were accepted",
        "of these with another index",
    ]);
}
