//! What lists that begin with a repair and lists that begin with a conversion
//! have in common: how they are run, counted and shown, and how a wrong rule is
//! noticed in them.

use std::env;
use std::ops::AddAssign;
use std::time::Instant;

use sumbilak_reference::inputs::{self, Shape};
use sumbilak_reference::rng::{mix, Rng};

use crate::exhaustive::{explore, Scope, Tally};
use crate::figures::{print, row, table, Figures};
use crate::lists::{self, Case};
use crate::rules::{Library, Rules};
use crate::simulate::{Simulator, Violation};
use crate::volume::Volume;
use crate::{any, name, seed, times, CHANCES};

/// What a list begins with, and what is counted of it.
pub trait Beginning: Default + for<'a> AddAssign<&'a Self> {
    /// As in 'after a repair'.
    const NAME: &'static str;
    /// What is gone through, as in 'every image of small volumes, repaired'.
    const IMAGE: &'static str;
    /// The last word of that.
    const DONE: &'static str;

    fn titles() -> Vec<&'static str>;
    fn cells(&self) -> Vec<u64>;
    fn images(&self) -> u64;
    fn of(tally: &Tally) -> &Self;

    /// The volume that a list begins with.
    fn start<R: Rules>(
        &mut self,
        simulator: &Simulator<R>,
        rng: &mut Rng,
        violations: &mut Vec<Violation>,
    ) -> Volume;
}

/// Runs lists on one geometry until one fails.
pub fn run<B: Beginning, R: Rules>(
    rules: &R,
    shape: Shape,
    lists: u64,
    seed: u64,
    tells: &dyn Fn(&Violation) -> bool,
) -> (B, Figures, Option<Case>) {
    let (mut begun, mut figures) = (B::default(), Figures::default());
    let mut start = |simulator: &Simulator<R>, rng: &mut Rng, violations: &mut Vec<Violation>| {
        begun.start(simulator, rng, violations)
    };
    let case = lists::run_from(rules, shape, &mut start, lists, seed, tells, &mut figures);
    (begun, figures, case)
}

/// Random lists on these geometries and on so many random ones, and a table of
/// them. Fails on a violation.
pub fn random_lists<B: Beginning>(
    volumes: impl Iterator<Item = (Shape, u64)>,
    random: u64,
    seed: u64,
) -> (B, Figures) {
    let begun = Instant::now();
    let mut titles = B::titles();
    titles.extend(["events", "refused", "finished", "cut", "violations"]);
    let mut rows = vec![row("volume", &titles)];
    let mut all = (B::default(), Figures::default());
    let mut failed: Option<Case> = None;
    let mut tell = |name: &str, counted: &B, figures: &Figures| {
        let mut cells = counted.cells();
        cells.extend([
            figures.events,
            figures.refused,
            figures.finished,
            figures.cut,
            figures.violations,
        ]);
        rows.push(row(name, &cells));
    };

    for (at, (shape, lists)) in (0..).zip(volumes) {
        let (counted, figures, case) =
            run::<B, _>(&Library, shape, times(lists), mix(seed ^ at), &any);
        failed = failed.or(case);
        tell(&name(&shape), &counted, &figures);
        all.0 += &counted;
        all.1 += &figures;
    }
    if random > 0 {
        let mut sum = (B::default(), Figures::default());
        let mut rng = Rng::new(seed);
        for _ in 0..times(random) {
            let shape = inputs::shape(&mut rng);
            let (counted, figures, case) = run::<B, _>(&Library, shape, 1, rng.next_u64(), &any);
            failed = failed.or(case);
            sum.0 += &counted;
            sum.1 += &figures;
        }
        tell("random geometries", &sum.0, &sum.1);
        all.0 += &sum.0;
        all.1 += &sum.1;
    }
    tell("all", &all.0, &all.1);

    let title = format!(
        "Random event lists after a {}, seed {seed:#X}, {:.1?}",
        B::NAME,
        begun.elapsed()
    );
    print(&table(&title, &rows));
    if let Some(case) = failed {
        panic!("{case}");
    }
    let (_, figures) = &all;
    assert!(figures.finished > 100 && figures.cut_linked > 100 && figures.cut_partial > 100);
    all
}

/// Every image of these scopes that can be begun with, and a table of what comes
/// of it. Fails on a violation.
pub fn every_image_of<B: Beginning>(scopes: &[Scope]) {
    let begun = Instant::now();
    let mut titles = B::titles();
    titles.extend(["states", "deepest", "plans refused"]);
    titles.extend(["on other free units", "on held units", "no room, on such"]);
    titles.extend(["on reserved units", "no room, on such"]);
    titles.extend(["subsets", "events", "violations"]);
    let mut rows = vec![row("volume", &titles)];
    let mut all = Tally::default();
    let mut failed = None;
    let mut tried = true;
    let mut tell = |name: &str, tally: &Tally| {
        let mut cells = B::of(tally).cells();
        cells.extend([
            tally.states,
            tally.deepest as u64,
            tally.refused,
            tally.scattered,
            tally.on_held,
            tally.out_of_held,
            tally.on_reserved,
            tally.out_of_reserved,
            tally.subsets,
            tally.events,
            tally.violations,
        ]);
        rows.push(row(name, &cells));
    };
    for scope in scopes {
        if cfg!(debug_assertions) && scope.shape.c > 1 {
            continue;
        }
        let (tally, case) = explore(&Library, scope, &any);
        failed = failed.or(case);
        tell(&name(&scope.shape), &tally);
        tried &= scope.tries_elsewhere(&tally);
        all += &tally;
    }
    tell("all", &all);
    let title = format!(
        "Every {} of small volumes, {}, {:.1?}",
        B::IMAGE,
        B::DONE,
        begun.elapsed()
    );
    print(&table(&title, &rows));
    if let Some(case) = failed {
        panic!("{case}");
    }
    assert!(tried, "plans on other units than the lowest free ones");
}

/// Runs a wrong rule until each of these violations is seen, by random lists on
/// one volume and from every image of a small one. The library passes the same
/// lists. With `SUMBILAK_STORIES` set the lists are printed.
pub fn notice<B: Beginning, R: Rules>(
    rule: &str,
    rules: &R,
    shape: Shape,
    scope: &Scope,
    violations: &[&str],
) {
    let mut rows = vec![row("violation", &["random list", "every image, number"])];
    let mut stories = String::new();
    for &violation in violations {
        let tells = |seen: &Violation| seen.name() == violation;
        let (counted, _, case) = run::<B, _>(rules, shape, CHANCES, seed(), &tells);
        let case = case.unwrap_or_else(|| panic!("{rule}, {violation}: not noticed"));
        let (_, _, right) = run::<B, _>(&Library, shape, counted.images(), seed(), &any);
        assert!(right.is_none(), "{rule}: the library fails as well");
        let (tally, found) = explore(rules, scope, &tells);
        let found = found.unwrap_or_else(|| panic!("{rule}, {violation}: not exhaustively"));
        rows.push(row(violation, &[counted.images(), B::of(&tally).images()]));
        stories += &format!("\n{case}\n{found}");
    }
    print(&table(&format!("Noticed: {rule}"), &rows));
    if env::var_os("SUMBILAK_STORIES").is_some() {
        print(&stories);
    }
}

/// Sees that a wrong rule leaves sound images: no violation comes up but this.
pub fn nothing_but<B: Beginning, R: Rules>(rule: &str, rules: &R, shape: Shape, violation: &str) {
    let others = |seen: &Violation| seen.name() != violation;
    let (_, _, case) = run::<B, _>(rules, shape, 20, seed(), &others);
    assert!(case.is_none(), "{rule}: the image is sound");
}
