//! A power-cut simulator over the proved library.
//!
//! The library formats, repairs, converts, plans, checks and carries out; the cut
//! rule, the landing of single words, the units' contents and the ledger are the
//! simulator's own, from 01. After every event the image found has to load
//! and to be sound, no unit has two owners, every chunk holds what the ledger
//! gives it and answers the size of the write that gave it, and the chunk in
//! flight holds all its new pieces or all its old ones. Units that are reserved
//! hold the boot loader's content from the start to the end. A write that passes
//! and lands is on the lowest units that were free.
//!
//! Lists of events are random on many volumes and exhaustive on small ones, in
//! both editions, in edition 2 with and without reserved units, and start from
//! format, from a repair, from a conversion or from chunks that lie anywhere.
//! Rules that are wrong on purpose show that the simulator can fail.
//!
//! `SUMBILAK_LISTS` runs so many times as many random lists, `SUMBILAK_SEED`
//! changes their seed, `SUMBILAK_STORIES` prints the lists that wrong rules
//! were noticed in. A build with debug assertions runs less.

#[path = "power_cuts/beginnings.rs"]
mod beginnings;
#[path = "power_cuts/converted.rs"]
mod converted;
#[path = "power_cuts/event.rs"]
mod event;
#[path = "power_cuts/every_plan.rs"]
mod every_plan;
#[path = "power_cuts/exhaustive.rs"]
mod exhaustive;
#[path = "power_cuts/figures.rs"]
mod figures;
#[path = "power_cuts/indexed.rs"]
mod indexed;
#[path = "power_cuts/lists.rs"]
mod lists;
#[path = "power_cuts/old_link.rs"]
mod old_link;
#[path = "power_cuts/plans.rs"]
mod plans;
#[path = "power_cuts/repaired.rs"]
mod repaired;
#[path = "power_cuts/rules.rs"]
mod rules;
#[path = "power_cuts/simulate.rs"]
mod simulate;
#[path = "power_cuts/volume.rs"]
mod volume;
#[path = "power_cuts/wrong.rs"]
mod wrong;

use std::collections::BTreeSet;
use std::env;
use std::time::Instant;

use event::{Hand, Request, DATA, LINK, MAP};
use exhaustive::{explore, Plans, Scope, Start, Tally};
use figures::{print, row, table, Figures};
use indexed::{Indexed, Uses};
use lists::Case;
use rules::{Library, Rules};
use simulate::{Simulator, Violation};
use sumbilak_reference::ffi::{self, LOAD_WORDS};
use sumbilak_reference::inputs::{
    self, encode, orders, put_entry, put_units, put_word, Edition, Fields, Shape, FENCE, X32,
};
use sumbilak_reference::rng::{mix, Rng};
use sumbilak_reference::settings::number;
use volume::Volume;

const SEED: u64 = 0x524D_4150_0002;

fn seed() -> u64 {
    number("SUMBILAK_SEED").unwrap_or(SEED)
}

/// A number of lists, as many times as asked for.
fn times(lists: u64) -> u64 {
    let lists = lists * number("SUMBILAK_LISTS").unwrap_or(1);
    if cfg!(debug_assertions) {
        lists.div_ceil(5)
    } else {
        lists
    }
}

const fn shape(p: u64, c: u64, m: u64, n: u64) -> Shape {
    Shape::one(p, c, m, n)
}

/// A geometry of edition 2.
const fn two(p: u64, c: u64, m: u64, n: u64) -> Shape {
    shape(p, c, m, n).in_edition(Edition::Two)
}

/// What a volume is called by its edition and reserved units.
fn kind(shape: &Shape) -> String {
    match (shape.edition, shape.r) {
        (Edition::One, _) => String::new(),
        (Edition::Two, 0) => ", edition 2".to_string(),
        (Edition::Two, r) => format!(", edition 2, R={r}"),
    }
}

fn name(shape: &Shape) -> String {
    let Shape { p, c, m, n, .. } = shape;
    format!("P={p} C={c} M={m} N={n}{}", kind(shape))
}

/// Every violation counts.
fn any(_: &Violation) -> bool {
    true
}

/// Geometries and how many lists each is given.
const VOLUMES: [(Shape, u64); 22] = [
    (shape(2, 1, 2, 2), 600),
    (shape(2, 1, 2, 3), 400),
    (shape(2, 2, 3, 2), 300),
    (shape(2, 2, 3, 4), 500),
    (shape(2, 2, 3, 6), 400),
    (shape(2, 3, 4, 5), 400),
    (shape(3, 2, 3, 6), 400),
    (shape(3, 3, 35, 9), 300),
    (shape(4, 4, 5, 4), 200),
    (shape(4, 4, 5, 12), 600),
    (shape(4, 4, 5, 20), 1500),
    (shape(16, 1, 2, 16), 200),
    (shape(16, 1, 2, 32), 200),
    (shape(16, 4, 36, 65), 200),
    (shape(5, 12, 13, 63), 200),
    (shape(5, 12, 13, 64), 200),
    (shape(8, 16, 17, 129), 150),
    (shape(2, 32, 64, 128), 150),
    (shape(2, 256, 257, 514), 40),
    (shape(16, 256, 257, 2000), 20),
    (shape(16, 256, 288, 4096), 20),
    (shape(16, 256, 288, 4608), 40),
];

/// The same in both editions, in edition 2 with half as many lists, for the most
/// part with reserved units: one, three, as many as a chunk has, or more than
/// a word of the free set has bits.
fn volumes() -> impl Iterator<Item = (Shape, u64)> {
    (0..).zip(VOLUMES).flat_map(|(at, (shape, lists))| {
        let reserved = [1, 70, 3, shape.p][at % 4];
        [
            (shape, lists),
            (shape.in_edition(Edition::Two), lists.div_ceil(5)),
            (shape.reserving_before(reserved), lists.div_ceil(3)),
        ]
    })
}

#[test]
fn random_event_lists() {
    let begun = Instant::now();
    let seed = seed();
    let mut all = Figures::default();
    let mut rows = vec![row(
        "volume",
        &[
            "lists",
            "events",
            "refused",
            "finished",
            "cut",
            "LINK landed in a cut",
            "cuts with steps missing",
            "steps landed",
            "DATA not landed",
            "carried out",
            "violations",
        ],
    )];
    let mut failed: Option<Case> = None;
    let mut tell = |name: &str, figures: &Figures| {
        rows.push(row(
            name,
            &[
                figures.lists,
                figures.events,
                figures.refused,
                figures.finished,
                figures.cut,
                figures.cut_linked,
                figures.cut_partial,
                figures.steps_landed,
                figures.data_left,
                figures.carried,
                figures.violations,
            ],
        ));
    };

    for (at, (shape, lists)) in (0..).zip(volumes()) {
        let mut figures = Figures::default();
        let seed = mix(seed ^ at);
        let case = lists::run(&Library, shape, times(lists), seed, &any, &mut figures);
        failed = failed.or(case);
        tell(&name(&shape), &figures);
        all += &figures;
    }
    let mut figures = Figures::default();
    let mut rng = Rng::new(seed);
    for _ in 0..times(300) {
        let shape = inputs::shape(&mut rng);
        let case = lists::run(&Library, shape, 2, rng.next_u64(), &any, &mut figures);
        failed = failed.or(case);
    }
    tell("random geometries", &figures);
    all += &figures;
    tell("all", &all);

    let mut hands = vec![row("plans", &["accepted", "refused", "n too large"])];
    for (name, counts) in Hand::NAMES.iter().zip(all.hands) {
        hands.push(row(name, &counts));
    }
    let title = format!(
        "Random event lists, seed {seed:#X}, {:.1?}",
        begun.elapsed()
    );
    print(&table(&title, &rows));
    print(&table("Plans by hand", &hands));

    if let Some(case) = failed {
        panic!("{case}");
    }
    assert_eq!(all.hands[Hand::Damaged(0).index()][0], 0, "damaged plans");
    let mutated = all.hands[Hand::Mutated.index()];
    assert!(mutated.iter().all(|&count| count > 0), "mutated plans");
    let elsewhere = [true, false].map(|room| [Hand::Reserved { room }, Hand::Held { room }]);
    for hand in elsewhere.into_iter().flatten().chain([Hand::Scattered]) {
        let [accepted, refused, _] = all.hands[hand.index()];
        assert!(accepted == 0 && refused > 100, "{hand:?}");
    }
    assert!(all.cut_linked > 100 && all.cut_partial > 100);
}

/// Lists of the same kind through the calls with a held index, opened anew after
/// each cut and kept while plans finish.
#[test]
fn random_event_lists_with_an_index() {
    let begun = Instant::now();
    let seed = seed() ^ 0x7000;
    let mut all = Figures::default();
    let mut uses = Uses::default();
    let mut failed: Option<Case> = None;
    for (at, (shape, lists)) in (0..).zip(volumes()) {
        let mut figures = Figures::default();
        let (rules, lists) = (Indexed::default(), times(lists.div_ceil(3)));
        let case = lists::run(&rules, shape, lists, mix(seed ^ at), &any, &mut figures);
        failed = failed.or(case);
        all += &figures;
        uses += rules.uses();
    }
    println!(
        "With an index, {:.1?}: {} lists, {} events, {} refused, {} finished, {} cut ({} with LINK \
         landed, {} with steps missing), {} carried out on copies\n{uses:?}",
        begun.elapsed(),
        all.lists,
        all.events,
        all.refused,
        all.finished,
        all.cut,
        all.cut_linked,
        all.cut_partial,
        all.carried,
    );
    if let Some(case) = failed {
        panic!("{case}");
    }
    assert!(all.finished > 1000 && all.cut_linked > 1000 && all.cut_partial > 1000);
    assert!(uses.kept > 1000 && uses.opened > 1000, "{uses:?}");
}

/// 01's three writes on the 64 KB volume.
const WORKED_THROUGH: [(u64, u64); 3] = [(2, 6144), (0, 3072), (0, 5120)];

/// A volume from format on, until nothing new is reached.
const fn closure(shape: Shape, plans: Plans) -> Scope {
    Scope {
        shape,
        start: Start::Format(&[]),
        plans,
        depth: None,
    }
}

/// A volume from format on, by lists up to this length.
const fn lists_to(length: usize, shape: Shape) -> Scope {
    Scope {
        shape,
        start: Start::Format(&[]),
        plans: Plans::Two,
        depth: Some(length),
    }
}

/// A volume from every layout on, until nothing new is reached.
const fn from_layouts(shape: Shape, plans: Plans) -> Scope {
    Scope {
        shape,
        start: Start::EveryLayout,
        plans,
        depth: None,
    }
}

/// The volumes that are explored, and how far.
const SCOPES: [Scope; 42] = [
    lists_to(4, shape(2, 1, 2, 2)),
    lists_to(4, shape(2, 1, 2, 3)),
    lists_to(4, shape(2, 1, 2, 4)),
    lists_to(3, shape(2, 2, 3, 4)),
    lists_to(2, shape(2, 2, 3, 6)),
    lists_to(3, shape(3, 1, 2, 4)),
    lists_to(1, shape(4, 4, 5, 20)),
    Scope {
        shape: VOLUME_64K,
        start: Start::Format(&WORKED_THROUGH),
        plans: Plans::Edits,
        depth: Some(1),
    },
    Scope {
        shape: VOLUME_64K.in_edition(Edition::Two),
        start: Start::Format(&WORKED_THROUGH),
        plans: Plans::Edits,
        depth: Some(1),
    },
    Scope {
        shape: VOLUME_64K.reserving(3),
        start: Start::Format(&WORKED_THROUGH),
        plans: Plans::Edits,
        depth: Some(1),
    },
    lists_to(4, two(2, 1, 2, 3).reserving(1)),
    lists_to(3, two(2, 2, 3, 6).reserving(2)),
    closure(two(2, 1, 2, 3).reserving(1), Plans::Edits),
    closure(two(2, 1, 2, 3).reserving(1), Plans::EveryChoice),
    closure(two(2, 1, 2, 4).reserving(2), Plans::Edits),
    from_layouts(two(2, 1, 2, 4).reserving(1), Plans::EveryMap),
    from_layouts(two(2, 2, 3, 3).reserving(1), Plans::Two),
    closure(two(2, 1, 3, 5).reserving(3), Plans::EveryMap),
    lists_to(3, two(2, 1, 2, 2)),
    lists_to(2, two(2, 2, 3, 4)),
    lists_to(2, two(3, 1, 2, 4)),
    closure(two(2, 1, 2, 2), Plans::Edits),
    from_layouts(two(2, 1, 2, 2), Plans::EveryMap),
    from_layouts(two(2, 1, 2, 3), Plans::EveryMap),
    closure(two(2, 1, 3, 2), Plans::Two),
    from_layouts(two(2, 2, 3, 2), Plans::Two),
    from_layouts(two(2, 1, 2, 4), Plans::EveryMap),
    closure(two(3, 1, 2, 3), Plans::Two),
    closure(shape(2, 1, 2, 2), Plans::Edits),
    closure(shape(2, 1, 2, 3), Plans::Edits),
    closure(shape(2, 2, 3, 2), Plans::Edits),
    from_layouts(shape(2, 1, 2, 2), Plans::EveryChoice),
    from_layouts(shape(2, 1, 2, 3), Plans::EveryChoice),
    from_layouts(shape(2, 1, 2, 4), Plans::EveryChoice),
    from_layouts(shape(2, 1, 3, 2), Plans::EveryChoice),
    from_layouts(shape(2, 2, 3, 2), Plans::EveryChoice),
    from_layouts(shape(2, 2, 3, 3), Plans::EveryMap),
    from_layouts(shape(2, 2, 3, 4), Plans::Two),
    from_layouts(shape(2, 1, 3, 4), Plans::EveryMap),
    from_layouts(shape(3, 1, 2, 3), Plans::EveryMap),
    from_layouts(shape(3, 1, 2, 4), Plans::EveryMap),
    closure(shape(3, 1, 3, 3), Plans::Two),
];

/// Events after which a build with debug assertions leaves the rest out.
const LARGE: u64 = 2_000_000;

#[test]
fn small_volumes_exhaustively() {
    let begun = Instant::now();
    let mut rows = vec![row(
        "volume",
        &[
            "plans",
            "lists",
            "states",
            "expanded",
            "deepest",
            "plans accepted",
            "plans refused",
            "on other free units",
            "on held units",
            "no room, on held units",
            "on reserved units",
            "no room, on reserved units",
            "cut points",
            "subsets",
            "events",
            "carried out",
            "violations",
        ],
    )];
    let mut all = Tally::default();
    let mut failed = None;
    let mut tried = true;
    for scope in &SCOPES {
        if cfg!(debug_assertions) && all.events > LARGE {
            break;
        }
        let (tally, case) = explore(&Library, scope, &any);
        failed = failed.or(case);
        let lists = match scope.depth {
            Some(depth) => format!("up to {depth}"),
            None => "any length".to_string(),
        };
        let mut cells = vec![scope.plans.name().to_string(), lists];
        cells.extend(tally.cells().map(|figure| figure.to_string()));
        let started = match scope.start {
            Start::Format(&[]) => "",
            Start::EveryLayout => ", every layout",
            _ => ", worked through",
        };
        rows.push(row(&(name(&scope.shape) + started), &cells));
        tried &= scope.tries_elsewhere(&tally);
        all += &tally;
    }
    let mut cells = vec![String::new(), String::new()];
    cells.extend(all.cells().map(|figure| figure.to_string()));
    rows.push(row("all", &cells));
    let title = format!("Small volumes, exhaustively, {:.1?}", begun.elapsed());
    print(&table(&title, &rows));
    if let Some(case) = failed {
        panic!("{case}");
    }
    assert!(tried, "plans on other units than the lowest free ones");
}

/// Two orders by every map reach the same states as every order and one more
/// FENCE anywhere do, as [`Plans::EveryMap`] says.
#[test]
fn other_orders_and_fences_make_no_more_states() {
    for shape in [shape(2, 1, 2, 3), shape(2, 1, 3, 2)] {
        let [some, all] = [Plans::EveryMap, Plans::EveryChoice].map(|plans| {
            let (tally, case) = explore(&Library, &closure(shape, plans), &any);
            assert!(case.is_none(), "{}", name(&shape));
            tally
        });
        assert_eq!(some.states, all.states);
        assert!(some.accepted < all.accepted);
    }
}

/// The legal plans of exactly so many steps on the smallest volume, for a
/// write of 4,096 bytes or a discard of chunk 0. Mapped, it is on the first unit
/// that is not reserved and map 0. In edition 2, where plans are longer, only
/// those with this end.
///
/// A write takes six steps at least, in edition 2 seven, and with so many there
/// is room for no more fences: DATA and the MAP steps in any order, FENCE, LINK,
/// FENCE; on the lowest free unit, by either map that is free. A discard has
/// fences before and after LINK, at least one after.
fn legal_plans(
    shape: &Shape,
    write: bool,
    mapped: bool,
    length: usize,
    end: &[Fields],
) -> BTreeSet<Vec<u8>> {
    let mut legal = BTreeSet::new();
    let size_words = shape.size_words() as u32;
    if write && length == 6 + size_words as usize {
        let unit = shape.r as u32 + u32::from(mapped);
        for map in u32::from(mapped)..2 {
            let mut stores = vec![[DATA, unit, 0, 0]];
            stores.extend((0..size_words).map(|word| [MAP, map, word, 4096]));
            stores.push([MAP, map, size_words, unit]);
            stores.push([MAP, map, size_words + 1, X32]);
            for mut steps in orders(&stores) {
                steps.extend([FENCE, [LINK, 0, 0, map], FENCE]);
                if steps.ends_with(end) {
                    legal.insert(encode(&steps));
                }
            }
        }
    } else if !write && mapped {
        for link in 0..length.saturating_sub(1) {
            let mut steps = vec![FENCE; length];
            steps[link] = [LINK, 0, 0, X32];
            legal.insert(encode(&steps));
        }
    } else if !write && length == 0 {
        legal.insert(Vec::new());
    }
    legal
}

/// Of all plans that a few steps can make on the smallest volume the checker
/// accepts exactly the legal ones. All plans of six steps are 64 million and
/// only tried where more lists are asked for; else those that end in FENCE. In
/// edition 2, with and without a reserved unit, plans of four steps are tried
/// before FENCE, LINK, FENCE.
#[test]
fn of_every_short_plan_only_the_legal_ones_pass() {
    let begun = Instant::now();
    let mut rows = vec![row("plans", &["steps", "tried", "accepted", "legal"])];
    let mut all_good = true;
    // Two units each that are not reserved.
    let smallest = shape(2, 1, 2, 2);
    for shape in [
        smallest,
        smallest.in_edition(Edition::Two),
        smallest.reserving_before(1),
    ] {
        all_good &= every_short_plan(shape, &mut rows);
    }
    let title = format!("Every plan of a few steps, {:.1?}", begun.elapsed());
    print(&table(&title, &rows));
    assert!(all_good, "the checker accepts exactly the legal plans");
}

fn every_short_plan(shape: Shape, rows: &mut Vec<Vec<String>>) -> bool {
    let edition = shape.edition;
    let fresh = Volume::formatted(&shape, || 0).image;
    let mut mapped = fresh.clone();
    put_entry(&mut mapped, 0, 0);
    put_units(&shape, &mut mapped, 0, &[shape.r]);

    let most = match edition {
        Edition::Two => 3,
        _ if cfg!(debug_assertions) => 4,
        _ => 5,
    };
    let all_of_six = number("SUMBILAK_LISTS").is_some_and(|times| times > 1);
    let ends = [0, 1].map(|map| [FENCE, [LINK, 0, 0, map], FENCE]);
    let mut all_good = true;
    for (image, is_mapped) in [(&mapped, true), (&fresh, false)] {
        for size in [Some(4096), None] {
            let request = Request { chunk: 0, size };
            let mut runs: Vec<(usize, &[Fields])> = (0..=most).map(|at| (at, &[][..])).collect();
            match edition {
                Edition::One if all_of_six => runs.push((6, &[])),
                Edition::One if size.is_some() => runs.push((most, &[FENCE])),
                Edition::Two if size.is_some() => runs.extend([(4, &ends[0][..]), (4, &ends[1])]),
                _ => {}
            }
            for (length, end) in runs {
                let steps = length + end.len();
                let legal = legal_plans(&shape, size.is_some(), is_mapped, steps, end);
                let (tried, accepted) = every_plan::accepted(&shape, image, request, length, end);
                all_good &= accepted == legal;
                let name = format!(
                    "{} of {} chunk{}{}",
                    if size.is_some() { "write" } else { "discard" },
                    if is_mapped { "a mapped" } else { "an unmapped" },
                    match end.len() {
                        0 => "",
                        1 => ", FENCE last",
                        _ => ", FENCE, LINK, FENCE last",
                    },
                    kind(&shape),
                );
                let figures = [
                    steps as u64,
                    tried,
                    accepted.len() as u64,
                    legal.len() as u64,
                ];
                rows.push(row(&name, &figures));
            }
        }
    }
    all_good
}

/// The 64 KB volume.
const VOLUME_64K: Shape = shape(4, 4, 5, 20);

/// Lists for a wrong rule to be noticed in.
const CHANCES: u64 = 3000;

/// Runs random lists under a wrong rule until a violation that `tells` picks is
/// seen. The right rules pass the same lists.
fn notice_at_random<R: Rules>(
    shape: Shape,
    rule: &str,
    rules: &R,
    tells: &dyn Fn(&Violation) -> bool,
) -> (Figures, Case) {
    let mut figures = Figures::default();
    let case = lists::run(rules, shape, CHANCES, seed(), tells, &mut figures);
    let case = case.unwrap_or_else(|| panic!("{rule}: not noticed"));
    let control = &mut Figures::default();
    let right = lists::run(&Library, shape, figures.lists, seed(), &any, control);
    assert!(right.is_none(), "{rule}: the right rules fail as well");
    (figures, case)
}

/// Runs a wrong rule until each of these violations is seen, by random lists
/// on the 64 KB volume and exhaustively on a small one.
///
/// The violations are those of the volume: answers are not compared with the
/// right ones here. With `SUMBILAK_STORIES` set the lists are printed.
fn notice<R: Rules>(rule: &str, rules: &R, violations: &[&str]) {
    notice_in(Edition::One, rule, rules, violations);
}

/// The same in this edition.
fn notice_in<R: Rules>(edition: Edition, rule: &str, rules: &R, violations: &[&str]) {
    let shapes = [VOLUME_64K, shape(2, 2, 3, 4)].map(|shape| shape.in_edition(edition));
    notice_on(shapes, rule, rules, violations);
}

/// The same on these volumes, the second one exhaustively.
fn notice_on<R: Rules>(shapes: [Shape; 2], rule: &str, rules: &R, violations: &[&str]) {
    let [shape, small] = shapes;
    let mut rows = vec![row(
        "violation",
        &[
            "random list",
            "event",
            "events it takes",
            "exhaustively, event",
            "list of",
        ],
    )];
    let mut stories = String::new();
    for &violation in violations {
        let tells = |seen: &Violation| seen.name() == violation;
        let rule = format!("{rule}, {violation}");
        let (figures, case) = notice_at_random(shape, &rule, rules, &tells);
        let scope = closure(small, Plans::Edits);
        let (tally, found) = explore(rules, &scope, &tells);
        let found = found.unwrap_or_else(|| panic!("{rule}: not noticed exhaustively"));
        rows.push(row(
            violation,
            &[
                figures.lists,
                figures.events,
                case.events.len() as u64,
                tally.events,
                found.events.len() as u64,
            ],
        ));
        stories += &format!("\n{case}\n{found}");
    }
    print(&table(&format!("Noticed: {rule}{}", kind(&shape)), &rows));
    if env::var_os("SUMBILAK_STORIES").is_some() {
        print(&stories);
    }
}

const NEITHER: &str = "neither all new nor all old";
const LEDGER: &str = "not what the ledger gives";
const UNFINISHED: &str = "finished but not landed";
const LOAD: &str = "does not load";
const NO_MAP: &str = "a map that is not there";
const TWO_OWNERS: &str = "unit with two owners";
const CARRIER: &str = "carrying out";
const SIZE: &str = "another stored size";
const SIZE_FLAW: &str = "a size of other units";
const TRAILER: &str = "trailer changed";
const OVERWRITTEN: &str = "reserved unit overwritten";
const ON_RESERVED: &str = "a chunk on a reserved unit";
const RESERVED_DATA: &str = "reserved unit planned";
const NOT_LOWEST: &str = "not the lowest unit planned";
const SCATTERED: &str = "a chunk not on the lowest units";
const VERDICT: &str = "verdict";

/// "LINK before the fence: a cut shows a map that isn't there." (01)
#[test]
fn a_checker_without_the_fence_before_link_is_caught() {
    let rules = wrong::Checker(wrong::without_the_fence_before_link);
    notice(
        "LINK before the fence",
        &rules,
        &[NO_MAP, NEITHER, LEDGER, LOAD],
    );
    // In edition 2 the size may be what is not there.
    notice_in(
        Edition::Two,
        "LINK before the fence",
        &rules,
        &[NO_MAP, SIZE_FLAW, SIZE, NEITHER, LOAD],
    );
}

/// "word 0 holds [..] the request's size (rule 3)" (02, request 4): a checker
/// that lets any size pass makes maps that do not load, or chunks whose size is
/// not the one they were written with.
#[test]
fn a_checker_that_lets_a_wrong_size_pass_is_caught() {
    let rules = wrong::Checker(wrong::with_any_size);
    let kinds = [SIZE, SIZE_FLAW, LOAD];
    notice_in(Edition::Two, "any size passes", &rules, &kinds);
    // "also where it takes as many units" (Decision 66).
    let rules = wrong::Checker(wrong::with_rounded_sizes);
    notice_in(Edition::Two, "sizes compared in units", &rules, &[SIZE]);
}

/// "P+1 words for each map: first the compressed size, then the units" (02,
/// request 4).
#[test]
fn word_0_taken_for_a_unit_is_caught() {
    let rules = wrong::Checker(wrong::with_word_0_a_unit);
    let kinds = [LEDGER, SIZE, LOAD];
    notice_in(Edition::Two, "units from word 0 on", &rules, &kinds);
    // A size that is below N by chance, which small volumes' requests never are.
    for violation in ["free set", "planner"] {
        let tells = |seen: &Violation| seen.name() == violation;
        let shape = VOLUME_64K.in_edition(Edition::Two);
        notice_at_random(shape, violation, &wrong::SizeAsUnit, &tells);
    }
}

/// Two volumes of edition 2 with reserved units, on which 9 can occur.
const WITH_RESERVED: [Shape; 2] = [VOLUME_64K.reserving(3), two(2, 2, 3, 4).reserving(2)];

/// Explores a scope with reserved units under a wrong rule, until each of these
/// violations is seen.
fn notice_in_scope<R: Rules>(rule: &str, rules: &R, scope: &Scope, violations: &[&str]) {
    for &violation in violations {
        let tells = |seen: &Violation| seen.name() == violation;
        let (_, found) = explore(rules, scope, &tells);
        let scope = (name(&scope.shape), scope.plans);
        assert!(found.is_some(), "{rule}, {violation}: not in {scope:?}");
    }
}

/// "Units below R are never free and never held" (02, request 5): a checker that
/// takes them for free lets the boot loader be written over, and what loads no
/// more be linked.
#[test]
fn a_checker_that_takes_reserved_units_for_free_is_caught() {
    let rules = wrong::Checker(wrong::with_reserved_units_free);
    let kinds = [VERDICT, RESERVED_DATA, OVERWRITTEN, ON_RESERVED, LOAD];
    let rule = "reserved units free to the checker";
    notice_on(WITH_RESERVED, rule, &rules, &kinds);
    // In each scope that has some, whichever plans are tried there.
    let scopes = || SCOPES.iter().filter(|scope| scope.shape.r > 0);
    scopes().for_each(|scope| notice_in_scope(rule, &rules, scope, &kinds));

    // A checker that takes them only for want of others.
    let rules = wrong::Checker(wrong::with_reserved_units_at_need);
    let rule = "reserved units free where others are too few";
    notice_on(WITH_RESERVED, rule, &rules, &kinds);
    let needy = scopes().filter(|scope| scope.wants_units());
    needy.for_each(|scope| notice_in_scope(rule, &rules, scope, &kinds));

    // "A DATA step on a reserved unit breaks rule 2" (Decision 76), not another.
    let rules = wrong::Checker(wrong::with_reserved_units_no_units);
    let rule = "reserved units refused by rule 1";
    notice_on(WITH_RESERVED, rule, &rules, &[VERDICT]);
    scopes().for_each(|scope| notice_in_scope(rule, &rules, scope, &[VERDICT]));
}

/// The same of a loader and a planner; then the library's checker lets no such
/// plan pass.
#[test]
fn a_planner_that_takes_reserved_units_for_free_is_caught() {
    let rules = wrong::ReservedFree {
        checker_agrees: true,
    };
    let kinds = [
        "free set",
        "load's value",
        "planner",
        RESERVED_DATA,
        OVERWRITTEN,
        ON_RESERVED,
    ];
    notice_on(WITH_RESERVED, "reserved units free", &rules, &kinds);

    let rules = wrong::ReservedFree {
        checker_agrees: false,
    };
    let harm = |seen: &Violation| {
        let kinds = [RESERVED_DATA, OVERWRITTEN, ON_RESERVED, LOAD, LEDGER];
        kinds.contains(&seen.name())
    };
    let mut figures = Figures::default();
    let case = lists::run(&rules, WITH_RESERVED[0], 100, seed(), &harm, &mut figures);
    assert!(case.is_none(), "the right checker refuses");
    assert!(figures.hands[Hand::Planner.index()][1] > 0, "and has to");
}

/// "A plan on other free units, accepted until now, gives 11 with rule 2" (02,
/// request 6): checkers that let some of them pass. No chunk comes to harm by
/// that, so it takes the rule's own words to notice.
#[test]
fn a_checker_that_takes_other_free_units_is_caught() {
    let kinds = [VERDICT, NOT_LOWEST, SCATTERED];
    let checkers: [(&str, wrong::CheckFn); 3] = [
        ("any different free units", wrong::with_any_free_units),
        ("free units that rise", wrong::with_rising_free_units),
        ("the lowest in any order", wrong::with_lowest_in_any_order),
    ];
    for (rule, check) in checkers {
        let rules = wrong::Checker(check);
        notice(rule, &rules, &kinds);
        notice_in(Edition::Two, rule, &rules, &kinds);
        notice_on(WITH_RESERVED, rule, &rules, &kinds);
        // In each scope, whichever plans are tried there.
        SCOPES
            .iter()
            .for_each(|scope| notice_in_scope(rule, &rules, scope, &kinds));

        // Whatever else is asked of a volume holds after such plans too.
        let others = |seen: &Violation| !kinds.contains(&seen.name());
        let mut figures = Figures::default();
        for shape in [VOLUME_64K, VOLUME_64K.reserving(3)] {
            let case = lists::run(&rules, shape, times(50), seed(), &others, &mut figures);
            assert!(case.is_none(), "{rule}: no harm is done");
        }
        let [accepted, ..] = figures.hands[Hand::Scattered.index()];
        assert!(accepted > 0, "{rule}: such plans pass");
        for shape in [shape(2, 1, 2, 3), two(2, 1, 2, 3).reserving(1)] {
            let scope = closure(shape, Plans::EveryMap);
            let (_, case) = explore(&rules, &scope, &others);
            assert!(case.is_none(), "{rule}: no harm is done");
        }
    }
}

/// "The choice of map stays free" (02, request 6), and so does "the order of the
/// DATA steps" (Decision 82). "The checker never gives 9." (Decision 83)
#[test]
fn a_checker_that_asks_for_more_than_the_lowest_units_is_caught() {
    // Volumes on which units become too few.
    let shapes = [shape(4, 4, 5, 12), shape(2, 1, 2, 3)];
    let checkers: [(&str, wrong::CheckFn); 3] = [
        ("the lowest map only", wrong::with_the_lowest_map_only),
        ("DATA steps in order only", wrong::with_data_in_order_only),
        ("9 for want of units", wrong::with_no_room),
    ];
    for (rule, check) in checkers {
        let rules = wrong::Checker(check);
        notice_on(shapes, rule, &rules, &[VERDICT]);
        let reserving = shapes.map(|shape| shape.reserving_before(1));
        notice_on(reserving, rule, &rules, &[VERDICT]);
    }
}

/// "No last FENCE": a plan is finished, and yet its LINK has not landed.
#[test]
fn a_checker_without_the_last_fence_is_caught() {
    let rules = wrong::Checker(wrong::without_the_last_fence);
    notice("no last FENCE", &rules, &[UNFINISHED, LEDGER]);
}

/// "No last FENCE: the next plan reuses old units while the old link may come
/// back." (01)
#[test]
fn an_old_link_that_comes_back_is_caught() {
    old_link_in(Edition::One);
    old_link_in(Edition::Two);
}

fn old_link_in(edition: Edition) {
    let right = old_link::run(edition, true);
    let wrong = old_link::run(edition, false);
    let cells = |cuts: old_link::Cuts| [cuts.tried, cuts.lost, cuts.lies];
    let rows = [
        row(
            "first plan",
            &["cuts of the next", "write lost", "pieces nobody gave"],
        ),
        row("without its last FENCE", &cells(wrong)),
        row("with it", &cells(right)),
    ];
    print(&table("Noticed: the old link comes back", &rows));
    assert!(right.tried > 0 && right.lost == 0 && right.lies == 0);
    assert!(wrong.lost > 0 && wrong.lies > 0);
}

/// "Old units counted free for the write that replaces them." (01)
#[test]
fn a_planner_that_counts_old_units_as_free_is_caught() {
    let rules = wrong::GreedyPlanner {
        checker_agrees: true,
    };
    notice("old units counted free", &rules, &[NEITHER, LEDGER]);
    let rules = wrong::Checker(wrong::with_old_units_free);
    notice(
        "old units free to the checker only",
        &rules,
        &[NEITHER, LEDGER],
    );

    // The library's checker lets no such plan pass.
    let rules = wrong::GreedyPlanner {
        checker_agrees: false,
    };
    let harm = |seen: &Violation| [NEITHER, LEDGER].contains(&seen.name());
    let mut figures = Figures::default();
    let case = lists::run(&rules, VOLUME_64K, 100, seed(), &harm, &mut figures);
    assert!(case.is_none(), "the right checker refuses");
    assert!(figures.hands[Hand::Planner.index()][1] > 0, "and has to");
}

/// "Rebuilding the free set from all maps, not the named ones: dead maps leak
/// units." (01) No piece is lost by that, but units are: the free set is not
/// what no named map holds, and the planner says 9 on a volume with room for
/// any one write.
#[test]
fn a_free_set_from_all_maps_is_caught() {
    notice(
        "free set from all maps",
        &wrong::AllMaps,
        &["free set", "planner"],
    );
    let no_room =
        |seen: &Violation| matches!(seen, Violation::Planner { answer, .. } if answer.number == 9);
    notice_at_random(VOLUME_64K, "no room", &wrong::AllMaps, &no_room);
}

/// "On a double claim, letting the later chunk win." (01)
#[test]
fn a_later_chunk_that_wins_a_double_claim_is_caught() {
    let rules = wrong::Checker(wrong::with_the_later_chunk_winning);
    notice("the later chunk wins", &rules, &[TWO_OWNERS, LOAD, LEDGER]);

    // Chunks 0 and 3 both name map 0: "6 with 0 and 3" (01).
    let simulator = Simulator::new(&Library, VOLUME_64K);
    let mut volume = Volume::formatted(&VOLUME_64K, || 0);
    volume.units[7] = 77;
    put_entry(&mut volume.image, 0, 0);
    put_word(&mut volume.image, VOLUME_64K.unit_at(0, 0), 7);
    volume.ledger[0] = vec![77];
    volume.sizes[0] = 4096;
    let mut violations = Vec::new();
    simulator.verify(&volume.image, &mut violations);
    simulator.verify_pieces(&volume, &mut violations);
    assert_eq!(violations, [], "a sound volume");

    put_entry(&mut volume.image, 3, 0);
    let answer = ffi::load(&volume.image, &mut [0; LOAD_WORDS]);
    assert_eq!([answer.number, answer.place, answer.second], [6, 0, 3]);
    simulator.verify(&volume.image, &mut violations);
    assert!(violations.iter().any(|seen| seen.name() == TWO_OWNERS));

    // Taking map 0 from chunk 0 makes the image load, and both chunks lie.
    violations.clear();
    wrong::let_the_later_chunk_win(&VOLUME_64K, &mut volume.image);
    simulator.verify(&volume.image, &mut violations);
    assert_eq!(violations, [], "it loads again");
    simulator.verify_pieces(&volume, &mut violations);
    let lies: Vec<&str> = violations.iter().map(Violation::name).collect();
    assert_eq!(lies, [SIZE, LEDGER, SIZE, LEDGER]);
}

/// "Everything earlier is durable before anything later starts." (01)
#[test]
fn a_landing_that_ignores_fences_is_caught() {
    let kinds = [NO_MAP, NEITHER, LEDGER, UNFINISHED, LOAD];
    notice("a landing without fences", &wrong::Unfenced, &kinds);
}

/// "A word lands whole" (01).
#[test]
fn words_that_land_by_half_are_caught() {
    let kinds = ["bad link", NEITHER, LEDGER, LOAD];
    notice("words that land by half", &wrong::TornWords, &kinds);
    // A size by half is 2^32 too small or too large.
    let kinds = [LEDGER, LOAD];
    notice_in(
        Edition::Two,
        "words that land by half",
        &wrong::TornWords,
        &kinds,
    );
}

/// "the trailer's bytes never change" (Decision 24), and "where all n have
/// landed, that is byte for byte what carrying out n steps leaves" (01).
#[test]
fn words_stored_one_place_too_far_are_caught() {
    let kinds = [TRAILER, "not as carried out", LOAD];
    notice("words one place too far", &wrong::WordsTooFar, &kinds);
}

/// "one that accepts all" (01).
#[test]
fn a_checker_that_accepts_all_is_caught() {
    let rules = wrong::Checker(wrong::of_rule_1_only);
    let kinds = [TWO_OWNERS, "map with two owners", NO_MAP, LEDGER, LOAD];
    notice("a checker of rule 1 only", &rules, &kinds);
}

/// "a carrier that does nothing"; "one that stores everything at step one"
/// (01); and one that stores before it refuses.
#[test]
fn wrong_carriers_are_caught() {
    notice(
        "a carrier that does nothing",
        &wrong::Carrier::Idle,
        &[CARRIER],
    );
    notice(
        "a carrier that stores all at step one",
        &wrong::Carrier::AllAtOnce,
        &[CARRIER],
    );
    notice(
        "a carrier that stores, then refuses",
        &wrong::Carrier::StoresFirst,
        &[CARRIER],
    );
    let changed = |seen: &Violation| *seen == Violation::RefusedChanged;
    let rules = &wrong::Carrier::StoresFirst;
    notice_at_random(VOLUME_64K, "refused", rules, &changed);
}
