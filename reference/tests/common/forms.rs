//! Forms of images, requests and plans that an entry point must have met,
//! besides the rows and rules: those in which the two editions could be taken
//! for each other, sizes that do not fit their units (02, request 4), reserved
//! units (02, request 5), and plans on other units than the lowest (02,
//! request 6).

use std::collections::BTreeSet;

use sumbilak_reference::inputs::{self, Edition, Shape};
use sumbilak_reference::model;

use super::cases::{Call, Case, Entry};
use super::repairs;
use super::rows::Verdict;

pub const COUNT: usize = 53;

/// Forms of an image, then forms of a write's plan; the same with reserved
/// units, requests between them; forms of a format; two more of an image with
/// reserved units; forms of a write's plan by its units, those that pass and
/// those with nothing wrong but rule 2.
pub const NAMES: [&str; COUNT] = [
    "both tags, read as edition 1 and answered",
    "both tags, refused with 3",
    "32 to 39 bytes",
    "nothing wrong but the last number",
    "size 0",
    "size a byte too large",
    "size a byte too small",
    "size above P·4,096",
    "size right but for 2^32",
    "size X",
    "size of a dead map that fits nothing",
    "plan of the other edition",
    "another size of as many units",
    "another size, other units",
    "size 0 or above P·4,096 in word 0",
    "X in word 0",
    "word 0 missing",
    "word P missing",
    "word P, a unit",
    "nothing wrong but R of N-P+1",
    "nothing wrong but R of N or more",
    "units reserved, answered",
    "named map wrong by a reserved unit alone",
    "unit R-1 in a named map",
    "unit R in a named map, answered",
    "reserved unit in a dead map, answered",
    "reserved unit named twice",
    "9, reserved units would do",
    "R, and N-R of just (C+1)·P, answered",
    "R, and N-R one less, 9",
    "sounds, silent were reserved units free",
    "a fraction of N-R would answer otherwise",
    "rule 2 by a reserved unit in DATA alone",
    "rule 3, a reserved unit in MAP",
    "rule 1 or 2, a reserved unit in MAP alone",
    "format, nothing wrong but R of N-P+1",
    "format, R good but for 2^32",
    "format, nothing wrong but N below P, R above 0",
    "R next to a whole word of the free set, answered",
    "unit 0 in a named map, and reserved",
    "accepted on another map than the lowest",
    "accepted with DATA steps in another order",
    "accepted with a FENCE between DATA and MAP steps",
    "accepted on the lowest units, held ones between",
    "accepted, own old units lower than the last unit",
    "other free units and nothing else wrong",
    "rule 2, each unit one place too high",
    "rule 2, two of the lowest units swapped",
    "rule 2, one unit a higher free one",
    "rule 2, own old units counted among the lowest",
    "rule 2, others' units counted among the lowest",
    "rule 2, reserved units counted among the lowest",
    "rule 2 for want of free units",
];

const IMAGES: usize = 11;
const RESERVED: usize = 19;
const FORMATS: usize = 35;
const LOWEST: usize = 40;

/// Whether an entry point of an edition has to meet a form; if not, it must not
/// meet it either. Edition 1 has no sizes and no reserved units; a repair does
/// not refuse them, and a converter refuses all of edition 2.
pub fn possible(entry: Entry, edition: usize, form: usize) -> bool {
    let converts = entry == Entry::Convert;
    let checks = matches!(entry, Entry::CheckWrite | Entry::CarryWrite);
    let format = matches!(entry, Entry::Format | Entry::Format2);
    match (edition, form) {
        (2, FORMATS..=37) => entry == Entry::Format2,
        _ if format => false,
        (1, 0 | 1) => true,
        (0, 2) => true,
        (2, 3) => true,
        (2, 4..=10) => !converts,
        (1 | 2, 11) => checks,
        (2, IMAGES..RESERVED) => checks,
        (2, 19 | 20) => true,
        (2, 21..=26 | 38 | 39) => !converts,
        (2, 27..=29) => entry == Entry::PlanWrite,
        (2, 30) => matches!(entry, Entry::AlarmCount | Entry::AlarmFraction),
        (2, 31) => entry == Entry::AlarmFraction,
        (2, 32..=34) => checks,
        // "in both editions" (Decision 82).
        (2, 51) => checks,
        (1 | 2, LOWEST..=50 | 52) => checks,
        _ => false,
    }
}

fn tagged(image: &[u8], back: usize, version: u8) -> bool {
    let start = [b'R', b'M', b'A', b'P', version, 0];
    let at = image.len().checked_sub(back);
    at.is_some_and(|at| image[at..].starts_with(&start))
}

/// Every form that a case has.
pub fn of(case: &Case, answer: &[u64; 9], verdict: &Verdict) -> Vec<usize> {
    let image = &case.image;
    let number = answer[0];
    let mut forms = Vec::new();
    let mut put = |form: usize, holds: bool| {
        if holds {
            forms.push(form);
        }
    };
    match case.call {
        Call::Format { .. } => return forms,
        Call::Format2 { p, c, m, n, r } => {
            return format_forms([p, c, m, n, r], image.len(), number)
        }
        _ => {}
    }
    let both = tagged(image, 32, 1) && tagged(image, 40, 2);
    put(0, both && number == 0);
    put(1, both && number == 3);
    put(2, (32..40).contains(&image.len()) && number == 2);
    if verdict.edition == 2 && image.len() >= 40 && verdict.rows().contains(&3) {
        // One of the last two numbers, and nothing else is wrong.
        let loads_without = |back: usize| {
            let mut zeroed = image.clone();
            zeroed[image.len() - back..][..4].fill(0);
            model::load(&zeroed).is_ok()
        };
        let Shape { p, n, r, .. } = repairs::shape(image);
        put(3, loads_without(4));
        let reserved_only = loads_without(8);
        put(19, reserved_only && r + p == n + 1);
        put(20, reserved_only && r >= n);
    }
    let sound_trailer = verdict.edition == 2 && !verdict.rows().iter().any(|&row| row < 4);
    if sound_trailer {
        let shape = repairs::shape(image);
        let kept = |form: &usize| (4..IMAGES).contains(form);
        forms.extend(sizes(&shape, image).into_iter().filter(kept));
        if shape.r > 0 {
            forms.extend(reserved_forms(&shape, image, number));
            forms.extend(request_forms(&shape, case, answer));
        }
    }
    if number == 11 || number == 0 {
        if let Call::CheckWrite { chunk, size } | Call::CarryWrite { chunk, size, .. } = case.call {
            let shape = repairs::shape(image);
            let given = [number, answer[1]];
            forms.extend(plan_forms(&shape, size, &case.plan, given));
            // Nothing is wrong, or nothing but rule 2.
            if number == 0 || verdict.rules() == [2] {
                forms.extend(lowest_forms(&shape, image, chunk, size, &case.plan));
            }
            if shape.r > 0 {
                forms.extend(reserved_plan_forms(&shape, image, size, &case.plan, given));
            }
        }
    }
    forms
}

/// What is special about the R of a format.
fn format_forms(numbers: [u64; 5], len: usize, answer: u64) -> Vec<usize> {
    let [p, c, m, n, r] = numbers;
    // Whether another N and R would do.
    let good_with = |n: u64, r: u64| {
        let mut image = vec![0; len];
        model::format2(&mut image, p, c, m, n, r).is_ok()
    };
    if answer == 0 {
        return Vec::new();
    }
    let mut forms = Vec::new();
    if r > 0 && n < p && good_with(p, 0) {
        forms.push(37);
    } else if r >= inputs::TWO_32 && good_with(n, r % inputs::TWO_32) {
        forms.push(36);
    } else if n >= p && r == n - p + 1 && good_with(n, r - 1) {
        forms.push(35);
    }
    forms
}

/// Reserved units in the maps of an image, of which some are reserved.
fn reserved_forms(shape: &Shape, image: &[u8], number: u64) -> Vec<usize> {
    let words = |map: u64| -> Vec<u64> {
        let units = (0..shape.p).map(|j| inputs::word(image, shape.unit_at(map, j)));
        units.collect()
    };
    let mut forms = Vec::new();
    let mut seen = BTreeSet::new();
    for chunk in inputs::mapped(shape, image) {
        let map = inputs::entry(image, chunk);
        let words = words(map);
        // What it would hold if nothing were reserved.
        let held = words.iter().take_while(|&&word| word < shape.n).count();
        let (units, rest) = words.split_at(held);
        let size = inputs::word(image, shape.word_at(map, 0));
        let form_good = held > 0 && rest.iter().all(|&word| word == inputs::X);
        let fits = size.div_ceil(4096) == held as u64;
        let reserved = units.iter().any(|&unit| unit < shape.r);
        if form_good && fits && reserved {
            forms.push(22);
        }
        if words.contains(&(shape.r - 1)) {
            forms.push(23);
        }
        if number == 0 && words.contains(&shape.r) {
            forms.push(24);
        }
        if words.contains(&0) {
            forms.push(39);
        }
        if words
            .iter()
            .any(|&word| word < shape.r && !seen.insert(word))
        {
            forms.push(26);
        }
    }
    if number == 0 {
        forms.push(21);
        if shape.r >= 63 && [63, 0, 1].contains(&(shape.r % 64)) {
            forms.push(38);
        }
        let reserved = |map: u64| words(map).iter().any(|&word| word < shape.r);
        let mut dead = inputs::free_maps(shape, image).into_iter();
        if dead.any(reserved) {
            forms.push(25);
        }
    }
    // Once for an image.
    forms.sort_unstable();
    forms.dedup();
    forms
}

/// Answers that would be others if reserved units were free, or left out of N.
fn request_forms(shape: &Shape, case: &Case, answer: &[u64; 9]) -> Vec<usize> {
    let [number, place, _, value, ..] = *answer;
    let free = inputs::free_units(shape, &case.image).len() as u64;
    let Shape { p, c, n, r, .. } = *shape;
    let room = (c + 1) * p;
    let mut forms = Vec::new();
    match case.call {
        Call::PlanWrite { size, .. } => {
            if number == 9 && size.div_ceil(4096) <= place + r {
                forms.push(27);
            }
            if number == 0 && n - r == room {
                forms.push(28);
            }
            if number == 9 && n - r == room - 1 {
                forms.push(29);
            }
        }
        Call::AlarmCount { units } if [number, value] == [0, 1] && free + r >= units => {
            forms.push(30);
        }
        Call::AlarmFraction { fraction } if number == 0 => {
            let sounds = |free: u64, n: u64| (free as f64) < fraction * n as f64;
            if value == 1 && !sounds(free + r, n) {
                forms.push(30);
            }
            if sounds(free, n) != sounds(free, n - r) {
                forms.push(31);
            }
        }
        _ => {}
    }
    forms
}

/// Reserved units in a write's plan that was refused with 11 and this rule.
fn reserved_plan_forms(
    shape: &Shape,
    image: &[u8],
    size: u64,
    plan: &[u8],
    answer: [u64; 2],
) -> Vec<usize> {
    let [number, rule] = answer;
    if number == 0 {
        return Vec::new();
    }
    let steps = inputs::decode(plan);
    let of_kind = |kind: u32| steps.iter().filter(move |step| step[0] == kind);
    let mut pieces: Vec<u64> = of_kind(1).map(|step| u64::from(step[2])).collect();
    let units: Vec<u64> = of_kind(1).map(|step| u64::from(step[1])).collect();
    pieces.sort_unstable();
    let different: BTreeSet<u64> = units.iter().copied().collect();
    let in_data = units.iter().any(|&unit| unit < shape.r);
    let in_map = of_kind(2).any(|step| step[2] > 0 && u64::from(step[3]) < shape.r);
    let free = inputs::free_units(shape, image);
    let free_or_reserved = |unit: &u64| *unit < shape.r || free.contains(unit);
    let alone = pieces.into_iter().eq(0..size.div_ceil(4096))
        && different.len() == units.len()
        && units.iter().all(free_or_reserved);
    let mut forms = Vec::new();
    if rule == 2 && in_data && alone {
        forms.push(32);
    }
    if rule == 3 && in_map {
        forms.push(33);
    }
    if rule < 3 && in_map && !in_data {
        forms.push(34);
    }
    forms
}

/// The units of a write's plan that passes, or has nothing wrong but rule 2: how
/// they lie to the lowest that are free, and what else such a plan may choose.
fn lowest_forms(shape: &Shape, image: &[u8], chunk: u64, size: u64, plan: &[u8]) -> Vec<usize> {
    let steps = inputs::decode(plan);
    let mut data: Vec<[u32; 4]> = steps.iter().copied().filter(|step| step[0] == 1).collect();
    let in_order = data.is_sorted_by_key(|step| step[2]);
    data.sort_unstable_by_key(|step| step[2]);
    let k = size.div_ceil(4096) as usize;
    if !data.iter().map(|step| step[2]).eq(0..k as u32) {
        return Vec::new();
    }
    let units: Vec<u64> = data.iter().map(|step| u64::from(step[1])).collect();
    let free = inputs::free_units(shape, image);
    let held_by = |chunk: u64| match inputs::entry(image, chunk) {
        inputs::X => Vec::new(),
        map => inputs::units_in(shape, image, map),
    };
    let own = held_by(chunk);
    let mut forms = Vec::new();
    let mut put = |form: usize, holds: bool| {
        if holds {
            forms.push(LOWEST + form);
        }
    };
    let Some(lowest) = free.get(..k) else {
        put(12, true);
        return forms;
    };
    if units == lowest {
        let map = steps.iter().find(|step| step[0] == 2).map(|step| step[1]);
        let lowest_map = inputs::free_maps(shape, image)[0];
        put(0, map.is_some_and(|map| u64::from(map) != lowest_map));
        put(1, !in_order);
        let stores = |step: &[u32; 4]| step[0] < 3;
        let last = steps.iter().rposition(stores).expect("a write has some");
        let first = steps.iter().position(stores).expect("the same");
        put(2, steps[first..last].contains(&inputs::FENCE));
        put(3, lowest.windows(2).any(|pair| pair[0] + 1 < pair[1]));
        put(4, own.iter().any(|&unit| unit < lowest[k - 1]));
        return forms;
    }
    let different: BTreeSet<u64> = units.iter().copied().collect();
    let all_free = units.iter().all(|unit| free.contains(unit));
    let apart: Vec<usize> = (0..k).filter(|&at| units[at] != lowest[at]).collect();
    put(5, all_free && different.len() == k);
    put(6, free.get(1..=k) == Some(&units[..]));
    put(
        7,
        matches!(apart[..], [a, b] if [units[a], units[b]] == [lowest[b], lowest[a]]),
    );
    put(
        8,
        matches!(apart[..], [at] if all_free && units[at] > lowest[k - 1]),
    );
    // The lowest, if some of these were free.
    let counted = |taken: &[u64]| {
        let used = units.iter().filter(|unit| taken.contains(unit));
        let mut all: Vec<u64> = free.iter().chain(used).copied().collect();
        let missing = all.len() == free.len();
        all.sort_unstable();
        !missing && all[..k] == units
    };
    put(9, counted(&own));
    let others = (0..shape.c).filter(|&other| other != chunk);
    let others: Vec<u64> = others.flat_map(held_by).collect();
    put(10, counted(&others));
    let reserved: Vec<u64> = (0..shape.r).collect();
    put(11, counted(&reserved));
    forms
}

/// Sizes that do not fit, of maps that are good but for that.
fn sizes(shape: &Shape, image: &[u8]) -> Vec<usize> {
    let mut forms = Vec::new();
    let mut named = vec![false; shape.m as usize];
    for chunk in inputs::mapped(shape, image) {
        let map = inputs::entry(image, chunk);
        named[map as usize] = true;
        let k = inputs::units_in(shape, image, map).len() as u64;
        let mut rest = (k..shape.p).map(|j| inputs::word(image, shape.unit_at(map, j)));
        if k == 0 || rest.any(|word| word != inputs::X) {
            continue;
        }
        let size = inputs::word(image, shape.word_at(map, 0));
        let low = size % inputs::TWO_32;
        match size {
            0 => forms.push(4),
            _ if size == 4096 * k + 1 => forms.push(5),
            _ if size == 4096 * (k - 1) => forms.push(6),
            inputs::X => forms.push(9),
            _ if size >= inputs::TWO_32 && low.div_ceil(4096) == k => forms.push(8),
            _ => {}
        }
        if size > shape.chunk_bytes() && size < inputs::TWO_32 {
            forms.push(7);
        }
    }
    let dead = (0..shape.m).filter(|&map| !named[map as usize]);
    let mut sizes = dead.map(|map| inputs::word(image, shape.word_at(map, 0)));
    if sizes.any(|size| size != inputs::X && size > shape.chunk_bytes()) {
        forms.push(10);
    }
    forms
}

/// What is special about the MAP steps of a plan that was accepted or refused
/// with 11 and this rule.
fn plan_forms(shape: &Shape, size: u64, plan: &[u8], answer: [u64; 2]) -> Vec<usize> {
    let steps = inputs::decode(plan);
    let words: Vec<[u32; 4]> = steps.iter().copied().filter(|step| step[0] == 2).collect();
    let has = |word: u64| words.iter().any(|step| u64::from(step[2]) == word);
    let value = |word: u64| {
        let mut of_word = words.iter().filter(|step| u64::from(step[2]) == word);
        of_word.next().map(|step| u64::from(step[3]))
    };
    let count = words.len() as u64;
    let mut forms = Vec::new();
    let broken = |rule: u64| answer == [11, rule];
    let middle = (1..shape.p).all(has);
    if shape.edition == Edition::One {
        // A size in word 0, units behind it, and word P.
        let other = middle && has(0) && has(shape.p) && value(0) == Some(size);
        if other && count == shape.p + 1 && broken(1) {
            forms.push(11);
        }
        return forms;
    }
    let without_last = middle && has(0) && !has(shape.p) && count == shape.p;
    let units = value(0).is_some_and(|value| value < shape.n && value != size);
    if without_last && units && (broken(1) || broken(3)) {
        forms.push(11);
    }
    if let Some(found) = value(0) {
        let good = (1..=shape.chunk_bytes()).contains(&found);
        let as_many = found.div_ceil(4096) == size.div_ceil(4096);
        if broken(3) && good && found != size {
            forms.push(if as_many { 12 } else { 13 });
        }
        if broken(1) && !good {
            let absent = found == u64::from(inputs::X32);
            forms.push(if absent { 15 } else { 14 });
        }
    }
    if broken(3) && !has(0) && middle && has(shape.p) {
        forms.push(16);
    }
    if broken(3) && without_last {
        forms.push(17);
    }
    if answer[0] == 0 && value(shape.p).is_some_and(|value| value < shape.n) {
        forms.push(18);
    }
    forms
}
