//! What was seen, and what must have been seen at least once.

use sumbilak_reference::inputs;
use sumbilak_reference::model;

use super::cases::{Call, Case, Entry};
use super::forms;
use super::repairs;
use super::rows::{Faults, Verdict};

/// Counts for one entry point, for each edition by itself.
#[derive(Clone, Debug)]
pub struct Coverage {
    pub entry: Entry,
    pub inputs: u64,
    /// Of images of neither edition, of edition 1, of edition 2. An image is of
    /// the edition that its tag and version name, else of the one whose tables
    /// it has all the same; see [`Verdict::edition`].
    seen: [Seen; 3],
}

#[derive(Clone, Debug)]
struct Seen {
    inputs: u64,
    /// Answers by number, 0 to 12.
    answers: [u64; 13],
    /// Good answers by kind, in the order of [`kinds`].
    kinds: [u64; 9],
    /// Place of refusal 11, rules 1 to 5.
    rules: [u64; 6],
    /// Inputs in which both rows held.
    pairs: [[u64; 13]; 13],
    /// Inputs answered with 11 in which both rules were broken.
    rule_pairs: [[u64; 6]; 6],
    /// Forms of images, requests and plans.
    forms: [u64; forms::COUNT],
}

impl Seen {
    const NOTHING: Seen = Seen {
        inputs: 0,
        answers: [0; 13],
        kinds: [0; 9],
        rules: [0; 6],
        pairs: [[0; 13]; 13],
        rule_pairs: [[0; 6]; 6],
        forms: [0; forms::COUNT],
    };
}

/// The names of what [`Coverage`] tells apart.
const EDITIONS: [&str; 3] = ["neither", "edition 1", "edition 2"];

/// The refusals of rows 7 to 12 that an entry point can give. Rows 1 to 6 are
/// the image's, which every entry point but the formats and repair applies.
fn request_rows(entry: Entry) -> &'static [usize] {
    match entry {
        Entry::Format | Entry::Format2 => &[],
        Entry::AlarmCount | Entry::Report | Entry::Shape => &[],
        Entry::Load | Entry::Repair | Entry::Convert => &[10],
        Entry::Split => &[7, 10],
        Entry::Access | Entry::Held | Entry::StoredSize => &[7],
        Entry::PlanWrite => &[7, 8, 9, 10],
        Entry::PlanDiscard => &[7, 10],
        Entry::CheckWrite | Entry::CarryWrite => &[7, 8, 11],
        Entry::CheckDiscard | Entry::CarryDiscard => &[7, 11],
        Entry::AlarmFraction => &[12],
    }
}

/// The edition that a format writes.
fn formats(entry: Entry) -> Option<usize> {
    match entry {
        Entry::Format => Some(1),
        Entry::Format2 => Some(2),
        _ => None,
    }
}

/// Every row that can hold of an input of an entry point and an edition.
///
/// Of an image of neither edition no tables are there for rows 4 to 6, for
/// units to count (9) or for chunks to list (10 of a repair). Under 32 bytes
/// no trailer is there: row 1 is in no edition.
fn possible_rows(entry: Entry, edition: usize) -> Vec<usize> {
    if let Some(own) = formats(entry) {
        // "format, which gives only 3" (01).
        return if edition == own { vec![3] } else { Vec::new() };
    }
    let request = request_rows(entry).iter().copied();
    match (entry, edition) {
        (Entry::Repair, 0) => vec![1, 2, 3],
        (_, 0) => [1, 2, 3]
            .into_iter()
            .chain(request.filter(|&row| row != 9))
            .collect(),
        // "Answers 1 to 3 still refuse" (02, request 3); 4 to 6 it repairs.
        (Entry::Repair, _) => vec![2, 3, 10],
        _ => (2..=6).chain(request).collect(),
    }
}

/// Every number that an entry point can answer on an edition, 0 among them.
fn possible_answers(entry: Entry, edition: usize) -> Vec<usize> {
    let rows = possible_rows(entry, edition);
    match (entry, edition) {
        (Entry::Format | Entry::Format2, _) if rows.is_empty() => Vec::new(),
        // Neither edition: 1, or 2, which wins over all else.
        (_, 0) => vec![1, 2],
        // "an edition 2 input gives 2" (02, request 4).
        (Entry::Convert, 2) => vec![2],
        _ => std::iter::once(0).chain(rows).collect(),
    }
}

/// Every pair of refusals that can hold of one input of an entry point and an
/// edition.
///
/// Of 01's pairs among the rows that can hold, these cannot:
/// * 1 with 2 to 6: under 32 bytes there is no trailer and there are no
///   tables to be wrong;
/// * 1 with 9: without a trailer there are no units to count;
/// * 1 with 10 of a repair: without a trailer there are no chunks to list, and
///   an empty list fits any buffer.
///
/// All others can: a wrong tag, distance or length field leaves the tables
/// where the geometry puts them, so rows 2 and 3 meet rows 4 to 6 and 9; a
/// request that is bad for every volume (an empty range, size 0, chunk 2^32, a
/// step count above the whole steps, a partial step, NaN, an output of no
/// bytes) meets row 1 as well, and 2 and 3 of neither edition; a size above
/// P·4,096 takes more units than are free (8 and 9) and more output than is
/// lent (8 and 10).
fn possible_pairs(entry: Entry, edition: usize) -> Vec<(usize, usize)> {
    let rows = possible_rows(entry, edition);
    let pairs = rows
        .iter()
        .flat_map(|&a| rows.iter().map(move |&b| (a, b)))
        .filter(|&(a, b)| a < b);
    pairs.filter(|&(a, b)| a != 1 || b > 6).collect()
}

/// The kinds of good answers that are told apart. An answer is of one kind; a
/// report or a repair may be of several, see [`report_kinds`] and
/// [`repair_kinds`].
fn kinds(entry: Entry) -> &'static [&'static str] {
    match entry {
        Entry::Format => &["answered"],
        Entry::Format2 | Entry::Load | Entry::Shape => {
            &["nothing reserved", "some units", "N-P units"]
        }
        Entry::Split => &["one piece", "two", "more"],
        Entry::Access => &["reads nothing", "zeros", "the chunk"],
        Entry::Held => &["unmapped", "compressed", "raw"],
        Entry::StoredSize => &[
            "unmapped",
            "whole units",
            "raw, whole units",
            "part of a unit",
            "raw, part of a unit",
        ],
        Entry::Convert => &[
            "nothing mapped",
            "some chunks",
            "all chunks",
            "a raw chunk",
            "litter in a dead map",
        ],
        Entry::PlanWrite => &["compressed", "raw"],
        Entry::PlanDiscard => &["no steps", "two"],
        Entry::CheckWrite | Entry::CheckDiscard => &["the planner's plan", "another"],
        Entry::CarryWrite | Entry::CarryDiscard => &["no step", "some", "all"],
        Entry::AlarmCount | Entry::AlarmFraction => &["silent", "sounds"],
        Entry::Report => &[
            "nothing mapped",
            "some chunks",
            "all chunks",
            "nothing free",
            "mapped but nothing saved",
            "ratio rounded",
            "01's rule differs",
            "units reserved",
            "held of N-R differs",
        ],
        Entry::Repair => &[
            "nothing unlinked",
            "bad link",
            "bad map",
            "shared map",
            "shared unit",
            "unit twice",
            "three of these or more",
            "kept, though a bad map names its unit",
            "all of several chunks",
        ],
    }
}

/// Whether a kind of answer can be given on an edition.
fn kind_possible(entry: Entry, edition: usize, kind: usize) -> bool {
    match entry {
        // "k·4,096 in edition 1" (02, request 4).
        Entry::StoredSize if edition == 1 => kind < 3,
        // "Edition 1 behaves as R = 0." (02, request 5)
        Entry::Load | Entry::Shape if edition == 1 => kind == 0,
        Entry::Report if edition == 1 => kind < 7,
        _ => possible_answers(entry, edition).contains(&0),
    }
}

/// Which of its entry point's kinds a good answer is.
fn kinds_of(case: &Case, answer: &[u64; 9], verdict: &Verdict) -> Vec<usize> {
    let [.., value, extent, _, _, _, _] = *answer;
    let units_per_chunk = || model::load(&case.image).map_or(0, |loaded| loaded.p);
    let planned = |plan: &mut dyn FnMut(&mut [u8]) -> model::Answer<u64>| {
        let mut out = [0; inputs::LONGEST_PLAN];
        let steps = plan(&mut out).map_or(0, |steps| 16 * steps as usize);
        usize::from(case.plan != out[..steps])
    };
    let carried = |n: u64| match (n, case.plan.len() as u64 / 16) {
        // Of an empty plan, no step is all of them.
        (0, 1..) => 0,
        (n, whole) => 1 + usize::from(n == whole),
    };
    let kind = match case.call {
        Call::Report => return report_kinds(case, answer),
        Call::Repair => return repair_kinds(case, &verdict.faults),
        Call::Convert => return convert_kinds(case),
        Call::Format { .. } => 0,
        Call::Format2 { p, n, r, .. } => reserved(p, n, r),
        Call::Load => {
            let loaded = model::load(&case.image).expect("a good answer");
            reserved(loaded.p, loaded.n, value)
        }
        Call::Shape => {
            let [.., p, _, _, n, r] = *answer;
            reserved(p, n, r)
        }
        Call::Split { .. } => value.min(3) as usize - 1,
        Call::Access { .. } => value as usize,
        Call::Held { .. } if extent == 0 => 0,
        Call::Held { .. } => 1 + usize::from(extent == 8 * units_per_chunk()),
        Call::StoredSize { .. } if value == 0 => 0,
        Call::StoredSize { .. } => {
            let raw = value.div_ceil(4096) == units_per_chunk();
            1 + usize::from(raw) + 2 * usize::from(!value.is_multiple_of(4096))
        }
        // k + P + 3 steps, and one more in edition 2.
        Call::PlanWrite { .. } => {
            usize::from(value == 2 * units_per_chunk() + 2 + verdict.edition as u64)
        }
        Call::PlanDiscard { .. } => usize::from(value > 0),
        Call::CheckWrite { chunk, size } => {
            planned(&mut |out| model::plan_write(&case.image, chunk, size, out))
        }
        Call::CheckDiscard { chunk } => {
            planned(&mut |out| model::plan_discard(&case.image, chunk, out))
        }
        Call::CarryWrite { n, .. } | Call::CarryDiscard { n, .. } => carried(n),
        Call::AlarmCount { .. } | Call::AlarmFraction { .. } => value as usize,
    };
    vec![kind]
}

/// Which kind an answer is by its R: none, some units, or N-P, which is the most.
fn reserved(p: u64, n: u64, r: u64) -> usize {
    match r {
        0 => 0,
        _ => 1 + usize::from(r == n - p),
    }
}

/// Every kind that a report is. Saved units are "counted over mapped chunks
/// only" (02, request 1), so it matters how many chunks are mapped, whether all
/// of those are raw, whether f64 holds their ratio, and whether 01's rule, C·P
/// less held, would give another count. "Held / N" stays "over N, reserved units
/// among it" (Decision 77), so it matters whether there are such.
fn report_kinds(case: &Case, answer: &[u64; 9]) -> Vec<usize> {
    let [_, _, _, mapped, held, free, saved, _, _] = *answer;
    let loaded = model::load(&case.image).expect("a report of a sound image");
    let raw = mapped * loaded.p;
    let kinds = [
        mapped == 0,
        0 < mapped && mapped < loaded.c,
        mapped == loaded.c,
        free == 0,
        mapped > 0 && saved == 0,
        // The divisor is at most 2^12, so a ratio that f64 holds exactly is a
        // whole number of parts of 2^12.
        !(saved << 12).is_multiple_of(raw),
        loaded.c * loaded.p - held != saved,
        loaded.r > 0,
        loaded.r > 0 && held > 0,
    ];
    (0..kinds.len()).filter(|&kind| kinds[kind]).collect()
}

/// Every kind that a conversion is.
fn convert_kinds(case: &Case) -> Vec<usize> {
    let shape = repairs::shape(&case.image);
    let mapped = inputs::mapped(&shape, &case.image);
    let raw = |chunk: &u64| {
        let map = inputs::entry(&case.image, *chunk);
        inputs::units_in(&shape, &case.image, map).len() as u64 == shape.p
    };
    let litter = |map: u64| {
        let mut words = (0..shape.p).map(|at| inputs::word(&case.image, shape.word_at(map, at)));
        words.any(|word| word != inputs::X)
    };
    let count = mapped.len() as u64;
    let dead = inputs::free_maps(&shape, &case.image);
    let kinds = [
        count == 0,
        0 < count && count < shape.c,
        count == shape.c,
        mapped.iter().any(raw),
        dead.into_iter().any(litter),
    ];
    (0..kinds.len()).filter(|&kind| kinds[kind]).collect()
}

/// Every kind that a repair is, by the faults that were found.
fn repair_kinds(case: &Case, faults: &Faults) -> Vec<usize> {
    let unlinked = faults.chunks();
    let of_kind = faults.kinds().map(|chunks| !chunks.is_empty());
    let all = repairs::shape(&case.image).c as usize;
    let kept = |chunk: &u64| !unlinked.contains(chunk);
    let [bad_link, bad_map, shared_map, shared_unit, unit_twice] = of_kind;
    let kinds = [
        unlinked.is_empty(),
        bad_link,
        bad_map,
        shared_map,
        shared_unit,
        unit_twice,
        of_kind.into_iter().filter(|&seen| seen).count() >= 3,
        faults.lenders.iter().any(kept),
        unlinked.len() == all && all > 1,
    ];
    (0..kinds.len()).filter(|&kind| kinds[kind]).collect()
}

pub fn has_rules(entry: Entry) -> bool {
    request_rows(entry).contains(&11)
}

/// All pairs of rules can be broken at once, for writes and for discards.
fn rule_pairs() -> impl Iterator<Item = (usize, usize)> {
    (1..=5).flat_map(|i| (i + 1..=5).map(move |j| (i, j)))
}

impl Coverage {
    pub fn new(entry: Entry) -> Self {
        Coverage {
            entry,
            inputs: 0,
            seen: [Seen::NOTHING; 3],
        }
    }

    pub fn count(&mut self, case: &Case, answer: &[u64; 9], verdict: &Verdict) {
        self.inputs += 1;
        let seen = &mut self.seen[verdict.edition];
        seen.inputs += 1;
        seen.answers[answer[0] as usize] += 1;
        if answer[0] == 0 {
            for kind in kinds_of(case, answer, verdict) {
                seen.kinds[kind] += 1;
            }
        }
        for form in forms::of(case, answer, verdict) {
            seen.forms[form] += 1;
        }
        let rows = verdict.rows();
        for (i, &a) in rows.iter().enumerate() {
            for &b in &rows[i + 1..] {
                seen.pairs[a][b] += 1;
            }
        }
        if answer[0] == 11 {
            seen.rules[answer[1] as usize] += 1;
            let rules = verdict.rules();
            for (i, &a) in rules.iter().enumerate() {
                for &b in &rules[i + 1..] {
                    seen.rule_pairs[a][b] += 1;
                }
            }
        }
    }

    /// What was possible and not seen, and what was seen and not possible.
    pub fn gaps(&self) -> Vec<String> {
        (0..3).flat_map(|edition| self.gaps_of(edition)).collect()
    }

    fn gaps_of(&self, edition: usize) -> Vec<String> {
        let entry = self.entry;
        let seen = &self.seen[edition];
        let name = format!("{}, {}", entry.name(), EDITIONS[edition]);
        let mut gaps = Vec::new();
        let mut tell = |what: String, is_seen: bool, possible: bool| {
            if is_seen != possible {
                let seen = if is_seen { "seen" } else { "never seen" };
                gaps.push(format!("{name}: {what} was {seen}"));
            }
        };
        let answers = possible_answers(entry, edition);
        for row in 0..=12 {
            let possible = answers.contains(&row);
            tell(format!("answer {row}"), seen.answers[row] > 0, possible);
        }
        for (at, kind) in kinds(entry).iter().enumerate() {
            let possible = kind_possible(entry, edition, at);
            tell(format!("answer '{kind}'"), seen.kinds[at] > 0, possible);
        }
        let pairs = possible_pairs(entry, edition);
        for a in 1..=12 {
            for b in a + 1..=12 {
                let possible = pairs.contains(&(a, b));
                tell(format!("pair {a} and {b}"), seen.pairs[a][b] > 0, possible);
            }
        }
        for (form, what) in forms::NAMES.iter().enumerate() {
            let possible = forms::possible(entry, edition, form);
            tell(format!("form '{what}'"), seen.forms[form] > 0, possible);
        }
        if has_rules(entry) && edition > 0 {
            for rule in 1..=5 {
                tell(format!("rule {rule}"), seen.rules[rule] > 0, true);
            }
            for (i, j) in rule_pairs() {
                let both = seen.rule_pairs[i][j] > 0;
                tell(format!("rules {i} and {j} broken at once"), both, true);
            }
        }
        gaps
    }

    /// The editions that have inputs of this entry point.
    fn editions(&self) -> impl Iterator<Item = (usize, &Seen)> {
        let editions = self.seen.iter().enumerate();
        editions.filter(|(_, seen)| seen.inputs > 0)
    }
}

/// The tables, for people.
pub fn print(all: &[Coverage]) {
    println!("\nInputs, and answers by number (0 is an answer, - cannot be given)");
    print!("{:<15}{:<11}{:>7}", "entry point", "image", "inputs");
    (0..=12).for_each(|row| print!("{row:>7}"));
    println!();
    for coverage in all {
        for (edition, seen) in coverage.editions() {
            let name = coverage.entry.name();
            print!("{name:<15}{:<11}{:>7}", EDITIONS[edition], seen.inputs);
            let answers = possible_answers(coverage.entry, edition);
            for row in 0..=12 {
                if answers.contains(&row) {
                    print!("{:>7}", seen.answers[row]);
                } else {
                    print!("{:>7}", "-");
                }
            }
            println!();
        }
    }

    println!("\nGood answers by kind");
    for coverage in all {
        for (edition, seen) in coverage.editions() {
            let cells: Vec<String> = (0..)
                .zip(kinds(coverage.entry))
                .filter(|&(kind, _)| kind_possible(coverage.entry, edition, kind))
                .map(|(kind, name)| format!("{name}: {}", seen.kinds[kind]))
                .collect();
            if !cells.is_empty() {
                let name = coverage.entry.name();
                println!("{name:<15}{:<11}{}", EDITIONS[edition], cells.join(", "));
            }
        }
    }

    println!("\nForms of images, requests and plans");
    for (form, what) in forms::NAMES.iter().enumerate() {
        let counts = all.iter().flat_map(|coverage| {
            let entry = coverage.entry;
            let of_entry = coverage.editions();
            let wanted =
                of_entry.filter(move |(edition, _)| forms::possible(entry, *edition, form));
            wanted.map(|(_, seen)| seen.forms[form])
        });
        let counts: Vec<u64> = counts.collect();
        let (sum, least) = (counts.iter().sum::<u64>(), counts.iter().min());
        println!("{what:<50}{sum:>8}, at least {}", least.unwrap_or(&0));
    }

    println!("\nRefusal 11 by rule");
    print!("{:<15}{:<11}", "entry point", "image");
    (1..=5).for_each(|rule| print!("{rule:>8}"));
    println!();
    for coverage in all.iter().filter(|c| has_rules(c.entry)) {
        for (edition, seen) in coverage.editions().filter(|&(edition, _)| edition > 0) {
            print!("{:<15}{:<11}", coverage.entry.name(), EDITIONS[edition]);
            (1..=5).for_each(|rule| print!("{:>8}", seen.rules[rule]));
            println!();
        }
    }

    println!("\nCompeting refusals, a+b: inputs in which both rows held (the lower one won)");
    for coverage in all {
        for (edition, seen) in coverage.editions() {
            let pairs = possible_pairs(coverage.entry, edition);
            if pairs.is_empty() {
                continue;
            }
            let name = coverage.entry.name();
            println!("{name}, {} ({} pairs)", EDITIONS[edition], pairs.len());
            let cells: Vec<String> = pairs
                .iter()
                .map(|&(a, b)| format!("{:>6} {:<6}", format!("{a}+{b}:"), seen.pairs[a][b]))
                .collect();
            cells
                .chunks(8)
                .for_each(|line| println!("  {}", line.concat().trim_end()));
        }
    }

    println!("\nRules broken at once, i+j: inputs refused with 11 (the lower one was named)");
    for coverage in all.iter().filter(|c| has_rules(c.entry)) {
        for (edition, seen) in coverage.editions().filter(|&(edition, _)| edition > 0) {
            let cells: Vec<String> = rule_pairs()
                .map(|(i, j)| format!("{i}+{j}: {:<6}", seen.rule_pairs[i][j]))
                .collect();
            let name = coverage.entry.name();
            let cells = cells.concat();
            println!("{name:<15}{:<11}{}", EDITIONS[edition], cells.trim_end());
        }
    }
}
