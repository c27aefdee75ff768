//! Each row of 01's table of refusals, and each rule of a plan, as a condition
//! of its own: what holds of a case, without regard to what wins.
//!
//! It is written the long way round, apart from the model. It tells which
//! refusals compete in a case, and the lowest of them is a second opinion on
//! the model's answer.
//!
//! "Each is given when its row holds and not otherwise, as far as that call
//! has the input named." (01) The tables of an image can be located when its P,
//! C, M and N keep their limits and fit the slice, even if the tag, the version,
//! a distance or the length field is wrong, R is past its limit or the last
//! number is not 0; then rows 4 to 6 and what a request asks of them are judged
//! too. Where neither edition has tag and version, the
//! tables are those of the first edition whose numbers fit. Where the tables
//! cannot be located, a request counts as bad only if it is bad for every
//! volume of either edition.

use std::collections::BTreeSet;

use super::cases::{Call, Case};

const X: u64 = u64::MAX;
const X32: u32 = u32::MAX;
const UNIT: u64 = 4096;

/// The rows that hold, each with its place, and the broken rules of a plan.
#[derive(Clone, Debug, Default)]
pub struct Verdict {
    rows: [Option<(u64, u64)>; 13],
    rules: [bool; 6],
    /// The edition by tag and version, else the one whose tables were located,
    /// else 0.
    pub edition: usize,
    /// What a repair finds.
    pub faults: Faults,
}

/// Chunks by what is wrong with them, in the words of 02, request 3.
#[derive(Clone, Debug, Default)]
pub struct Faults {
    pub bad_link: BTreeSet<u64>,
    pub bad_map: BTreeSet<u64>,
    /// Among the chunks with good links and maps, as are the next two.
    pub shared_map: BTreeSet<u64>,
    pub shared_unit: BTreeSet<u64>,
    pub unit_twice: BTreeSet<u64>,
    /// Good chunks with a unit that a bad map names too.
    pub lenders: BTreeSet<u64>,
}

impl Faults {
    pub fn kinds(&self) -> [&BTreeSet<u64>; 5] {
        [
            &self.bad_link,
            &self.bad_map,
            &self.shared_map,
            &self.shared_unit,
            &self.unit_twice,
        ]
    }

    /// The chunks to unlink, rising.
    pub fn chunks(&self) -> Vec<u64> {
        let all: BTreeSet<u64> = self.kinds().into_iter().flatten().copied().collect();
        all.into_iter().collect()
    }
}

impl Verdict {
    fn hold(&mut self, row: usize, place: u64) {
        self.rows[row] = Some((place, 0));
    }

    /// The rows that hold, rising.
    pub fn rows(&self) -> Vec<usize> {
        (1..=12).filter(|&row| self.rows[row].is_some()).collect()
    }

    /// The rules that are broken, rising.
    pub fn rules(&self) -> Vec<usize> {
        (1..=5).filter(|&rule| self.rules[rule]).collect()
    }

    /// "Lowest number wins" (01): number, place and second place.
    pub fn answer(&self) -> [u64; 3] {
        match self.rows().first() {
            None => [0; 3],
            Some(&row) => {
                let (place, second) = self.rows[row].expect("it holds");
                [row as u64, place, second]
            }
        }
    }
}

/// The two tables of an image.
struct Tables {
    edition: u64,
    p: u64,
    c: u64,
    m: u64,
    n: u64,
    /// R as it stands there, past its limit or not; 0 in edition 1.
    r: u64,
    entries: Vec<u64>,
    words: Vec<u64>,
}

/// "M chunk maps of P words each" (01); "P+1 words for each map" in edition 2
/// (02, request 4).
fn words_of_a_map(edition: u64, p: u64) -> u64 {
    match edition {
        1 => p,
        _ => p + 1,
    }
}

impl Tables {
    fn width(&self) -> u64 {
        words_of_a_map(self.edition, self.p)
    }

    /// The units of a map, the last P of its words.
    fn map(&self, map: u64) -> &[u64] {
        let end = ((map + 1) * self.width()) as usize;
        &self.words[end - self.p as usize..end]
    }

    /// Whether a size takes this many units: more than one fewer would hold,
    /// and no more than they hold.
    fn size_good(&self, map: u64, held: usize) -> bool {
        if self.edition == 1 {
            return true;
        }
        let size = u128::from(self.words[(map * self.width()) as usize]);
        let held = held as u128 * u128::from(UNIT);
        size <= held && size + u128::from(UNIT) > held
    }

    /// Chunks that name a map, with its number.
    fn named(&self) -> impl Iterator<Item = (u64, u64)> + '_ {
        (0..)
            .zip(self.entries.iter().copied())
            .filter(|&(_, map)| map < self.m)
    }

    /// Whether a map is not "1 to P units below N, then only X" (01), or in
    /// edition 2 k is not "equal to the size rounded up in units" (02,
    /// request 4), or a unit is below R: "a named map with one gives 5" (02,
    /// request 5).
    fn bad_form(&self, map: u64) -> bool {
        let words = self.map(map);
        let held = words.iter().filter(|&&word| word != X).count();
        let no_unit = words[..held].iter().any(|&word| word >= self.n);
        let reserved = words[..held].iter().any(|&word| word < self.r);
        held == 0 || no_unit || reserved || !self.size_good(map, held)
    }

    /// Which units are free: in no named map, and not below R.
    fn free_units(&self) -> Vec<bool> {
        let mut free: Vec<bool> = (0..self.n).map(|unit| unit >= self.r).collect();
        for (_, map) in self.named() {
            for &unit in self.map(map).iter().filter(|&&word| word < self.n) {
                free[unit as usize] = false;
            }
        }
        free
    }
}

fn number(bytes: &[u8]) -> u64 {
    bytes
        .iter()
        .rev()
        .fold(0, |number, &byte| number << 8 | u64::from(byte))
}

/// "P units make a chunk, 2 to 16. C chunks, 1 to 256. M chunk maps, C+1 to
/// C+32. N backing units, P to P·M." (01), wide enough for any u64.
fn within_limits([p, c, m, n]: [u128; 4]) -> bool {
    let p_good = (2..=16).contains(&p);
    let c_good = (1..=256).contains(&c);
    let m_good = (c + 1..=c + 32).contains(&m);
    let n_good = (p..=p.saturating_mul(m)).contains(&n);
    p_good && c_good && m_good && n_good
}

/// "R, the reserved units, 0 to N-P" (02, request 5), wide enough for any u64:
/// P units are left.
fn reserves_few([p, n, r]: [u128; 3]) -> bool {
    r + p <= n
}

/// The end of an image as the trailer of one edition.
struct Ending {
    edition: u64,
    numbers: [u64; 4],
    /// R, 0 in edition 1.
    r: u64,
    /// "tag and version" (02, request 4) are this edition's.
    named: bool,
    /// The four numbers keep the limits and make an image of just this length.
    located: bool,
    /// Distances and length agree, R keeps its limit, and what has to be 0 is.
    agrees: bool,
}

/// Bytes of an edition's trailer.
fn trailer_bytes(edition: u64) -> u64 {
    match edition {
        1 => 32,
        _ => 40,
    }
}

impl Ending {
    /// None where the image is shorter than the trailer.
    fn of(image: &[u8], edition: u64) -> Option<Self> {
        let bytes = trailer_bytes(edition);
        let at = image.len().checked_sub(bytes as usize)?;
        let trailer = &image[at..];
        let named = trailer[..4] == [0x52, 0x4D, 0x41, 0x50] && number(&trailer[4..6]) == edition;
        let p = number(&trailer[6..8]);
        let [c, m, n, to_logical, to_maps, length] =
            std::array::from_fn(|i| number(&trailer[8 + 4 * i..12 + 4 * i]));
        let limits = within_limits([p, c, m, n].map(u128::from));
        let maps = 8 * m * words_of_a_map(edition, p);
        let fits = image.len() as u64 == 8 * c + maps + bytes;
        let distances = to_logical == 8 * c + maps && to_maps == maps;
        // Edition 1 has neither of the two.
        let [r, last] = match edition {
            1 => [0, 0],
            _ => [number(&trailer[32..36]), number(&trailer[36..])],
        };
        let ends_good = reserves_few([p, n, r].map(u128::from)) && last == 0;
        Some(Ending {
            edition,
            numbers: [p, c, m, n],
            r,
            named,
            located: limits && fits,
            agrees: distances && length == 8 * c + maps + bytes && ends_good,
        })
    }
}

/// Rows 1 to 3; answers the tables, if they can be located.
///
/// "The last 32 bytes are tried as edition 1 first, then the last 40 as edition
/// 2; if neither has tag and version, 2." (02, request 4) For the converter an
/// image of edition 2 gives 2 as well.
fn trailer_rows(image: &[u8], converted: bool, verdict: &mut Verdict) -> Option<Tables> {
    if image.len() < 32 {
        // No trailer is there, so no other row of the image can hold.
        verdict.hold(1, 0);
        return None;
    }
    let endings: Vec<Ending> = [1, 2]
        .into_iter()
        .filter_map(|edition| Ending::of(image, edition))
        .collect();
    let named = endings.iter().find(|ending| ending.named);
    if named.is_none_or(|ending| converted && ending.edition == 2) {
        verdict.hold(2, 0);
    }
    let read = named.or_else(|| endings.iter().find(|ending| ending.located));
    let Some(ending) = read else {
        verdict.hold(3, 0);
        return None;
    };
    verdict.edition = ending.edition as usize;
    if !ending.located || !ending.agrees {
        verdict.hold(3, 0);
    }
    if !ending.located {
        return None;
    }

    let [p, c, m, n] = ending.numbers;
    let tables = image.len() - trailer_bytes(ending.edition) as usize;
    let mut words: Vec<u64> = image[..tables].chunks(8).map(number).collect();
    let maps = words.split_off(c as usize);
    Some(Tables {
        edition: ending.edition,
        p,
        c,
        m,
        n,
        r: ending.r,
        entries: words,
        words: maps,
    })
}

/// Rows 4 to 6.
fn table_rows(tables: &Tables, verdict: &mut Verdict) {
    let bad_link = |&entry: &u64| entry != X && entry >= tables.m;
    if let Some(chunk) = tables.entries.iter().position(bad_link) {
        verdict.hold(4, chunk as u64);
    }
    let bad_map = |&(_, map): &(u64, u64)| tables.bad_form(map);
    if let Some((chunk, _)) = tables.named().find(bad_map) {
        verdict.hold(5, chunk);
    }
    verdict.rows[6] = shared(tables);
}

/// A map (true) or a unit, and the chunk that claims it.
type Claim = (bool, u64, u64);

/// Every claim of these chunks, sorted, so that chunks rise among the claims
/// of one map or unit.
fn claims(tables: &Tables, named: impl Iterator<Item = (u64, u64)>) -> Vec<Claim> {
    let mut claims = Vec::new();
    for (chunk, map) in named {
        claims.push((true, map, chunk));
        // "Units below R are never free and never held" (02, request 5).
        let unit = |word: &&u64| tables.r <= **word && **word < tables.n;
        for &word in tables.map(map).iter().filter(unit) {
            claims.push((false, word, chunk));
        }
    }
    claims.sort_unstable();
    claims
}

/// The claims of each map or unit that is claimed more than once.
fn clashes(claims: &[Claim]) -> impl Iterator<Item = &[Claim]> {
    claims
        .chunk_by(|a, b| (a.0, a.1) == (b.0, b.1))
        .filter(|group| group.len() > 1)
}

/// Row 6. Every claim of a map or unit is listed with its chunk; what is
/// claimed twice makes its second claimant, in the order of chunks, clash.
fn shared(tables: &Tables) -> Option<(u64, u64)> {
    let claims = claims(tables, tables.named());
    let groups = || clashes(&claims);
    let second = groups().map(|group| group[1].2).min()?;
    let first = groups()
        .filter(|group| group[1..].iter().any(|claim| claim.2 == second))
        .map(|group| group[0].2)
        .min()?;
    Some((first, second))
}

/// "unlinks every chunk with a bad link or bad map, and then, among chunks
/// with good links and maps, every chunk that shares a map or unit with another
/// or names a unit twice" (02, request 3): by the sorted claims of the good
/// ones, as row 6 is.
fn faults(tables: &Tables) -> Faults {
    let mut faults = Faults::default();
    let entries = (0..).zip(tables.entries.iter().copied());
    let bad_links = entries.filter(|&(_, entry)| entry != X && entry >= tables.m);
    faults.bad_link.extend(bad_links.map(|(chunk, _)| chunk));
    let (bad, good): (Vec<_>, Vec<_>) = tables.named().partition(|&(_, map)| tables.bad_form(map));
    faults.bad_map.extend(bad.iter().map(|&(chunk, _)| chunk));

    let good_claims = claims(tables, good.into_iter());
    for group in clashes(&good_claims) {
        let chunks: BTreeSet<u64> = group.iter().map(|claim| claim.2).collect();
        let own = |chunk: &u64| group.iter().filter(|claim| claim.2 == *chunk).count();
        // A map is claimed once by a chunk, a unit as often as it is named.
        let twice = chunks.iter().filter(|chunk| own(chunk) > 1);
        faults.unit_twice.extend(twice);
        if chunks.len() > 1 {
            match group[0].0 {
                true => faults.shared_map.extend(chunks),
                false => faults.shared_unit.extend(chunks),
            }
        }
    }

    let borrowed = claims(tables, bad.into_iter());
    for claim in borrowed.iter().filter(|claim| !claim.0) {
        let from = good_claims.partition_point(|good| (good.0, good.1) < (false, claim.1));
        let lenders = good_claims[from..]
            .iter()
            .take_while(|good| (good.0, good.1) == (false, claim.1));
        faults.lenders.extend(lenders.map(|good| good.2));
    }
    faults
}

/// Row 7 for a byte range.
fn range_row(tables: Option<&Tables>, offset: u64, length: u64, one_piece: bool) -> bool {
    let (c, p) = tables.map_or((256, 16), |t| (t.c, t.p));
    let end = u128::from(offset) + u128::from(length);
    let chunk_bytes = p * UNIT;
    let past = end > u128::from(c * chunk_bytes);
    let off_grain = !offset.is_multiple_of(UNIT) || !length.is_multiple_of(UNIT);
    // Without the tables, a piece longer than the longest chunk spans two.
    let across = match tables {
        Some(_) => end > u128::from(offset - offset % chunk_bytes) + u128::from(chunk_bytes),
        None => length > chunk_bytes,
    };
    length == 0 || off_grain || past || (one_piece && across)
}

fn chunk_row(tables: Option<&Tables>, chunk: u64) -> bool {
    chunk >= tables.map_or(256, |t| t.c)
}

fn size_row(tables: Option<&Tables>, size: u64) -> bool {
    size == 0 || size > tables.map_or(16, |t| t.p) * UNIT
}

/// The rows that hold of a case.
pub fn judge(case: &Case) -> Verdict {
    let mut verdict = Verdict::default();
    let format = match case.call {
        Call::Format { p, c, m, n } => Some((1, [p, c, m, n], 0)),
        Call::Format2 { p, c, m, n, r } => Some((2, [p, c, m, n], r)),
        _ => None,
    };
    if let Some((edition, numbers, r)) = format {
        let [p, c, m, n] = numbers.map(u128::from);
        let limits = within_limits([p, c, m, n]) && reserves_few([p, n, u128::from(r)]);
        let len = match edition {
            1 => 8 * c + 8 * m * p + 32,
            _ => 8 * c + 8 * m * (p + 1) + 40,
        };
        if !limits || case.image.len() as u128 != len {
            verdict.hold(3, 0);
        }
        verdict.edition = edition;
        return verdict;
    }

    let converted = matches!(case.call, Call::Convert);
    let tables = trailer_rows(&case.image, converted, &mut verdict);
    let tables = tables.as_ref();
    match tables {
        // "Answers 1 to 3 still refuse." (02, request 3) Rows 4 to 6 are what
        // it repairs.
        Some(tables) if matches!(case.call, Call::Repair) => verdict.faults = faults(tables),
        Some(tables) => table_rows(tables, &mut verdict),
        None => {}
    }
    let lent = case.out.len() as u64;
    match case.call {
        Call::Format { .. } | Call::Format2 { .. } => unreachable!("judged above"),
        Call::Report | Call::AlarmCount { .. } | Call::Shape => {}
        Call::Load => {
            if lent < 648 {
                verdict.hold(10, 648);
            }
        }
        Call::Split { offset, length } => {
            if range_row(tables, offset, length, false) {
                verdict.hold(7, 0);
                // Whatever its pieces were, there would be one at least.
                if length > 0 && lent < 12 {
                    verdict.hold(10, 12);
                }
            } else {
                let chunk_bytes = tables.map_or(16, |t| t.p) * UNIT;
                let first = offset / chunk_bytes;
                let last = (offset + length).div_ceil(chunk_bytes);
                if lent < 12 * (last - first) {
                    verdict.hold(10, 12 * (last - first));
                }
            }
        }
        Call::Access { offset, length, .. } => {
            if range_row(tables, offset, length, true) {
                verdict.hold(7, 0);
            }
        }
        Call::Held { chunk } | Call::StoredSize { chunk } => {
            if chunk_row(tables, chunk) {
                verdict.hold(7, 0);
            }
        }
        Call::PlanWrite { chunk, size } => {
            if chunk_row(tables, chunk) {
                verdict.hold(7, 0);
            }
            let bad_size = size_row(tables, size);
            if bad_size {
                verdict.hold(8, 0);
            }
            let k = size.div_ceil(UNIT);
            if let Some(tables) = tables {
                let free = tables.free_units().iter().filter(|&&free| free).count();
                if k > free as u64 {
                    verdict.hold(9, free as u64);
                }
            }
            // A size out of range has no plan; the shortest one stands in.
            let k = if bad_size { 1 } else { k };
            let needed = 16 * (k + tables.map_or(2, Tables::width) + 3);
            if lent < needed {
                verdict.hold(10, needed);
            }
        }
        Call::PlanDiscard { chunk } => {
            let bad_chunk = chunk_row(tables, chunk);
            if bad_chunk {
                verdict.hold(7, 0);
            }
            // A chunk that isn't there is neither mapped nor unmapped; an
            // output too short for a mapped one's plan counts as competing.
            let mapped = match tables {
                Some(tables) if !bad_chunk => tables.entries[chunk as usize] != X,
                _ => true,
            };
            if mapped && lent < 32 {
                verdict.hold(10, 32);
            }
        }
        Call::CheckWrite { chunk, size } => {
            plan_rows(case, tables, chunk, Some(size), 0, &mut verdict)
        }
        Call::CheckDiscard { chunk } => plan_rows(case, tables, chunk, None, 0, &mut verdict),
        Call::CarryWrite { chunk, size, n } => {
            plan_rows(case, tables, chunk, Some(size), n, &mut verdict)
        }
        Call::CarryDiscard { chunk, n } => plan_rows(case, tables, chunk, None, n, &mut verdict),
        Call::AlarmFraction { fraction } => {
            let (below, above) = (fraction < 0.0, fraction > 1.0);
            if fraction.is_nan() || below || above {
                verdict.hold(12, 0);
            }
        }
        Call::Repair => {
            let needed = 4 * verdict.faults.chunks().len() as u64;
            if lent < needed {
                verdict.hold(10, needed);
            }
        }
        // "a buffer not of exactly the new length gives 10" (02, request 4).
        Call::Convert => match tables {
            Some(tables) => {
                let needed = 8 * tables.c + 8 * tables.m * (tables.p + 1) + 40;
                if lent != needed {
                    verdict.hold(10, needed);
                }
            }
            // No image of edition 2 is so short or so long, or has part words.
            None => {
                if !(96..=41_256).contains(&lent) || !lent.is_multiple_of(8) {
                    verdict.hold(10, 96);
                }
            }
        },
    }
    verdict
}

/// Rows 7, 8 and 11 of a checker or carrier.
fn plan_rows(
    case: &Case,
    tables: Option<&Tables>,
    chunk: u64,
    size: Option<u64>,
    n: u64,
    verdict: &mut Verdict,
) {
    let bad_chunk = chunk_row(tables, chunk);
    let bad_size = size.is_some_and(|size| size_row(tables, size));
    if bad_chunk || n > case.plan.len() as u64 / 16 {
        verdict.hold(7, 0);
    }
    if bad_size {
        verdict.hold(8, 0);
    }
    let steps: Vec<[u32; 4]> = case
        .plan
        .chunks_exact(16)
        .map(|step| std::array::from_fn(|i| number(&step[4 * i..4 * i + 4]) as u32))
        .collect();

    // Rule 1 asks nothing of the request; the others need a good one.
    let shapeless = !case.plan.len().is_multiple_of(16) || steps.len() > 64;
    verdict.rules[1] = shapeless || steps.iter().any(|step| !step_good(tables, step));
    if let (Some(tables), false, false) = (tables, bad_chunk, bad_size) {
        match size {
            Some(size) => write_rules(tables, chunk, size, &steps, verdict),
            None => discard_rules(tables, chunk, &steps, verdict),
        }
    }
    if let Some(&rule) = verdict.rules().first() {
        verdict.hold(11, rule as u64);
    }
}

/// Rule 1 of one step; without the tables, against the largest volume of
/// either edition.
fn step_good(tables: Option<&Tables>, step: &[u32; 4]) -> bool {
    match tables {
        Some(t) => step_good_in(t.edition, [t.p, t.c, t.m, t.n], step),
        None => [1, 2]
            .into_iter()
            .any(|edition| step_good_in(edition, [16, 256, 288, 4608], step)),
    }
}

fn step_good_in(edition: u64, [p, c, m, n]: [u64; 4], step: &[u32; 4]) -> bool {
    let [kind, a, b, d] = step.map(u64::from);
    let absent = step[3] == X32;
    match kind {
        1 => a < n && b < p && d == 0,
        // "MAP words run from 0 to P: word 0 holds 1 to P·4,096 (rule 1)" (02,
        // request 4).
        2 if edition == 2 && b == 0 => a < m && 1 <= d && d <= p * UNIT,
        2 if edition == 2 => a < m && b <= p && (d < n || absent),
        2 => a < m && b < p && (d < n || absent),
        3 => a < c && b == 0 && (d < m || absent),
        4 => a == 0 && b == 0 && d == 0,
        _ => false,
    }
}

fn of_kind(steps: &[[u32; 4]], kind: u32) -> Vec<(usize, [u32; 4])> {
    let steps = steps.iter().copied().enumerate();
    steps.filter(|(_, step)| step[0] == kind).collect()
}

fn sorted(numbers: impl Iterator<Item = u32>) -> Vec<u32> {
    let mut numbers: Vec<u32> = numbers.collect();
    numbers.sort_unstable();
    numbers
}

fn write_rules(tables: &Tables, chunk: u64, size: u64, steps: &[[u32; 4]], verdict: &mut Verdict) {
    let data = of_kind(steps, 1);
    let maps = of_kind(steps, 2);
    let links = of_kind(steps, 3);
    let fences = of_kind(steps, 4);
    let k = size.div_ceil(UNIT) as u32;

    // 2: "pieces 0 to k-1 once each, no other" (01); "piece j goes on the j-th
    // lowest free unit, piece 0 on the lowest" (02, request 6): a free one, with
    // just j free ones below it.
    let pieces = sorted(data.iter().map(|(_, step)| step[2]));
    let free = tables.free_units();
    let on_its_unit = |step: &[u32; 4]| {
        let (below, from) = free.split_at(free.len().min(step[1] as usize));
        let rank = below.iter().filter(|&&free| free).count();
        from.first() == Some(&true) && rank == step[2] as usize
    };
    let all_on_theirs = data.iter().all(|(_, step)| on_its_unit(step));
    verdict.rules[2] = !pieces.into_iter().eq(0..k) || !all_on_theirs;

    // 3: "all MAP steps on one free map, each word 0 to P-1 once; word j is
    // piece j's unit for j below k, else X." (01) "word 0 holds [..] the
    // request's size (rule 3), and word j+1 is piece j's unit or X." (02,
    // request 4)
    let one_map = maps.windows(2).all(|pair| pair[0].1[1] == pair[1].1[1]);
    let the_map = maps.first().map(|(_, step)| step[1]).filter(|_| one_map);
    let named = |map: u32| tables.entries.contains(&u64::from(map));
    let free_map = the_map.is_some_and(|map| u64::from(map) < tables.m && !named(map));
    let each_word = sorted(maps.iter().map(|(_, step)| step[2]))
        .into_iter()
        .eq(0..tables.width() as u32);
    let word_good = |step: &[u32; 4]| {
        let piece = match (tables.edition, step[2]) {
            (1, word) => word,
            (_, 0) => return u64::from(step[3]) == size,
            (_, word) => word - 1,
        };
        if piece >= k {
            return step[3] == X32;
        }
        let mut units = data
            .iter()
            .filter(|(_, data)| data[2] == piece)
            .map(|(_, data)| data[1])
            .peekable();
        units.peek().is_some() && units.all(|unit| unit == step[3])
    };
    let words_good = maps.iter().all(|(_, step)| word_good(step));
    verdict.rules[3] = !free_map || !each_word || !words_good;

    // 4: "one LINK, this chunk, that map."
    let link_good = match links[..] {
        [(_, step)] => u64::from(step[1]) == chunk && the_map == Some(step[3]),
        _ => false,
    };
    verdict.rules[4] = !link_good;

    // 5: "every DATA and MAP precedes LINK, with a FENCE after the last of
    // them and before LINK; the last step is FENCE."
    let last_store = data.iter().chain(&maps).map(|(at, _)| *at).max();
    let ordered = |link: usize| match last_store {
        None => true,
        Some(last) => fences.iter().any(|&(at, _)| last < at && at < link),
    };
    let all_ordered = links.iter().all(|&(at, _)| ordered(at));
    verdict.rules[5] = !all_ordered || !fence_last(steps);
}

fn discard_rules(tables: &Tables, chunk: u64, steps: &[[u32; 4]], verdict: &mut Verdict) {
    verdict.rules[2] = !of_kind(steps, 1).is_empty();
    verdict.rules[3] = !of_kind(steps, 2).is_empty();
    let links = of_kind(steps, 3);
    if tables.entries[chunk as usize] == X {
        verdict.rules[4] = !links.is_empty();
        verdict.rules[5] = !steps.is_empty();
    } else {
        let link_good = match links[..] {
            [(_, step)] => u64::from(step[1]) == chunk && step[3] == X32,
            _ => false,
        };
        verdict.rules[4] = !link_good;
        verdict.rules[5] = !fence_last(steps);
    }
}

fn fence_last(steps: &[[u32; 4]]) -> bool {
    steps.last().is_some_and(|step| step[0] == 4)
}
