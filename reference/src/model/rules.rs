//! The plan checker.

use super::geometry::{Geometry, MAX_MAP_WORDS, MAX_UNITS_PER_CHUNK};
use super::image::Volume;
use super::plan::{map_value, units_of, Step, Value, STEP};
use super::refusals::{BAD_PLAN, RANGE};
use super::{Answer, Refusal};

/// "Whole steps, at most 64" (01).
pub const MAX_STEPS: usize = 64;

const fn broken(rule: u64) -> Refusal {
    Refusal::at(BAD_PLAN, rule)
}

/// The steps of a plan, each with rule 1's verdict: "A plan is read one step
/// at a time from the lent bytes." The length's part of rule 1, "Whole steps,
/// at most 64", is settled first (01).
fn steps<'a>(
    plan: &'a [u8],
    geometry: &'a Geometry,
) -> Answer<impl Iterator<Item = Answer<Step>> + 'a> {
    let (whole, rest) = plan.as_chunks::<STEP>();
    if !rest.is_empty() || whole.len() > MAX_STEPS {
        return Err(broken(1));
    }
    let decode = |bytes| Step::decode(bytes, geometry).ok_or(broken(1));
    Ok(whole.iter().map(decode))
}

/// Row 8, then rules 1 to 5 for a write. One pass gathers what rules 2 to 5
/// ask for; a step that breaks rule 1 ends it at once, as no lower rule is
/// left. After the pass the rules are judged in order, so the lowest broken
/// one is named.
fn write_rules(volume: &Volume, chunk: usize, size: u64, plan: &[u8]) -> Answer<()> {
    let geometry = volume.geometry;
    let k = units_of(&geometry, size)?;

    let mut units = [None; MAX_UNITS_PER_CHUNK];
    let mut pieces_good = true;
    let mut words = [None; MAX_MAP_WORDS];
    let mut map = None;
    let mut words_good = true;
    let mut link = None;
    let mut links = 0;
    // DATA or MAP steps since the last FENCE.
    let mut unfenced = false;
    let mut order_good = true;
    let mut fence_last = false;

    for step in steps(plan, &geometry)? {
        fence_last = false;
        match step? {
            Step::Data { unit, piece } => {
                let known = units[piece as usize].replace(unit);
                pieces_good &= known.is_none() && (piece as usize) < k;
                order_good &= links == 0;
                unfenced = true;
            }
            Step::Map {
                map: target,
                word,
                value,
            } => {
                let known = words[word as usize].replace(value);
                words_good &= known.is_none() && *map.get_or_insert(target) == target;
                order_good &= links == 0;
                unfenced = true;
            }
            Step::Link { chunk, value } => {
                link = Some((chunk as usize, value));
                links += 1;
                order_good &= !unfenced;
            }
            Step::Fence => {
                unfenced = false;
                fence_last = true;
            }
        }
    }

    // Rule 2: "pieces 0 to k-1 once each, no other" (01); "piece j goes on the
    // j-th lowest free unit, piece 0 on the lowest" (02, request 6), of the
    // image lent: neither a reserved unit nor one of the chunk's own is free
    // (Decision 82). With fewer than k of them the two are not of one length:
    // "no plan keeps rule 2" (Decision 83).
    let lowest = volume.free_units.iter().take(k);
    let on_lowest = lowest
        .map(|unit| Some(unit as u32))
        .eq(units[..k].iter().copied());
    if !pieces_good || !on_lowest {
        return Err(broken(2));
    }
    // Rule 3: "all MAP steps on one free map, each word 0 to P-1 once; word j
    // is piece j's unit for j below k, else X." (01) In edition 2 word 0 is
    // "the request's size (rule 3), and word j+1 is piece j's unit or X" (02,
    // request 4). With rule 2 kept, exactly the first k pieces have a unit,
    // none of them reserved, so a word with a reserved one is wrong here.
    let Some(map) = map.filter(|&map| words_good && volume.free_maps.contains(map as usize)) else {
        return Err(broken(3));
    };
    let expected = |word| map_value(&geometry, size, word, |piece| units[piece]);
    let width = geometry.map_words();
    if !(0..width).all(|word| words[word] == Some(expected(word))) {
        return Err(broken(3));
    }
    // Rule 4: "one LINK, this chunk, that map."
    if links != 1 || link != Some((chunk, Value::Number(map))) {
        return Err(broken(4));
    }
    // Rule 5: "every DATA and MAP precedes LINK, with a FENCE after the last
    // of them and before LINK; the last step is FENCE."
    if !order_good || !fence_last {
        return Err(broken(5));
    }
    Ok(())
}

/// Rules 1 to 5 for a discard, in the same way.
fn discard_rules(volume: &Volume, chunk: usize, plan: &[u8]) -> Answer<()> {
    let mut data = false;
    let mut maps = false;
    let mut links = 0;
    let mut link = None;
    let mut last = None;
    for step in steps(plan, &volume.geometry)? {
        let step = step?;
        match step {
            Step::Data { .. } => data = true,
            Step::Map { .. } => maps = true,
            Step::Link { chunk, value } => {
                links += 1;
                link = Some((chunk as usize, value));
            }
            Step::Fence => {}
        }
        last = Some(step);
    }

    // Rule 2: "Discard: no DATA." Rule 3: "Discard: no MAP."
    if data {
        return Err(broken(2));
    }
    if maps {
        return Err(broken(3));
    }
    // Rule 4: "Discard of a mapped chunk: one LINK, this chunk, X. Of an
    // unmapped one: no LINK." Rule 5: "Discard of a mapped chunk: the last
    // step is FENCE. Of an unmapped one: no steps."
    let mapped = volume.link(chunk).is_some();
    let (link_good, end_good) = if mapped {
        (
            links == 1 && link == Some((chunk, Value::Absent)),
            last == Some(Step::Fence),
        )
    } else {
        (links == 0, last.is_none())
    };
    if !link_good {
        return Err(broken(4));
    }
    if !end_good {
        return Err(broken(5));
    }
    Ok(())
}

/// What checking and carrying out share once the image's rows are past: row 7
/// for the chunk and for the step count, row 8, row 11, lowest number first.
/// Carrying out "7 for the chunk or for n above the whole steps, 8, then 11"
/// (Decision 11); the checker lends no step count and passes 0, which is never
/// too many.
pub(crate) fn judge(
    volume: &Volume,
    chunk: u64,
    size: Option<u64>,
    plan: &[u8],
    n: u64,
) -> Answer<()> {
    let chunk = volume.chunk(chunk)?;
    // "A plan's whole steps are its length / 16 rounded down, not capped at
    // 64." (Decision 11)
    if n > (plan.len() / STEP) as u64 {
        return Err(Refusal::plain(RANGE));
    }
    match size {
        Some(size) => write_rules(volume, chunk, size, plan),
        None => discard_rules(volume, chunk, plan),
    }
}

/// The checker for a write. "A request is good if its chunk is below C and a
/// write's size is 1 to P·4,096", else 7 or 8 (Decision 12); "Refusal 9 isn't
/// given here" (01).
pub fn check_write(image: &[u8], chunk: u64, size: u64, plan: &[u8]) -> Answer<()> {
    judge(&Volume::open(image)?, chunk, Some(size), plan, 0)
}

/// The checker for a discard.
pub fn check_discard(image: &[u8], chunk: u64, plan: &[u8]) -> Answer<()> {
    judge(&Volume::open(image)?, chunk, None, plan, 0)
}
