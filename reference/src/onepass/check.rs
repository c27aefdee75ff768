//! The checker.

use super::pass::Claims;
use super::plan::{step, Write, DATA, FENCE, LINK, MAP};
use super::shape::Shape;
use crate::model::refusals::BAD_PLAN;
use crate::model::{Answer, Refusal, ABSENT, MAX_STEPS, STEP};

type Step = [u8; STEP];

/// Of a write's plan that keeps the five rules: its map, and where LINK stands.
pub(super) struct Accepted {
    pub map: u32,
    pub link_at: usize,
}

const fn broken(rule: u64) -> Refusal {
    Refusal::at(BAD_PLAN, rule)
}

/// Rule 1's "Whole steps, at most 64" (01).
fn whole(plan: &[u8]) -> Answer<&[Step]> {
    let (steps, rest) = plan.as_chunks::<STEP>();
    match rest.is_empty() && steps.len() <= MAX_STEPS {
        true => Ok(steps),
        false => Err(broken(1)),
    }
}

/// Kind, and the three fields.
fn fields(step: &Step) -> [u32; 4] {
    let all = u128::from_le_bytes(*step);
    [all, all >> 32, all >> 64, all >> 96].map(|field| field as u32)
}

/// The five rules for a write; the lowest broken one is sought only when the
/// plan is known to break one.
#[inline(always)]
pub(super) fn write(
    shape: &Shape,
    claims: &Claims,
    write: &Write,
    plan: &[u8],
) -> Answer<Accepted> {
    let steps = whole(plan)?;
    match accepted(shape, claims, write, steps) {
        Some(accepted) => Ok(accepted),
        None => Err(broken(lowest_broken(shape, claims, write, steps))),
    }
}

/// One go over the plan, each step held against the words that the write has to
/// store. What stands there twice shows in the counts, as do pieces and words
/// that are not this write's.
#[inline(always)]
fn accepted(shape: &Shape, claims: &Claims, write: &Write, steps: &[Step]) -> Option<Accepted> {
    let Write {
        chunk,
        k,
        ref words,
        found,
    } = *write;
    let width = shape.width();
    let units = &words[shape.head..];
    let (mut pieces, mut stores) = (0u32, 0u32);
    let (mut data, mut maps) = (0, 0);
    let mut map = ABSENT;
    let mut unfenced = false;
    let mut link_at = None;
    for (at, step) in steps.iter().enumerate() {
        match fields(step) {
            [DATA, unit, piece, 0] => {
                if *units.get(piece as usize)? != unit {
                    return None;
                }
                pieces |= 1 << piece;
                data += 1;
                unfenced = true;
            }
            [MAP, target, word, value] => {
                if *words.get(word as usize)? != value || (maps != 0 && target != map) {
                    return None;
                }
                map = target;
                stores |= 1 << word;
                maps += 1;
                unfenced = true;
            }
            // Nothing is left that would have to come before it.
            [LINK, target, 0, value] => {
                let first = link_at.replace(at).is_none();
                let all_before = data == k && maps == width && !unfenced;
                if !first || !all_before || target != chunk as u32 || value != map {
                    return None;
                }
            }
            [FENCE, 0, 0, 0] => unfenced = false,
            _ => return None,
        }
    }
    let whole = found == k
        && (data, pieces) == (k, (1 << k) - 1)
        && (maps, stores) == (width, (1 << width) - 1);
    let free = (map as usize) < shape.m && is_free(claims, map as usize);
    let link_at = link_at?;
    (whole && free && ends_in_fence(steps)).then_some(Accepted { map, link_at })
}

fn is_free(claims: &Claims, map: usize) -> bool {
    claims.maps[map / 64] >> (map % 64) & 1 == 0
}

fn ends_in_fence(steps: &[Step]) -> bool {
    steps.last() == Some(&step(FENCE, 0, 0, 0))
}

/// A value below the limit, or X.
fn is_value(value: u32, limit: usize) -> bool {
    (value as usize) < limit || value == ABSENT
}

/// Rule 1 for one step: "of the four kinds; units below N, pieces and words
/// below P, maps below M, chunks below C; a MAP value below N or X, a LINK value
/// below M or X; unused fields 0" (01); in edition 2 "MAP words run from 0 to P:
/// word 0 holds 1 to P·4,096" (02, request 4).
fn is_step(shape: &Shape, step: &Step) -> bool {
    let below = |field: u32, limit: usize| (field as usize) < limit;
    match fields(step) {
        [DATA, unit, piece, 0] => below(unit, shape.n) && below(piece, shape.p),
        [MAP, map, word, value] => {
            let value_fits = if below(word, shape.head) {
                (1..=4096 * shape.p).contains(&(value as usize))
            } else {
                is_value(value, shape.n)
            };
            below(map, shape.m) && below(word, shape.width()) && value_fits
        }
        [LINK, chunk, 0, value] => below(chunk, shape.c) && is_value(value, shape.m),
        [FENCE, 0, 0, 0] => true,
        _ => false,
    }
}

/// The lowest rule that a write's plan breaks, rule by rule: the slow path.
#[cold]
#[inline(never)]
fn lowest_broken(shape: &Shape, claims: &Claims, write: &Write, steps: &[Step]) -> u64 {
    if !steps.iter().all(|step| is_step(shape, step)) {
        return 1;
    }
    let of_kind = |kind: u32| steps.iter().map(fields).filter(move |step| step[0] == kind);
    let count = |kind: u32| of_kind(kind).count();
    let once = |kind: u32, number: usize| {
        count(kind) == number
            && (0..number).all(|at| of_kind(kind).any(|step| step[2] as usize == at))
    };
    let units = &write.words[shape.head..];
    let on_lowest = of_kind(DATA).all(|step| step[1] == units[step[2] as usize]);
    if write.found < write.k || !once(DATA, write.k) || !on_lowest {
        return 2;
    }
    let map = of_kind(MAP).next().map_or(ABSENT, |step| step[1]);
    let one_map = of_kind(MAP).all(|step| step[1] == map);
    let content = of_kind(MAP).all(|step| step[3] == write.words[step[2] as usize]);
    let width = shape.width();
    if !once(MAP, width) || !one_map || !content || !is_free(claims, map as usize) {
        return 3;
    }
    if count(LINK) != 1 || !of_kind(LINK).all(|step| step == [LINK, write.chunk as u32, 0, map]) {
        return 4;
    }
    5
}

/// The five rules for a discard, in one go over the plan: a step that breaks
/// rule 1 ends it, all else is gathered and judged at the end.
pub(super) fn discard(shape: &Shape, chunk: usize, mapped: bool, plan: &[u8]) -> Answer<()> {
    let steps = whole(plan)?;
    let (mut data, mut maps) = (false, false);
    let (mut links, mut good_links) = (0, 0);
    for step in steps {
        if !is_step(shape, step) {
            return Err(broken(1));
        }
        let fields = fields(step);
        match fields[0] {
            DATA => data = true,
            MAP => maps = true,
            LINK => {
                links += 1;
                good_links += usize::from(fields == [LINK, chunk as u32, 0, ABSENT]);
            }
            _ => {}
        }
    }
    if data {
        return Err(broken(2));
    }
    if maps {
        return Err(broken(3));
    }
    let due = usize::from(mapped);
    if (links, good_links) != (due, due) {
        return Err(broken(4));
    }
    let ends_well = match mapped {
        true => ends_in_fence(steps),
        false => steps.is_empty(),
    };
    match ends_well {
        true => Ok(()),
        false => Err(broken(5)),
    }
}
