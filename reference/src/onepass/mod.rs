//! A yardstick for the benchmark alone: the calls that it times, written for
//! speed in plain Rust.
//!
//! Every call goes over the named maps once. It sets a bit for each map and unit
//! without looking at it first, counts claims, and at the end holds the number
//! of bits against that count; only when something is wrong a slow path finds
//! out what. One loop serves every P, with a copy for each edition, and there is
//! one set of bits. No heap, no `unsafe`, no intrinsics, nothing of the model but
//! its answers' types and constants.
//!
//! [`per_p`] and [`bytes`] are two other ways to load, for columns of their own.
//! `tests/onepass.rs` holds everything here to the model.

pub mod bytes;
mod carry;
mod check;
mod pass;
pub mod per_p;
mod plan;
mod refuse;
mod repair;
mod shape;

use crate::model::refusals::{RANGE, SMALL};
use crate::model::{Answer, Refusal, Report, STEP};
use check::Accepted;
use pass::{Claims, MAP_WORDS, UNIT_WORDS, X};
use plan::Write;
use shape::Shape;

/// P, C, M, N and both sets: what a load writes.
pub const LOAD_WORDS: usize = 4 + UNIT_WORDS + MAP_WORDS;

/// "Load answers P, C, M, N and both" (01), here into the caller's words, and R.
/// Row 10 comes after the image's own.
#[inline(never)]
pub fn load(image: &[u8], out: &mut [u64]) -> Answer<u64> {
    let shape = Shape::of_image(image)?;
    let mut claims = Claims::NONE;
    claims.fill(&shape, image)?;
    put_loaded(&shape, &claims, out)
}

#[inline(always)]
fn put_loaded(shape: &Shape, claims: &Claims, out: &mut [u64]) -> Answer<u64> {
    let Some(out) = out.first_chunk_mut::<LOAD_WORDS>() else {
        return Err(Refusal::at(SMALL, 8 * LOAD_WORDS as u64));
    };
    let Shape { p, c, m, n, r, .. } = *shape;
    *out = [0; LOAD_WORDS];
    let (numbers, sets) = out.split_at_mut(4);
    let (units, maps) = sets.split_at_mut(UNIT_WORDS);
    numbers.copy_from_slice(&[p, c, m, n].map(|number| number as u64));
    put_free(&claims.units[..shape.unit_words()], units);
    put_free(&claims.maps[..shape.map_words()], maps);
    Ok(r as u64)
}

/// What nobody claims, a bit each.
#[inline(always)]
fn put_free(claimed: &[u64], out: &mut [u64]) {
    for (free, claimed) in out.iter_mut().zip(claimed) {
        *free = !claimed;
    }
}

#[inline(never)]
pub fn plan_write(image: &[u8], chunk: u64, size: u64, out: &mut [u8]) -> Answer<u64> {
    let shape = Shape::of_image(image)?;
    let mut claims = Claims::NONE;
    claims.fill(&shape, image)?;
    let chunk = shape.chunk(chunk)?;
    let k = shape.units_for(size)?;
    let write = Write::new(&shape, &claims, chunk, size, k);
    plan::put_write(&shape, &claims, &write, out)
}

#[inline(never)]
pub fn plan_discard(image: &[u8], chunk: u64, out: &mut [u8]) -> Answer<u64> {
    let shape = Shape::of_image(image)?;
    let mut claims = Claims::NONE;
    claims.fill(&shape, image)?;
    let chunk = shape.chunk(chunk)?;
    plan::put_discard(chunk, entry(&shape, image, chunk) != X, out)
}

/// A chunk's entry.
fn entry(shape: &Shape, image: &[u8], chunk: usize) -> u64 {
    let (entries, _) = shape.tables(image);
    u64::from_le_bytes(entries[chunk])
}

#[inline(never)]
pub fn check_write(image: &[u8], chunk: u64, size: u64, plan: &[u8]) -> Answer<()> {
    let shape = Shape::of_image(image)?;
    let mut claims = Claims::NONE;
    claims.fill(&shape, image)?;
    let chunk = shape.chunk(chunk)?;
    let k = shape.units_for(size)?;
    let write = Write::new(&shape, &claims, chunk, size, k);
    check::write(&shape, &claims, &write, plan).map(|_| ())
}

#[inline(never)]
pub fn check_discard(image: &[u8], chunk: u64, plan: &[u8]) -> Answer<()> {
    let shape = Shape::of_image(image)?;
    let mut claims = Claims::NONE;
    claims.fill(&shape, image)?;
    let chunk = shape.chunk(chunk)?;
    check::discard(&shape, chunk, entry(&shape, image, chunk) != X, plan)
}

/// "Carrying out the first n steps checks the plan, then stores" (01); "7 for
/// the chunk or for n above the whole steps, 8, then 11" (Decision 11). Once
/// LINK is among the n steps, so are all words of the map.
#[inline(never)]
pub fn carry_write(image: &mut [u8], chunk: u64, size: u64, plan: &[u8], n: u64) -> Answer<()> {
    let shape = Shape::of_image(image)?;
    let mut claims = Claims::NONE;
    claims.fill(&shape, image)?;
    let chunk = shape.chunk(chunk)?;
    let n = steps_within(plan, n)?;
    let k = shape.units_for(size)?;
    let write = Write::new(&shape, &claims, chunk, size, k);
    let Accepted { map, link_at } = check::write(&shape, &claims, &write, plan)?;
    if link_at < n {
        carry::all(&shape, image, &write, map);
    } else {
        carry::steps(&shape, image, plan, n);
    }
    Ok(())
}

#[inline(never)]
pub fn carry_discard(image: &mut [u8], chunk: u64, plan: &[u8], n: u64) -> Answer<()> {
    let shape = Shape::of_image(image)?;
    let mut claims = Claims::NONE;
    claims.fill(&shape, image)?;
    let chunk = shape.chunk(chunk)?;
    let n = steps_within(plan, n)?;
    check::discard(&shape, chunk, entry(&shape, image, chunk) != X, plan)?;
    carry::steps(&shape, image, plan, n);
    Ok(())
}

/// Row 7: "step count above the plan's whole steps" (01).
fn steps_within(plan: &[u8], n: u64) -> Answer<usize> {
    match n <= (plan.len() / STEP) as u64 {
        true => Ok(n as usize),
        false => Err(Refusal::plain(RANGE)),
    }
}

/// Four counts, all from the pass, and two ratios; saved units are counted over
/// mapped chunks only (02, request 1).
#[inline(never)]
pub fn report(image: &[u8]) -> Answer<Report> {
    let shape = Shape::of_image(image)?;
    let mut claims = Claims::NONE;
    claims.fill(&shape, image)?;
    let Claims { mapped, held, .. } = claims;
    let raw = mapped * shape.p;
    let saved = raw - held;
    let ratio = |part: usize, whole: usize| part as f64 / whole as f64;
    Ok(Report {
        mapped: mapped as u64,
        held: held as u64,
        free: (shape.n - shape.r - held) as u64,
        saved: saved as u64,
        held_ratio: ratio(held, shape.n),
        saved_ratio: if mapped == 0 { 0.0 } else { ratio(saved, raw) },
    })
}

/// "a call answers a chunk's stored size, k·4,096 in edition 1 and 0 for an
/// unmapped chunk" (02, request 4).
#[inline(never)]
pub fn stored_size(image: &[u8], chunk: u64) -> Answer<u64> {
    let shape = Shape::of_image(image)?;
    let mut claims = Claims::NONE;
    claims.fill(&shape, image)?;
    let chunk = shape.chunk(chunk)?;
    let map = entry(&shape, image, chunk);
    if map == X {
        return Ok(0);
    }
    let (_, maps) = shape.tables(image);
    let words = &maps[map as usize * shape.width()..][..shape.width()];
    if shape.head == 1 {
        return Ok(u64::from_le_bytes(words[0]));
    }
    let held = words.iter().filter(|word| **word != [0xFF; 8]).count();
    Ok(4096 * held as u64)
}

/// Of a sound image nothing but the pass; otherwise the slow path.
#[inline(never)]
pub fn repair(image: &mut [u8], out: &mut [u8]) -> Answer<u64> {
    let shape = Shape::of_image(image)?;
    let mut claims = Claims::NONE;
    match claims.fill_if_sound(&shape, image) {
        true => Ok(0),
        false => repair::unlink(&shape, image, out),
    }
}
