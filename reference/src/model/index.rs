//! The held index: "Load once, keep an index of free units and maps, and carry
//! it along. Each call takes the held index and gives the next one back; a
//! refused call gives back the one it took." (02, request 7)
//!
//! An index is a [`Shape`] and words that the caller lends: "the shape of a sound
//! image and its two free sets in one run of words: 72 for the units, then 5 for
//! the maps, as load has them" (Decision 99). Every call here takes any shape,
//! any words and any image. What the scanning calls do once their image is
//! judged, these do by the same functions, on a [`Volume`] whose sets are the
//! index's.

use core::ops::Range;

use super::carry::store;
use super::figures::{count_sounds, fraction_sounds, report_on};
use super::geometry::{Geometry, MAP_WORDS, UNIT_WORDS};
use super::image::{Maps, Units, Volume, Words, X};
use super::plan::{discard_on, write_on};
use super::ranges::{access_on, held_on, stored_size_on};
use super::refusals::{BAD_LINK, GEOMETRY, SMALL};
use super::rules::judge;
use super::{Access, Answer, Refusal, Report, Shape};

/// Words of an index: "72 for the units, then 5 for the maps" (Decision 99).
/// "Words past the 77th are neither read nor written." (Decision 103)
pub const INDEX_WORDS: usize = UNIT_WORDS + MAP_WORDS;

/// "10 with 616 for fewer than 77 words" (Decision 100), the bytes of them.
fn enough(sets: &[u64]) -> Answer<()> {
    if sets.len() < INDEX_WORDS {
        let bytes = INDEX_WORDS * size_of::<u64>();
        return Err(Refusal::at(SMALL, bytes as u64));
    }
    Ok(())
}

/// Open: "Judges an image, as sumbilak_load does, and writes
/// SUMBILAK_INDEX_WORDS words. Refuses with 1 to 6, and 10 for fewer words
/// (place 616)." (the C interface) "10 with 616 comes after 1 to 6"
/// (Decision 105).
pub fn open(image: &[u8], sets: &mut [u64]) -> Answer<Shape> {
    let volume = Volume::open(image)?;
    enough(sets)?;
    let (units, rest) = sets.split_at_mut(UNIT_WORDS);
    units.copy_from_slice(&volume.free_units.into_words());
    rest[..MAP_WORDS].copy_from_slice(&volume.free_maps.into_words());
    Ok(volume.geometry.shape())
}

/// What an index says of an image, and the refusals that come before the
/// scanning call's 7 to 12: "1 to 3, by the image's trailer, as the scanning
/// call does; 3 where the trailer passes and does not say what the index says
/// (edition, P, C, M, N and R, any 64-bit numbers); for a call on a chunk (plan,
/// check, carry, held words, stored size) that is below C, 4 with that chunk
/// where its entry is neither X nor below M; 10 with 616 for fewer than 77
/// words" (Decision 100).
///
/// "the free units are the members below N of the first 72 words, reserved units
/// too if a set has them; the free maps are the members below M of the next 5"
/// (Decision 102).
fn held_volume<'a>(
    index: &Shape,
    sets: &[u64],
    image: &'a [u8],
    chunk: Option<u64>,
) -> Answer<Volume<'a>> {
    let geometry = Geometry::of_image(image)?;
    if geometry.shape() != *index {
        return Err(Refusal::plain(GEOMETRY));
    }
    let words = Words::of_image(image, &geometry);
    if let Some(chunk) = chunk.filter(|&chunk| chunk < geometry.c as u64) {
        let entry = words.entry(chunk as usize);
        if entry != X && entry >= geometry.m as u64 {
            return Err(Refusal::at(BAD_LINK, chunk));
        }
    }
    enough(sets)?;
    let (units, maps) = sets.split_at(UNIT_WORDS);
    Ok(Volume {
        geometry,
        free_units: Units::below(units, geometry.n),
        free_maps: Maps::below(maps, geometry.m),
        words,
    })
}

/// The planner's write: "7 to 12 as the scanning call after its 1 to 6, by the
/// index's sets and by the chunk's own entry and map" (Decision 100). "A set
/// without a free map gives 9 with 0, after 9 for too few units"
/// (Decision 102).
pub fn plan_write(
    index: &Shape,
    sets: &[u64],
    image: &[u8],
    chunk: u64,
    size: u64,
    out: &mut [u8],
) -> Answer<u64> {
    write_on(
        &held_volume(index, sets, image, Some(chunk))?,
        chunk,
        size,
        out,
    )
}

/// The planner's discard: "A plan, a check or a carrying out depends on no entry
/// or map but its own chunk's." (02, request 7)
pub fn plan_discard(
    index: &Shape,
    sets: &[u64],
    image: &[u8],
    chunk: u64,
    out: &mut [u8],
) -> Answer<u64> {
    discard_on(&held_volume(index, sets, image, Some(chunk))?, chunk, out)
}

/// The checker for a write: "7 to 12 as the scanning call after its 1 to 6, by
/// the index's sets" (Decision 100).
pub fn check_write(
    index: &Shape,
    sets: &[u64],
    image: &[u8],
    chunk: u64,
    size: u64,
    plan: &[u8],
) -> Answer<()> {
    let volume = held_volume(index, sets, image, Some(chunk))?;
    judge(&volume, chunk, Some(size), plan, 0)
}

/// The checker for a discard.
pub fn check_discard(
    index: &Shape,
    sets: &[u64],
    image: &[u8],
    chunk: u64,
    plan: &[u8],
) -> Answer<()> {
    let volume = held_volume(index, sets, image, Some(chunk))?;
    judge(&volume, chunk, None, plan, 0)
}

/// Carries out the first n steps of a write's plan, and leaves the next index's
/// words where they were lent.
pub fn carry_write(
    index: &Shape,
    sets: &mut [u64],
    image: &mut [u8],
    chunk: u64,
    size: u64,
    plan: &[u8],
    n: u64,
) -> Answer<()> {
    carry(index, sets, image, chunk, Some(size), plan, n)
}

/// The same for a discard. "A discard of an unmapped chunk has no LINK, and
/// changes no index." (Decision 104)
pub fn carry_discard(
    index: &Shape,
    sets: &mut [u64],
    image: &mut [u8],
    chunk: u64,
    plan: &[u8],
    n: u64,
) -> Answer<()> {
    carry(index, sets, image, chunk, None, plan, n)
}

/// "Exactly where carrying out is accepted and LINK is among the n steps"
/// (Decision 103) the words change. "Any other call, and every refused one, gives
/// back the index that it took, bit for bit."
fn carry(
    index: &Shape,
    sets: &mut [u64],
    image: &mut [u8],
    chunk: u64,
    size: Option<u64>,
    plan: &[u8],
    n: u64,
) -> Answer<()> {
    let volume = held_volume(index, sets, image, Some(chunk))?;
    judge(&volume, chunk, size, plan, n)?;
    let geometry = volume.geometry;
    // The chunk is below C, or it would have been refused.
    let chunk = chunk as usize;
    let before = volume.words.entry(chunk);
    if store(image, &geometry, plan, n) {
        let left = Words::of_image(image, &geometry);
        step_on(sets, &geometry, left, before, left.entry(chunk));
    }
    Ok(())
}

/// The next index, "in this order: the units of the map that the chunk's entry
/// named before are put in, read from the image as it is left, where the entry
/// was below M; the units of the map that its entry names now are taken out, if
/// it is below M; the number of the old map is put in, that of the new one taken
/// out, X changing nothing" (Decision 103). Bits from N and from M on stay what
/// they were.
fn step_on(sets: &mut [u64], geometry: &Geometry, left: Words, before: u64, now: u64) {
    let (units, maps) = sets.split_at_mut(UNIT_WORDS);
    let a_map = |entry: u64| (entry < geometry.m as u64).then_some(entry);
    let (old, new) = (a_map(before), a_map(now));
    if let Some(map) = old {
        left.held(map).for_each(|unit| put_in(units, unit));
    }
    if let Some(map) = new {
        left.held(map).for_each(|unit| take_out(units, unit));
    }
    if let Some(map) = old {
        put_in(maps, map);
    }
    if let Some(map) = new {
        take_out(maps, map);
    }
}

/// "bit u mod 64 of word u/64 is 1 if unit u is free" (01).
fn put_in(words: &mut [u64], number: u64) {
    words[number as usize / 64] |= 1 << (number % 64);
}

fn take_out(words: &mut [u64], number: u64) {
    words[number as usize / 64] &= !(1 << (number % 64));
}

/// Access "judges no entry: it asks whether the entry of the chunk that the range
/// lies in is X" (Decision 101).
pub fn access(
    index: &Shape,
    sets: &[u64],
    image: &[u8],
    write: bool,
    offset: u64,
    length: u64,
) -> Answer<Access> {
    let volume = held_volume(index, sets, image, None)?;
    access_on(&volume, write, offset, length)
}

/// Held words: "What a map holds is its unit words up to the first that is not
/// one of R to N-1" (Decision 102).
pub fn held(index: &Shape, sets: &[u64], image: &[u8], chunk: u64) -> Answer<Range<usize>> {
    held_on(&held_volume(index, sets, image, Some(chunk))?, chunk)
}

/// Stored size: "in edition 2 a stored size is word 0 as it stands"
/// (Decision 102).
pub fn stored_size(index: &Shape, sets: &[u64], image: &[u8], chunk: u64) -> Answer<u64> {
    stored_size_on(&held_volume(index, sets, image, Some(chunk))?, chunk)
}

/// Report: "The report counts free units and free maps so: mapped is M less the
/// free maps, held is N - R - free, saved is mapped times P less held, each
/// difference cut off at 0; the ratios are those of these counts."
/// (Decision 102)
pub fn report(index: &Shape, sets: &[u64], image: &[u8]) -> Answer<Report> {
    let volume = held_volume(index, sets, image, None)?;
    let mapped = volume.geometry.m as u64 - volume.free_maps.count();
    Ok(report_on(&volume, mapped))
}

/// "The alarm goes by the same free units." (Decision 102)
pub fn alarm_count(index: &Shape, sets: &[u64], image: &[u8], units: u64) -> Answer<bool> {
    let volume = held_volume(index, sets, image, None)?;
    Ok(count_sounds(&volume, units))
}

/// The same, with a level that is a fraction of N.
pub fn alarm_fraction(index: &Shape, sets: &[u64], image: &[u8], fraction: f64) -> Answer<bool> {
    fraction_sounds(&held_volume(index, sets, image, None)?, fraction)
}
