//! What memory would buy: a load with a byte for each unit in place of a bit, so
//! that a claim is a store and waits for nothing. It takes 4,608 bytes more.

use super::pass::{pass, Claims, UNIT_WORDS};
use super::shape::Shape;
use super::{put_loaded, refuse};
use crate::model::Answer;

#[inline(never)]
pub fn load(image: &[u8], out: &mut [u64]) -> Answer<u64> {
    let shape = Shape::of_image(image)?;
    let mut claims = Claims::NONE;
    match fill(&mut claims, &shape, image) {
        true => put_loaded(&shape, &claims, out),
        false => Err(refuse::verdict(&shape, image)),
    }
}

#[inline(never)]
fn fill(claims: &mut Claims, shape: &Shape, image: &[u8]) -> bool {
    let mut all = [0; 64 * UNIT_WORDS];
    let marks = &mut all[..64 * shape.unit_words()];
    let claim = |unit: u64| match marks.get_mut(unit as usize) {
        Some(mark) => {
            *mark = 1;
            true
        }
        None => false,
    };
    let Some(held) = pass(shape, image, &mut claims.maps, claim) else {
        return false;
    };
    let (groups, _) = all.as_chunks();
    let words = claims.units[..shape.unit_words()].iter_mut();
    words
        .zip(groups)
        .for_each(|(word, group)| *word = bits(group));
    claims.is_sound(shape, held)
}

/// A bit for each byte that is 1; all others are 0. The product has the lowest
/// bit of byte i of a word as its bit 56 + i.
#[inline(always)]
fn bits(marks: &[u8; 64]) -> u64 {
    let (eights, _) = marks.as_chunks();
    let eights = eights.iter().rev().map(|eight| u64::from_le_bytes(*eight));
    eights.fold(0, |word, eight| {
        word << 8 | eight.wrapping_mul(0x0102_0408_1020_4080) >> 56
    })
}
