//! Carrying out: "stores the MAP and LINK words of those n and no other byte"
//! (01), of a plan that has passed.

use super::plan::{Write, LINK, MAP};
use super::shape::{Shape, Word};
use crate::model::STEP;

/// "X is written 4294967295 and stored as 2^64-1." (01) Every other value of a
/// plan that has passed is far below 2^31.
fn stored(value: u32) -> Word {
    i64::from(value as i32).to_le_bytes()
}

/// The whole of a write's plan, or all up to LINK: the words of its map, and the
/// entry.
#[inline(always)]
pub(super) fn all(shape: &Shape, image: &mut [u8], write: &Write, map: u32) {
    let width = shape.width();
    let (words, _) = image.as_chunks_mut();
    let slots = &mut words[shape.c + map as usize * width..][..width];
    for (slot, value) in slots.iter_mut().zip(&write.words) {
        *slot = stored(*value);
    }
    words[write.chunk] = stored(map);
}

/// The first n steps of any plan, one by one.
pub(super) fn steps(shape: &Shape, image: &mut [u8], plan: &[u8], n: usize) {
    let (words, _) = image.as_chunks_mut::<8>();
    let (steps, _) = plan.as_chunks::<STEP>();
    for step in &steps[..n] {
        let all = u128::from_le_bytes(*step);
        let [kind, target, word, value] = [0, 32, 64, 96].map(|shift| (all >> shift) as u32);
        let at = match kind {
            MAP => shape.c + target as usize * shape.width() + word as usize,
            LINK => target as usize,
            _ => continue,
        };
        words[at] = stored(value);
    }
}
