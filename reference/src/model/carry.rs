//! Carrying a plan out on the metadata.

use super::geometry::{Geometry, WORD};
use super::image::Volume;
use super::plan::{Step, STEP};
use super::rules::judge;
use super::Answer;

/// "Carrying out the first n steps checks the plan, then stores the MAP and
/// LINK words of those n and no other byte. DATA is the caller's." (01) The
/// plan has been checked, so every step decodes. Answers whether LINK was among
/// them.
pub(crate) fn store(image: &mut [u8], geometry: &Geometry, plan: &[u8], n: u64) -> bool {
    let (steps, _) = plan.as_chunks::<STEP>();
    let mut linked = false;
    for bytes in &steps[..n as usize] {
        let (at, value) = match Step::decode(bytes, geometry) {
            Some(Step::Map { map, word, value }) => {
                (geometry.map_word_at(map as usize, word as usize), value)
            }
            Some(Step::Link { chunk, value }) => {
                linked = true;
                (geometry.entry_at(chunk as usize), value)
            }
            _ => continue,
        };
        image[at..at + WORD].copy_from_slice(&value.stored().to_le_bytes());
    }
    linked
}

/// Carries out the first `n` steps of a write's plan. "n = 0 still checks the
/// whole plan" (Decision 11).
pub fn carry_write(image: &mut [u8], chunk: u64, size: u64, plan: &[u8], n: u64) -> Answer<()> {
    carry(image, chunk, Some(size), plan, n)
}

fn carry(image: &mut [u8], chunk: u64, size: Option<u64>, plan: &[u8], n: u64) -> Answer<()> {
    let volume = Volume::open(image)?;
    judge(&volume, chunk, size, plan, n)?;
    let geometry = volume.geometry;
    store(image, &geometry, plan, n);
    Ok(())
}

/// Carries out the first `n` steps of a discard's plan.
pub fn carry_discard(image: &mut [u8], chunk: u64, plan: &[u8], n: u64) -> Answer<()> {
    carry(image, chunk, None, plan, n)
}
