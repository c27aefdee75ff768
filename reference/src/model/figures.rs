//! Report and alarm.

use super::geometry::Geometry;
use super::image::Volume;
use super::refusals::BAD_ALARM;
use super::{Answer, Refusal};

/// "one record of four counts and two ratios: mapped chunks, held units, free
/// units, saved units" (01), held/N, and the saved units' part of mapped·P
/// (02, request 1).
#[derive(Clone, Copy, Debug, PartialEq)]
pub struct Report {
    pub mapped: u64,
    pub held: u64,
    pub free: u64,
    pub saved: u64,
    pub held_ratio: f64,
    pub saved_ratio: f64,
}

/// The report, "the ratios as f64 from exact counts and one rounded division"
/// (01). Every count is far below 2^53, so it converts exactly.
///
/// "Saved units must be counted over mapped chunks only: mapped chunks times
/// P, less held units. The ratio's divisor becomes mapped times P, and the
/// ratio is 0.0 when nothing is mapped. This corrects 01's report section."
/// (02, request 1) 01 counted over all C chunks. "Held/N stays.", reserved
/// units among its N (Decision 77).
pub fn report(image: &[u8]) -> Answer<Report> {
    let volume = Volume::open(image)?;
    Ok(report_on(&volume, volume.mapped_chunks()))
}

/// The report by these sets and so many mapped chunks, "each difference cut off at 0; the ratios are those
/// of these counts" (Decision 102). Of a sound image no difference is.
pub(crate) fn report_on(volume: &Volume, mapped: u64) -> Report {
    let Geometry { p, n, .. } = volume.geometry;
    let free = volume.free_units.count();
    // A unit that is not free is held; a reserved one is neither, so that both
    // together are N-R (Decision 77).
    let held = (volume.geometry.units().len() as u64).saturating_sub(free);
    // What the mapped chunks would hold if all were stored raw.
    let raw = mapped * p as u64;
    // "Held units are those in named maps" (01). A mapped chunk names one map
    // and a map has P words, so there are at most mapped·P of them.
    let saved = raw.saturating_sub(held);
    Report {
        mapped,
        held,
        free,
        saved,
        held_ratio: held as f64 / n as f64,
        // The divisor is 0 just where nothing is mapped. Mapped chunks that
        // save nothing give +0.0 too.
        saved_ratio: if mapped == 0 {
            0.0
        } else {
            saved as f64 / raw as f64
        },
    }
}

/// "It sounds when free units are below the count" (01), reserved units not
/// among them. Any count is a good level (Decision 17).
pub fn alarm_count(image: &[u8], units: u64) -> Answer<bool> {
    Ok(count_sounds(&Volume::open(image)?, units))
}

/// The alarm by these sets.
pub(crate) fn count_sounds(volume: &Volume, units: u64) -> bool {
    volume.free_units.count() < units
}

/// It sounds when free units are "below the one rounded product fraction times
/// N"; row 12: "fraction not a number, below 0 or above 1" (01). -0.0 is good
/// and never sounds (Decision 17). The fraction is of all N, reserved units
/// among it (Decision 77).
pub fn alarm_fraction(image: &[u8], fraction: f64) -> Answer<bool> {
    fraction_sounds(&Volume::open(image)?, fraction)
}

/// The alarm by these sets.
pub(crate) fn fraction_sounds(volume: &Volume, fraction: f64) -> Answer<bool> {
    if !(0.0..=1.0).contains(&fraction) {
        return Err(Refusal::plain(BAD_ALARM));
    }
    let level = fraction * volume.geometry.n as f64;
    Ok((volume.free_units.count() as f64) < level)
}
