//! Lists that begin with a conversion: a volume of edition 1 is used, cuts and
//! all, and converted; "Demands 2 and 3 hold for either" edition (02,
//! request 4), so the ledger goes on with what the converted image holds.

use std::ops::AddAssign;

use sumbilak_reference::inputs::{self, Edition, Shape, X};
use sumbilak_reference::rng::{mix, Rng};

use crate::beginnings::{self, nothing_but, random_lists, Beginning};
use crate::exhaustive::{Plans, Scope, Start, Tally};
use crate::lists;
use crate::rules::Rules;
use crate::simulate::{Simulator, Violation};
use crate::volume::{Held, Volume};
use crate::{seed, two, wrong, LEDGER, LOAD, SIZE, SIZE_FLAW, TRAILER, VOLUMES, VOLUME_64K};

/// What was converted.
#[derive(Clone, Debug, Default)]
pub struct Conversions {
    pub images: u64,
    /// Images with nothing mapped, and with a dead map that is not X throughout.
    pub empty: u64,
    pub littered: u64,
    /// Chunks that are mapped.
    pub mapped: u64,
}

impl AddAssign<&Conversions> for Conversions {
    fn add_assign(&mut self, other: &Conversions) {
        self.images += other.images;
        self.empty += other.empty;
        self.littered += other.littered;
        self.mapped += other.mapped;
    }
}

/// The volume in edition 2. Its units are what they were, and so is the ledger:
/// the same pieces, and sizes of whole units, as edition 1 answered them.
pub fn converted<R: Rules>(
    simulator: &Simulator<R>,
    used: &Volume,
    conversions: &mut Conversions,
    violations: &mut Vec<Violation>,
) -> Volume {
    let one = simulator.shape.in_edition(Edition::One);
    let mapped = inputs::mapped(&one, &used.image).len() as u64;
    let litter = |map: u64| {
        let mut words = (0..one.p).map(|at| inputs::word(&used.image, one.word_at(map, at)));
        words.any(|word| word != X)
    };
    conversions.images += 1;
    conversions.empty += u64::from(mapped == 0);
    let dead = inputs::free_maps(&one, &used.image);
    conversions.littered += u64::from(dead.into_iter().any(litter));
    conversions.mapped += mapped;

    let volume = Volume {
        image: simulator.convert(&used.image, violations),
        ..used.clone()
    };
    simulator.verify(&volume.image, violations);
    simulator.verify_pieces(&volume, violations);
    simulator.verify_sizes(&volume, 0, violations);
    volume
}

impl Beginning for Conversions {
    const NAME: &'static str = "conversion";
    const IMAGE: &'static str = "sound image";
    const DONE: &'static str = "converted";

    fn titles() -> Vec<&'static str> {
        vec!["images", "nothing mapped", "dead maps used", "chunks"]
    }

    fn cells(&self) -> Vec<u64> {
        vec![self.images, self.empty, self.littered, self.mapped]
    }

    fn images(&self) -> u64 {
        self.images
    }

    fn of(tally: &Tally) -> &Self {
        &tally.converted
    }

    /// A volume of edition 1 after a list of events, or any sound one, converted.
    fn start<R: Rules>(
        &mut self,
        simulator: &Simulator<R>,
        rng: &mut Rng,
        violations: &mut Vec<Violation>,
    ) -> Volume {
        let one = simulator.shape.in_edition(Edition::One);
        let used = match rng.below(3) {
            0 => {
                let full = rng.pick(&[25, 50, 75, 90, 100]);
                Volume::scattered(rng, &one, full)
            }
            _ => lists::used(&one, rng),
        };
        for (chunk, &size) in (0..).zip(&used.sizes) {
            // 4,096 for each unit, which is what the converter keeps.
            let held = Held::of(&one, &used.image, chunk);
            assert_eq!(size, 4096 * held.units().len() as u64);
        }
        converted(simulator, &used, self, violations)
    }
}

#[test]
fn random_event_lists_after_a_conversion() {
    let volumes = VOLUMES.into_iter().map(|(shape, lists)| {
        let shape = shape.in_edition(Edition::Two);
        (shape, lists.div_ceil(5))
    });
    let (conversions, _) = random_lists::<Conversions>(volumes, 0, mix(seed() ^ 2));
    assert!(conversions.littered > 100 && conversions.empty > 0);
}

/// Volumes of which every sound image of edition 1 is converted.
const EVERY_SOUND: [Scope; 3] = [
    from_every_sound(two(2, 1, 2, 2)),
    from_every_sound(two(2, 1, 2, 3)),
    from_every_sound(two(2, 2, 3, 2)),
];

const fn from_every_sound(shape: Shape) -> Scope {
    Scope {
        shape,
        start: Start::EveryConversion,
        plans: Plans::EveryChoice,
        // From a converted image on the states are those of edition 2; what is
        // new is the first step.
        depth: Some(1),
    }
}

#[test]
fn every_sound_image_of_small_volumes_converted() {
    beginnings::every_image_of::<Conversions>(&EVERY_SOUND);
}

const CONVERSION: &str = "conversion";

/// The 64 KB volume in edition 2.
const SHAPE: Shape = VOLUME_64K.in_edition(Edition::Two);

/// Runs a wrong converter until each of these violations is seen.
fn notice(rule: &str, convert: wrong::ConvertFn, violations: &[&str]) {
    let rules = wrong::Converter(convert);
    beginnings::notice::<Conversions, _>(rule, &rules, SHAPE, &EVERY_SOUND[2], violations);
}

#[test]
fn wrong_converters_are_caught() {
    notice(
        "an entry lost",
        wrong::convert_without_an_entry,
        &[CONVERSION, LEDGER, SIZE],
    );
    notice(
        "units the other way round",
        wrong::convert_in_reverse,
        &[CONVERSION, LEDGER],
    );
    // Sizes of k bytes take one unit: two units or more do not fit them.
    notice(
        "k for a size",
        wrong::convert_with_counts,
        &[CONVERSION, SIZE, LOAD, SIZE_FLAW],
    );
    // "the converter writes 0" (02, request 5): unit 0 may be held, and is not
    // there to be reserved where N is P.
    notice(
        "a unit reserved",
        wrong::convert_and_reserve,
        &[CONVERSION, TRAILER, LOAD],
    );
}

/// What no event list can give away, because dead maps may hold anything. The
/// request's own words on the bytes do.
#[test]
fn a_converter_that_copies_dead_maps_is_caught() {
    let convert: wrong::ConvertFn = wrong::convert_with_dead_maps;
    notice("dead maps copied", convert, &[CONVERSION]);
    let rules = wrong::Converter(convert);
    nothing_but::<Conversions, _>("dead maps copied", &rules, SHAPE, CONVERSION);
}
