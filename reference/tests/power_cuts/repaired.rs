//! Lists that begin with a repair: "Demand 3 and its ledger then start from the
//! repaired image once it is wholly written back and fenced, a chunk with no
//! landed plan since holding what that image gives it" (02, request 3).

use std::ops::AddAssign;

use sumbilak_reference::inputs::{self, put_word, Shape, X};
use sumbilak_reference::rng::{mix, Rng};

use crate::beginnings::{self, nothing_but, random_lists, Beginning};
use crate::exhaustive::{Plans, Scope, Start, Tally};
use crate::rules::Rules;
use crate::simulate::{Simulator, Violation};
use crate::volume::{faults, Fault, Flaw, Reading, Volume};
use crate::{notice_in_scope, LEDGER, LOAD, NO_MAP, ON_RESERVED, TWO_OWNERS};
use crate::{seed, shape, two, volumes, wrong, VOLUME_64K};
use crate::{NOT_LOWEST, OVERWRITTEN, RESERVED_DATA, SCATTERED, VERDICT};

/// What was repaired.
#[derive(Clone, Debug, Default)]
pub struct Repairs {
    pub images: u64,
    /// Images with a fault of each kind, and with faults of two kinds or more.
    pub kinds: [u64; Fault::NAMES.len()],
    pub several: u64,
    /// Images in which a chunk has a reserved unit.
    pub on_reserved: u64,
    /// Chunks in the lists.
    pub unlinked: u64,
    /// Chunks that are mapped in the repaired images, and images with such.
    pub mapped: u64,
    pub with_mapped: u64,
}

impl AddAssign<&Repairs> for Repairs {
    fn add_assign(&mut self, other: &Repairs) {
        self.images += other.images;
        for (sum, more) in self.kinds.iter_mut().zip(other.kinds) {
            *sum += more;
        }
        self.several += other.several;
        self.on_reserved += other.on_reserved;
        self.unlinked += other.unlinked;
        self.mapped += other.mapped;
        self.with_mapped += other.with_mapped;
    }
}

/// A volume whose image has been repaired and written back; its ledger starts
/// with what the repaired image gives each chunk.
pub fn repaired<R: Rules>(
    simulator: &Simulator<R>,
    damaged: &[u8],
    units: Vec<u64>,
    repairs: &mut Repairs,
    violations: &mut Vec<Violation>,
) -> Volume {
    let shape = &simulator.shape;
    let image = simulator.repair(damaged, violations);
    let mapped = inputs::mapped(shape, &image).len() as u64;
    let found = faults(shape, damaged);
    let of_kind = |kind: usize| found.iter().any(|(_, fault)| fault.index() == kind);
    let kinds: Vec<usize> = (0..repairs.kinds.len())
        .filter(|&kind| of_kind(kind))
        .collect();
    repairs.images += 1;
    kinds.iter().for_each(|&kind| repairs.kinds[kind] += 1);
    repairs.several += u64::from(kinds.len() > 1);
    let on_reserved = |flaw: &Flaw| matches!(flaw, Flaw::Reserved { .. });
    let mut flaws = Reading::of(shape, damaged).flaws.into_iter();
    repairs.on_reserved += u64::from(flaws.any(|flaw| on_reserved(&flaw)));
    repairs.unlinked += found.len() as u64;
    repairs.mapped += mapped;
    repairs.with_mapped += u64::from(mapped > 0);

    let mut volume = Volume::holding(shape, image, units);
    simulator.rules.write_back(damaged, &mut volume.image);
    simulator.verify(&volume.image, violations);
    simulator.verify_pieces(&volume, violations);
    simulator.verify_sizes(&volume, 0, violations);
    volume
}

impl Beginning for Repairs {
    const NAME: &'static str = "repair";
    const IMAGE: &'static str = "image";
    const DONE: &'static str = "repaired";

    fn titles() -> Vec<&'static str> {
        let mut titles = vec!["images"];
        titles.extend(Fault::NAMES);
        titles.extend([
            "two kinds or more",
            "reserved unit",
            "chunks unlinked",
            "chunks left",
            "images with such",
        ]);
        titles
    }

    fn cells(&self) -> Vec<u64> {
        let mut cells = vec![self.images];
        cells.extend(self.kinds);
        cells.extend([self.several, self.on_reserved, self.unlinked]);
        cells.extend([self.mapped, self.with_mapped]);
        cells
    }

    fn images(&self) -> u64 {
        self.images
    }

    fn of(tally: &Tally) -> &Self {
        &tally.repairs
    }

    /// Random damage to a random volume, litter in its dead maps, repaired.
    fn start<R: Rules>(
        &mut self,
        simulator: &Simulator<R>,
        rng: &mut Rng,
        violations: &mut Vec<Violation>,
    ) -> Volume {
        let full = rng.pick(&[25, 50, 75, 90, 100]);
        let Volume {
            mut image, units, ..
        } = Volume::scattered(rng, &simulator.shape, full);
        if !rng.chance(3) {
            inputs::tables_damaged(rng, &simulator.shape, &mut image);
        }
        repaired(simulator, &image, units, self, violations)
    }
}

/// Every image of this geometry: each entry a map, X or the least bad link, each
/// word of every map a number up to N, which is the least that is none, reserved
/// ones among them, or X; a size 0, that of each number of units which the events
/// have, or X.
pub fn every_image(shape: &Shape, give: &mut dyn FnMut(&[u8])) {
    let Shape { p, c, m, n, .. } = *shape;
    let mut image = inputs::fresh(shape);
    let numbers = |limit: u64| -> Vec<u64> { (0..=limit).chain([X]).collect() };
    let sizes: Vec<u64> = (0..=p)
        .map(|k| (4096 * k).saturating_sub(1))
        .chain([X])
        .collect();
    // The values of each word.
    let mut values = vec![numbers(m); c as usize];
    for word in (0..m).flat_map(|_| 0..shape.map_words()) {
        values.push(if word < shape.size_words() {
            sizes.clone()
        } else {
            numbers(n)
        });
    }
    let mut digits = vec![0; values.len()];
    for (at, values) in values.iter().enumerate() {
        put_word(&mut image, 8 * at, values[0]);
    }
    loop {
        give(&image);
        let mut at = 0;
        loop {
            if at == digits.len() {
                return;
            }
            let was_last = digits[at] + 1 == values[at].len();
            digits[at] = if was_last { 0 } else { digits[at] + 1 };
            put_word(&mut image, 8 * at, values[at][digits[at]]);
            if !was_last {
                break;
            }
            at += 1;
        }
    }
}

#[test]
fn random_event_lists_after_a_repair() {
    let volumes = volumes().map(|(shape, lists)| (shape, lists.div_ceil(4)));
    let (repairs, _) = random_lists::<Repairs>(volumes, 100, mix(seed()));
    let seen = |count: u64| 20 * count > repairs.images;
    assert!(repairs.kinds.into_iter().all(seen), "every kind of damage");
    assert!(seen(repairs.several), "several at once");
    assert!(50 * repairs.on_reserved > repairs.images, "reserved units");
    assert!(4 * repairs.with_mapped > repairs.images, "chunks left");
}

/// Volumes of which every image is repaired. What a repair leaves are all sound
/// images, so that lists of any length go from one of them to another.
const EVERY_IMAGE: [Scope; 6] = [
    from_every_image(shape(2, 1, 2, 2), Plans::EveryChoice),
    from_every_image(shape(2, 1, 2, 3), Plans::EveryChoice),
    from_every_image(shape(2, 2, 3, 2), Plans::EveryMap),
    from_every_image(two(2, 1, 2, 2), Plans::Two),
    from_every_image(two(2, 1, 2, 3), Plans::Two),
    from_every_image(two(2, 1, 2, 3).reserving(1), Plans::EveryMap),
];

const fn from_every_image(shape: Shape, plans: Plans) -> Scope {
    Scope {
        shape,
        start: Start::EveryRepair,
        plans,
        depth: None,
    }
}

#[test]
fn every_image_of_small_volumes_repaired() {
    beginnings::every_image_of::<Repairs>(&EVERY_IMAGE);
}

/// Runs a wrong repair until each of these violations is seen.
fn notice<R: Rules>(rule: &str, rules: &R, violations: &[&str]) {
    let scope = &EVERY_IMAGE[2];
    beginnings::notice::<Repairs, _>(rule, rules, VOLUME_64K, scope, violations);
}

const REPAIR: &str = "repair";
const BAD_LINK: &str = "bad link";
const MAP_TWICE: &str = "map with two owners";

/// What a repair leaves unsound, load and the volume's own reading give away.
#[test]
fn a_repair_that_leaves_a_fault_is_caught() {
    let wrong = |repair| wrong::Repair(repair);
    notice(
        "clashes left in place",
        &wrong(wrong::repair_of_links_and_maps),
        &[TWO_OWNERS, MAP_TWICE, LOAD, REPAIR],
    );
    notice(
        "a shared map left in place",
        &wrong(wrong::repair_with_maps_shared),
        &[TWO_OWNERS, MAP_TWICE, LOAD, REPAIR],
    );
    notice(
        "a unit twice in one map left in place",
        &wrong(wrong::repair_with_units_twice),
        &[TWO_OWNERS, LOAD, REPAIR],
    );
    notice(
        "bad maps left in place",
        &wrong(wrong::repair_with_bad_maps),
        &[NO_MAP, LOAD, REPAIR],
    );
    notice(
        "bad links left in place",
        &wrong(wrong::repair_with_bad_links),
        &[BAD_LINK, LOAD, REPAIR],
    );
}

/// "once it is wholly written back and fenced" (02, request 3): an entry that
/// comes back gives its chunk pieces that the ledger does not.
#[test]
fn a_repair_not_wholly_written_back_is_caught() {
    notice(
        "the last entry not written back",
        &wrong::HalfWrittenBack,
        &[LEDGER, LOAD],
    );
}

/// "and a repair unlinks that chunk" (Decision 75), whose map has a reserved unit.
#[test]
fn a_repair_that_leaves_a_chunk_on_a_reserved_unit_is_caught() {
    let rules = wrong::Repair(wrong::repair_with_reserved_units);
    beginnings::notice::<Repairs, _>(
        "chunks on reserved units left in place",
        &rules,
        VOLUME_64K.reserving(3),
        &EVERY_IMAGE[5],
        &[ON_RESERVED, LOAD, REPAIR],
    );
}

/// Plans on reserved units are tried after a repair as well.
#[test]
fn a_checker_wrong_on_reserved_units_is_caught_after_a_repair() {
    let kinds = [VERDICT, RESERVED_DATA, OVERWRITTEN, ON_RESERVED, LOAD];
    let rules = wrong::Checker(wrong::with_reserved_units_free);
    notice_in_scope("reserved units free", &rules, &EVERY_IMAGE[5], &kinds);
    let rules = wrong::Checker(wrong::with_reserved_units_at_need);
    notice_in_scope("reserved at need", &rules, &EVERY_IMAGE[5], &kinds);
    let rules = wrong::Checker(wrong::with_reserved_units_no_units);
    notice_in_scope("rule 1", &rules, &EVERY_IMAGE[5], &[VERDICT]);
}

/// So are plans on other free units.
#[test]
fn a_checker_that_takes_other_free_units_is_caught_after_a_repair() {
    let kinds = [VERDICT, NOT_LOWEST, SCATTERED];
    let rules = wrong::Checker(wrong::with_any_free_units);
    for scope in [&EVERY_IMAGE[1], &EVERY_IMAGE[5]] {
        notice_in_scope("any different free units", &rules, scope, &kinds);
    }
}

/// What no event list can give away, because the image is sound: that one side
/// of a clash has stayed, that a good chunk went, or that a dead map changed.
/// The request's own words on the list and on the bytes do.
#[test]
fn a_repair_of_other_chunks_or_bytes_is_caught() {
    let repairs: [(&str, wrong::RepairFn); 4] = [
        ("the later chunk wins", wrong::repair_for_the_later),
        ("the earlier chunk wins", wrong::repair_for_the_earlier),
        ("bad maps claim units", wrong::repair_with_bad_claims),
        ("maps of unlinked chunks wiped", wrong::repair_and_wipe),
    ];
    for (rule, repair) in repairs {
        let rules = wrong::Repair(repair);
        notice(rule, &rules, &[REPAIR]);
        nothing_but::<Repairs, _>(rule, &rules, VOLUME_64K, REPAIR);
    }
}
