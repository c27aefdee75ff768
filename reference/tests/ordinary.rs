//! Holds the ordinary program, which the held index is measured against, to the
//! model: on the benchmark's own writes, and on plans of every kind, good and
//! broken, on volumes of every shape.

use std::collections::BTreeSet;

use sumbilak_reference::inputs::{self, Base, LONGEST_PLAN};
use sumbilak_reference::model::{self, Access, Answer, Refusal};
use sumbilak_reference::ordinary::{Reads, Refused, Volume};
use sumbilak_reference::rng::Rng;
use sumbilak_reference::workload::Workload;

/// Number and place of an answer, and what it says.
type Given<T> = Result<T, [u64; 2]>;

fn ordinary<T>(answer: Result<T, Refused>) -> Given<T> {
    answer.map_err(|refused| match refused {
        Refused::Unsound => [0, 0],
        Refused::Range => [7, 0],
        Refused::Size => [8, 0],
        Refused::NoRoom { free } => [9, free.into()],
        Refused::Small { needed } => [10, needed as u64],
        Refused::BadPlan { rule } => [11, rule.into()],
    })
}

fn due<T>(answer: Answer<T>) -> Given<T> {
    answer.map_err(|Refusal { number, place, .. }| [number, place])
}

/// The program's bitmaps are what is free in its image.
fn is_current(volume: &Volume) {
    let loaded = model::load(volume.image()).expect("sound");
    let (units, maps) = volume.free();
    assert!(units == loaded.units && maps == loaded.maps, "free sets");
}

#[derive(Default)]
struct Seen(BTreeSet<(&'static str, [u64; 2])>, u64);

impl Seen {
    /// Both answers are the same; which it was is kept.
    fn same<T: PartialEq + std::fmt::Debug>(
        &mut self,
        call: &'static str,
        program: Given<T>,
        model: Given<T>,
    ) -> Option<T> {
        assert_eq!(program, model, "{call}");
        let kind = match &model {
            Ok(_) => [0, 0],
            Err([11, rule]) => [11, *rule],
            Err([number, _]) => [*number, 0],
        };
        self.0.insert((call, kind));
        self.1 += 1;
        model.ok()
    }
}

/// A write or discard on both: planned, checked and carried out.
struct Both {
    volume: Volume,
    image: Vec<u8>,
}

impl Both {
    fn plan(&self, seen: &mut Seen, chunk: u64, size: Option<u64>, room: usize) -> Option<Vec<u8>> {
        let mut outs = [vec![0xEE; room], vec![0xEE; room]];
        let [ours, models] = &mut outs;
        let (call, program, model) = match size {
            Some(size) => (
                "plan_write",
                self.volume.plan_write(chunk, size, ours),
                model::plan_write(&self.image, chunk, size, models),
            ),
            None => (
                "plan_discard",
                self.volume.plan_discard(chunk, ours),
                model::plan_discard(&self.image, chunk, models),
            ),
        };
        let steps = seen.same(
            call,
            ordinary(program),
            due(model).map(|steps| steps as usize),
        );
        let [ours, models] = outs;
        assert_eq!(ours, models, "plan");
        steps.map(|steps| ours[..16 * steps].to_vec())
    }

    fn check(&self, seen: &mut Seen, chunk: u64, size: Option<u64>, plan: &[u8]) {
        let (call, program, model) = match size {
            Some(size) => (
                "check_write",
                self.volume.check_write(chunk, size, plan),
                model::check_write(&self.image, chunk, size, plan),
            ),
            None => (
                "check_discard",
                self.volume.check_discard(chunk, plan),
                model::check_discard(&self.image, chunk, plan),
            ),
        };
        seen.same(call, ordinary(program), due(model));
    }

    fn carry(&mut self, seen: &mut Seen, chunk: u64, size: Option<u64>, plan: &[u8], n: u64) {
        let (call, program, model) = match size {
            Some(size) => (
                "carry_write",
                self.volume.carry_write(chunk, size, plan, n),
                model::carry_write(&mut self.image, chunk, size, plan, n),
            ),
            None => (
                "carry_discard",
                self.volume.carry_discard(chunk, plan, n),
                model::carry_discard(&mut self.image, chunk, plan, n),
            ),
        };
        seen.same(call, ordinary(program), due(model));
        assert!(self.volume.image() == self.image, "image after {call}");
        is_current(&self.volume);
    }

    fn read(&self, rng: &mut Rng, seen: &mut Seen, base: &Base) {
        let chunk = inputs::chunk(rng, &base.shape);
        let held = model::held(&self.image, chunk).map(|part| (part.start, part.len()));
        seen.same("held", ordinary(self.volume.held(chunk)), due(held));
        let size = ordinary(self.volume.stored_size(chunk));
        seen.same(
            "stored_size",
            size,
            due(model::stored_size(&self.image, chunk)),
        );
        let (offset, length) = inputs::range(rng, &base.shape);
        let write = rng.chance(50);
        let access = model::access(&self.image, write, offset, length).map(|access| match access {
            Access::ReadsNothing => Reads::Nothing,
            Access::ReadsZeros => Reads::Zeros,
            Access::ReadsChunk => Reads::Chunk,
        });
        let program = ordinary(self.volume.access(write, offset, length));
        seen.same("access", program, due(access));
    }
}

/// The benchmark's own writes, each planned, checked and carried out.
#[test]
fn the_benchmarks_writes() {
    for workload in Workload::all() {
        let image = inputs::fresh(&workload.shape);
        let volume = Volume::open(image.clone()).expect("fresh");
        let mut both = Both { volume, image };
        let seen = &mut Seen::default();
        for at in 0..4 * workload.shape.c {
            let (chunk, size) = workload.write(at);
            let plan = both.plan(seen, chunk, Some(size), LONGEST_PLAN);
            let plan = plan.expect("room");
            both.check(seen, chunk, Some(size), &plan);
            let steps = plan.len() as u64 / 16;
            both.carry(seen, chunk, Some(size), &plan, steps);
        }
        assert!(seen.0.iter().all(|(_, kind)| *kind == [0, 0]));
    }
}

/// Random requests and plans, good and broken, on volumes of every shape.
#[test]
fn plans_good_and_broken() {
    let rng = &mut Rng::new(0x524D_4150_0007);
    let seen = &mut Seen::default();
    let pool = inputs::pool(rng, 400);
    for base in &pool {
        let volume = Volume::open(base.image.clone()).expect("sound");
        is_current(&volume);
        let image = base.image.clone();
        let mut both = Both { volume, image };
        for _ in 0..120 {
            let now = Base {
                shape: base.shape,
                image: both.image.clone(),
            };
            let chunk = inputs::chunk(rng, &base.shape);
            let size = (!rng.chance(30)).then(|| inputs::size(rng, &base.shape));
            let room = match rng.chance(50) {
                true => LONGEST_PLAN,
                false => rng.index(LONGEST_PLAN),
            };
            let planned = both.plan(seen, chunk, size, room);
            let plan = match (planned, rng.chance(40)) {
                (Some(plan), true) => plan,
                _ => inputs::plan(rng, &now, chunk, size),
            };
            both.check(seen, chunk, size, &plan);
            let n = match rng.chance(60) {
                true => plan.len() as u64 / 16,
                false => inputs::step_count(rng, &plan),
            };
            both.carry(seen, chunk, size, &plan, n);
            both.read(rng, seen, base);
        }
    }
    println!("{} answers compared", seen.1);
    let rules = (1..=5).map(|rule| [11, rule]);
    let of = |numbers: &[u64]| -> Vec<[u64; 2]> { numbers.iter().map(|&at| [at, 0]).collect() };
    let with_rules = |numbers| of(numbers).into_iter().chain(rules.clone()).collect();
    let all: [(&str, Vec<[u64; 2]>); 9] = [
        ("access", of(&[0, 7])),
        ("held", of(&[0, 7])),
        ("stored_size", of(&[0, 7])),
        ("plan_write", of(&[0, 7, 8, 9, 10])),
        ("plan_discard", of(&[0, 7, 10])),
        ("check_write", with_rules(&[0, 7, 8])),
        ("check_discard", with_rules(&[0, 7])),
        ("carry_write", with_rules(&[0, 7, 8])),
        ("carry_discard", with_rules(&[0, 7])),
    ];
    let all = all.into_iter();
    let all = all.flat_map(|(call, kinds)| kinds.into_iter().map(move |kind| (call, kind)));
    assert_eq!(seen.0, all.collect());
}

/// It opens just what is sound.
#[test]
fn opens_what_is_sound() {
    let rng = &mut Rng::new(5);
    let pool = inputs::pool(rng, 300);
    let mut sound = 0;
    for _ in 0..30_000 {
        let base = &pool[rng.index(pool.len())];
        let image = inputs::image(rng, base);
        let good = model::load(&image).is_ok();
        match Volume::open(image) {
            Ok(volume) => {
                assert!(good);
                is_current(&volume);
                sound += 1;
            }
            Err(refused) => assert!(!good && refused == Refused::Unsound),
        }
    }
    assert!((5_000..25_000).contains(&sound), "{sound} sound images");
}
