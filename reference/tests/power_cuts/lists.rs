//! Random event lists, and what is told of one that failed.

use std::fmt;

use sumbilak_reference::inputs::{assemble, decode, encode, entry, Shape};
use sumbilak_reference::rng::{mix, Rng};

use crate::event::{Event, Hand, Leftovers, Payload, Request, LINK};
use crate::figures::Figures;
use crate::name;
use crate::plans::{self, Ground};
use crate::rules::{Library, Rules};
use crate::simulate::{Simulator, Violation};
use crate::volume::{Held, Reading, Volume};

/// Events in a list, least and most.
const EVENTS: (u64, u64) = (10, 60);
/// Earlier plans that may be tried once more.
const REMEMBERED: usize = 6;

/// An event list that ended in a violation.
pub struct Case {
    pub shape: Shape,
    /// Where it came from.
    pub origin: String,
    pub start: Volume,
    pub events: Vec<Event>,
    /// Those of the last event.
    pub violations: Vec<Violation>,
}

impl Case {
    /// Leaves out events that the first violation does not need.
    fn shortened<R: Rules>(mut self, simulator: &Simulator<R>) -> Self {
        let name = self.violations[0].name();
        let mut at = 0;
        while at + 1 < self.events.len() {
            let mut events = self.events.clone();
            events.remove(at);
            let violations = replay(simulator, &self.start, &events);
            if violations.iter().any(|violation| violation.name() == name) {
                self.events = events;
                self.violations = violations;
            } else {
                at += 1;
            }
        }
        self
    }
}

/// Runs the events and answers the violations of the last one, and of the
/// planner before it.
fn replay<R: Rules>(simulator: &Simulator<R>, start: &Volume, events: &[Event]) -> Vec<Violation> {
    let mut volume = start.clone();
    let mut violations = Vec::new();
    for event in events {
        violations.clear();
        simulator.plan(&volume.image, event.request, &mut violations);
        let figures = &mut Figures::default();
        simulator.event(&mut volume, event, figures, &mut violations);
    }
    violations
}

impl fmt::Display for Case {
    fn fmt(&self, f: &mut fmt::Formatter) -> fmt::Result {
        let Shape { c, .. } = self.shape;
        writeln!(f, "volume {}, {}", name(&self.shape), self.origin)?;
        let image = &self.start.image;
        for chunk in 0..c {
            let held = Held::of(&self.shape, image, chunk);
            let (map, units, size) = (entry(image, chunk), held.units(), held.size);
            if !units.is_empty() {
                writeln!(
                    f,
                    "   start: chunk {chunk} map {map} units {units:?} size {size}"
                )?;
            }
        }
        for (at, event) in self.events.iter().enumerate() {
            write!(f, "   event {at}: {event}")?;
        }
        for violation in &self.violations {
            writeln!(f, "   -> {violation}")?;
        }
        // The seed gives a larger one.
        if image.len() <= 1024 {
            let bytes = image.iter().map(|byte| format!("{byte:02X}"));
            writeln!(f, "   image at the start {}", bytes.collect::<String>())?;
        }
        Ok(())
    }
}

/// Draws the events of one list.
struct Source<'a, R> {
    simulator: &'a Simulator<'a, R>,
    rng: Rng,
    /// Chunks that come up more often than others.
    hot: Vec<u64>,
    past: Vec<(Request, Vec<u8>)>,
}

impl<R: Rules> Source<'_, R> {
    fn request(&mut self) -> Request {
        let rng = &mut self.rng;
        let shape = &self.simulator.shape;
        let chunk = match rng.below(100) {
            0 => rng.pick(&[shape.c, shape.c + 1, 1 << 32, u64::MAX]),
            1..=29 => rng.below(shape.c),
            _ => rng.pick(&self.hot),
        };
        let k = rng.between(1, shape.p);
        let size = match rng.below(100) {
            0 => Some(rng.pick(&[0, shape.chunk_bytes() + 1, 1 << 32, u64::MAX])),
            1..=22 => None,
            23..=40 => Some(4096 * shape.p),
            41..=60 => Some(4096 * (k - 1) + 1),
            _ => Some(rng.between(4096 * (k - 1) + 1, 4096 * k)),
        };
        Request { chunk, size }
    }

    /// A plan for the request, and whose it is.
    fn plan(
        &mut self,
        image: &[u8],
        request: Request,
        violations: &mut Vec<Violation>,
    ) -> (Vec<u8>, Hand) {
        let shape = &self.simulator.shape;
        let planned = self.simulator.plan(image, request, violations);
        let rng = &mut self.rng;
        let reading = Reading::of(shape, image);
        let ground = Ground {
            shape,
            image,
            reading: &reading,
        };
        let legal = request
            .is_good(shape)
            .then(|| plans::legal(rng, &ground, request))
            .flatten();
        let (Some(planned), Some(legal)) = (planned, legal) else {
            if request.is_good(shape) {
                // No room, unless what is kept for the boot loader were taken,
                // or what chunks hold.
                let (steps, hand) = match rng.below(3) {
                    0 => (
                        plans::out_of_reserved(rng, &ground, request),
                        Hand::Reserved { room: false },
                    ),
                    1 => (
                        plans::out_of_held(rng, &ground, request),
                        Hand::Held { room: false },
                    ),
                    _ => (None, Hand::Stray),
                };
                if let Some(steps) = steps {
                    return (encode(&steps), hand);
                }
            }
            // No room, or a bad request: a plan on any units.
            let k = rng.between(1, shape.p);
            let mut units: Vec<u64> = (0..shape.n).collect();
            rng.shuffle(&mut units);
            let map = rng.below(shape.m);
            let chunk = request.chunk.min(shape.c - 1);
            let size = request.size.unwrap_or(4096 * k);
            let steps = assemble(shape, chunk, size, &units[..k as usize], map);
            return (encode(&steps), Hand::Stray);
        };
        if shape.r > 0 && request.size.is_some() && rng.chance(10) {
            let steps = plans::on_reserved(rng, &ground, &legal);
            return (encode(&steps), Hand::Reserved { room: true });
        }
        if request.size.is_some() && rng.chance(12) {
            let (steps, hand) = match rng.chance(60) {
                true => (plans::scattered(rng, &ground, &legal), Hand::Scattered),
                false => (
                    plans::on_held(rng, &ground, request, &legal),
                    Hand::Held { room: true },
                ),
            };
            if let Some(steps) = steps {
                return (encode(&steps), hand);
            }
        }
        match rng.below(100) {
            0..=29 => (planned, Hand::Planner),
            30..=59 => (encode(&legal), Hand::Other),
            60..=74 => {
                let base = if rng.chance(50) {
                    decode(&planned)
                } else {
                    legal
                };
                match plans::damage(rng, &ground, request, &base) {
                    Some((plan, rule)) => (plan, Hand::Damaged(rule)),
                    None => (planned, Hand::Planner),
                }
            }
            75..=77 if request.size.is_some() => {
                let steps = plans::of_the_other_edition(&ground, request, &legal);
                (encode(&steps), Hand::Mutated)
            }
            _ => {
                let base = if rng.chance(50) {
                    decode(&planned)
                } else {
                    legal
                };
                let plan = plans::mutate(rng, &ground, request, &base);
                (plan, Hand::Mutated)
            }
        }
    }

    fn event(&mut self, volume: &Volume, violations: &mut Vec<Violation>) -> Event {
        let mut request = self.request();
        let (mut plan, mut hand) = self.plan(&volume.image, request, violations);
        let rng = &mut self.rng;
        if !self.past.is_empty() && rng.chance(5) {
            let at = rng.index(self.past.len());
            (request, plan) = self.past[at].clone();
            hand = Hand::Replayed;
        } else {
            if self.past.len() == REMEMBERED {
                self.past.remove(rng.index(REMEMBERED));
            }
            self.past.push((request, plan.clone()));
        }

        let whole = plan.len() as u64 / 16;
        // The point right after LINK is one of many, and the one that matters
        // most.
        let is_link = |step: &[u8]| step[0] == LINK as u8;
        let link = plan.chunks_exact(16).position(is_link);
        let n = match rng.below(100) {
            0..=34 => whole,
            35..=36 => rng.pick(&[whole + 1, 65, 1 << 32, u64::MAX]),
            37..=59 => link.map_or(whole, |at| at as u64 + 1),
            _ => rng.between(0, whole),
        };
        let (a, b) = (rng.next_u64(), rng.next_u64());
        let choice = rng.pick(&[0, u64::MAX, a, a, a & b, a | b]);
        let leftovers = match rng.below(4) {
            0 => Leftovers::Unchanged,
            1 => Leftovers::Garbage(rng.next_u64()),
            _ => Leftovers::Mixed(rng.next_u64()),
        };
        Event {
            request,
            payload: Payload {
                base: rng.next_u64() << 6,
            },
            plan,
            hand,
            n,
            choice,
            leftovers,
        }
    }
}

/// Makes the volume that a list starts from. What is wrong with it already goes
/// to the violations.
pub type Start<'a, R> = dyn FnMut(&Simulator<R>, &mut Rng, &mut Vec<Violation>) -> Volume + 'a;

/// The image that format writes, or any sound one.
fn formatted_or_scattered<R: Rules>(
    simulator: &Simulator<R>,
    rng: &mut Rng,
    _: &mut Vec<Violation>,
) -> Volume {
    let shape = &simulator.shape;
    if rng.chance(50) {
        Volume::formatted(shape, || rng.next_u64())
    } else {
        let full = rng.pick(&[25, 50, 75, 90, 100]);
        Volume::scattered(rng, shape, full)
    }
}

/// Runs one list. Only violations that `tells` picks are counted: where a rule
/// is wrong on purpose, others are beside the point.
fn run_list<R: Rules>(
    simulator: &Simulator<R>,
    start: &mut Start<R>,
    seed: u64,
    tells: &dyn Fn(&Violation) -> bool,
    figures: &mut Figures,
) -> Option<Case> {
    let shape = &simulator.shape;
    let mut rng = Rng::new(seed);
    let mut violations = Vec::new();
    let start = start(simulator, &mut rng, &mut violations);
    let mut hot: Vec<u64> = (0..shape.c).collect();
    rng.shuffle(&mut hot);
    hot.truncate(rng.between(1, 4) as usize);
    let length = rng.between(EVENTS.0, EVENTS.1);
    let mut source = Source {
        simulator,
        rng,
        hot,
        past: Vec::new(),
    };

    figures.lists += 1;
    let mut volume = start.clone();
    let mut events = Vec::new();
    // What is wrong before the first event is asked first.
    for at in 0..=length {
        if at > 0 {
            let event = source.event(&volume, &mut violations);
            simulator.event(&mut volume, &event, figures, &mut violations);
            events.push(event);
        }
        let harmed = violations.iter().any(Violation::harms);
        violations.retain(tells);
        if !violations.is_empty() {
            figures.violations += 1;
            return Some(Case {
                shape: *shape,
                origin: format!("list of seed {seed:#x}"),
                start,
                events,
                violations,
            });
        }
        if harmed {
            break;
        }
    }
    None
}

/// A volume that has been used: what a list of events leaves of a formatted one,
/// cuts and all.
pub fn used(shape: &Shape, rng: &mut Rng) -> Volume {
    let simulator = Simulator::new(&Library, *shape);
    let mut volume = Volume::formatted(shape, || rng.next_u64());
    let events = rng.between(3, 25);
    let mut source = Source {
        simulator: &simulator,
        rng: Rng::new(rng.next_u64()),
        hot: (0..shape.c.min(8)).collect(),
        past: Vec::new(),
    };
    let mut violations = Vec::new();
    for _ in 0..events {
        let event = source.event(&volume, &mut violations);
        let figures = &mut Figures::default();
        simulator.event(&mut volume, &event, figures, &mut violations);
    }
    assert_eq!(violations, [], "the volume before its conversion");
    volume
}

/// Runs lists on one geometry until one fails.
pub fn run<R: Rules>(
    rules: &R,
    shape: Shape,
    lists: u64,
    seed: u64,
    tells: &dyn Fn(&Violation) -> bool,
    figures: &mut Figures,
) -> Option<Case> {
    let start = &mut formatted_or_scattered;
    run_from(rules, shape, start, lists, seed, tells, figures)
}

/// The same, from volumes of another making.
pub fn run_from<R: Rules>(
    rules: &R,
    shape: Shape,
    start: &mut Start<R>,
    lists: u64,
    seed: u64,
    tells: &dyn Fn(&Violation) -> bool,
    figures: &mut Figures,
) -> Option<Case> {
    let simulator = Simulator::new(rules, shape);
    (0..lists).find_map(|at| {
        let seed = mix(seed.wrapping_add(at));
        let case = run_list(&simulator, start, seed, tells, figures)?;
        Some(case.shortened(&simulator))
    })
}
