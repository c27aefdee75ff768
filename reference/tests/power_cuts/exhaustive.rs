//! Small volumes, exhaustively: every state that event lists can reach, and
//! from each of them every request, every point and every subset.

use std::collections::HashSet;
use std::ops::AddAssign;

use sumbilak_reference::inputs::{
    assemble, decode, encode, fresh, orders, put_entry, put_map, Edition, Fields, Shape,
    FENCE as FENCE_STEP, X32,
};

use crate::converted::{converted, Conversions};
use crate::event::{Event, Hand, Leftovers, Payload, Request, DATA, MAP};
use crate::figures::Figures;
use crate::lists::Case;
use crate::plans::{of_the_other_edition, replace_map, replace_unit, Ground};
use crate::repaired::{every_image, repaired, Repairs};
use crate::rules::{carry_step, first, land, landed, Rules};
use crate::simulate::{Passed, Simulator, Violation};
use crate::volume::{contents, Held, Reading, Volume};

/// Which plans are tried for a request, besides those on other units than the
/// lowest free ones; see [`Explorer::elsewhere`].
#[derive(Clone, Copy, Debug, PartialEq, Eq)]
pub enum Plans {
    /// The planner's, and one by the highest free map instead of the lowest, MAP
    /// before DATA, both falling.
    Two,
    /// Two such by every free map. Other orders and further fences make no more
    /// states: at the last point before LINK's fence every subset of all DATA
    /// and MAP steps comes up anyway, and a fence only takes subsets away.
    EveryMap,
    /// All that the rules leave to a maker: by every free map, DATA and MAP in
    /// every order; and in the planner's order, one more FENCE at every place.
    EveryChoice,
    /// As `Two`, and every plan that one edit makes of the planner's, and the
    /// other edition's, for as long as the checker accepts it.
    Edits,
}

impl Plans {
    pub fn name(self) -> &'static str {
        match self {
            Plans::Two => "two",
            Plans::EveryMap => "every map",
            Plans::EveryChoice => "every choice",
            Plans::Edits => "two and edits",
        }
    }
}

/// Where the lists of a scope start.
#[derive(Clone, Copy, Debug, PartialEq, Eq)]
pub enum Start {
    /// At the image that format writes, after these writes, by chunk and size.
    Format(&'static [(u64, u64)]),
    /// At what a repair leaves of each image of [`every_image`].
    EveryRepair,
    /// In edition 2, at what a converter makes of each sound image of
    /// [`every_image`] of edition 1.
    EveryConversion,
    /// At every way in which chunks can lie on units and maps, scattered by
    /// plans that passed until request 6 among them: "What such plans left stays
    /// good" (Decision 84). Dead maps are X.
    EveryLayout,
}

pub struct Scope {
    pub shape: Shape,
    pub start: Start,
    pub plans: Plans,
    /// Events in a list at most; None goes on until nothing new is reached,
    /// and so covers lists of every length.
    pub depth: Option<usize>,
}

impl Scope {
    /// Whether contents are renamed from one event to the next; see
    /// [`rename`].
    fn renames(&self) -> bool {
        self.depth.is_none()
    }

    /// Whether units become too few in its lists. "Refusal 9 never occurs for one
    /// write when N-R is at least (C+1)·P" (02, request 5), nor where it is P for
    /// each event of a list from format on.
    pub fn wants_units(&self) -> bool {
        let Shape { p, c, n, r, .. } = self.shape;
        let before = match (self.start, self.depth) {
            (Start::Format(_), Some(depth)) => c.min(depth as u64 - 1),
            _ => c,
        };
        n - r < (before + 1) * p
    }

    /// Whether plans on other units than the lowest free ones were tried: other
    /// free ones, and reserved ones, if there are such; held or reserved ones for
    /// want of others exactly where it comes to that.
    pub fn tries_elsewhere(&self, tally: &Tally) -> bool {
        let reserved = self.shape.r > 0;
        let at_need = [tally.out_of_held > 0, tally.out_of_reserved > 0];
        let wanted = self.wants_units();
        tally.scattered > 0
            && (tally.on_reserved > 0) == reserved
            && at_need == [wanted, wanted && reserved]
    }
}

#[derive(Clone, Debug, Default)]
pub struct Tally {
    pub states: u64,
    /// States from which events were tried.
    pub expanded: u64,
    /// Events of the longest list that was needed to reach a state.
    pub deepest: usize,
    pub accepted: u64,
    pub refused: u64,
    /// Of those refused, plans on reserved units: in the place of free ones, and
    /// where too few are free.
    pub on_reserved: u64,
    pub out_of_reserved: u64,
    /// On free units, but not the lowest in their order.
    pub scattered: u64,
    /// On held units: in the place of free ones, and where too few are free.
    pub on_held: u64,
    pub out_of_held: u64,
    pub points: u64,
    pub subsets: u64,
    pub events: u64,
    pub carried: u64,
    pub violations: u64,
    pub repairs: Repairs,
    pub converted: Conversions,
}

impl Tally {
    /// The figures as a table shows them.
    pub fn cells(&self) -> [u64; 15] {
        [
            self.states,
            self.expanded,
            self.deepest as u64,
            self.accepted,
            self.refused,
            self.scattered,
            self.on_held,
            self.out_of_held,
            self.on_reserved,
            self.out_of_reserved,
            self.points,
            self.subsets,
            self.events,
            self.carried,
            self.violations,
        ]
    }
}

impl AddAssign<&Tally> for Tally {
    fn add_assign(&mut self, other: &Tally) {
        self.states += other.states;
        self.expanded += other.expanded;
        self.deepest = self.deepest.max(other.deepest);
        self.accepted += other.accepted;
        self.refused += other.refused;
        self.on_reserved += other.on_reserved;
        self.out_of_reserved += other.out_of_reserved;
        self.scattered += other.scattered;
        self.on_held += other.on_held;
        self.out_of_held += other.out_of_held;
        self.points += other.points;
        self.subsets += other.subsets;
        self.events += other.events;
        self.carried += other.carried;
        self.violations += other.violations;
        self.repairs += &other.repairs;
        self.converted += &other.converted;
    }
}

/// Content of a unit that no chunk holds, after renaming.
const STALE: u64 = 0;
/// Base of the payload where contents are renamed; elsewhere its multiples.
const NEW: u64 = 1 << 32;
/// Multiples of it are the bases of what was written before the start.
const EARLIER: u64 = 1 << 16;

/// The tag of an old piece after renaming.
fn old(chunk: usize, piece: usize) -> u64 {
    (64 * (chunk + 1) + piece) as u64
}

/// Renames the contents, so that there are no more states than images. Nothing
/// is lost: the library sees no content, and contents are only compared with
/// the ledger and with the payload to come. A held unit has by now been seen to
/// hold its piece of the ledger, whatever that is called; the content of a
/// free one is in no ledger, and must not be taken for a piece to come.
fn rename(shape: &Shape, volume: &mut Volume) {
    // The boot loader's content is the same in all states.
    volume.units[shape.r as usize..].fill(STALE);
    for chunk in 0..shape.c as usize {
        let held = Held::of(shape, &volume.image, chunk as u64);
        for (piece, &unit) in held.units().iter().enumerate() {
            volume.units[unit] = old(chunk, piece);
            volume.ledger[chunk][piece] = old(chunk, piece);
        }
    }
}

/// What tells two states apart.
fn key(volume: &Volume, image_only: bool, key: &mut Vec<u8>) {
    key.clear();
    key.extend_from_slice(&volume.image);
    if !image_only {
        let mut put = |tag: u64| key.extend_from_slice(&tag.to_le_bytes());
        volume.units.iter().copied().for_each(&mut put);
        for pieces in &volume.ledger {
            put(pieces.len() as u64);
            pieces.iter().copied().for_each(&mut put);
        }
    }
}

struct Node {
    volume: Volume,
    depth: usize,
    /// The node and the event that led here first.
    from: Option<(usize, Event)>,
}

struct Explorer<'a, R> {
    simulator: &'a Simulator<'a, R>,
    scope: &'a Scope,
    tells: &'a dyn Fn(&Violation) -> bool,
    nodes: Vec<Node>,
    known: HashSet<Vec<u8>>,
    tally: Tally,
    // Buffers.
    next: Volume,
    key: Vec<u8>,
    violations: Vec<Violation>,
}

/// The size that a write of so many units has here.
fn size_of_units(k: u64) -> u64 {
    4096 * k - 1
}

/// Every write by its number of units, and the discard, of every chunk. In
/// edition 2 a size stays in its map, so that more sizes make many more states;
/// [`edits`] and random lists have others.
fn requests(shape: &Shape) -> impl Iterator<Item = Request> {
    let sizes = (1..=shape.p).map(|k| Some(size_of_units(k)));
    let sizes: Vec<Option<u64>> = sizes.chain([None]).collect();
    (0..shape.c).flat_map(move |chunk| {
        let request = move |size| Request { chunk, size };
        sizes.clone().into_iter().map(request)
    })
}

/// Every way to take `k` of the items, in every order.
fn arrangements(items: &[u64], k: usize) -> Vec<Vec<u64>> {
    if k == 0 {
        return vec![Vec::new()];
    }
    let mut all = Vec::new();
    for (at, &item) in items.iter().enumerate() {
        let mut others = items.to_vec();
        others.remove(at);
        for mut rest in arrangements(&others, k - 1) {
            rest.insert(0, item);
            all.push(rest);
        }
    }
    all
}

/// Every image in which each chunk is unmapped or lies on 1 to P units, in every
/// order, by any map. Dead maps are X; a size is that of the requests.
fn every_layout(shape: &Shape, give: &mut dyn FnMut(&[u8])) {
    let units: Vec<u64> = shape.units().collect();
    let maps: Vec<u64> = (0..shape.m).collect();
    layouts_from(shape, 0, &units, &maps, &fresh(shape), give);
}

/// The same of the chunks from this one on, with these units and maps left.
fn layouts_from(
    shape: &Shape,
    chunk: u64,
    units: &[u64],
    maps: &[u64],
    image: &[u8],
    give: &mut dyn FnMut(&[u8]),
) {
    if chunk == shape.c {
        return give(image);
    }
    layouts_from(shape, chunk + 1, units, maps, image, give);
    for k in 1..=shape.p.min(units.len() as u64) {
        for held in arrangements(units, k as usize) {
            let left: Vec<u64> = units
                .iter()
                .copied()
                .filter(|u| !held.contains(u))
                .collect();
            for &map in maps {
                let others: Vec<u64> = maps.iter().copied().filter(|&m| m != map).collect();
                let mut image = image.to_vec();
                put_entry(&mut image, chunk, map);
                put_map(shape, &mut image, map, size_of_units(k), &held);
                layouts_from(shape, chunk + 1, &left, &others, &image, give);
            }
        }
    }
}

/// The plan with one more FENCE, at every place.
fn fenced(steps: &[Fields]) -> impl Iterator<Item = Vec<Fields>> + '_ {
    (0..=steps.len()).map(|at| {
        let mut fenced = steps.to_vec();
        fenced.insert(at, FENCE_STEP);
        fenced
    })
}

/// Every plan that one edit makes: a step left out, moved, swapped, twice, a
/// fence put in, a shorter plan, any field set to any number in range (a size:
/// to those at a unit's edge), and a unit or the map exchanged for any other
/// wherever it stands.
fn edits(shape: &Shape, steps: &[Fields]) -> Vec<Vec<Fields>> {
    let mut all = Vec::new();
    let mut put = |edited: Vec<Fields>| {
        if edited != steps {
            all.push(edited);
        }
    };
    for at in 0..steps.len() {
        let mut without = steps.to_vec();
        let step = without.remove(at);
        put(without.clone());
        put(steps[..at].to_vec());
        for to in 0..=without.len() {
            let mut moved = without.clone();
            moved.insert(to, step);
            put(moved);
        }
        for to in 0..=steps.len() {
            let mut twice = steps.to_vec();
            twice.insert(to, step);
            put(twice);
        }
        for other in 0..at {
            let mut swapped = steps.to_vec();
            swapped.swap(at, other);
            put(swapped);
        }
        let words = shape.map_words();
        let most = [4, shape.n.max(shape.m), words, shape.n.max(shape.m)];
        for (field, most) in most.into_iter().enumerate() {
            for value in (0..=most as u32).chain([X32]) {
                let mut other = steps.to_vec();
                other[at][field] = value;
                put(other);
            }
        }
        if step[0] == MAP && u64::from(step[2]) < shape.size_words() {
            let edges = (1..=shape.p as u32).flat_map(|k| [4096 * k - 1, 4096 * k, 4096 * k + 1]);
            for size in edges.chain([step[3] - 1]) {
                let mut other = steps.to_vec();
                other[at][3] = size;
                put(other);
            }
        }
    }
    fenced(steps).for_each(&mut put);
    for step in steps.iter().filter(|step| step[0] == DATA) {
        for unit in 0..shape.n as u32 {
            let mut other = steps.to_vec();
            replace_unit(shape, &mut other, step[1], unit);
            put(other);
        }
    }
    for map in 0..shape.m as u32 {
        let mut other = steps.to_vec();
        replace_map(&mut other, map);
        put(other);
    }
    all
}

/// Up to so many units a write is tried on every arrangement of them; on larger
/// volumes, on those of the reserved ones, of some more of the lowest free ones
/// than it needs, and of the highest.
const FEW_UNITS: u64 = 8;
const SOME_MORE: usize = 4;

impl<R: Rules> Explorer<'_, R> {
    /// Every plan of a write that is the planner's in its order and legal but
    /// for its units, by the lowest free map; where every choice is tried, by
    /// each free one. These are all arrangements of k units (of which ones, see
    /// [`FEW_UNITS`]) but the lowest free ones in their order. Rule 2 is broken
    /// whatever the map is.
    fn elsewhere(&self, image: &[u8], request: Request) -> Vec<(Vec<u8>, Hand)> {
        let shape = &self.simulator.shape;
        let Some(size) = request.size else {
            return Vec::new();
        };
        let reading = Reading::of(shape, image);
        let free: Vec<u64> = reading.free_units().collect();
        let k = request.k() as usize;
        let room = free.len() >= k;
        let units: Vec<u64> = if shape.n <= FEW_UNITS {
            (0..shape.n).collect()
        } else {
            let some = free.iter().take(k + SOME_MORE).chain(free.last());
            let mut units: Vec<u64> = (0..shape.r).chain(some.copied()).collect();
            units.dedup();
            units
        };
        let maps = match self.scope.plans {
            Plans::EveryChoice => shape.m as usize,
            _ => 1,
        };
        let maps: Vec<u64> = reading.free_maps().take(maps).collect();
        let mut plans = Vec::new();
        for units in arrangements(&units, k) {
            let hand = if free.get(..k) == Some(&units) {
                continue;
            } else if units.iter().any(|&unit| unit < shape.r) {
                Hand::Reserved { room }
            } else if units.iter().any(|unit| !free.contains(unit)) {
                Hand::Held { room }
            } else {
                Hand::Scattered
            };
            for &map in &maps {
                let steps = assemble(shape, request.chunk, size, &units, map);
                plans.push((encode(&steps), hand));
            }
        }
        plans
    }

    /// The legal plans for a request, besides the planner's. There must be room.
    fn others(&self, image: &[u8], request: Request, planned: &[Fields]) -> Vec<Vec<Fields>> {
        let shape = &self.simulator.shape;
        let every_choice = self.scope.plans == Plans::EveryChoice;
        let Some(size) = request.size else {
            // An unmapped chunk's discard has no step at all.
            let choices = every_choice && !planned.is_empty();
            return fenced(planned).filter(|_| choices).collect();
        };
        let reading = Reading::of(shape, image);
        let lowest: Vec<u64> = reading.free_units().take(request.k() as usize).collect();
        let maps: Vec<u64> = reading.free_maps().collect();
        let mut others = Vec::new();
        for &map in &maps {
            let steps = assemble(shape, request.chunk, size, &lowest, map);
            let (stores, end) = steps.split_at(steps.len() - 3);
            let falling: Vec<Fields> = stores.iter().rev().copied().collect();
            let in_orders = match self.scope.plans {
                Plans::Two | Plans::Edits if maps.last() != Some(&map) => Vec::new(),
                Plans::Two | Plans::Edits => vec![falling],
                Plans::EveryMap => vec![stores.to_vec(), falling],
                Plans::EveryChoice => orders(stores),
            };
            let whole = in_orders.iter().map(|order| [order, end].concat());
            others.extend(whole.filter(|steps| steps != planned));
            others.extend(fenced(&steps).filter(|_| every_choice));
        }
        others
    }

    /// The plans for a request and who made them. The planner is held to 01 on
    /// the way.
    fn plans(&mut self, volume: &Volume, request: Request) -> Vec<(Vec<u8>, Hand)> {
        let shape = &self.simulator.shape;
        let image = &volume.image;
        let planned = self.simulator.plan(image, request, &mut self.violations);
        let mut plans = self.elsewhere(image, request);
        let Some(planned) = planned else {
            return plans;
        };
        let planned_steps = decode(&planned);
        plans.push((planned, Hand::Planner));
        let reading = Reading::of(shape, image);
        if reading.free_units().count() as u64 >= request.k() {
            let others = self.others(image, request, &planned_steps);
            plans.extend(others.iter().map(|steps| (encode(steps), Hand::Other)));
        }
        if self.scope.plans == Plans::Edits {
            let mut edited = edits(shape, &planned_steps);
            if request.size.is_some() {
                let ground = Ground {
                    shape,
                    image,
                    reading: &reading,
                };
                edited.push(of_the_other_edition(&ground, request, &planned_steps));
            }
            plans.extend(edited.iter().map(|steps| (encode(steps), Hand::Mutated)));
        }
        plans
    }

    /// Whether a violation was found that tells.
    fn failed(&mut self) -> bool {
        self.violations.retain(self.tells);
        !self.violations.is_empty()
    }

    /// Everything that can become of one plan. False if a violation was found:
    /// the event then is the one that it came with.
    fn run_plan(&mut self, at: usize, volume: &Volume, event: &mut Event) -> bool {
        let simulator = self.simulator;
        let Simulator { rules, shape, .. } = simulator;
        let image = &volume.image;
        let answer = simulator.check(image, event.request, &event.plan, &mut self.violations);
        simulator.expect(event, answer, &mut self.violations);
        if answer.number != 0 {
            self.tally.refused += 1;
            match event.hand {
                Hand::Reserved { room: true } => self.tally.on_reserved += 1,
                Hand::Reserved { room: false } => self.tally.out_of_reserved += 1,
                Hand::Scattered => self.tally.scattered += 1,
                Hand::Held { room: true } => self.tally.on_held += 1,
                Hand::Held { room: false } => self.tally.out_of_held += 1,
                _ => {}
            }
            // "Where checking, or carrying out n steps, is refused, both
            // stay." (01)
            let mut copy = image.clone();
            let n = event.plan.len() as u64 / 16;
            let carry = rules.carry(shape, &mut copy, event.request, &event.plan, n);
            if carry != answer || copy != *image {
                self.violations.push(Violation::RefusedChanged);
            }
            return !self.failed();
        }
        self.tally.accepted += 1;
        let passed = simulator.passed(image, event, &mut self.violations);
        let steps = &passed.steps;
        self.tally.carried += simulator.carry_each(image, event, steps, &mut self.violations);
        if self.failed() {
            return false;
        }

        let of_data = |&at: &usize| steps[at][0] == DATA;
        let data: u64 = (0..steps.len()).filter(of_data).map(|at| 1 << at).sum();
        let garbage = Leftovers::Garbage(self.nodes[at].depth as u64);
        let mut carried = image.clone();
        for n in 0..=steps.len() {
            self.tally.points += 1;
            if n > 0 {
                carry_step(shape, &mut carried, &steps[n - 1]);
            }
            event.n = n as u64;
            let fenced = rules.fenced(steps, n);
            for subset in 0..1 << (n - fenced) {
                self.tally.subsets += 1;
                event.choice = subset << fenced;
                let landed = landed(*rules, steps, n, event.choice);
                let all_landed = (landed == first(n)).then_some(&carried[..]);
                let choices = if data & !landed == 0 { 1 } else { 2 };
                for leftovers in [Leftovers::Unchanged, garbage].into_iter().take(choices) {
                    event.leftovers = leftovers;
                    if !self.run_event(at, volume, event, &passed, landed, all_landed) {
                        return false;
                    }
                }
            }
        }
        true
    }

    /// One event; a state that is new becomes a node.
    fn run_event(
        &mut self,
        at: usize,
        volume: &Volume,
        event: &Event,
        passed: &Passed,
        landed: u64,
        all_landed: Option<&[u8]>,
    ) -> bool {
        let simulator = self.simulator;
        let shape = &simulator.shape;
        self.tally.events += 1;
        let next = &mut self.next;
        let violations = &mut self.violations;
        next.clone_from(volume);
        land(simulator.rules, shape, next, event, &passed.steps, landed);
        simulator.settle(volume, next, event, passed, landed, violations);
        simulator.verify_pieces(next, violations);
        simulator.verify_reserved(next, violations);
        if all_landed.is_some_and(|carried| carried != next.image) {
            violations.push(Violation::NotAsCarried { n: event.n });
        }
        key(next, self.scope.renames(), &mut self.key);
        let is_known = self.known.contains(&self.key);
        if !is_known {
            simulator.verify(&next.image, violations);
            simulator.verify_sizes(next, event.request.chunk, violations);
        }
        let harmed = violations.iter().any(Violation::harms);
        if self.failed() {
            return false;
        }
        if !is_known && !harmed {
            let mut volume = self.next.clone();
            if self.scope.renames() {
                rename(shape, &mut volume);
            }
            self.known.insert(self.key.clone());
            self.nodes.push(Node {
                volume,
                depth: self.nodes[at].depth + 1,
                from: Some((at, event.clone())),
            });
        }
        true
    }

    /// One more state to start from, unless it is known; false if it tells of
    /// a violation.
    fn begin(&mut self, volume: Volume) -> bool {
        let harmed = self.violations.iter().any(Violation::harms);
        if self.failed() {
            self.next = volume;
            return false;
        }
        key(&volume, self.scope.renames(), &mut self.key);
        if !harmed && self.known.insert(self.key.clone()) {
            self.nodes.push(Node {
                volume,
                depth: 0,
                from: None,
            });
        }
        true
    }

    /// The states that a repair leaves of every image.
    fn begin_repaired(&mut self) -> Option<Case> {
        let simulator = self.simulator;
        let shape = &simulator.shape;
        let mut failed = false;
        every_image(shape, &mut |damaged| {
            if failed {
                return;
            }
            let mut tags = 1..;
            let units = contents(shape, || tags.next().expect("as many as there are units"));
            let repairs = &mut self.tally.repairs;
            let mut volume = repaired(simulator, damaged, units, repairs, &mut self.violations);
            if self.scope.renames() && self.violations.is_empty() {
                rename(shape, &mut volume);
            }
            failed = !self.begin(volume);
        });
        failed.then(|| Case {
            shape: *shape,
            origin: "a repair".to_string(),
            start: self.next.clone(),
            events: Vec::new(),
            violations: self.violations.clone(),
        })
    }

    /// The states that a converter makes of every sound image of edition 1.
    fn begin_converted(&mut self) -> Option<Case> {
        let simulator = self.simulator;
        let shape = &simulator.shape;
        let one = shape.in_edition(Edition::One);
        let mut failed = false;
        every_image(&one, &mut |image| {
            if failed || !Reading::of(&one, image).flaws.is_empty() {
                return;
            }
            let used = Volume::holding(&one, image.to_vec(), (1..=one.n).collect());
            let tally = &mut self.tally.converted;
            let mut volume = converted(simulator, &used, tally, &mut self.violations);
            if self.scope.renames() && self.violations.is_empty() {
                rename(shape, &mut volume);
            }
            failed = !self.begin(volume);
        });
        failed.then(|| Case {
            shape: *shape,
            origin: "a conversion".to_string(),
            start: self.next.clone(),
            events: Vec::new(),
            violations: self.violations.clone(),
        })
    }

    /// The states in which chunks lie on units and maps in every way.
    fn begin_layouts(&mut self) -> Option<Case> {
        let simulator = self.simulator;
        let shape = &simulator.shape;
        let mut failed = false;
        every_layout(shape, &mut |image| {
            if failed {
                return;
            }
            let mut tags = 1..;
            let units = contents(shape, || tags.next().expect("as many as there are units"));
            let mut volume = Volume::holding(shape, image.to_vec(), units);
            simulator.verify(&volume.image, &mut self.violations);
            simulator.verify_sizes(&volume, 0, &mut self.violations);
            if self.scope.renames() {
                rename(shape, &mut volume);
            }
            failed = !self.begin(volume);
        });
        failed.then(|| Case {
            shape: *shape,
            origin: "a layout".to_string(),
            start: self.next.clone(),
            events: Vec::new(),
            violations: self.violations.clone(),
        })
    }

    /// The list of events that leads to a node, and on to this event.
    fn case(&self, at: usize, last: Option<Event>) -> Case {
        let mut events = Vec::from_iter(last);
        let mut at = at;
        while let Some((from, event)) = &self.nodes[at].from {
            events.insert(0, event.clone());
            at = *from;
        }
        for (event, number) in events.iter_mut().zip(1..) {
            event.payload.base = number * NEW;
        }
        Case {
            shape: self.simulator.shape,
            origin: "found exhaustively".to_string(),
            start: self.nodes[at].volume.clone(),
            events,
            violations: self.violations.clone(),
        }
    }

    fn explore(&mut self) -> Option<Case> {
        let mut at = 0;
        while at < self.nodes.len() {
            let depth = self.nodes[at].depth;
            self.tally.states += 1;
            self.tally.deepest = depth;
            if self.scope.depth != Some(depth) {
                self.tally.expanded += 1;
                let volume = self.nodes[at].volume.clone();
                for request in requests(&self.simulator.shape) {
                    let plans = self.plans(&volume, request);
                    if self.failed() {
                        return Some(self.case(at, None));
                    }
                    for (plan, hand) in plans {
                        let number = if self.scope.renames() { 1 } else { depth + 1 };
                        let mut event = Event {
                            request,
                            payload: Payload {
                                base: number as u64 * NEW,
                            },
                            plan,
                            hand,
                            n: 0,
                            choice: 0,
                            leftovers: Leftovers::Unchanged,
                        };
                        if !self.run_plan(at, &volume, &mut event) {
                            return Some(self.case(at, Some(event)));
                        }
                    }
                }
            }
            at += 1;
        }
        None
    }
}

/// The state after these writes.
fn start<R: Rules>(simulator: &Simulator<R>, scope: &Scope, writes: &[(u64, u64)]) -> Volume {
    let shape = &scope.shape;
    let mut tag = STALE;
    let mut volume = Volume::formatted(shape, || {
        tag += u64::from(!scope.renames());
        tag
    });
    for (number, &(chunk, size)) in (1..).zip(writes) {
        let request = Request {
            chunk,
            size: Some(size),
        };
        let mut violations = Vec::new();
        let plan = simulator.plan(&volume.image, request, &mut violations);
        let plan = plan.expect("there is room");
        let event = Event {
            request,
            payload: Payload {
                base: number * EARLIER,
            },
            n: plan.len() as u64 / 16,
            plan,
            hand: Hand::Planner,
            choice: 0,
            leftovers: Leftovers::Unchanged,
        };
        let figures = &mut Figures::default();
        simulator.event(&mut volume, &event, figures, &mut violations);
    }
    if scope.renames() {
        rename(shape, &mut volume);
    }
    volume
}

/// Explores a volume from the scope's start. Answers what was tried, and the
/// first case that ended in a violation that tells.
pub fn explore<R: Rules>(
    rules: &R,
    scope: &Scope,
    tells: &dyn Fn(&Violation) -> bool,
) -> (Tally, Option<Case>) {
    let simulator = Simulator::new(rules, scope.shape);
    let writes = match scope.start {
        Start::Format(writes) => writes,
        _ => &[],
    };
    let start = start(&simulator, scope, writes);
    let mut explorer = Explorer {
        simulator: &simulator,
        scope,
        tells,
        nodes: Vec::new(),
        known: HashSet::new(),
        tally: Tally::default(),
        next: start.clone(),
        key: Vec::new(),
        violations: Vec::new(),
    };
    let case = match scope.start {
        Start::Format(_) => {
            explorer.begin(start);
            None
        }
        Start::EveryRepair => explorer.begin_repaired(),
        Start::EveryConversion => explorer.begin_converted(),
        Start::EveryLayout => explorer.begin_layouts(),
    };
    let case = case.or_else(|| explorer.explore());
    explorer.tally.violations = u64::from(case.is_some());
    (explorer.tally, case)
}
