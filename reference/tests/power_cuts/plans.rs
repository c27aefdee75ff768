//! Plans from any hand: legal ones that the planner would not make, ones legal
//! but for the units that they write on, legal ones with one defect, and legal
//! ones changed at random.

use sumbilak_reference::inputs::{
    assemble, encode, entry, miscounted, other_units, put_on, size_of, Edition, Fields, Shape,
    FENCE as FENCE_STEP, X, X32,
};
use sumbilak_reference::rng::Rng;

use crate::event::{Request, DATA, FENCE, LINK, MAP};
use crate::volume::{Held, Reading};

/// "Whole steps, at most 64" (01).
const MOST_STEPS: usize = 64;

/// A volume that plans are made for.
pub struct Ground<'a> {
    pub shape: &'a Shape,
    pub image: &'a [u8],
    pub reading: &'a Reading,
}

impl Ground<'_> {
    fn is_mapped(&self, chunk: u64) -> bool {
        entry(self.image, chunk) != X
    }

    fn free_units(&self) -> Vec<u64> {
        self.reading.free_units().collect()
    }

    /// The units of a chunk.
    fn units_of(&self, chunk: u64) -> Vec<u64> {
        let held = Held::of(self.shape, self.image, chunk);
        held.units().iter().map(|&unit| unit as u64).collect()
    }
}

fn fences(rng: &mut Rng, least: usize, most: usize) -> Vec<Fields> {
    vec![FENCE_STEP; rng.between(least as u64, most.max(least) as u64) as usize]
}

/// A legal plan: the lowest free units, any free map, DATA and MAP in any order,
/// and fences wherever rule 5 leaves room for them. None if too few units are
/// free.
pub fn legal(rng: &mut Rng, ground: &Ground, request: Request) -> Option<Vec<Fields>> {
    let chunk = request.chunk as u32;
    let Some(size) = request.size else {
        if !ground.is_mapped(request.chunk) {
            return Some(Vec::new());
        }
        let most = rng.pick(&[0, 0, 2, 31]);
        let mut steps = fences(rng, 0, most);
        steps.push([LINK, chunk, 0, X32]);
        steps.extend(fences(rng, 1, most));
        return Some(steps);
    };

    let k = request.k() as usize;
    let free = ground.free_units();
    let units = free.get(..k)?;
    let maps: Vec<u64> = ground.reading.free_maps().collect();
    let map = rng.pick(&maps) as u32;

    // DATA and MAP; what follows them comes below.
    let mut steps = assemble(ground.shape, request.chunk, size, units, u64::from(map));
    steps.truncate(steps.len() - 3);
    match rng.below(5) {
        0 => {}
        1 => steps.reverse(),
        2 => rng.shuffle(&mut steps[..k]),
        _ => rng.shuffle(&mut steps),
    }
    let spare = MOST_STEPS - steps.len() - 3;
    let extra = match rng.below(6) {
        0..=2 => 0,
        3 | 4 => rng.index(4).min(spare),
        _ => spare,
    };
    let before = rng.index(extra + 1);
    for _ in 0..before {
        steps.insert(rng.index(steps.len() + 1), FENCE_STEP);
    }
    steps.push(FENCE_STEP);
    let between = rng.index(extra - before + 1);
    steps.extend(vec![FENCE_STEP; between]);
    steps.push([LINK, chunk, 0, map]);
    steps.extend(vec![FENCE_STEP; extra - before - between + 1]);
    Some(steps)
}

/// A legal write's plan on other free units, or on the lowest in another order,
/// in DATA and in MAP alike: rule 2. None if there are no such.
pub fn scattered(rng: &mut Rng, ground: &Ground, steps: &[Fields]) -> Option<Vec<Fields>> {
    let mut steps = steps.to_vec();
    let k = of_kind(&steps, DATA).len();
    let units = other_units(rng, &ground.free_units(), k)?;
    put_on(ground.shape, &mut steps, &units);
    Some(steps)
}

/// A legal write's plan on the lowest units where the chunk's own old ones, or
/// those of others too, count as free: rule 2. None if that makes no difference.
pub fn on_held(
    rng: &mut Rng,
    ground: &Ground,
    request: Request,
    steps: &[Fields],
) -> Option<Vec<Fields>> {
    let mut steps = steps.to_vec();
    let k = of_kind(&steps, DATA).len();
    let own = ground.units_of(request.chunk);
    let held = match rng.below(3) {
        0 | 1 => own,
        // As it is where a later chunk wins.
        _ => (0..request.chunk)
            .flat_map(|chunk| ground.units_of(chunk))
            .collect(),
    };
    let units = miscounted(rng, &ground.free_units(), &held, k)?;
    put_on(ground.shape, &mut steps, &units);
    Some(steps)
}

/// A legal write's plan with one or more of its units exchanged for reserved
/// ones, in DATA and in MAP alike, as far as there are such, or on the lowest
/// where reserved ones count as free: rule 2.
pub fn on_reserved(rng: &mut Rng, ground: &Ground, steps: &[Fields]) -> Vec<Fields> {
    let shape = ground.shape;
    let mut steps = steps.to_vec();
    let mut reserved: Vec<u64> = (0..shape.r).collect();
    let mut data = of_kind(&steps, DATA);
    if rng.chance(30) {
        let units = miscounted(rng, &ground.free_units(), &reserved, data.len());
        if let Some(units) = units {
            put_on(shape, &mut steps, &units);
            return steps;
        }
    }
    rng.shuffle(&mut reserved);
    rng.shuffle(&mut data);
    data.truncate(rng.between(1, data.len() as u64) as usize);
    for (at, unit) in data.into_iter().zip(reserved) {
        let old = steps[at][1];
        replace_unit(shape, &mut steps, old, unit as u32);
    }
    steps
}

/// A write's plan where too few units are free: all of those and some of these.
/// None if enough are free, or if these together are too few.
fn out_of(
    rng: &mut Rng,
    ground: &Ground,
    request: Request,
    others: Vec<u64>,
) -> Option<Vec<Fields>> {
    let size = request.size?;
    let k = request.k() as usize;
    let mut units = ground.free_units();
    let free = units.len();
    units.extend(others);
    if free >= k || units.len() < k {
        return None;
    }
    if rng.chance(50) {
        // The lowest of all of them.
        units.sort_unstable();
        units.truncate(k);
    } else {
        units.truncate(k);
        rng.shuffle(&mut units);
    }
    let maps: Vec<u64> = ground.reading.free_maps().collect();
    let map = rng.pick(&maps);
    Some(assemble(ground.shape, request.chunk, size, &units, map))
}

/// The same with reserved units.
pub fn out_of_reserved(rng: &mut Rng, ground: &Ground, request: Request) -> Option<Vec<Fields>> {
    out_of(rng, ground, request, (0..ground.shape.r).collect())
}

/// The same with held ones, the chunk's own before those of others.
pub fn out_of_held(rng: &mut Rng, ground: &Ground, request: Request) -> Option<Vec<Fields>> {
    let mut held = ground.units_of(request.chunk);
    if rng.chance(50) {
        held.extend(ground.reading.units_of_others(request.chunk));
    }
    out_of(rng, ground, request, held)
}

/// A legal write's plan as the other edition has it: the words of its map with a
/// size before them, or without.
pub fn of_the_other_edition(ground: &Ground, request: Request, steps: &[Fields]) -> Vec<Fields> {
    let (Some(size), Some(first)) = (request.size, steps.iter().position(|step| step[0] == MAP))
    else {
        return steps.to_vec();
    };
    let mut other = steps.to_vec();
    match ground.shape.edition {
        Edition::One => {
            let map = steps[first][1];
            let words = other.iter_mut().filter(|step| step[0] == MAP);
            words.for_each(|step| step[2] += 1);
            other.insert(first, [MAP, map, 0, size as u32]);
        }
        Edition::Two => {
            other.retain(|step| !is_size(ground.shape, step));
            let words = other.iter_mut().filter(|step| step[0] == MAP);
            words.for_each(|step| step[2] -= 1);
        }
    }
    other
}

/// Positions of the steps of one kind.
fn of_kind(steps: &[Fields], kind: u32) -> Vec<usize> {
    (0..steps.len())
        .filter(|&at| steps[at][0] == kind)
        .collect()
}

/// Puts a step in somewhere.
fn insert(rng: &mut Rng, steps: &mut Vec<Fields>, step: Fields) {
    steps.insert(rng.index(steps.len() + 1), step);
}

/// Whether a step stores the size of a map.
fn is_size(shape: &Shape, step: &Fields) -> bool {
    step[0] == MAP && u64::from(step[2]) < shape.size_words()
}

/// Puts one unit in another's place, in DATA and in MAP alike.
pub fn replace_unit(shape: &Shape, steps: &mut [Fields], old: u32, new: u32) {
    for step in steps {
        match step[0] {
            DATA if step[1] == old => step[1] = new,
            MAP if step[3] == old && !is_size(shape, step) => step[3] = new,
            _ => {}
        }
    }
}

/// Puts another map in, in MAP and in LINK alike.
pub fn replace_map(steps: &mut [Fields], new: u32) {
    for step in steps {
        match step[0] {
            MAP => step[1] = new,
            LINK if step[3] != X32 => step[3] = new,
            _ => {}
        }
    }
}

/// Gives a legal plan one defect, and names the lowest rule that breaks. None
/// if this volume has no room for the defect that was drawn.
pub fn damage(
    rng: &mut Rng,
    ground: &Ground,
    request: Request,
    steps: &[Fields],
) -> Option<(Vec<u8>, u64)> {
    let mut steps = steps.to_vec();
    if rng.chance(20) {
        return damage_form(rng, ground.shape, steps).map(|plan| (plan, 1));
    }
    let rule = if request.size.is_some() {
        damage_write(rng, ground, request, &mut steps)?
    } else {
        damage_discard(rng, ground, request, &mut steps)?
    };
    // Padded to the limit by its fences, the plan may be too long by now.
    (steps.len() <= MOST_STEPS).then(|| (encode(&steps), rule))
}

/// Rule 1: "Whole steps, at most 64, of the four kinds", each field in its
/// range.
fn damage_form(rng: &mut Rng, shape: &Shape, mut steps: Vec<Fields>) -> Option<Vec<u8>> {
    match rng.below(4) {
        0 => {
            let mut plan = encode(&steps);
            let part = rng.between(1, 15) as usize;
            plan.resize(plan.len() + part, rng.pick(&[0, 4]));
            return Some(plan);
        }
        1 => steps.resize(MOST_STEPS + 1, FENCE_STEP),
        _ => {
            let at = rng.index(steps.len().checked_sub(1)? + 1);
            let Shape { p, c, m, n, .. } = *shape;
            let words = shape.map_words();
            let past: [(usize, u64); 3] = match steps[at][0] {
                DATA => [(1, n), (2, p), (3, 1)],
                // "word 0 holds 1 to P·4,096" (02, request 4).
                MAP if is_size(shape, &steps[at]) => {
                    let past = rng.pick(&[0, shape.chunk_bytes() + 1, u64::from(X32)]);
                    [(1, m), (2, words), (3, past)]
                }
                MAP => [(1, m), (2, words), (3, n)],
                LINK => [(1, c), (2, 1), (3, m)],
                _ => [(1, 1), (2, 1), (3, 1)],
            };
            let (field, least) = rng.pick(&past);
            match rng.below(4) {
                0 => steps[at][0] = rng.pick(&[0, 5, X32]),
                1 => steps[at][field] = X32 - 1,
                _ => steps[at][field] = least as u32,
            }
        }
    }
    Some(encode(&steps))
}

fn damage_write(
    rng: &mut Rng,
    ground: &Ground,
    request: Request,
    steps: &mut Vec<Fields>,
) -> Option<u64> {
    let Shape { p, c, m, .. } = *ground.shape;
    let k = request.k();
    let chunk = request.chunk;
    let data = of_kind(steps, DATA);
    let maps = of_kind(steps, MAP);
    let link = of_kind(steps, LINK)[0];
    let one_data = rng.pick(&data);
    let one_map = rng.pick(&maps);
    let some_unit = steps[one_data][1];
    let shape = ground.shape;
    if shape.edition == Edition::Two && rng.chance(20) {
        return damage_size(rng, shape, request, steps);
    }
    if shape.r > 0 && rng.chance(10) {
        // A reserved unit in a word of the map alone: "A MAP word with a
        // reserved unit breaks rule 3" (Decision 76).
        if is_size(shape, &steps[one_map]) {
            return None;
        }
        steps[one_map][3] = rng.below(shape.r) as u32;
        return Some(3);
    }
    Some(match rng.below(19) {
        // "Old units counted free for the write that replaces them." (01)
        0 => {
            let unit = rng.pick_any(&ground.units_of(chunk))?;
            replace_unit(shape, steps, some_unit, unit as u32);
            2
        }
        1 => {
            let others: Vec<u64> = ground.reading.units_of_others(chunk).collect();
            let unit = rng.pick_any(&others)?;
            replace_unit(shape, steps, some_unit, unit as u32);
            2
        }
        2 => {
            let other = steps[rng.pick(&data)][1];
            if other == some_unit {
                return None;
            }
            replace_unit(shape, steps, some_unit, other);
            2
        }
        3 => {
            steps.remove(one_data);
            2
        }
        4 => {
            let step = steps[one_data];
            steps.insert(rng.index(link + 1), step);
            2
        }
        5 => {
            let used: Vec<u32> = data.iter().map(|&at| steps[at][1]).collect();
            let mut spare = ground.reading.free_units();
            let unit = spare.find(|unit| !used.contains(&(*unit as u32)))?;
            if k == p {
                return None;
            }
            steps.insert(rng.index(link + 1), [DATA, unit as u32, k as u32, 0]);
            2
        }
        6 => {
            steps.remove(one_map);
            3
        }
        7 => {
            let step = steps[one_map];
            steps.insert(rng.index(link + 1), step);
            3
        }
        8 => {
            let named: Vec<u64> = ground.reading.named_maps().collect();
            replace_map(steps, rng.pick_any(&named)? as u32);
            3
        }
        9 => {
            // The first unit's word is a unit and no other has the same value.
            let first = shape.size_words() as u32;
            let zero = maps.iter().copied().find(|&at| steps[at][2] == first)?;
            let other = maps.iter().copied().find(|&at| steps[at][2] > first)?;
            let value = steps[zero][3];
            steps[zero][3] = steps[other][3];
            steps[other][3] = value;
            3
        }
        10 => {
            steps[one_map][1] = (steps[one_map][1] + 1) % m as u32;
            3
        }
        11 => {
            steps.remove(link);
            4
        }
        12 => {
            let step = steps[link];
            steps.insert(link, step);
            4
        }
        13 => {
            if c == 1 {
                return None;
            }
            steps[link][1] = (steps[link][1] + 1) % c as u32;
            4
        }
        14 => {
            steps[link][3] = rng.pick(&[X32, (steps[link][3] + 1) % m as u32]);
            4
        }
        // "LINK before the fence: a cut shows a map that isn't there." (01)
        15 | 16 => {
            let from = (0..link).rev().find(|&at| steps[at][0] != FENCE)? + 1;
            steps.drain(from..link);
            5
        }
        17 => {
            // A DATA or MAP step after LINK, before the last FENCE.
            let late = steps.remove(rng.pick(&[one_data, one_map]));
            let at = of_kind(steps, LINK)[0] + 1;
            steps.insert(at, late);
            5
        }
        // "No last FENCE: the next plan reuses old units while the old link
        // may come back." (01)
        _ => {
            steps.truncate(link + 1);
            5
        }
    })
}

/// A plan of edition 2 with another size, of as many units or of any number, or
/// without its size: rule 3.
fn damage_size(
    rng: &mut Rng,
    shape: &Shape,
    request: Request,
    steps: &mut Vec<Fields>,
) -> Option<u64> {
    let at = steps.iter().position(|step| is_size(shape, step))?;
    let other = match rng.below(4) {
        0 | 1 => size_of(rng, request.k()),
        2 => rng.between(1, shape.chunk_bytes()),
        _ => {
            steps.remove(at);
            return Some(3);
        }
    };
    steps[at][3] = other as u32;
    (Some(other) != request.size).then_some(3)
}

fn damage_discard(
    rng: &mut Rng,
    ground: &Ground,
    request: Request,
    steps: &mut Vec<Fields>,
) -> Option<u64> {
    let Shape { p, c, m, n, .. } = *ground.shape;
    let mapped = ground.is_mapped(request.chunk);
    let chunk = request.chunk as u32;
    Some(match rng.below(6) {
        0 => {
            let step = [DATA, rng.below(n) as u32, rng.below(p) as u32, 0];
            insert(rng, steps, step);
            2
        }
        1 => {
            // X is no size, so any word but that one.
            let word = ground.shape.size_words() + rng.below(p);
            let step = [MAP, rng.below(m) as u32, word as u32, X32];
            insert(rng, steps, step);
            3
        }
        2 => {
            insert(rng, steps, [LINK, chunk, 0, X32]);
            4
        }
        3 if mapped => {
            steps.retain(|step| step[0] != LINK);
            4
        }
        4 if mapped => {
            let link = of_kind(steps, LINK)[0];
            if c > 1 && rng.chance(50) {
                steps[link][1] = (chunk + 1) % c as u32;
            } else {
                steps[link][3] = rng.below(m) as u32;
            }
            4
        }
        _ => {
            if mapped {
                let link = of_kind(steps, LINK)[0];
                steps.truncate(link + 1);
            } else {
                steps.push(FENCE_STEP);
            }
            5
        }
    })
}

/// Some step with its fields in range.
fn loose_step(rng: &mut Rng, ground: &Ground) -> Fields {
    let Shape { p, c, m, n, .. } = *ground.shape;
    let mut below = |limit: u64| rng.below(limit) as u32;
    let (unit, piece, map, chunk) = (below(n), below(p), below(m), below(c));
    let word = below(ground.shape.map_words());
    match rng.below(4) {
        0 => [DATA, unit, piece, 0],
        1 if u64::from(word) < ground.shape.size_words() => {
            [MAP, map, word, 1 + rng.below(4096 * p) as u32]
        }
        1 => [MAP, map, word, rng.pick(&[unit, X32])],
        2 => [LINK, chunk, 0, rng.pick(&[map, X32])],
        _ => FENCE_STEP,
    }
}

/// One change, with nothing said about whether the plan is still legal.
fn change(rng: &mut Rng, ground: &Ground, request: Request, steps: &mut Vec<Fields>) {
    let Shape { p, c, m, n, .. } = *ground.shape;
    let shape = ground.shape;
    let len = steps.len();
    if len == 0 {
        let step = loose_step(rng, ground);
        return steps.push(step);
    }
    let at = rng.index(len);
    match rng.below(14) {
        0 | 1 => {
            let other = rng.index(len);
            steps.swap(at, other);
        }
        2 => {
            let step = steps.remove(at);
            insert(rng, steps, step);
        }
        3 => {
            // The steps up to some point in another order.
            rng.shuffle(&mut steps[..at]);
        }
        4 => {
            steps.remove(at);
        }
        5 => {
            let step = steps[at];
            insert(rng, steps, step);
        }
        6 => insert(rng, steps, FENCE_STEP),
        7 => {
            let of_fences = of_kind(steps, FENCE);
            if let Some(at) = rng.pick_any(&of_fences) {
                steps.remove(at);
            }
        }
        8 => {
            let limits = match steps[at][0] {
                DATA => [n, p, 1],
                MAP if is_size(shape, &steps[at]) => [m, 1, shape.chunk_bytes() + 1],
                MAP => [m, shape.map_words(), n],
                LINK => [c, 1, m],
                _ => [1, 1, 1],
            };
            let field = rng.index(3);
            steps[at][1 + field] = if rng.chance(15) {
                X32
            } else {
                rng.below(limits[field]) as u32
            };
        }
        9 | 10 => {
            let data = of_kind(steps, DATA);
            let Some(at) = rng.pick_any(&data) else {
                return;
            };
            let new = match rng.below(3) {
                0 => rng.pick_any(&ground.units_of(request.chunk)),
                1 => rng.pick_any(&ground.free_units()),
                _ => None,
            };
            let new = new.unwrap_or_else(|| rng.below(n));
            let old = steps[at][1];
            replace_unit(shape, steps, old, new as u32);
        }
        11 => {
            let map = rng.below(m) as u32;
            replace_map(steps, map);
        }
        12 => {
            // Two pieces' units the other way round, in DATA only.
            let data = of_kind(steps, DATA);
            let (a, b) = (rng.pick_any(&data), rng.pick_any(&data));
            if let (Some(a), Some(b)) = (a, b) {
                let unit = steps[a][1];
                steps[a][1] = steps[b][1];
                steps[b][1] = unit;
            }
        }
        _ => {
            let step = loose_step(rng, ground);
            insert(rng, steps, step);
        }
    }
}

/// A plan changed in one to three places, now and then in a bit of its bytes.
pub fn mutate(rng: &mut Rng, ground: &Ground, request: Request, steps: &[Fields]) -> Vec<u8> {
    let mut steps = steps.to_vec();
    for _ in 0..rng.pick(&[1, 1, 1, 2, 3]) {
        change(rng, ground, request, &mut steps);
    }
    let mut plan = encode(&steps);
    if rng.chance(6) && !plan.is_empty() {
        let at = rng.index(plan.len());
        plan[at] ^= 1 << rng.below(8);
    }
    plan
}
