//! Plans: good ones, ones changed in some way, and any.

use super::*;

/// A step as its four fields.
pub type Fields = [u32; 4];

pub const FENCE: Fields = [4, 0, 0, 0];

/// Steps as bytes.
pub fn encode(steps: &[Fields]) -> Vec<u8> {
    steps
        .iter()
        .flatten()
        .flat_map(|field| field.to_le_bytes())
        .collect()
}

/// The whole steps of a plan.
pub fn decode(plan: &[u8]) -> Vec<Fields> {
    plan.chunks_exact(16)
        .map(|step| {
            std::array::from_fn(|i| {
                let field = &step[4 * i..4 * i + 4];
                u32::from_le_bytes(field.try_into().expect("four bytes"))
            })
        })
        .collect()
}

/// A write's plan in the planner's order, on any units and any map. The size
/// is what edition 2 keeps of the request.
pub fn assemble(shape: &Shape, chunk: u64, size: u64, units: &[u64], map: u64) -> Vec<Fields> {
    let map = map as u32;
    let data = (0..)
        .zip(units)
        .map(|(piece, &unit)| [1, unit as u32, piece, 0]);
    let unit = |at: u64| units.get(at as usize).map_or(X32, |&unit| unit as u32);
    let first = (shape.edition == Edition::Two).then_some(size as u32);
    let values = first.into_iter().chain((0..shape.p).map(unit));
    let words = (0..).zip(values).map(|(at, value)| [2, map, at, value]);
    data.chain(words)
        .chain([FENCE, [3, chunk as u32, 0, map], FENCE])
        .collect()
}

/// Every order of the steps.
pub fn orders(steps: &[Fields]) -> Vec<Vec<Fields>> {
    if steps.is_empty() {
        return vec![Vec::new()];
    }
    let mut all = Vec::new();
    for at in 0..steps.len() {
        let mut rest = steps.to_vec();
        let first = rest.remove(at);
        for mut order in orders(&rest) {
            order.insert(0, first);
            all.push(order);
        }
    }
    all
}

/// A good plan for a write of a good size: on the lowest free units, piece 0 on
/// the lowest, and otherwise in any way, by any free map. If too few units are
/// free, held or reserved ones fill the gap and the plan is bad. It is made for
/// the base's geometry in this edition.
pub fn write_plan(
    rng: &mut Rng,
    base: &Base,
    edition: Edition,
    chunk: u64,
    size: u64,
) -> Vec<Fields> {
    let shape = &base.shape;
    let k = size.div_ceil(UNIT);
    let mut units = free_units(shape, &base.image);
    while (units.len() as u64) < k {
        units.push(rng.below(shape.n));
    }
    units.truncate(k as usize);
    let maps = free_maps(shape, &base.image);
    let map = if rng.chance(60) {
        rng.pick(&maps)
    } else {
        maps[0]
    };
    let mut steps = assemble(&shape.in_edition(edition), chunk, size, &units, map);
    if rng.chance(40) {
        rearrange(rng, &mut steps);
    }
    steps
}

/// What the rules leave free of a write's plan that is in the planner's order:
/// the order of its DATA and MAP steps, and more fences.
fn rearrange(rng: &mut Rng, steps: &mut Vec<Fields>) {
    let stores = steps.len() - 3;
    let data = of_kind(steps, 1).len();
    match rng.below(4) {
        0 => {}
        1 => steps[..stores].reverse(),
        2 => rng.shuffle(&mut steps[..data]),
        _ => rng.shuffle(&mut steps[..stores]),
    }
    for _ in 0..rng.pick(&[0, 0, 1, 2, 5]) {
        steps.insert(rng.index(steps.len() + 1), FENCE);
    }
}

/// Different free units for k pieces, other than the lowest ones or in another
/// order; None if there are none of the kind that was drawn. The free ones are
/// given, rising.
pub fn other_units(rng: &mut Rng, free: &[u64], k: usize) -> Option<Vec<u64>> {
    let lowest = free.get(..k).filter(|lowest| !lowest.is_empty())?;
    let more = free.len() - k;
    let mut units = lowest.to_vec();
    match rng.below(6) {
        // Each one place too high.
        0 if more > 0 => units.copy_from_slice(&free[1..=k]),
        // Two the other way round.
        1 | 2 => {
            let (a, b) = (rng.index(k), rng.index(k));
            units.swap(a, b);
        }
        // One higher than all of the lowest.
        3 if more > 0 => units[rng.index(k)] = free[k + rng.index(more)],
        // The highest, rising or falling.
        4 => {
            units.copy_from_slice(&free[more..]);
            if rng.chance(50) {
                units.reverse();
            }
        }
        _ => {
            let mut any = free.to_vec();
            rng.shuffle(&mut any);
            units.copy_from_slice(&any[..k]);
        }
    }
    (units != lowest).then_some(units)
}

/// The k lowest units where one, some or all of these, which are not free, count
/// as free; None if that comes to the lowest free ones, or to too few.
pub fn miscounted(rng: &mut Rng, free: &[u64], taken: &[u64], k: usize) -> Option<Vec<u64>> {
    // Those that would be among the lowest then.
    let last = free.get(k.checked_sub(1)?);
    let low = |unit: &u64| last.is_none_or(|last| unit < last);
    let mut counted: Vec<u64> = taken.iter().copied().filter(low).collect();
    match rng.below(3) {
        0 => {}
        1 => counted = vec![rng.pick_any(&counted)?],
        _ => counted.retain(|_| rng.chance(50)),
    }
    if counted.is_empty() {
        return None;
    }
    counted.extend(free);
    counted.sort_unstable();
    counted.get(..k).map(<[u64]>::to_vec)
}

/// A plan for a discard as the planner makes it.
pub fn discard_plan(base: &Base, chunk: u64) -> Vec<Fields> {
    if chunk < base.shape.c && entry(&base.image, chunk) == X {
        Vec::new()
    } else {
        vec![[3, chunk as u32, 0, X32], FENCE]
    }
}

/// A number near a limit, for one field of a step.
fn odd_field(rng: &mut Rng, shape: &Shape) -> u32 {
    let limits = [
        shape.p,
        shape.map_words(),
        shape.c,
        shape.m,
        shape.n,
        shape.r.max(1),
        shape.chunk_bytes() + 1,
    ];
    match rng.below(6) {
        0 => rng.pick(&limits) as u32,
        1 => (rng.pick(&limits) - 1) as u32,
        2 => rng.pick(&[X32, X32 - 1, 1 << 31, 1 << 16]),
        3 => rng.pick(&[0, 1, 2, 3, 4, 5]),
        4 => rng.below(shape.n) as u32,
        _ => rng.next_u64() as u32,
    }
}

/// A step with fields that keep rule 1.
fn loose_step(rng: &mut Rng, shape: &Shape) -> Fields {
    let Shape { p, c, m, n, .. } = *shape;
    let mut below = |limit: u64| rng.below(limit) as u32;
    let (unit, piece, map, chunk) = (below(n), below(p), below(m), below(c));
    let word = below(shape.map_words());
    match rng.below(4) {
        0 => [1, unit, piece, 0],
        1 if u64::from(word) < shape.size_words() => [2, map, word, good_size(rng, shape) as u32],
        1 => [2, map, word, rng.pick(&[unit, X32])],
        2 => [3, chunk, 0, rng.pick(&[map, X32])],
        _ => FENCE,
    }
}

/// Positions of the steps of one kind.
fn of_kind(steps: &[Fields], kind: u32) -> Vec<usize> {
    (0..steps.len())
        .filter(|&at| steps[at][0] == kind)
        .collect()
}

/// A change around the size word of a plan: another size, of as many units or
/// of any number, one out of range, X; no size, or two; the last word missing,
/// or another value in it; the units from word 0 on.
fn mutate_size(rng: &mut Rng, shape: &Shape, steps: &mut Vec<Fields>) {
    let word = |steps: &[Fields], word: u64| {
        let of_word = |step: &Fields| step[0] == 2 && u64::from(step[2]) == word;
        steps.iter().position(of_word)
    };
    let (Some(first), Some(last)) = (word(steps, 0), word(steps, shape.p)) else {
        return;
    };
    let size = u64::from(steps[first][3]);
    match rng.below(12) {
        0..=3 => steps[first][3] = size_of(rng, size.div_ceil(UNIT).max(1)) as u32,
        4 => steps[first][3] = (size as u32).wrapping_add(rng.pick(&[1, X32])),
        5 => steps[first][3] = good_size(rng, shape) as u32,
        6 => {
            let full = shape.chunk_bytes() as u32;
            steps[first][3] = rng.pick(&[0, 1, full, full + 1, X32, X32 - 1, 1 << 31]);
        }
        7 => drop(steps.remove(first)),
        8 => {
            let step = steps[first];
            steps.insert(rng.index(steps.len() + 1), step);
        }
        9 => drop(steps.remove(last)),
        10 => {
            let unit = rng.below(shape.n) as u32;
            steps[last][3] = rng.pick(&[X32, unit, shape.n as u32, size as u32]);
        }
        // Each word holds what the next one should, as in edition 1.
        _ => {
            let at: Vec<usize> = (0..=shape.p).filter_map(|at| word(steps, at)).collect();
            for pair in at.windows(2) {
                steps[pair[0]][3] = steps[pair[1]][3];
            }
            if rng.chance(50) {
                steps.remove(at[at.len() - 1]);
            }
        }
    }
}

/// One change to a plan; some of them keep it good.
pub fn mutate(rng: &mut Rng, base: &Base, chunk: u64, steps: &mut Vec<Fields>) {
    let shape = &base.shape;
    if shape.edition == Edition::Two && rng.chance(30) {
        return mutate_size(rng, shape, steps);
    }
    let len = steps.len();
    if rng.chance(6) {
        return misplace(rng, base, chunk, steps);
    }
    if shape.r > 0 && rng.chance(5) {
        // A MAP word with a reserved unit, and DATA as it was.
        let words = of_kind(steps, 2);
        if let Some(at) = rng.pick_any(&words) {
            steps[at][3] = reserved_unit(rng, shape) as u32;
        }
        return;
    }
    match rng.below(25) {
        // Order.
        0 if len > 1 => {
            let (a, b) = (rng.index(len), rng.index(len));
            steps.swap(a, b);
        }
        1 => rng.shuffle(steps),
        2 | 3 => {
            // Everything before the first fence, which rule 5 leaves free.
            let end = steps.iter().position(|step| step[0] == 4).unwrap_or(len);
            rng.shuffle(&mut steps[..end]);
        }
        // Fences.
        4 => {
            for _ in 0..rng.between(1, 6) {
                steps.insert(rng.index(steps.len() + 1), FENCE);
            }
        }
        5 => {
            let count = rng.pick(&[63, 64, 64, 64, 65, 65, 66, 80, 300]);
            steps.resize(count.max(len), FENCE);
        }
        6 => {
            let fences = of_kind(steps, 4);
            if let Some(at) = rng.pick_any(&fences) {
                steps.remove(at);
            }
        }
        // Steps missing or twice.
        7 if len > 0 => drop(steps.drain(rng.index(len)..=len - 1)),
        8 | 9 if len > 0 => {
            steps.remove(rng.index(len));
        }
        10 if len > 0 => {
            let step = rng.pick(steps);
            steps.insert(rng.index(len + 1), step);
        }
        // One field.
        11..=13 if len > 0 => {
            let at = rng.index(len);
            steps[at][rng.index(4)] = odd_field(rng, shape);
        }
        14 if len > 0 => {
            // A field that its kind does not use.
            let at = rng.index(len);
            let unused: &[usize] = match steps[at][0] {
                1 => &[3],
                3 => &[2],
                4 => &[1, 2, 3],
                _ => &[0],
            };
            steps[at][rng.pick(unused)] = rng.pick(&[1, X32, 1 << 16, 7]);
        }
        // A unit of another chunk, of this chunk, a reserved or a free one, in
        // DATA and in MAP alike.
        15 | 16 => {
            let data = of_kind(steps, 1);
            if let Some(at) = rng.pick_any(&data) {
                let old = steps[at][1];
                let new = other_unit(rng, base, chunk) as u32;
                for step in steps.iter_mut() {
                    match step[0] {
                        1 if step[1] == old => step[1] = new,
                        2 if u64::from(step[2]) < shape.size_words() => {}
                        2 if step[3] == old && rng.chance(90) => step[3] = new,
                        _ => {}
                    }
                }
            }
        }
        // Another map, in MAP and in LINK alike.
        17 => {
            let maps = of_kind(steps, 2);
            if let Some(at) = rng.pick_any(&maps) {
                let old = steps[at][1];
                let new = rng.below(shape.m) as u32;
                for step in steps.iter_mut() {
                    match step[0] {
                        2 if step[1] == old && rng.chance(97) => step[1] = new,
                        3 if step[3] == old => step[3] = new,
                        _ => {}
                    }
                }
            }
        }
        // One step moved, which only rule 5 may notice.
        22 | 23 if len > 0 => {
            let step = steps.remove(rng.index(len));
            steps.insert(rng.index(len), step);
        }
        // One MAP step on another map than the rest.
        18 => {
            let maps = of_kind(steps, 2);
            if let Some(at) = rng.pick_any(&maps) {
                steps[at][1] = rng.below(shape.m) as u32;
            }
        }
        // One field at its own limit.
        19 | 20 if len > 0 => {
            let at = rng.index(len);
            let reserved = shape.r.max(1);
            let limits: &[(usize, u64)] = match steps[at][0] {
                1 => &[(1, shape.n), (1, reserved), (2, shape.p)],
                2 => &[
                    (1, shape.m),
                    (2, shape.p),
                    (2, shape.map_words()),
                    (3, shape.n),
                    (3, reserved),
                ],
                3 => &[(1, shape.c), (3, shape.m)],
                _ => &[(0, 5)],
            };
            let (field, limit) = rng.pick(limits);
            steps[at][field] = rng.pick(&[limit as u32, limit as u32 - 1, X32 - 1, X32]);
        }
        21 => {
            let links = of_kind(steps, 3);
            if let Some(at) = rng.pick_any(&links) {
                match rng.below(3) {
                    0 => steps[at][1] = rng.below(shape.c) as u32,
                    1 => steps[at][3] = rng.below(shape.m) as u32,
                    _ => steps[at][3] = X32,
                }
            }
        }
        _ => {
            for _ in 0..rng.between(1, 4) {
                let step = loose_step(rng, shape);
                steps.insert(rng.index(steps.len() + 1), step);
            }
        }
    }
}

/// The units that a chunk holds.
fn held_by(base: &Base, chunk: u64) -> Vec<u64> {
    let Base { shape, image } = base;
    if chunk < shape.c && entry(image, chunk) < shape.m {
        units_in(shape, image, entry(image, chunk))
    } else {
        Vec::new()
    }
}

/// A plan with other units for its pieces, in DATA and in MAP alike: different
/// free ones, or the lowest where the chunk's own old units, those of others or
/// reserved ones count as free.
fn misplace(rng: &mut Rng, base: &Base, chunk: u64, steps: &mut [Fields]) {
    let Base { shape, image } = base;
    let free = free_units(shape, image);
    let k = of_kind(steps, 1).len();
    let units = match rng.below(10) {
        0..=4 => other_units(rng, &free, k),
        5 | 6 => miscounted(rng, &free, &held_by(base, chunk), k),
        7 | 8 => {
            let others = mapped(shape, image).into_iter().filter(|&at| at != chunk);
            let held: Vec<u64> = others.flat_map(|other| held_by(base, other)).collect();
            miscounted(rng, &free, &held, k)
        }
        _ => {
            let reserved: Vec<u64> = (0..shape.r).collect();
            miscounted(rng, &free, &reserved, k)
        }
    };
    if let Some(units) = units {
        put_on(shape, steps, &units);
    }
}

/// Puts each piece of a plan on another unit, in DATA and, where it says the
/// same, in MAP.
pub fn put_on(shape: &Shape, steps: &mut [Fields], units: &[u64]) {
    let first = shape.size_words() as u32;
    let old = steps.to_vec();
    for data in old.iter().filter(|step| step[0] == 1) {
        let [_, was, piece, _] = *data;
        let Some(&unit) = units.get(piece as usize) else {
            continue;
        };
        for (step, old) in steps.iter_mut().zip(&old) {
            match *old {
                [1, _, of, _] if of == piece => step[1] = unit as u32,
                [2, _, word, value] if Some(word) == piece.checked_add(first) && value == was => {
                    step[3] = unit as u32;
                }
                _ => {}
            }
        }
    }
}

fn other_unit(rng: &mut Rng, base: &Base, chunk: u64) -> u64 {
    let shape = &base.shape;
    let own = held_by(base, chunk);
    match rng.below(4) {
        3 if shape.r > 0 => reserved_unit(rng, shape),
        0 if !own.is_empty() => rng.pick(&own),
        1 => {
            let units = free_units(shape, &base.image);
            rng.pick_any(&units).unwrap_or(shape.r)
        }
        _ => rng.below(shape.n),
    }
}

/// A plan for one case: the planner's own or another good one, on other units
/// or changed in up to three ways, made for another request or the other
/// edition, partial, or random.
pub fn plan(rng: &mut Rng, base: &Base, chunk: u64, size: Option<u64>) -> Vec<u8> {
    let shape = &base.shape;
    let good = |size: u64| (1..=shape.chunk_bytes()).contains(&size);
    // What the plan is made for: this request, or another one.
    let (for_chunk, for_size) = match rng.below(20) {
        0 => (rng.below(shape.c), size),
        1 => (chunk, size.map(|_| good_size(rng, shape))),
        2 => match size {
            Some(_) => (chunk, None),
            None => (chunk, Some(good_size(rng, shape))),
        },
        _ => (chunk, size),
    };
    let mut steps = match for_size {
        Some(size) => {
            let size = if good(size) {
                size
            } else {
                good_size(rng, shape)
            };
            let edition = if rng.chance(5) {
                super::shape::edition(rng)
            } else {
                shape.edition
            };
            write_plan(rng, base, edition, for_chunk, size)
        }
        None => discard_plan(base, for_chunk),
    };
    if for_size.is_some() && rng.chance(15) {
        misplace(rng, base, chunk, &mut steps);
    } else {
        for _ in 0..rng.pick(&[0, 0, 1, 1, 1, 2, 3]) {
            mutate(rng, base, chunk, &mut steps);
        }
    }
    match rng.below(25) {
        0 => steps.clear(),
        1 => steps = vec![FENCE; rng.pick(&[1, 1, 2, 64, 65])],
        2 => {
            let count = rng.between(1, 12);
            steps = (0..count).map(|_| loose_step(rng, shape)).collect();
        }
        _ => {}
    }
    let mut plan = encode(&steps);
    match rng.below(25) {
        0 => plan.truncate(plan.len().saturating_sub(rng.between(1, 15) as usize)),
        1 => {
            let extra = rng.between(1, 15) as usize;
            plan.resize(plan.len() + extra, rng.pick(&[0, 4]));
        }
        2 => {
            plan.resize(rng.index(200), 0);
            rng.fill(&mut plan);
        }
        _ => {}
    }
    plan
}

/// A step count around the plan's whole steps.
pub fn step_count(rng: &mut Rng, plan: &[u8]) -> u64 {
    let whole = (plan.len() / 16) as u64;
    match rng.below(12) {
        0 => 0,
        1 => whole + 1,
        2 => whole.saturating_sub(1),
        3 => rng.pick(&[64, 65, TWO_32, TWO_32 + whole, u64::MAX]),
        4..=6 => whole,
        _ => rng.between(0, whole),
    }
}
