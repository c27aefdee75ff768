//! Words of an image, and sound images with chunks in them.

use super::*;

pub fn word(image: &[u8], at: usize) -> u64 {
    u64::from_le_bytes(image[at..at + 8].try_into().expect("eight bytes"))
}

pub fn put_word(image: &mut [u8], at: usize, value: u64) {
    image[at..at + 8].copy_from_slice(&value.to_le_bytes());
}

pub fn entry(image: &[u8], chunk: u64) -> u64 {
    word(image, 8 * chunk as usize)
}

pub fn put_entry(image: &mut [u8], chunk: u64, value: u64) {
    put_word(image, 8 * chunk as usize, value);
}

/// The chunks whose entry names a map.
pub fn mapped(shape: &Shape, image: &[u8]) -> Vec<u64> {
    (0..shape.c)
        .filter(|&chunk| entry(image, chunk) < shape.m)
        .collect()
}

/// The maps that no entry names.
pub fn free_maps(shape: &Shape, image: &[u8]) -> Vec<u64> {
    let mut free = vec![true; shape.m as usize];
    for chunk in mapped(shape, image) {
        free[entry(image, chunk) as usize] = false;
    }
    (0..shape.m).filter(|&map| free[map as usize]).collect()
}

/// The units of a map, up to the first word that is none.
pub fn units_in(shape: &Shape, image: &[u8], map: u64) -> Vec<u64> {
    (0..shape.p)
        .map(|at| word(image, shape.unit_at(map, at)))
        .take_while(|&unit| shape.is_unit(unit))
        .collect()
}

/// The size that a map of edition 2 keeps.
pub fn size_in(shape: &Shape, image: &[u8], map: u64) -> Option<u64> {
    (shape.edition == Edition::Two).then(|| word(image, shape.word_at(map, 0)))
}

/// Writes a map: the size, where the edition has one, the units, then X.
pub fn put_map(shape: &Shape, image: &mut [u8], map: u64, size: u64, units: &[u64]) {
    if shape.edition == Edition::Two {
        put_word(image, shape.word_at(map, 0), size);
    }
    for at in 0..shape.p {
        let unit = units.get(at as usize).copied().unwrap_or(X);
        put_word(image, shape.unit_at(map, at), unit);
    }
}

/// The same, with a size of whole units.
pub fn put_units(shape: &Shape, image: &mut [u8], map: u64, units: &[u64]) {
    put_map(shape, image, map, units.len() as u64 * UNIT, units);
}

/// The units that no named map holds and that are not reserved.
pub fn free_units(shape: &Shape, image: &[u8]) -> Vec<u64> {
    let mut free = vec![true; shape.n as usize];
    for chunk in mapped(shape, image) {
        for unit in units_in(shape, image, entry(image, chunk)) {
            free[unit as usize] = false;
        }
    }
    let units = shape.units();
    units.filter(|&unit| free[unit as usize]).collect()
}

/// A volume that holds all units but the free ones, by as few maps as can be.
pub fn with_free(shape: &Shape, free: impl Fn(u64) -> bool) -> Vec<u8> {
    let units: Vec<u64> = shape.units().filter(|&unit| !free(unit)).collect();
    let maps: Vec<u64> = (0..(units.len() as u64).div_ceil(shape.p)).collect();
    holding(shape, &units, &maps)
}

/// A volume that holds these units by these maps: the units in equal parts, a
/// part for each map; the maps named by the chunks from the last one down.
pub fn holding(shape: &Shape, units: &[u64], maps: &[u64]) -> Vec<u8> {
    let (least, most) = (maps.len(), maps.len() * shape.p as usize);
    assert!((least..=most).contains(&units.len()), "1 to P for each map");
    let mut image = blank(shape);
    for (at, &map) in maps.iter().enumerate() {
        put_entry(&mut image, shape.c - 1 - at as u64, map);
        let part = units.len() * at / maps.len()..units.len() * (at + 1) / maps.len();
        put_units(shape, &mut image, map, &units[part]);
    }
    image
}

/// Runs `events` random writes and discards, some of them cut between two
/// steps, through the model's planner and carrier.
pub fn evolve(rng: &mut Rng, shape: &Shape, image: &mut [u8], events: u64) {
    let mut out = [0; LONGEST_PLAN];
    for _ in 0..events {
        let chunk = rng.below(shape.c);
        let size = (!rng.chance(25)).then(|| good_size(rng, shape));
        let planned = match size {
            Some(size) => model::plan_write(image, chunk, size, &mut out),
            None => model::plan_discard(image, chunk, &mut out),
        };
        // A volume that is short of units may refuse.
        let Ok(steps) = planned else { continue };
        let plan = &out[..16 * steps as usize];
        let n = if rng.chance(15) {
            rng.between(0, steps)
        } else {
            steps
        };
        match size {
            Some(size) => model::carry_write(image, chunk, size, plan, n),
            None => model::carry_discard(image, chunk, plan, n),
        }
        .expect("the planner's plans pass");
    }
}

/// Raw writes to every chunk, in random order, as long as there is room.
pub fn fill(rng: &mut Rng, shape: &Shape, image: &mut [u8]) {
    let mut chunks: Vec<u64> = (0..shape.c).collect();
    rng.shuffle(&mut chunks);
    let mut out = [0; LONGEST_PLAN];
    for chunk in chunks {
        for k in (1..=shape.p).rev() {
            if let Ok(steps) = model::plan_write(image, chunk, k * UNIT, &mut out) {
                let plan = &out[..16 * steps as usize];
                model::carry_write(image, chunk, k * UNIT, plan, steps)
                    .expect("the planner's plans pass");
                break;
            }
        }
    }
}

/// Maps random chunks to random maps and units, in an order that no planner
/// would choose. The image must be fresh.
pub fn scatter(rng: &mut Rng, shape: &Shape, image: &mut [u8]) {
    let mut units: Vec<u64> = shape.units().collect();
    let mut maps: Vec<u64> = (0..shape.m).collect();
    rng.shuffle(&mut units);
    rng.shuffle(&mut maps);
    for chunk in 0..shape.c {
        if rng.chance(30) || units.is_empty() {
            continue;
        }
        let map = maps.pop().expect("more maps than chunks");
        let k = rng.between(1, shape.p.min(units.len() as u64));
        put_entry(image, chunk, map);
        let held = units.split_off(units.len() - k as usize);
        put_map(shape, image, map, size_of(rng, k), &held);
    }
}

/// Fills free maps with anything: "A map that no chunk names may hold
/// anything" (01), reserved units too.
pub fn litter(rng: &mut Rng, shape: &Shape, image: &mut [u8]) {
    for map in free_maps(shape, image) {
        for at in 0..shape.map_words() {
            let junk = match rng.below(7) {
                0 => X,
                1 => shape.n,
                2 => TWO_32 - 1,
                3 => rng.next_u64(),
                4 => rng.below(shape.r.max(1)),
                _ => rng.below(shape.n),
            };
            put_word(image, shape.word_at(map, at), junk);
        }
    }
}

/// A sound image and its geometry.
#[derive(Clone, Debug)]
pub struct Base {
    pub shape: Shape,
    pub image: Vec<u8>,
}

/// How the chunks of a sound image come to be mapped.
#[derive(Clone, Copy, Debug, PartialEq, Eq)]
pub enum Content {
    Fresh,
    Evolved,
    /// As many raw chunks as there is room for: the lowest free unit is high.
    Full,
    /// The same, and a few events more.
    Worn,
    Scattered,
}

/// A sound image of this geometry and content, half of the time with litter in
/// its dead maps.
pub fn populate(rng: &mut Rng, shape: Shape, content: Content) -> Base {
    let mut image = fresh(&shape);
    match content {
        Content::Fresh => {}
        Content::Evolved => {
            let events = rng.between(1, 3 * shape.c.min(80));
            evolve(rng, &shape, &mut image, events);
        }
        Content::Full => fill(rng, &shape, &mut image),
        Content::Worn => {
            fill(rng, &shape, &mut image);
            let events = rng.between(1, 3);
            evolve(rng, &shape, &mut image, events);
        }
        Content::Scattered => scatter(rng, &shape, &mut image),
    }
    if rng.chance(50) {
        litter(rng, &shape, &mut image);
    }
    Base { shape, image }
}

/// A sound image of any geometry and content.
pub fn sound(rng: &mut Rng) -> Base {
    let shape = shape(rng);
    let content = match rng.below(10) {
        0 => Content::Fresh,
        1..=4 => Content::Evolved,
        5 => Content::Full,
        6 => Content::Worn,
        _ => Content::Scattered,
    };
    populate(rng, shape, content)
}

/// A pool of sound images, to draw cases from: every corner of the limits with
/// every content in both editions, the largest images among them, then any up
/// to `count`. Where units can be reserved, there are also as many as can be,
/// and one.
pub fn pool(rng: &mut Rng, count: usize) -> Vec<Base> {
    let mut pool = Vec::new();
    for (p, c) in [(2, 1), (2, 256), (16, 1), (16, 256)] {
        for m in [c + 1, c + 32] {
            for n in [p, p * m] {
                let contents = [
                    Content::Fresh,
                    Content::Evolved,
                    Content::Full,
                    Content::Worn,
                    Content::Scattered,
                ];
                let one = Shape::one(p, c, m, n);
                let mut shapes = vec![one, one.in_edition(Edition::Two)];
                if n > p {
                    shapes.extend([1, n - p].map(|r| one.reserving(r)));
                }
                for shape in shapes {
                    pool.extend(contents.map(|content| populate(rng, shape, content)));
                }
            }
        }
    }
    while pool.len() < count {
        pool.push(sound(rng));
    }
    pool
}
