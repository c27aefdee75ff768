//! Damage: each row of the table of refusals, several of them, or any.

use super::*;

/// A mapped chunk; if there is none, one is mapped to a unit.
fn mapped_chunk(rng: &mut Rng, shape: &Shape, image: &mut [u8]) -> u64 {
    let chunks = mapped(shape, image);
    if !chunks.is_empty() && !rng.chance(10) {
        return rng.pick(&chunks);
    }
    let chunk = rng.below(shape.c);
    map_anew(rng, shape, image, chunk);
    chunk
}

/// A number that is no unit: at and past N, what a 32-bit reading would take for
/// one or for X, or, where there are such, a reserved unit.
fn no_unit(rng: &mut Rng, shape: &Shape, unit: u64) -> u64 {
    if shape.r > 0 && rng.chance(40) {
        return reserved_unit(rng, shape);
    }
    match rng.below(6) {
        0 => shape.n,
        1 => shape.n + 1,
        2 => TWO_32 - 1,
        3 => X - 1,
        4 => TWO_32 + unit,
        _ => rng.between(shape.n, X - 1),
    }
}

/// Maps a chunk to a free map with one or two units.
fn map_anew(rng: &mut Rng, shape: &Shape, image: &mut [u8], chunk: u64) {
    put_entry(image, chunk, X);
    let map = rng.pick(&free_maps(shape, image));
    let units = free_units(shape, image);
    put_entry(image, chunk, map);
    let held: Vec<u64> = (0..rng.between(1, 2))
        .map(|_| rng.pick_any(&units).unwrap_or(shape.r))
        .collect();
    let size = size_of(rng, held.len() as u64);
    put_map(shape, image, map, size, &held);
}

/// Gives a map that has units a size that takes just those, so that nothing
/// but what was done to its units is wrong with it.
fn fit_size(rng: &mut Rng, shape: &Shape, image: &mut [u8], map: u64) {
    let held = units_in(shape, image, map).len() as u64;
    if shape.edition == Edition::Two && held > 0 {
        put_word(image, shape.word_at(map, 0), size_of(rng, held));
    }
}

/// Damages the image so that this row of 01's table holds, as far as its
/// geometry allows. Rows 4 to 6 leave the trailer alone, rows 2 and 3 the
/// tables; a caller that wants several applies them from the highest down.
pub fn damage(rng: &mut Rng, shape: &Shape, image: &mut Vec<u8>, row: u64) {
    match row {
        1 => shorten(rng, image),
        2 => make_foreign(rng, shape, image),
        3 => break_geometry(rng, shape, image),
        4 => {
            for _ in 0..rng.pick(&[1, 1, 2, 3]) {
                let chunk = rng.below(shape.c);
                let link = match rng.below(8) {
                    0 => shape.m,
                    1 => shape.m + 1,
                    2 => TWO_32 + 1,
                    3 => TWO_32 - 1,
                    4 => X - 1,
                    5 => 1 << 63,
                    6 => TWO_32 * rng.between(1, 9) + rng.below(shape.m),
                    _ => rng.between(shape.m, X - 1),
                };
                put_entry(image, chunk, link);
            }
        }
        5 if rng.chance(15) => trespass(rng, shape, image),
        5 => {
            for _ in 0..rng.pick(&[1, 1, 2, 3]) {
                break_map(rng, shape, image);
            }
        }
        6 if rng.chance(25) => tangle(rng, shape, image),
        6 => {
            for _ in 0..rng.pick(&[1, 1, 2, 3]) {
                share(rng, shape, image);
            }
        }
        _ => unreachable!("no such row of the image"),
    }
}

fn shorten(rng: &mut Rng, image: &mut Vec<u8>) {
    let any = rng.index(32);
    let len = rng.pick(&[0, 1, 4, 8, 16, 30, 31, any, any]);
    match rng.below(3) {
        0 => image.truncate(len),
        1 => drop(image.drain(..image.len().saturating_sub(len))),
        _ => {
            image.resize(len, 0);
            rng.fill(image);
        }
    }
}

fn make_foreign(rng: &mut Rng, shape: &Shape, image: &mut Vec<u8>) {
    let Some(at) = image.len().checked_sub(shape.trailer_len()) else {
        return;
    };
    let other = 3 - shape.edition.number() as u8;
    match rng.below(16) {
        0..=2 => image[at + rng.index(4)] ^= 1 << rng.below(8),
        3 | 4 => image[at..at + 4].copy_from_slice(b"PAMR"),
        5 | 6 => image[at..at + 4].copy_from_slice(b"rmap"),
        7..=9 => image[at + 4] = rng.pick(&[0, other, 3, 0x81, 0xFF]),
        10 | 11 => image[at + 5] = rng.pick(&[1, 2, 0xFF]),
        12 | 13 => image[at + 4..at + 6].copy_from_slice(&[0, shape.edition.number() as u8]),
        // Too short for edition 2, and nothing of edition 1.
        14 => {
            let len = rng.between(32, 39) as usize;
            if rng.chance(50) {
                image.truncate(len);
            } else {
                image.drain(..image.len().saturating_sub(len));
                let at = image.len() - 32;
                image[at] ^= 0x20;
            }
        }
        // The trailer some bytes before its place, or behind it.
        _ => {
            let by = rng.pick(&[1, 4, 8, 16]);
            if rng.chance(50) {
                image.resize(image.len() + by, 0);
            } else {
                image.truncate(image.len() - by);
            }
        }
    }
}

fn put_field(shape: &Shape, image: &mut [u8], field: usize, value: u32) {
    let at = image.len() - shape.trailer_len() + 8 + 4 * field;
    image[at..at + 4].copy_from_slice(&value.to_le_bytes());
}

fn field(shape: &Shape, image: &[u8], field: usize) -> u32 {
    let at = image.len() - shape.trailer_len() + 8 + 4 * field;
    u32::from_le_bytes(image[at..at + 4].try_into().expect("four bytes"))
}

/// Tag and version of both editions in one image, each where its trailer would
/// begin. An image of edition 1 may be sound with it: there they are a word of
/// its last map. One of edition 2 is read as edition 1 from then on.
fn both_tags(rng: &mut Rng, shape: &Shape, image: &mut [u8]) {
    let (back, version) = match shape.edition {
        Edition::One => (40, 2),
        Edition::Two => (32, 1),
    };
    let Some(at) = image.len().checked_sub(back) else {
        return;
    };
    image[at..at + 6].copy_from_slice(&[b'R', b'M', b'A', b'P', version, 0]);
    if rng.chance(50) {
        image[at + 6..at + 8].copy_from_slice(&(shape.p as u16).to_le_bytes());
    }
}

/// The image's trailer in the other edition's form, or the other way round:
/// another version, length and place of the fields, with the tables as they
/// are.
fn change_edition(rng: &mut Rng, shape: &Shape, image: &mut Vec<u8>) {
    let other = match shape.edition {
        Edition::One => shape.in_edition(Edition::Two),
        Edition::Two => shape.in_edition(Edition::One),
    };
    let at = image.len() - shape.trailer_len();
    if rng.chance(50) {
        // A good trailer of the other edition, whose maps have other lengths.
        let trailer = blank(&other).split_off(other.image_len() - other.trailer_len());
        image.truncate(at);
        image.extend(trailer);
    } else {
        // The same fields.
        image[at + 4] = other.edition.number() as u8;
        image.resize(at + other.trailer_len(), 0);
        if rng.chance(50) {
            let len = image.len() as u32;
            put_field(&other, image, 5, len);
        }
    }
}

fn break_geometry(rng: &mut Rng, shape: &Shape, image: &mut Vec<u8>) {
    if image.len() < shape.trailer_len() {
        return;
    }
    let Shape { p, c, m, n, .. } = *shape;
    let trailer = shape.trailer_len();
    match rng.below(26) {
        // Edition 2's last number is not 0.
        18 | 19 if shape.edition == Edition::Two => {
            let other = rng.pick(&[1, 2, p as u32, n as u32, 1 << 8, 1 << 16, 1 << 31, u32::MAX]);
            put_field(shape, image, 7, other);
        }
        // The one before it, R, is past N-P.
        20 | 24 | 25 if shape.edition == Edition::Two => {
            let past = shape.most_reserved() as u32 + 1;
            let far = [n as u32, p as u32 * m as u32 + 1, 1 << 31, u32::MAX];
            let far = rng.pick(&far);
            let other = rng.pick(&[past, past, past + 1, past + p as u32, far]);
            put_field(shape, image, 6, other);
        }
        21 => both_tags(rng, shape, image),
        22 => change_edition(rng, shape, image),
        0 => {
            let at = image.len() - trailer + 6;
            let p = rng.pick(&[0, 1, 17, p - 1, p + 1, 32, 256, 0xFFFF]) as u16;
            image[at..at + 2].copy_from_slice(&p.to_le_bytes());
        }
        1 => put_field(
            shape,
            image,
            0,
            rng.pick(&[0, 257, c - 1, c + 1, 0xFFFF_FFFF, 1 << 29]) as u32,
        ),
        2 => {
            let maps = [c, c + 33, m - 1, m + 1, 0, 0xFFFF_FFFF, 1 << 29];
            put_field(shape, image, 1, rng.pick(&maps) as u32);
        }
        3 | 4 => {
            let units = [p - 1, p * m + 1, 0, 0xFFFF_FFFF, n << 16, 4609];
            put_field(shape, image, 2, rng.pick(&units) as u32);
            // N below P or above P·M, with any R.
            if shape.edition == Edition::Two && rng.chance(50) {
                put_field(shape, image, 6, rng.pick(&[0, 1, 2, n as u32, u32::MAX]));
            }
        }
        // A distance or the length, and the tables where they were.
        5..=9 => {
            let which = rng.pick(&[3, 4, 5]);
            let now = field(shape, image, which);
            let other = match rng.below(7) {
                0 => now.wrapping_add(1),
                1 => now.wrapping_sub(1),
                2 => now.wrapping_add(8),
                3 => now.wrapping_sub(8),
                4 => now.wrapping_add(1 << 16),
                5 => field(shape, image, rng.pick(&[3, 4, 5])),
                _ => rng.pick(&[0, u32::MAX, 32, 40]),
            };
            put_field(shape, image, which, other);
            if other == now {
                put_field(shape, image, which, !now);
            }
        }
        // Slack before the image, the length field agreeing or not.
        10 | 11 => {
            let map = 8 * shape.map_words() as usize;
            let slack = rng.pick(&[1, 7, 8, 16, 32, map, map, 8 * m as usize, 40_000]);
            let mut longer = vec![0xFF; slack];
            longer.append(image);
            *image = longer;
            if rng.chance(50) {
                let len = image.len() as u32;
                put_field(shape, image, 5, len);
            }
        }
        // Cut off at the front, the length field agreeing or not.
        12 | 13 => {
            let cut = rng.between(1, (image.len() - trailer).max(1) as u64) as usize;
            image.drain(..cut.min(image.len() - trailer));
            if rng.chance(50) {
                let len = image.len() as u32;
                put_field(shape, image, 5, len);
            }
        }
        // Another geometry's whole trailer.
        14 => {
            let other = fresh(&self::shape(rng).in_edition(shape.edition));
            let at = image.len() - trailer;
            image[at..].copy_from_slice(&other[other.len() - trailer..]);
        }
        // Nothing wrong but one limit.
        15 | 16 => *image = blank(&past_a_limit(rng, shape)),
        // Only the trailer is left.
        _ => drop(image.drain(..image.len() - trailer)),
    }
}

/// A size that does not take these units: none, too few or too many of them,
/// more than a chunk has, or one that a 32-bit reading would let pass.
fn wrong_size(rng: &mut Rng, shape: &Shape, held: u64) -> u64 {
    let sizes = [
        0,
        held.saturating_sub(1) * UNIT,
        held * UNIT + 1,
        (held + 1) * UNIT,
        shape.chunk_bytes() + 1,
        TWO_32,
        TWO_32 + held * UNIT,
        TWO_32 * rng.between(1, 9) + rng.between(1, held.max(1) * UNIT),
        TWO_32 - 1,
        X - UNIT,
        X - 1,
        X,
        rng.below(shape.chunk_bytes() + UNIT),
    ];
    let size = rng.pick(&sizes);
    if size.div_ceil(UNIT) == held {
        0
    } else {
        size
    }
}

fn break_map(rng: &mut Rng, shape: &Shape, image: &mut [u8]) {
    let chunk = mapped_chunk(rng, shape, image);
    let map = entry(image, chunk);
    let units = units_in(shape, image, map);
    let held = units.len() as u64;
    if shape.edition == Edition::Two && rng.chance(50) {
        let size = wrong_size(rng, shape, held);
        return put_word(image, shape.word_at(map, 0), size);
    }
    let at = |at: u64| shape.unit_at(map, at);
    let unit = rng.pick_any(&units).unwrap_or(shape.r);
    match rng.below(8) {
        // Empty.
        0 => (0..shape.p).for_each(|word| put_word(image, at(word), X)),
        // A gap, or X first.
        1 => {
            let gap = rng.below(shape.p - 1);
            put_word(image, at(gap), X);
            let units = free_units(shape, image);
            let unit = rng.pick_any(&units).unwrap_or(unit);
            put_word(image, at(rng.between(gap + 1, shape.p - 1)), unit);
        }
        // Junk after the units.
        2 if held < shape.p => {
            let junk = no_unit(rng, shape, unit);
            put_word(image, at(rng.between(held, shape.p - 1)), junk);
        }
        // A reserved unit after them, with a size that counts it.
        3 if held < shape.p && shape.r > 0 => {
            put_word(image, at(held), reserved_unit(rng, shape));
            put_word(image, shape.word_at(map, 0), size_of(rng, held + 1));
        }
        // No unit among them.
        _ => {
            let junk = no_unit(rng, shape, unit);
            put_word(image, at(rng.below(held.max(1))), junk);
        }
    }
}

fn share(rng: &mut Rng, shape: &Shape, image: &mut [u8]) {
    let chunk = mapped_chunk(rng, shape, image);
    let map = entry(image, chunk);
    let units = units_in(shape, image, map);
    let Some(unit) = rng.pick_any(&units) else {
        return;
    };
    let held = units.len() as u64;
    let other = rng.below(shape.c);
    match rng.below(3) {
        // Another chunk on the same map.
        0 if other != chunk => put_entry(image, other, map),
        // Another chunk's map with a unit of this one.
        1 if other != chunk => {
            if entry(image, other) >= shape.m {
                map_anew(rng, shape, image, other);
            }
            let map = entry(image, other);
            let held = units_in(shape, image, map).len() as u64;
            let at = rng.between(0, held.min(shape.p - 1));
            put_word(image, shape.unit_at(map, at), unit);
            fit_size(rng, shape, image, map);
        }
        // One unit twice in one map.
        _ => {
            let at = if held < shape.p {
                held
            } else {
                rng.between(1, held - 1)
            };
            let from = rng.below(at.min(held));
            let unit = units[from as usize];
            put_word(image, shape.unit_at(map, at), unit);
            fit_size(rng, shape, image, map);
        }
    }
}

/// Several chunks on random maps, with units out of a handful: many clashes,
/// of which row 6 must find the right one. Each map has a good form.
fn tangle(rng: &mut Rng, shape: &Shape, image: &mut [u8]) {
    let units = rng.between(1, 12).min(shape.n - shape.r);
    let first = rng.between(shape.r, shape.n - units);
    for _ in 0..rng.between(2, 8) {
        let chunk = rng.below(shape.c);
        let map = rng.below(shape.m);
        put_entry(image, chunk, map);
        let held = rng.between(1, shape.p.min(3));
        let named: Vec<u64> = (0..held).map(|_| first + rng.below(units)).collect();
        put_map(shape, image, map, size_of(rng, held), &named);
    }
}

/// A chunk's map, which is made if there is none.
fn map_of(rng: &mut Rng, shape: &Shape, image: &mut [u8], chunk: u64) -> u64 {
    if entry(image, chunk) >= shape.m {
        map_anew(rng, shape, image, chunk);
    }
    entry(image, chunk)
}

/// A bad map with a unit of another chunk.
fn borrow(rng: &mut Rng, shape: &Shape, image: &mut [u8]) {
    let lender = mapped_chunk(rng, shape, image);
    let units = units_in(shape, image, entry(image, lender));
    let borrower = rng.below(shape.c);
    let map = map_of(rng, shape, image, borrower);
    let Some(unit) = rng.pick_any(&units) else {
        return;
    };
    if map == entry(image, lender) {
        return;
    }
    let last = shape.p - 1;
    let (first, second) = match rng.below(3) {
        0 => (X, unit),
        _ => (unit, no_unit(rng, shape, unit)),
    };
    if shape.edition == Edition::Two && rng.chance(50) {
        // Bad by its size alone.
        put_units(shape, image, map, &[unit]);
        let size = wrong_size(rng, shape, 1);
        return put_word(image, shape.word_at(map, 0), size);
    }
    put_word(image, shape.unit_at(map, 0), first);
    put_word(image, shape.unit_at(map, rng.between(1, last)), second);
}

/// A chunk with a reserved unit in the place of one of its own, or the same in
/// two chunks; where none is reserved, a bad map.
fn trespass(rng: &mut Rng, shape: &Shape, image: &mut [u8]) {
    if shape.r == 0 {
        return break_map(rng, shape, image);
    }
    let unit = reserved_unit(rng, shape);
    for _ in 0..rng.pick(&[1, 2]) {
        let chunk = mapped_chunk(rng, shape, image);
        let map = entry(image, chunk);
        let held = units_in(shape, image, map).len() as u64;
        let at = rng.below(held.max(1));
        put_word(image, shape.unit_at(map, at), unit);
    }
}

/// A row of chunks, each with a unit of the one before it, and each good by
/// itself where it was so.
fn chain(rng: &mut Rng, shape: &Shape, image: &mut [u8]) {
    let mut chunks: Vec<u64> = (0..shape.c).collect();
    rng.shuffle(&mut chunks);
    chunks.truncate(rng.between(2, 5) as usize);
    for pair in chunks.windows(2) {
        let [before, map] = [pair[0], pair[1]].map(|chunk| map_of(rng, shape, image, chunk));
        let units = units_in(shape, image, before);
        let held = units_in(shape, image, map).len() as u64;
        if let Some(&unit) = units.first() {
            let at = held.min(shape.p - 1);
            put_word(image, shape.unit_at(map, at), unit);
            fit_size(rng, shape, image, map);
        }
    }
}

/// Another R within its limit. A unit that is held may be reserved by it: then
/// every map with such a unit has a wrong form.
fn reserve_others(rng: &mut Rng, shape: &Shape, image: &mut [u8]) {
    if shape.edition == Edition::One {
        return;
    }
    let held = mapped(shape, image)
        .into_iter()
        .flat_map(|chunk| units_in(shape, image, entry(image, chunk)));
    let held: Vec<u64> = held.collect();
    let r = match rng.below(4) {
        0 => 0,
        // One unit more than is good, or just as many as are.
        1 => held.iter().min().map_or(shape.r, |lowest| lowest + 1),
        2 => held.iter().min().map_or(shape.r, |lowest| *lowest),
        _ => rng.between(0, shape.most_reserved()),
    };
    put_field(shape, image, 6, r.min(shape.most_reserved()) as u32);
}

/// Damage with no row in mind: flipped bytes, cuts, random bytes.
pub fn wild(rng: &mut Rng, image: &mut Vec<u8>) {
    match rng.below(6) {
        0 | 1 => {
            for _ in 0..rng.between(1, 8) {
                if let Some(last) = image.len().checked_sub(1) {
                    // The trailer is as likely as all the rest.
                    let from = if rng.chance(50) {
                        last.saturating_sub(39)
                    } else {
                        0
                    };
                    let at = rng.between(from as u64, last as u64) as usize;
                    image[at] ^= 1 << rng.below(8);
                }
            }
        }
        2 => image.truncate(rng.index(image.len() + 1)),
        3 => {
            let extra = rng.between(1, 64) as usize;
            image.resize(image.len() + extra, rng.pick(&[0, 0xFF]));
        }
        4 => {
            let len = rng.index(400);
            image.resize(len, 0);
            rng.fill(image);
        }
        // Random tables under a good trailer.
        _ => {
            let tables = image.len().saturating_sub(40);
            rng.fill(&mut image[..tables]);
        }
    }
}

/// An image for one case: mostly sound, else with one or more rows of the
/// table broken. The base that it was made from stays the caller's.
pub fn image(rng: &mut Rng, base: &Base) -> Vec<u8> {
    let mut image = base.image.clone();
    match rng.below(100) {
        0..=43 => {}
        44 | 45 => reserve_others(rng, &base.shape, &mut image),
        46..=49 => both_tags(rng, &base.shape, &mut image),
        50..=69 => {
            let row = rng.between(1, 6);
            damage(rng, &base.shape, &mut image, row);
        }
        70..=94 => {
            for row in (2..=6).rev() {
                if rng.chance(40) {
                    damage(rng, &base.shape, &mut image, row);
                }
            }
        }
        _ => wild(rng, &mut image),
    }
    image
}

/// Faults in the tables, of one kind or of several: bad links, bad maps, reserved
/// units, and maps and units that are claimed twice. The trailer stays as it is.
pub fn tables_damaged(rng: &mut Rng, shape: &Shape, image: &mut Vec<u8>) {
    for _ in 0..rng.pick(&[1, 1, 1, 2, 3]) {
        match rng.below(11) {
            0 | 1 => damage(rng, shape, image, 4),
            2 | 3 => damage(rng, shape, image, 5),
            4 | 5 => damage(rng, shape, image, 6),
            6 => borrow(rng, shape, image),
            7 => chain(rng, shape, image),
            8 => trespass(rng, shape, image),
            9 => (4..=6).for_each(|row| damage(rng, shape, image, row)),
            _ => (4..=6).rev().for_each(|row| damage(rng, shape, image, row)),
        }
    }
}

/// An image for a repair: mostly one with faults in its tables, else any.
pub fn damaged(rng: &mut Rng, base: &Base) -> Vec<u8> {
    if rng.chance(25) {
        return image(rng, base);
    }
    let mut image = base.image.clone();
    tables_damaged(rng, &base.shape, &mut image);
    if rng.chance(4) {
        reserve_others(rng, &base.shape, &mut image);
    }
    // A short list buffer competes with a bad trailer as well.
    if rng.chance(10) {
        let row = rng.between(2, 3);
        damage(rng, &base.shape, &mut image, row);
    }
    image
}
