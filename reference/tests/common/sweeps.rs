//! Small scopes gone through completely: every case of a kind on the worked
//! example of 01 in both editions, in edition 2 with and without reserved units,
//! on small volumes or, for what is free and what is repaired, on the largest
//! one, without chance. Where a sweep knows the answer by how it makes its cases,
//! it says so, and model and library are held to that as well.

use sumbilak_reference::inputs::{self, Edition, Fields, Shape, FENCE, TWO_32, X, X32};
use sumbilak_reference::model::{self, UNIT};

use super::cases::{Call, Case};
use Edition::{One, Two};

/// The worked example's geometry: 224 bytes, and 272 in edition 2.
const ONE: Shape = Shape::one(4, 4, 5, 20);
const TWO: Shape = ONE.in_edition(Two);
/// The same with its first three units reserved.
const THREE_RESERVED: Shape = TWO.reserving(3);
const EXAMPLES: [Shape; 3] = [ONE, TWO, THREE_RESERVED];

/// A sweep hands each of its cases to the given function.
pub type Sweep = fn(&mut dyn FnMut(Case));

/// Every sweep, by name.
pub const ALL: [(&str, Sweep); 40] = [
    ("format and load, around every limit", limits),
    ("load, every value of every byte", load_bytes),
    ("load, two words of the tables", load_words),
    ("load, every length", load_lengths),
    ("split and access, every range", ranges),
    ("check_write, every value of every byte", plan_bytes),
    ("check_write, steps left out or moved", plan_orders),
    ("check_discard, every short plan", discards),
    ("carry_write, every step count", carries),
    ("plan_write and plan_discard, every output", outputs),
    ("report, every number of units of each chunk", reports),
    ("plan_write and report, every lowest free unit", lowest_unit),
    ("plan_write and report, free units apart", units_apart),
    ("plan_write and load, every lowest free map", lowest_map),
    ("repair, every value of every byte", repair_bytes),
    ("repair, two words of the tables", repair_words),
    ("repair, every length", repair_lengths),
    ("repair, every list buffer", repair_lists),
    ("repair, three chunks, every word", repair_three),
    ("repair, two chunks, every word", repair_two),
    ("repair, every chunk of the largest volume", repair_largest),
    ("repair, every size and word of two chunks", repair_sizes),
    ("load and convert, every two trailers", trailers),
    ("stored_size, every value of every byte", size_bytes),
    (
        "stored_size and load, every size at a unit's edge",
        size_edges,
    ),
    ("plan_write and check_write, every size's edge", plan_edges),
    ("convert, every value of every byte", convert_bytes),
    ("convert, every length", convert_lengths),
    ("convert, every buffer", convert_buffers),
    (
        "convert, every number of units of each chunk",
        convert_units,
    ),
    ("format2, shape and load, every R", every_r),
    (
        "load and plan_write, every R of the largest",
        every_r_largest,
    ),
    ("load and others, every unit under every R", units_under_r),
    ("check_write, every unit under every R", plans_under_r),
    ("plan_write, room around (C+1)·P besides R", rooms),
    ("alarms, every level under every R", alarms),
    ("repair, every word of two chunks under R", repair_reserved),
    ("check_write, every unit for every piece", every_assignment),
    ("check_write, every order and every map", every_order),
    (
        "check_write, lowest units of the largest volume",
        lowest_checks,
    ),
];

fn case(call: Call, image: Vec<u8>) -> Case {
    Case {
        call,
        image,
        out: Vec::new(),
        plan: Vec::new(),
        skew: 0,
        due: None,
    }
}

fn load(image: Vec<u8>) -> Case {
    Case {
        out: vec![0xA5; 8 * 81],
        ..case(Call::Load, image)
    }
}

fn write(image: &mut [u8], chunk: u64, size: u64) {
    let mut out = [0; inputs::LONGEST_PLAN];
    let steps = model::plan_write(image, chunk, size, &mut out).expect("room");
    let plan = &out[..16 * steps as usize];
    model::carry_write(image, chunk, size, plan, steps).expect("the planner's plan");
}

/// The example before its third write: chunk 0 on unit 2 by map 1, chunk 2 on
/// units 0 and 1 by map 0, all counted from the first that is not reserved.
fn example(shape: Shape) -> Vec<u8> {
    let mut image = inputs::fresh(&shape);
    write(&mut image, 2, 6144);
    write(&mut image, 0, 3072);
    image
}

/// The example after it: chunk 0 on units 3 and 4 by map 2.
fn worked(shape: Shape) -> Vec<u8> {
    let mut image = example(shape);
    write(&mut image, 0, 5120);
    image
}

/// The third write's plan.
fn third_plan(shape: Shape) -> Vec<Fields> {
    inputs::assemble(&shape, 0, 5120, &[shape.r + 3, shape.r + 4], 2)
}

fn check_third(shape: Shape, steps: &[Fields]) -> Case {
    let call = Call::CheckWrite {
        chunk: 0,
        size: 5120,
    };
    Case {
        plan: inputs::encode(steps),
        ..case(call, example(shape))
    }
}

/// Geometries at and past both ends of each limit, in images and buffers that
/// agree with them.
fn limits(give: &mut dyn FnMut(Case)) {
    for p in [0u64, 1, 2, 3, 15, 16, 17, 18] {
        for c in [0, 1, 2, 255, 256, 257] {
            for m in [c, c + 1, c + 2, c + 31, c + 32, c + 33] {
                let full = p * m;
                for n in [0, p, p + 1, (c + 1) * p, full, full + 1, 4608, 4609] {
                    for n in [n, n.saturating_sub(1)] {
                        let one = Shape::one(p, c, m, n);
                        let image = inputs::blank(&one);
                        let buffer = vec![0xA5; image.len()];
                        give(load(image));
                        give(case(Call::Format { p, c, m, n }, buffer));
                        // N-P may wrap.
                        let most = n.wrapping_sub(p);
                        for r in [0, most, most.wrapping_add(1)] {
                            reserve(&one, r, give);
                        }
                        for r in [1, p, n, TWO_32, TWO_32 + 1, u64::MAX] {
                            if c == 2 && m == 3 && r > 0 {
                                reserve(&one, r, give);
                            }
                        }
                    }
                }
            }
        }
    }
}

/// A format with this R, and the shape of an image that has it, as far as 32
/// bits go.
fn reserve(shape: &Shape, r: u64, give: &mut dyn FnMut(Case)) {
    let Shape { p, c, m, n, .. } = *shape;
    let image = inputs::blank(&shape.reserving(r));
    let buffer = vec![0xA5; image.len()];
    give(case(Call::Shape, image));
    give(case(Call::Format2 { p, c, m, n, r }, buffer));
}

/// The image with every value in every byte.
fn every_byte(image: &[u8], give: &mut dyn FnMut(Vec<u8>)) {
    for at in 0..image.len() {
        for value in 0..=255 {
            let mut image = image.to_vec();
            image[at] = value;
            give(image);
        }
    }
}

/// An image of the example's shape with twelve values in every two words of its
/// tables, in edition 2 with sixteen.
fn two_words(shape: Shape, image: &[u8], give: &mut dyn FnMut(Vec<u8>)) {
    let words = (shape.image_len() - shape.trailer_len()) / 8;
    let mut values = vec![0, 1, 2, 3, 4, 5, 19, 20, TWO_32 - 1, TWO_32 + 1, X - 1, X];
    if shape.edition == Two {
        values.extend([4096, 4097, 8192, 8193]);
    }
    for first in 0..words {
        for second in first + 1..words {
            for &a in &values {
                for &b in &values {
                    let mut image = image.to_vec();
                    inputs::put_word(&mut image, 8 * first, a);
                    inputs::put_word(&mut image, 8 * second, b);
                    give(image);
                }
            }
        }
    }
}

/// The image cut off at either end, and with bytes before it.
fn every_length(image: &[u8], give: &mut dyn FnMut(Vec<u8>)) {
    for cut in 0..=image.len() {
        give(image[cut..].to_vec());
        give(image[..image.len() - cut].to_vec());
        let mut longer = vec![0xFF; cut];
        longer.extend(image);
        give(longer);
    }
}

/// The images whose bytes and words are gone through.
fn damaged_examples() -> [(Shape, Vec<u8>); 3] {
    [
        (ONE, example(ONE)),
        (TWO, worked(TWO)),
        (THREE_RESERVED, worked(THREE_RESERVED)),
    ]
}

fn load_bytes(give: &mut dyn FnMut(Case)) {
    for (_, image) in damaged_examples() {
        every_byte(&image, &mut |image| give(load(image)));
    }
}

fn load_words(give: &mut dyn FnMut(Case)) {
    for (shape, image) in damaged_examples() {
        two_words(shape, &image, &mut |image| give(load(image)));
    }
}

fn load_lengths(give: &mut dyn FnMut(Case)) {
    for shape in EXAMPLES {
        every_length(&example(shape), &mut |image| give(load(image)));
        for words in 0..100 {
            let mut case = load(example(shape));
            case.out.resize(8 * words, 0xA5);
            give(case);
        }
    }
}

/// All ranges in half units, to one chunk past the end.
fn ranges(give: &mut dyn FnMut(Case)) {
    for shape in EXAMPLES {
        ranges_of(&example(shape), give);
    }
}

fn ranges_of(image: &[u8], give: &mut dyn FnMut(Case)) {
    let image = image.to_vec();
    for offset in (0..=40).map(|half| half * 2048) {
        for length in (0..=40).map(|half| half * 2048) {
            for room in [0, 11, 12, 35, 36, 47, 48, 60] {
                give(Case {
                    out: vec![0xA5; room],
                    ..case(Call::Split { offset, length }, image.clone())
                });
            }
            for write in [false, true] {
                let call = Call::Access {
                    write,
                    offset,
                    length,
                };
                give(case(call, image.clone()));
            }
        }
    }
}

fn plan_bytes(give: &mut dyn FnMut(Case)) {
    for shape in EXAMPLES {
        let plan = inputs::encode(&third_plan(shape));
        for at in 0..plan.len() {
            for value in 0..=255 {
                let mut case = check_third(shape, &[]);
                case.plan = plan.clone();
                case.plan[at] = value;
                give(case);
            }
        }
        for len in 0..plan.len() {
            let mut case = check_third(shape, &[]);
            case.plan = plan[..len].to_vec();
            give(case);
        }
        // Made for the other edition, or for other reserved units.
        for other in EXAMPLES {
            give(check_third(shape, &third_plan(other)));
        }
    }
}

/// Every subset of the steps, every two steps swapped, every step moved or
/// repeated elsewhere, every step replaced by another, fences anywhere.
fn plan_orders(give: &mut dyn FnMut(Case)) {
    for shape in EXAMPLES {
        plan_orders_of(shape, give);
    }
}

fn plan_orders_of(shape: Shape, give: &mut dyn FnMut(Case)) {
    let steps = third_plan(shape);
    let check_third = |steps: &[Fields]| check_third(shape, steps);
    for subset in 0..1u32 << steps.len() {
        let kept = |at: &usize| subset >> at & 1 != 0;
        let some: Vec<Fields> = (0..steps.len()).filter(kept).map(|at| steps[at]).collect();
        give(check_third(&some));
    }
    for from in 0..steps.len() {
        for to in 0..steps.len() {
            let mut swapped = steps.clone();
            swapped.swap(from, to);
            give(check_third(&swapped));
            for third in 0..steps.len() {
                let mut turned = swapped.clone();
                turned.swap(to, third);
                give(check_third(&turned));
            }
            let mut moved = steps.clone();
            let step = moved.remove(from);
            moved.insert(to, step);
            give(check_third(&moved));
            let mut repeated = steps.clone();
            repeated.insert(to, steps[from]);
            give(check_third(&repeated));
            let mut replaced = steps.clone();
            replaced[to] = steps[from];
            give(check_third(&replaced));
            let mut fenced = steps.clone();
            fenced.insert(from, FENCE);
            fenced.insert(to, FENCE);
            give(check_third(&fenced));
        }
    }
    for count in steps.len()..=70 {
        let mut fenced = steps.clone();
        fenced.resize(count, FENCE);
        give(check_third(&fenced));
    }
}

/// Every plan of up to four steps over a small alphabet, for a mapped and an
/// unmapped chunk.
fn discards(give: &mut dyn FnMut(Case)) {
    let alphabet = [
        FENCE,
        [3, 0, 0, X32],
        [3, 1, 0, X32],
        [3, 0, 0, 1],
        [1, 5, 0, 0],
        [1, 2, 0, 0],
        [2, 3, 0, 5],
        [4, 0, 0, 1],
    ];
    let mut plans: Vec<Vec<Fields>> = vec![Vec::new()];
    let mut from = 0;
    for _ in 0..4 {
        let longer: Vec<Vec<Fields>> = plans[from..]
            .iter()
            .flat_map(|plan| {
                alphabet.map(|step| {
                    let mut plan = plan.clone();
                    plan.push(step);
                    plan
                })
            })
            .collect();
        from = plans.len();
        plans.extend(longer);
    }
    for plan in plans {
        for (shape, chunk) in EXAMPLES.into_iter().flat_map(|s| [(s, 0), (s, 1)]) {
            give(Case {
                plan: inputs::encode(&plan),
                ..case(Call::CheckDiscard { chunk }, example(shape))
            });
        }
    }
}

/// Each prefix of the third write's plan with every order of its first six
/// steps (seven in edition 2) turned by one place, and of a discard's.
fn carries(give: &mut dyn FnMut(Case)) {
    for shape in EXAMPLES {
        carries_of(shape, give);
    }
}

fn carries_of(shape: Shape, give: &mut dyn FnMut(Case)) {
    let example = || example(shape);
    let stores = third_plan(shape).len() - 3;
    for turn in 0..stores {
        let mut steps = third_plan(shape);
        steps[..stores].rotate_left(turn);
        for n in 0..=steps.len() as u64 + 2 {
            let call = Call::CarryWrite {
                chunk: 0,
                size: 5120,
                n,
            };
            give(Case {
                plan: inputs::encode(&steps),
                ..case(call, example())
            });
        }
    }
    for chunk in 0..=4 {
        for n in 0..=4 {
            give(Case {
                plan: inputs::encode(&[[3, chunk as u32, 0, X32], FENCE]),
                ..case(Call::CarryDiscard { chunk, n }, example())
            });
            give(case(Call::CarryDiscard { chunk, n }, example()));
        }
    }
}

fn outputs(give: &mut dyn FnMut(Case)) {
    for shape in EXAMPLES {
        outputs_of(&example(shape), give);
    }
}

fn outputs_of(image: &[u8], give: &mut dyn FnMut(Case)) {
    let image = image.to_vec();
    for size in [0, 1, 4096, 4097, 8192, 12_288, 16_384, 16_385] {
        for room in 0..200 {
            give(Case {
                out: vec![0xA5; room],
                ..case(Call::PlanWrite { chunk: 3, size }, image.clone())
            });
        }
    }
    for chunk in 0..=4 {
        for room in 0..40 {
            give(Case {
                out: vec![0xA5; room],
                ..case(Call::PlanDiscard { chunk }, image.clone())
            });
        }
    }
}

/// Small volumes with each chunk on none to P units, in every way that N units
/// allow, in edition 2 also with a unit reserved, or as many as can be. The maps
/// that no chunk names hold X, or name a unit as well.
fn every_volume(edition: Edition, most: u64, give: &mut dyn FnMut(Vec<u8>)) {
    for p in 2..=most {
        for c in 1..=4 {
            let m = c + 1;
            for n in [p, c * p, m * p] {
                let one = Shape::one(p, c, m, n);
                let mut shapes = vec![one.in_edition(edition)];
                if edition == Two && n > p {
                    shapes.extend([1, n - p].map(|r| one.reserving(r)));
                }
                for shape in shapes {
                    every_volume_of(&shape, give);
                }
            }
        }
    }
}

fn every_volume_of(shape: &Shape, give: &mut dyn FnMut(Vec<u8>)) {
    let Shape { p, c, n, r, .. } = *shape;
    // The digits of a number to base P+1 are the chunks' units.
    for number in 0..(p + 1).pow(c as u32) {
        let digit = |chunk: u64| number / (p + 1).pow(chunk as u32) % (p + 1);
        let units: Vec<u64> = (0..c).map(digit).collect();
        if units.iter().sum::<u64>() <= n - r {
            give(volume(shape, &units, X));
            give(volume(shape, &units, 0));
        }
    }
}

fn reports(give: &mut dyn FnMut(Case)) {
    every_volume(One, 5, &mut |image| give(case(Call::Report, image)));
    every_volume(Two, 4, &mut |image| give(case(Call::Report, image)));
}

/// Each chunk on so many units, rising, by a map of its own, falling; `dead` in
/// every word of the other maps.
fn volume(shape: &Shape, units: &[u64], dead: u64) -> Vec<u8> {
    let mut image = inputs::fresh(shape);
    for map in 0..shape.m {
        for word in 0..shape.map_words() {
            inputs::put_word(&mut image, shape.word_at(map, word), dead);
        }
    }
    let mut next = shape.r;
    for (chunk, &count) in (0..).zip(units).filter(|&(_, &count)| count > 0) {
        let map = shape.m - 1 - chunk;
        inputs::put_entry(&mut image, chunk, map);
        let held: Vec<u64> = (next..next + count).collect();
        // A size of its own for each chunk, up to the last byte.
        inputs::put_map(shape, &mut image, map, UNIT * count - chunk, &held);
        next += count;
    }
    image
}

/// The lowest free unit at every place, all units below it held. Above it all
/// are free, or all but the next 63 (near the end fewer), so that the second
/// one is in the next word, or none.
fn lowest_unit(give: &mut dyn FnMut(Case)) {
    for lowest in 0..=4096u64 {
        if lowest.is_multiple_of(13) {
            // The same sets in edition 2: the sizes are in none of them, and
            // a third of the units below is reserved.
            for r in [0, lowest / 3] {
                let two = largest(4608).reserving(r);
                let all_above = inputs::with_free(&two, |unit| unit >= lowest);
                give(plan(&all_above, 16));
                give(load(all_above));
            }
        }
        let all_above = inputs::with_free(&largest(4608), |unit| unit >= lowest);
        give(plan(&all_above, 1));
        if lowest % 64 > 48 {
            // 16 units go over the end of the word.
            give(plan(&all_above, 16));
        }
        let next = 4097.min(lowest + 64);
        let some_above = inputs::with_free(&largest(4608), |unit| unit == lowest || unit >= next);
        give(plan(&some_above, 16));
        let alone = inputs::with_free(&largest(16.max(lowest + 1)), |unit| unit == lowest);
        give(plan(&alone, 1));
        give(plan(&alone, 2));
        // Each of the first 64 words is met, and each place in a word.
        if lowest.is_multiple_of(61) {
            let none = inputs::with_free(&largest(16.max(lowest)), |_| false);
            give(plan(&none, 1));
            counts(&all_above, 4608 - lowest, give);
            counts(&alone, 1, give);
            counts(&none, 0, give);
        }
    }
}

/// 4,096 units held, the free ones at equal distances, from one place to four
/// words of 64. Then few of them, and writes that take all of them or more.
fn units_apart(give: &mut dyn FnMut(Case)) {
    let apart = |count: u64, first: u64, distance: u64| {
        let free: Vec<u64> = (0..count).map(|at| first + at * distance).collect();
        inputs::with_free(&largest(4096 + count), |unit| free.contains(&unit))
    };
    for distance in [1, 32, 63, 64, 65, 127, 128, 129, 192, 256] {
        for place in 0..64 {
            // From each place of the first word on, to the end or 64 of them.
            let count = 64.min(4032 / distance + 1);
            let image = apart(count, place, distance);
            give(plan(&image, 16));
            if distance == 64 {
                counts(&image, count, give);
            }
            // Up to each of the last 64 places, just as many as are needed.
            let image = apart(16, 4111 - place - 15 * distance, distance);
            give(plan(&image, 16));
        }
    }
    for distance in [65, 257] {
        for place in [0, 37, 63] {
            for count in 0..=16 {
                let image = apart(count, place, distance);
                for k in count.max(1)..=16 {
                    give(plan(&image, k));
                }
                counts(&image, count, give);
            }
        }
    }
}

/// The lowest free map at every place, all maps below it named. Above it all
/// are free, or as few as M and C allow, or none. The units are the last ones.
fn lowest_map(give: &mut dyn FnMut(Case)) {
    for lowest in 0..=256 {
        let below: Vec<u64> = (0..lowest).collect();
        let others: Vec<u64> = (0..=256).filter(|&map| map != lowest).collect();
        let c = lowest.max(1);
        for (c, m, maps) in [
            (256, 288, &below),
            (256, 288, &others),
            (256, 257, &others),
            (c, c + 1, &below),
        ] {
            let n = 16 * m;
            let shape = Shape::one(16, c, m, n);
            let units: Vec<u64> = (0..n).rev().take(maps.len()).collect();
            let image = inputs::holding(&shape, &units, maps);
            give(plan(&image, 1));
            give(load(image));
        }
    }
}

/// The largest shape, with so many units. Its chunks hold at most 4,096.
fn largest(n: u64) -> Shape {
    Shape::one(16, 256, 288, n)
}

/// A write of k units to chunk 0, which is unmapped where any chunk is.
fn plan(image: &[u8], k: u64) -> Case {
    let call = Call::PlanWrite {
        chunk: 0,
        size: k * model::UNIT,
    };
    Case {
        out: vec![0xA5; inputs::LONGEST_PLAN],
        ..case(call, image.to_vec())
    }
}

/// The free sets, and what depends on the count of free units.
fn counts(image: &[u8], free: u64, give: &mut dyn FnMut(Case)) {
    give(load(image.to_vec()));
    give(case(Call::Report, image.to_vec()));
    for units in [free, free + 1] {
        give(case(Call::AlarmCount { units }, image.to_vec()));
    }
}

/// A repair with a list buffer of so many bytes.
fn repair_in(room: usize, image: Vec<u8>) -> Case {
    Case {
        out: vec![0xA5; room],
        ..case(Call::Repair, image)
    }
}

/// A repair with room for all chunks of a small volume, and a little more.
fn repair(image: Vec<u8>) -> Case {
    repair_in(18, image)
}

fn repair_bytes(give: &mut dyn FnMut(Case)) {
    for (_, image) in damaged_examples() {
        every_byte(&image, &mut |image| give(repair(image)));
    }
}

fn repair_words(give: &mut dyn FnMut(Case)) {
    for (shape, image) in damaged_examples() {
        two_words(shape, &image, &mut |image| give(repair(image)));
    }
}

fn repair_lengths(give: &mut dyn FnMut(Case)) {
    for shape in EXAMPLES {
        every_length(&example(shape), &mut |image| give(repair(image)));
    }
}

/// Every set of chunks with a bad link, by itself and on top of a shared map;
/// every room for the list up to one chunk more than there are.
fn repair_lists(give: &mut dyn FnMut(Case)) {
    for shape in EXAMPLES {
        let Shape { c, m, .. } = shape;
        for (bad, sharing) in (0..1u32 << c).flat_map(|bad| [(bad, false), (bad, true)]) {
            let mut image = example(shape);
            if sharing {
                inputs::put_entry(&mut image, 3, 0);
            }
            for chunk in (0..c).filter(|chunk| bad >> chunk & 1 != 0) {
                inputs::put_entry(&mut image, chunk, m);
            }
            for room in 0..=20 {
                give(repair_in(room, image.clone()));
            }
        }
    }
}

/// Every link of each chunk (one of the first C maps, a bad one, X) with every
/// word of the maps that are named: a unit one of `words`, a size one of
/// `sizes`. A map that no chunk names holds litter.
fn every_table(shape: &Shape, words: &[u64], sizes: &[u64], give: &mut dyn FnMut(Case)) {
    let Shape { c, m, n, .. } = *shape;
    let mut litter = inputs::fresh(shape);
    let all_words = 0..m * shape.map_words();
    for (at, value) in all_words.zip([0, n, 1, X, X - 1, 0].into_iter().cycle()) {
        inputs::put_word(&mut litter, shape.word_at(0, at), value);
    }
    let links: Vec<u64> = (0..c).chain([m, X]).collect();
    let digit = |number: usize, base: usize, at: u32| number / base.pow(at) % base;
    for choice in 0..links.len().pow(c as u32) {
        let mut image = litter.clone();
        for chunk in 0..c {
            let link = links[digit(choice, links.len(), chunk as u32)];
            inputs::put_entry(&mut image, chunk, link);
        }
        let named = |map: &u64| (0..c).any(|chunk| inputs::entry(&image, chunk) == *map);
        let places: Vec<(usize, &[u64])> = (0..c)
            .filter(named)
            .flat_map(|map| (0..shape.map_words()).map(move |word| (map, word)))
            .map(|(map, word)| {
                let is_size = word < shape.size_words();
                let values = if is_size { sizes } else { words };
                (shape.word_at(map, word), values)
            })
            .collect();
        // Every value at every place: the last digit is the slowest.
        let mut digits = vec![0; places.len()];
        loop {
            for (&(place, values), &digit) in places.iter().zip(&digits) {
                inputs::put_word(&mut image, place, values[digit]);
            }
            give(repair(image.clone()));
            let more = |at: &usize| digits[*at] + 1 < places[*at].1.len();
            let Some(at) = (0..places.len()).find(more) else {
                break;
            };
            digits[at] += 1;
            digits[..at].fill(0);
        }
    }
}

/// Three chunks of two words: every way in which two or three of them share
/// maps and units, next to bad ones. A word is one of the three units there
/// are, the least number that is none, or X.
fn repair_three(give: &mut dyn FnMut(Case)) {
    every_table(&Shape::one(2, 3, 4, 3), &[0, 1, 2, 3, X], &[], give);
}

/// Two chunks of three words: every form of a map beside every other.
fn repair_two(give: &mut dyn FnMut(Case)) {
    every_table(&Shape::one(3, 2, 3, 3), &[0, 1, 3, X], &[], give);
}

/// The same in edition 2, two words each: every form of a map with every size
/// at the edge of its units.
fn repair_sizes(give: &mut dyn FnMut(Case)) {
    let shape = Shape::one(2, 2, 3, 2).in_edition(Two);
    let sizes = [0, 1, 4096, 4097, 8192, 8193, TWO_32 + 1, X];
    every_table(&shape, &[0, 1, 2, X], &sizes, give);
}

/// A volume of the largest shape, all chunks raw: each chunk at fault by itself
/// in each way, or with the next one; then all of them at once.
fn repair_largest(give: &mut dyn FnMut(Case)) {
    // In edition 2 each chunk is at fault by its size, or by a reserved unit
    // where the lowest are reserved and not free.
    for two in [0, 512].map(|r| largest(4608).reserving(r)) {
        let full = inputs::with_free(&two, |unit| unit < 512);
        let mut all_reserved = full.clone();
        for chunk in 0..two.c {
            let map = inputs::entry(&full, chunk);
            let with = |at: usize, value: u64| {
                let mut image = full.clone();
                inputs::put_word(&mut image, at, value);
                image
            };
            give(repair_in(4, with(two.word_at(map, 0), 15 * UNIT)));
            let at = two.unit_at(map, chunk % 16);
            give(repair_in(4, with(at, 511)));
            give(repair_in(4, with(at, chunk)));
            inputs::put_word(&mut all_reserved, at, 511 - chunk);
        }
        for room in [1023, 1024] {
            give(repair_in(room, all_reserved.clone()));
        }
    }

    let shape = largest(4608);
    // The highest units are held, and the lowest free.
    let full = inputs::with_free(&shape, |unit| unit < 512);
    // Byte position and value of a word of a chunk's map.
    let place = |chunk: u64, word: u64| shape.unit_at(inputs::entry(&full, chunk), word);
    let unit = |chunk: u64, word: u64| inputs::word(&full, place(chunk, word));
    let next = |chunk: u64| (chunk + 1) % shape.c;
    let with = |at: usize, value: u64| {
        let mut image = full.clone();
        inputs::put_word(&mut image, at, value);
        image
    };
    for chunk in 0..shape.c {
        let entry = 8 * chunk as usize;
        give(repair_in(4, with(entry, TWO_32 + chunk)));
        give(repair_in(4, with(place(chunk, 15), 4608)));
        give(repair_in(4, with(place(chunk, 15), unit(chunk, 3))));
        // The last one and the first clash as well.
        give(repair_in(8, with(entry, inputs::entry(&full, next(chunk)))));
        give(repair_in(8, with(place(chunk, 15), unit(next(chunk), 0))));
        if chunk % 16 == 0 {
            // In another word of a set of chunks; the list a byte short.
            let far = (chunk + 100) % shape.c;
            for room in [7, 8] {
                give(repair_in(room, with(place(chunk, 15), unit(far, 0))));
            }
        }
    }
    // Every chunk: bad links, bad maps, one map, one unit, a ring of them.
    let all = |word: &dyn Fn(u64) -> (usize, u64)| {
        let mut image = full.clone();
        for chunk in 0..shape.c {
            let (at, value) = word(chunk);
            inputs::put_word(&mut image, at, value);
        }
        image
    };
    for image in [
        all(&|chunk| (8 * chunk as usize, shape.m)),
        all(&|chunk| (place(chunk, 0), X)),
        all(&|chunk| (8 * chunk as usize, 17)),
        all(&|chunk| (place(chunk, 15), 0)),
        all(&|chunk| (place(chunk, 15), unit(next(chunk), 0))),
        full.clone(),
    ] {
        for room in [0, 4, 1019, 1023, 1024, 1025, 1100] {
            give(repair_in(room, image.clone()));
        }
    }
}

/// Every pair of what the last 32 and the last 40 bytes may begin with, on an
/// image of either edition: the tag or another, each version from 0 to 3. The
/// last map of edition 1, in which edition 2's would stand, is named or not.
fn trailers(give: &mut dyn FnMut(Case)) {
    let mut named = worked(ONE);
    inputs::put_entry(&mut named, 3, 4);
    inputs::put_units(&ONE, &mut named, 4, &[16, 17, 18, 19]);
    let tags = [*b"RMAP", *b"RMAQ"];
    let starts = || {
        tags.into_iter()
            .flat_map(|tag| (0..4u8).map(move |v| (tag, v)))
    };
    for image in [worked(ONE), named, worked(TWO), worked(THREE_RESERVED)] {
        for (tag, version) in starts() {
            for (tag2, version2) in starts() {
                let mut image = image.clone();
                for (back, tag, version) in [(40, tag2, version2), (32, tag, version)] {
                    let at = image.len() - back;
                    image[at..at + 4].copy_from_slice(&tag);
                    image[at + 4..at + 6].copy_from_slice(&[version, 0]);
                }
                give(load(image.clone()));
                give(case(Call::Shape, image.clone()));
                give(convert_to(272, image.clone()));
                give(repair(image));
            }
        }
    }
    // 32 to 47 bytes that begin with a tag, or have it at either place.
    for len in 24..48 {
        for version in 0..4 {
            for at in [0, len - 24, len - 32.min(len)] {
                let mut image = vec![0; len];
                let start = [b'R', b'M', b'A', b'P', version, 0];
                let end = len.min(at + 6);
                image[at..end].copy_from_slice(&start[..end - at]);
                give(load(image.clone()));
                give(convert_to(272, image));
            }
        }
    }
}

/// Sizes of chunks that are mapped, and of one that is not, with every value in
/// every byte.
fn size_bytes(give: &mut dyn FnMut(Case)) {
    for (image, chunk) in [
        (worked(TWO), 0),
        (worked(TWO), 2),
        (worked(THREE_RESERVED), 0),
        (example(ONE), 0),
    ] {
        every_byte(&image, &mut |image| {
            give(case(Call::StoredSize { chunk }, image));
        });
    }
    for shape in EXAMPLES {
        for chunk in [0, 1, 2, 3, 4, 5, TWO_32, TWO_32 + 2, u64::MAX] {
            give(case(Call::StoredSize { chunk }, worked(shape)));
        }
        every_length(&worked(shape), &mut |image| {
            give(case(Call::StoredSize { chunk: 2 }, image));
        });
    }
}

/// The sizes around the edges of 0 to P+1 units, and what a narrower reading
/// would take for one of them.
fn edges(p: u64) -> impl Iterator<Item = u64> {
    let near = (0..=p + 1).flat_map(|k| [k * UNIT, k * UNIT + 1, (k * UNIT).wrapping_sub(1)]);
    near.flat_map(|size| [size, TWO_32.wrapping_add(size), (1 << 63) | size])
}

/// Every number of units with every size at a unit's edge; the units below them
/// are reserved or not.
fn size_edges(give: &mut dyn FnMut(Case)) {
    for (p, r) in (2..=16).flat_map(|p| [(p, 0), (p, p)]) {
        let shape = Shape::one(p, 2, 3, 2 * p).reserving(r);
        for k in 1..=p {
            let units: Vec<u64> = (p..p + k).collect();
            for size in edges(p) {
                let mut image = inputs::fresh(&shape);
                inputs::put_entry(&mut image, 1, 2);
                inputs::put_map(&shape, &mut image, 2, size, &units);
                give(case(Call::StoredSize { chunk: 1 }, image.clone()));
                if p < 5 {
                    give(load(image));
                }
            }
        }
    }
}

/// Plans for every size at a unit's edge, in both editions, in edition 2 also
/// with all units reserved that can be; the planner's own plan is then checked
/// for the same size and for those beside it.
fn plan_edges(give: &mut dyn FnMut(Case)) {
    let shapes = |p: u64| {
        let one = Shape::one(p, 1, 2, 2 * p);
        [one, one.in_edition(Two), one.reserving(p)]
    };
    for shape in (2..=16).flat_map(shapes) {
        let p = shape.p;
        let image = inputs::fresh(&shape);
        for size in edges(p) {
            let mut out = vec![0xA5; inputs::LONGEST_PLAN];
            let planned = model::plan_write(&image, 0, size, &mut out);
            let call = Call::PlanWrite { chunk: 0, size };
            give(Case {
                out: vec![0xA5; inputs::LONGEST_PLAN],
                ..case(call, image.clone())
            });
            let Ok(steps) = planned else { continue };
            out.truncate(16 * steps as usize);
            for other in [size - 1, size, size + 1, size + UNIT] {
                let call = Call::CheckWrite {
                    chunk: 0,
                    size: other,
                };
                give(Case {
                    plan: out.clone(),
                    ..case(call, image.clone())
                });
            }
        }
    }
}

/// A conversion into a buffer of so many bytes.
fn convert_to(room: usize, image: Vec<u8>) -> Case {
    Case {
        out: vec![0xA5; room],
        ..case(Call::Convert, image)
    }
}

fn convert_bytes(give: &mut dyn FnMut(Case)) {
    // Whatever one byte makes of edition 2, it is not edition 1.
    for shape in EXAMPLES {
        every_byte(&worked(shape), &mut |image| give(convert_to(272, image)));
    }
}

fn convert_lengths(give: &mut dyn FnMut(Case)) {
    for shape in EXAMPLES {
        every_length(&worked(shape), &mut |image| give(convert_to(272, image)));
    }
}

/// Every length of the buffer around the right one, for the smallest image, the
/// example and, near the right one, the largest.
fn convert_buffers(give: &mut dyn FnMut(Case)) {
    let smallest = inputs::fresh(&Shape::one(2, 1, 2, 2));
    let two = [TWO, THREE_RESERVED].map(worked);
    for image in [smallest, example(ONE), worked(ONE)].into_iter().chain(two) {
        for room in 0..=600 {
            give(convert_to(room, image.clone()));
        }
    }
    let full = inputs::with_free(&largest(4608), |unit| unit < 512);
    for room in [0, 38_943, 38_944, 38_945]
        .into_iter()
        .chain(41_240..41_272)
    {
        give(convert_to(room, full.clone()));
    }
}

fn convert_units(give: &mut dyn FnMut(Case)) {
    every_volume(One, 4, &mut |image| {
        let trailer = image.len() - 32;
        let maps = u32::from_le_bytes(image[trailer + 12..trailer + 16].try_into().expect("u32"));
        // A word more for each map, and eight bytes of trailer.
        let room = image.len() + 8 * maps as usize + 8;
        give(convert_to(room, image));
    });
}

/// Every R up to two past N, the same 2^32 on, and what is near N-P where that
/// wraps; every N of small volumes from two below P to P·M and one more.
fn every_r(give: &mut dyn FnMut(Case)) {
    for (p, c, m) in [(2, 1, 2), (2, 2, 3), (3, 2, 3), (4, 4, 5), (5, 1, 4)] {
        for n in p - 2..=p * m + 1 {
            let shape = Shape::one(p, c, m, n);
            let near = (0..3).map(|past| n.wrapping_sub(p).wrapping_add(past));
            let far = [TWO_32 - 1, 1 << 31, 1 << 63, u64::MAX - 1, u64::MAX];
            for r in (0..=n + 2).chain(near).chain(far) {
                reserve(&shape, r, give);
                reserve(&shape, r.wrapping_add(TWO_32), give);
                give(load(inputs::blank(&shape.reserving(r))));
            }
            // The number after R is 0, or nothing helps.
            for r in 0..=n {
                for last in [1, 1 << 8, 1 << 31, u32::MAX] {
                    let mut image = inputs::blank(&shape.reserving(r));
                    let at = image.len() - 4;
                    image[at..].copy_from_slice(&u32::to_le_bytes(last));
                    give(case(Call::Shape, image));
                }
            }
        }
    }
    for r in (4580..=4610).chain(0..3) {
        reserve(&largest(4608), r, give);
        reserve(&largest(4607), r, give);
    }
}

/// Every R that the largest volume can have; what is planned begins there.
fn every_r_largest(give: &mut dyn FnMut(Case)) {
    for r in 0..=4592 {
        let image = inputs::blank(&largest(4608).reserving(r));
        give(plan(&image, 16));
        if r.is_multiple_of(61) || r % 64 < 2 {
            counts(&image, 4608 - r, give);
        }
        give(load(image));
    }
}

/// Two chunks on one unit, and on one or two, each any number up to N, under
/// every R; what load says of it, and calls that depend on the same maps.
fn units_under_r(give: &mut dyn FnMut(Case)) {
    let one = Shape::one(2, 2, 3, 6);
    let words: Vec<u64> = (0..=6).chain([X]).collect();
    for r in 0..=4 {
        let shape = one.reserving(r);
        for (&a, &b) in words.iter().flat_map(|a| words.iter().map(move |b| (a, b))) {
            for &c in &words {
                let mut image = inputs::fresh(&shape);
                // A dead map with the same words.
                inputs::put_units(&shape, &mut image, 1, &[a, b]);
                inputs::put_entry(&mut image, 0, 0);
                inputs::put_units(&shape, &mut image, 0, &[c]);
                give(load(image.clone()));
                inputs::put_entry(&mut image, 1, 2);
                inputs::put_units(&shape, &mut image, 2, &[a, b]);
                if b == X {
                    inputs::put_word(&mut image, shape.word_at(2, 0), UNIT);
                }
                give(load(image.clone()));
                give(case(Call::Shape, image.clone()));
                give(case(Call::Report, image.clone()));
                give(case(Call::Held { chunk: 1 }, image.clone()));
                give(case(Call::AlarmCount { units: 6 - r }, image.clone()));
                give(plan(&image, 2));
                give(repair(image));
            }
        }
    }
}

/// A write of two units, with every unit and N in DATA and every unit, N or X in
/// the MAP words, under every R; where a whole word of the free set is reserved,
/// with units next to it, and the first and last ones.
fn plans_under_r(give: &mut dyn FnMut(Case)) {
    let every: Vec<u32> = (0..=9).collect();
    for r in 0..=6 {
        plans_on(Shape::one(3, 2, 3, 9).reserving(r), &every, give);
    }
    let some = [0, 1, 62, 63, 64, 65, 68, 69, 70];
    plans_on(Shape::one(3, 2, 34, 70).reserving(64), &some, give);
}

/// The same with these numbers; the last unit but one is held.
fn plans_on(shape: Shape, numbers: &[u32], give: &mut dyn FnMut(Case)) {
    let n = shape.n;
    let mut image = inputs::fresh(&shape);
    inputs::put_entry(&mut image, 0, 1);
    inputs::put_units(&shape, &mut image, 1, &[n - 2]);
    let mut free = shape.units().filter(|&unit| unit != n - 2);
    let lowest = [free.next(), free.next()].map(|unit| unit.expect("P units besides"));
    let good = inputs::assemble(&shape, 1, 8192, &lowest, 0);
    let mut check = |steps: &[Fields]| {
        let call = Call::CheckWrite {
            chunk: 1,
            size: 8192,
        };
        give(Case {
            plan: inputs::encode(steps),
            ..case(call, image.clone())
        });
    };
    let values: Vec<u32> = numbers.iter().copied().chain([X32]).collect();
    for (&a, &b) in numbers
        .iter()
        .flat_map(|a| numbers.iter().map(move |b| (a, b)))
    {
        // The same units in both, and any in MAP.
        for (&first, &second) in values
            .iter()
            .flat_map(|v| values.iter().map(move |w| (v, w)))
        {
            let mut steps = good.clone();
            (steps[0][1], steps[1][1]) = (a, b);
            (steps[3][3], steps[4][3]) = (first, second);
            check(&steps);
        }
    }
    // After the units, where X is due.
    for &value in numbers {
        let mut steps = good.clone();
        steps[5][3] = value;
        check(&steps);
    }
}

/// Volumes with P to (C+1)·P+1 units besides the reserved ones, all held that
/// chunks can hold, or one or two less; writes of every number of units.
fn rooms(give: &mut dyn FnMut(Case)) {
    for (p, c) in (2..=4).flat_map(|p| (1..=3).map(move |c| (p, c))) {
        for r in [0, 1, p, 2 * p, 3 * p] {
            for units in p..=(c + 1) * p + 1 {
                let shape = Shape::one(p, c, c + 5, units + r).reserving(r);
                let most = units.min(c * p);
                for held in most - 2..=most {
                    let image = inputs::with_free(&shape, |unit| unit >= r + held);
                    for k in 1..=p {
                        for chunk in 0..c {
                            let mut planned = plan(&image, k);
                            planned.call = Call::PlanWrite {
                                chunk,
                                size: k * UNIT,
                            };
                            give(planned);
                        }
                    }
                    counts(&image, units - held, give);
                }
            }
        }
    }
}

/// Every count up to N+1, and every fraction of whole units of N, of N-R, and
/// next to them, with every number of held units under every R.
fn alarms(give: &mut dyn FnMut(Case)) {
    for r in 0..=5 {
        let shape = Shape::one(2, 3, 4, 7).reserving(r);
        for held in 0..=(7 - r).min(6) {
            let image = inputs::with_free(&shape, |unit| unit >= r + held);
            give(case(Call::Report, image.clone()));
            for units in 0..=8 {
                give(case(Call::AlarmCount { units }, image.clone()));
            }
            let parts = (0..=7).flat_map(|part| [(part, 7), (part, 7 - r)]);
            for (part, whole) in parts {
                let fraction = part as f64 / whole as f64;
                for bits in -2..=2 {
                    let fraction = f64::from_bits(fraction.to_bits().wrapping_add_signed(bits));
                    give(case(Call::AlarmFraction { fraction }, image.clone()));
                }
            }
        }
    }
}

/// Two chunks of two words with two of four units reserved: every form of a map
/// beside every other, with sizes of none to two units.
fn repair_reserved(give: &mut dyn FnMut(Case)) {
    let shape = Shape::one(2, 2, 3, 4).reserving(2);
    let sizes = [0, 4096, 8192, X];
    every_table(&shape, &[0, 1, 2, 3, 4, X], &sizes, give);
}

/// A write's plan, and what the checker has to answer: number and place.
fn check(image: &[u8], chunk: u64, size: u64, steps: &[Fields], due: [u64; 2]) -> Case {
    Case {
        plan: inputs::encode(steps),
        due: Some(due),
        ..case(Call::CheckWrite { chunk, size }, image.to_vec())
    }
}

const ACCEPTED: [u64; 2] = [0, 0];
const RULE_2: [u64; 2] = [11, 2];
const RULE_3: [u64; 2] = [11, 3];

/// Every unit for every piece of a write, free or not, one of them for two
/// pieces too, in every volume of six units in which each one is free, the
/// chunk's own or another chunk's, as far as the chunks can hold them. The lowest
/// free ones are accepted, and no others; where they are too few, none. The map
/// is any free one, and the DATA steps are turned by some places.
fn every_assignment(give: &mut dyn FnMut(Case)) {
    let one = Shape::one(3, 3, 4, 6);
    let two = one.in_edition(Two);
    for shape in [
        one,
        two,
        two.reserving(1),
        two.reserving(2),
        two.reserving(3),
    ] {
        // The digits of a number to base 3 say whose the units are.
        for number in 0..3u64.pow((shape.n - shape.r) as u32) {
            let owner = |unit: &u64| number / 3u64.pow((unit - shape.r) as u32) % 3;
            let whose = |digit: u64| -> Vec<u64> {
                shape.units().filter(|unit| owner(unit) == digit).collect()
            };
            let [free, own, others] = [0, 1, 2].map(whose);
            if own.len() as u64 <= shape.p {
                assignments(&shape, &free, &own, &others, give);
            }
        }
    }
}

/// The same of one such volume. Chunk 1 is written.
fn assignments(
    shape: &Shape,
    free: &[u64],
    own: &[u64],
    others: &[u64],
    give: &mut dyn FnMut(Case),
) {
    let mut image = inputs::fresh(shape);
    // Three to each of the two others, the last ones first.
    let held = others.rchunks(shape.p as usize).zip([(2, 3), (0, 0)]);
    let all = held.chain([(own, (1, 2))]);
    for (units, (chunk, map)) in all.filter(|(units, _)| !units.is_empty()) {
        inputs::put_entry(&mut image, chunk, map);
        inputs::put_units(shape, &mut image, map, units);
    }
    let maps = inputs::free_maps(shape, &image);
    for k in 1..=shape.p as usize {
        for number in 0..shape.n.pow(k as u32) {
            let unit = |piece: usize| number / shape.n.pow(piece as u32) % shape.n;
            let units: Vec<u64> = (0..k).map(unit).collect();
            let is_lowest = free.get(..k) == Some(&units);
            let at = number as usize;
            let size = UNIT * k as u64;
            let mut steps = inputs::assemble(shape, 1, size, &units, maps[at % maps.len()]);
            steps[..k].rotate_left(at % k);
            let due = if is_lowest { ACCEPTED } else { RULE_2 };
            give(check(&image, 1, size, &steps, due));
        }
    }
}

/// The third write on its lowest units: DATA and MAP steps in every order, by
/// every map, which has to be a free one; then in the planner's order with one
/// or two more fences at every place. The units below the third one are held, or
/// the first of them is free.
fn every_order(give: &mut dyn FnMut(Case)) {
    for shape in EXAMPLES {
        let mut holed = example(shape);
        inputs::put_units(&shape, &mut holed, 0, &[shape.r + 1, shape.r + 4]);
        for (image, units) in [(example(shape), [3, 4]), (holed, [0, 3])] {
            let units = units.map(|unit| shape.r + unit);
            for map in 0..shape.m {
                let due = if map < 2 { RULE_3 } else { ACCEPTED };
                let steps = inputs::assemble(&shape, 0, 5120, &units, map);
                let (stores, end) = steps.split_at(steps.len() - 3);
                let mut checked = |steps: &[Fields]| give(check(&image, 0, 5120, steps, due));
                for mut order in inputs::orders(stores) {
                    order.extend(end);
                    checked(&order);
                }
                for first in 0..=steps.len() {
                    for second in 0..=steps.len() + 1 {
                        let mut fenced = steps.clone();
                        fenced.insert(first, FENCE);
                        fenced.insert(second, FENCE);
                        checked(&fenced);
                    }
                }
            }
        }
    }
}

/// The lowest free units at every edge of the free set's words, side by side or
/// apart. A write of 16 units on them passes; it does not with each of them one
/// place too high, with one of them exchanged for the next free one, for the
/// unit below, which is held or reserved, or for another one of the sixteen.
fn lowest_checks(give: &mut dyn FnMut(Case)) {
    let mut all = |shape: &Shape, first: u64, distance: u64| {
        let free: Vec<u64> = (0..17).map(|at| first + at * distance).collect();
        // What lies below and between is held.
        let last = free[16];
        let held = |unit: &u64| *unit < last && !free.contains(unit);
        let units: Vec<u64> = shape.units().filter(held).collect();
        let maps: Vec<u64> = (0..(units.len() as u64).div_ceil(16)).collect();
        let image = inputs::holding(shape, &units, &maps);
        let mut checked = |units: &[u64], due: [u64; 2]| {
            let steps = inputs::assemble(shape, 0, 65_536, units, 287);
            give(check(&image, 0, 65_536, &steps, due));
        };
        let lowest = &free[..16];
        checked(lowest, ACCEPTED);
        checked(&free[1..], RULE_2);
        for at in [0, 1, 14, 15] {
            let mut others = vec![free[16], lowest[15 - at]];
            others.extend(free[0].checked_sub(1));
            for other in others {
                let mut units = lowest.to_vec();
                units[at] = other;
                checked(&units, RULE_2);
                // The two the other way round.
                units[15 - at] = lowest[at];
                checked(&units, RULE_2);
            }
        }
    };
    for distance in [1, 63, 64, 65, 200] {
        for word in [0, 1, 13] {
            for place in [0, 1, 31, 47, 48, 49, 62, 63] {
                let first = 64 * word + place;
                all(&largest(4608), first, distance);
                for r in [0, first / 2, first] {
                    all(&largest(4608).reserving(r), first, distance);
                }
            }
        }
    }
}
