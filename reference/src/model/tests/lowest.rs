//! Plans on the lowest units (02, request 6): "piece j goes on the j-th lowest
//! free unit, piece 0 on the lowest. A plan on other free units, accepted until
//! now, gives 11 with rule 2. The choice of map stays free."

use super::*;
use crate::inputs::orders;

const FENCE: [u32; 4] = [4, 0, 0, 0];

/// The worked example's volume in edition 1, in edition 2, and with its first
/// three units reserved.
fn volumes() -> [Vec<u8>; 3] {
    [small(), fresh2([4, 4, 5, 20, 0]), fresh2([4, 4, 5, 20, 3])]
}

/// The plan of a write to a chunk on these units, in the planner's order.
fn on(image: &[u8], chunk: u32, size: u32, units: &[u32], map: u32) -> Vec<[u32; 4]> {
    let shape = shape(image).unwrap();
    let data = (0..).zip(units).map(|(piece, &unit)| [1, unit, piece, 0]);
    let unit = |at: u64| units.get(at as usize).copied().unwrap_or(X32);
    let first = (shape.edition == 2).then_some(size);
    let words = first.into_iter().chain((0..shape.p).map(unit));
    let maps = (0..).zip(words).map(|(word, value)| [2, map, word, value]);
    let end = [FENCE, [3, chunk, 0, map], FENCE];
    data.chain(maps).chain(end).collect()
}

/// The verdict on that plan, on the lowest free map. Carrying out gives the same
/// one, and a refusal changes nothing.
fn check_on(image: &[u8], chunk: u32, size: u32, units: &[u32]) -> Answer<()> {
    let map = free_maps(image)[0] as u32;
    let plan = plan(&on(image, chunk, size, units, map));
    let (chunk, size) = (u64::from(chunk), u64::from(size));
    let answer = check_write(image, chunk, size, &plan);
    let steps = (plan.len() / STEP) as u64;
    for n in [0, steps] {
        let mut copy = image.to_vec();
        let carried = carry_write(&mut copy, chunk, size, &plan, n);
        assert_eq!(carried, answer);
        assert!(answer.is_ok() || copy == image);
    }
    answer
}

fn free(image: &[u8]) -> Vec<u32> {
    let units = free_units(image).into_iter();
    units.map(|unit| unit as u32).collect()
}

const BROKEN: Answer<()> = Err(Refusal::at(11, 2));

/// The third write of the example on units 5 and 9 by map 2: free ones, and
/// nothing else is wrong, so it was accepted until request 6. Units 3 and 4 are
/// the lowest that are free.
#[test]
fn a_plan_accepted_before_request_6_is_refused() {
    let image = before_third();
    let scattered = [
        [1, 5, 0, 0],
        [1, 9, 1, 0],
        [2, 2, 0, 5],
        [2, 2, 1, 9],
        [2, 2, 2, X32],
        [2, 2, 3, X32],
        FENCE,
        [3, 0, 0, 2],
        FENCE,
    ];
    let scattered = plan(&scattered);
    assert_eq!(check_write(&image, 0, 5120, &scattered), BROKEN);
    for n in 0..=9 {
        let mut copy = image.clone();
        let carried = carry_write(&mut copy, 0, 5120, &scattered, n);
        assert_eq!((carried, &copy), (BROKEN, &image));
    }
    // The same plan passes where units 5 and 9 are the lowest that are free.
    let mut fuller = image;
    set(&mut fuller, 1, 3, [3, 4, 6, 7]);
    set(&mut fuller, 3, 4, [8, X, X, X]);
    assert_eq!(check_write(&fuller, 0, 5120, &scattered), Ok(()));
}

/// Of all pairs of units, and of all rows of three, the lowest free ones alone.
#[test]
fn scattered_units_break_rule_2() {
    for image in volumes().map(two_writes) {
        let free = free(&image);
        for (a, b) in (0..20).flat_map(|a| (0..20).map(move |b| (a, b))) {
            let due = if [a, b] == free[..2] { Ok(()) } else { BROKEN };
            assert_eq!(check_on(&image, 0, 5120, &[a, b]), due, "{a} {b}");
        }
        for number in 0..1000 {
            let [a, b, c] = [number / 100, number / 10 % 10, number % 10];
            let due = if [a, b, c] == free[..3] {
                Ok(())
            } else {
                BROKEN
            };
            assert_eq!(check_on(&image, 3, 12_288, &[a, b, c]), due);
        }
        // The highest, every second one, all but the first.
        for units in [
            [19, 18, 17, 16],
            [free[0], free[2], free[4], free[6]],
            [free[1], free[2], free[3], free[4]],
            [free[0], free[1], free[2], 19],
        ] {
            assert_eq!(check_on(&image, 1, 16_384, &units), BROKEN);
        }
        assert_eq!(check_on(&image, 1, 16_384, &free[..4]), Ok(()));
    }
}

/// "piece 0 on the lowest": on the second lowest, with piece 1 on the lowest, it
/// breaks the rule, as does every other order of the right units.
#[test]
fn the_lowest_units_in_another_order_break_rule_2() {
    for image in volumes().map(two_writes) {
        let lowest = free(&image)[..4].to_vec();
        let swapped = [lowest[1], lowest[0]];
        assert_eq!(check_on(&image, 0, 5120, &swapped), BROKEN);
        for number in 0..256 {
            let digit = |at: u32| lowest[number / 4usize.pow(at) % 4];
            let units = [digit(0), digit(1), digit(2), digit(3)];
            let due = if units == lowest[..] { Ok(()) } else { BROKEN };
            assert_eq!(check_on(&image, 0, 16_384, &units), due);
        }
    }
}

/// "The rest stays free: the order of the DATA steps, how they mix with MAP
/// steps and FENCEs" (Decision 82).
#[test]
fn data_steps_in_another_order_pass() {
    for image in volumes().map(two_writes) {
        let units = free(&image)[..2].to_vec();
        let steps = on(&image, 0, 5120, &units, 3);
        let check = |steps: &[[u32; 4]]| check_write(&image, 0, 5120, &plan(steps));
        let (stores, end) = steps.split_at(steps.len() - 3);
        for mut order in orders(stores) {
            order.extend(end);
            assert_eq!(check(&order), Ok(()), "{order:?}");
        }
        // A FENCE anywhere, also between two DATA steps the other way round.
        let mut turned = steps.clone();
        turned.swap(0, 1);
        for at in 0..=steps.len() {
            for steps in [&steps, &turned] {
                let mut fenced = steps.clone();
                fenced.insert(at, FENCE);
                assert_eq!(check(&fenced), Ok(()), "{fenced:?}");
            }
        }
    }
}

/// "and which free map the plan stores" (Decision 82).
#[test]
fn another_free_map_passes() {
    for image in volumes().map(three_writes) {
        let units = free(&image)[..3].to_vec();
        let check = |map| {
            let steps = on(&image, 1, 12_288, &units, map);
            check_write(&image, 1, 12_288, &plan(&steps))
        };
        assert_eq!(free_maps(&image), [1, 3, 4]);
        for map in [1, 3, 4] {
            assert_eq!(check(map), Ok(()));
        }
        for map in [0, 2] {
            assert_eq!(check(map), Err(refusal(11, 3)));
        }
    }
}

/// "Free is asked of the image lent, so neither the chunk's own old units nor
/// reserved ones are in it." (Decision 82)
#[test]
fn own_old_units_are_not_among_the_lowest() {
    for mut image in volumes() {
        let first = free(&image)[0];
        // Chunk 0 on the first two, chunk 2 on the fourth.
        write(&mut image, 0, 8192);
        write(&mut image, 1, 4096);
        write(&mut image, 2, 4096);
        discard(&mut image, 1);
        assert_eq!(free(&image)[..3], [2, 4, 5].map(|at| first + at));
        let check = |chunk, units: &[u32]| {
            let units: Vec<u32> = units.iter().map(|at| first + at).collect();
            check_on(&image, chunk, 4096 * units.len() as u32, &units)
        };
        // In place, own units among the lowest, and those of another chunk.
        assert_eq!(check(0, &[0]), BROKEN);
        assert_eq!(check(0, &[0, 1]), BROKEN);
        assert_eq!(check(0, &[0, 1, 2]), BROKEN);
        assert_eq!(check(0, &[2, 0]), BROKEN);
        assert_eq!(check(0, &[2, 3]), BROKEN);
        assert_eq!(check(2, &[3]), BROKEN);
        assert_eq!(check(2, &[2, 3]), BROKEN);
        // The lowest of the image lent, for whichever chunk.
        for chunk in 0..4 {
            assert_eq!(check(chunk, &[2]), Ok(()));
            assert_eq!(check(chunk, &[2, 4]), Ok(()));
            assert_eq!(check(chunk, &[2, 4, 5, 6]), Ok(()));
        }
    }
}

/// The same of reserved units, right below the lowest and far below.
#[test]
fn reserved_units_are_not_among_the_lowest() {
    for r in 1..=16 {
        let image = fresh2([4, 4, 5, 20, u64::from(r)]);
        assert_eq!(check_on(&image, 0, 4096, &[r]), Ok(()));
        assert_eq!(check_on(&image, 0, 8192, &[r, r + 1]), Ok(()));
        assert_eq!(check_on(&image, 0, 8192, &[r - 1, r]), BROKEN);
        assert_eq!(check_on(&image, 0, 8192, &[0, r]), BROKEN);
        for unit in 0..r {
            assert_eq!(check_on(&image, 0, 4096, &[unit]), BROKEN);
        }
    }
}

/// "Fewer free units than a write needs: no plan keeps rule 2, so the check gives
/// 11 with 2, or with 1 where rule 1 is broken. The checker never gives 9."
/// (Decision 83)
#[test]
fn with_too_few_free_units_no_plan_keeps_rule_2() {
    for mut image in [
        fresh(2, 2, 3, 3),
        fresh2([2, 2, 3, 3, 0]),
        fresh2([2, 2, 3, 5, 2]),
    ] {
        let units = load(&image).unwrap().n as u32;
        write(&mut image, 0, 8192);
        assert_eq!(free(&image), [units - 1]);
        for chunk in 0..2 {
            let mut out = [0; STEP * 36];
            let planned = plan_write(&image, u64::from(chunk), 8192, &mut out);
            assert_eq!(planned, Err(refusal(9, 1)));
            for (a, b) in (0..units).flat_map(|a| (0..units).map(move |b| (a, b))) {
                assert_eq!(check_on(&image, chunk, 8192, &[a, b]), BROKEN);
            }
            let past = check_on(&image, chunk, 8192, &[units - 1, units]);
            assert_eq!(past, Err(refusal(11, 1)));
            assert_eq!(check_on(&image, chunk, 4096, &[units - 1]), Ok(()));
        }
        // Nothing is free at all, and there are no DATA steps.
        write(&mut image, 1, 4096);
        assert_eq!(free(&image), []);
        for chunk in 0..2 {
            assert_eq!(check_on(&image, chunk, 1, &[]), BROKEN);
            assert_eq!(check_on(&image, chunk, 1, &[units - 1]), BROKEN);
        }
    }
}

/// The lowest are counted over words of the free set with nothing in them, and
/// at their edges.
#[test]
fn the_lowest_units_lie_words_apart() {
    let free_ones = [63, 64, 127, 200, 255, 256];
    for mut image in [fresh(16, 20, 21, 257), fresh2([16, 20, 21, 257, 63])] {
        let shape = shape(&image).unwrap();
        let held: Vec<u64> = (shape.r..257)
            .filter(|unit| !free_ones.contains(unit))
            .collect();
        let size_words = shape.edition as usize - 1;
        for (chunk, units) in held.chunks(16).enumerate() {
            put(&mut image, chunk, chunk as u64);
            let first = 20 + (16 + size_words) * chunk;
            if size_words > 0 {
                put(&mut image, first, UNIT * units.len() as u64);
            }
            for (at, &unit) in units.iter().enumerate() {
                put(&mut image, first + size_words + at, unit);
            }
        }
        assert_eq!(free_units(&image), free_ones);
        let check = |units: &[u32]| check_on(&image, 19, 4096 * units.len() as u32, units);
        let lowest = [63, 64, 127, 200, 255, 256];
        for k in 1..=6 {
            assert_eq!(check(&lowest[..k]), Ok(()));
            for (from, to) in (0..k).flat_map(|from| (0..6).map(move |to| (from, to))) {
                let mut other = lowest[..k].to_vec();
                if to < k {
                    other.swap(from, to);
                } else {
                    other[from] = lowest[to];
                }
                let due = if from == to { Ok(()) } else { BROKEN };
                assert_eq!(check(&other), due);
            }
        }
    }
}

/// Rules 2 and 3 are told apart: DATA decides rule 2, and MAP has to say what
/// DATA says. Lower rules win.
#[test]
fn data_decides_rule_2() {
    for image in volumes().map(two_writes) {
        let units = free(&image);
        let right = on(&image, 0, 5120, &units[..2], 2);
        // The first of the P units in the map, before the last three steps.
        let word = right.len() - 3 - 4;
        let check = |edit: &dyn Fn(&mut Vec<[u32; 4]>)| {
            let mut steps = right.clone();
            edit(&mut steps);
            check_write(&image, 0, 5120, &plan(&steps))
        };
        assert_eq!(check(&|_| ()), Ok(()));
        // Other free units in DATA alone, in MAP alone.
        assert_eq!(check(&|s| s[0][1] = units[5]), BROKEN);
        assert_eq!(check(&|s| s[word][3] = units[5]), Err(refusal(11, 3)));
        // With a higher rule broken too, and with rule 1.
        assert_eq!(check(&|s| (s[0][1], s[2][1]) = (units[5], 0)), BROKEN);
        assert_eq!(
            check(&|s| {
                s[0][1] = units[5];
                s.pop();
            }),
            BROKEN
        );
        let past = check(&|s| {
            s[0][1] = units[5];
            s[1][1] = 20;
        });
        assert_eq!(past, Err(refusal(11, 1)));
    }
}

/// "What such plans left stays good: their images are sound, load, read and
/// repair as before, and a chunk that lies scattered comes down to the lowest
/// units with its next write." (Decision 84)
#[test]
fn what_scattered_plans_left_stays_good() {
    let mut image = small();
    set(&mut image, 0, 4, [17, 5, 11, X]);
    set(&mut image, 2, 1, [19, 0, X, X]);
    assert_eq!(held_units(&image, 0), [17, 5, 11]);
    assert_eq!(stored_size(&image, 2), Ok(8192));
    assert_eq!(access(&image, false, 0, 4096), Ok(Access::ReadsChunk));
    let before = image.clone();
    assert_eq!(repair(&mut image, &mut []), Ok(0));
    assert_eq!(image, before);
    write(&mut image, 0, 12_288);
    assert_eq!(held_units(&image, 0), [1, 2, 3]);
    write(&mut image, 2, 8192);
    assert_eq!(held_units(&image, 2), [4, 5]);
    discard(&mut image, 0);
    assert_eq!(held_units(&image, 2), [4, 5]);
}
