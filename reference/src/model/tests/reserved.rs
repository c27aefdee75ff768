//! Units kept for the boot loader (02, request 5), mostly on the worked
//! example's geometry in edition 2 with its first three units reserved.

use super::*;

/// P 4, C 4, M 5, N 20, and this R.
fn reserving(r: u64) -> Vec<u8> {
    fresh2([4, 4, 5, 20, r])
}

/// 01's three writes with three units reserved: chunk 2 on units 3 and 4 by map
/// 0, chunk 0 on units 6 and 7 by map 2.
fn worked3() -> Vec<u8> {
    three_writes(reserving(3))
}

/// The same before the third write: chunk 0 on unit 5 by map 1.
fn before_third3() -> Vec<u8> {
    two_writes(reserving(3))
}

fn third_plan3() -> Vec<[u32; 4]> {
    third_plan_on([6, 7])
}

/// "The first of edition 2's two last u32 becomes R": a number at byte 32 of the
/// trailer, little-endian like the others, and 0 after it.
#[test]
fn the_trailer_with_reserved_units() {
    for r in 0..=16 {
        let image = reserving(r);
        let mut without = reserving(0);
        assert_eq!(without[264..], [0; 8]);
        put32(&mut without, 264, r as u32);
        assert_eq!(image, without);
    }
    let image = fresh2([2, 256, 288, 576, 0x0123]);
    assert_eq!(image[image.len() - 8..], [0x23, 0x01, 0, 0, 0, 0, 0, 0]);
    let image = fresh2([16, 256, 288, 4608, 4592]);
    assert_eq!(image[image.len() - 8..], [0xF0, 0x11, 0, 0, 0, 0, 0, 0]);
}

/// "R, the reserved units, 0 to N-P, else 3", "in format too, for any 64-bit
/// number" (Decision 74).
#[test]
fn the_limits_of_r_in_format() {
    let try_format = |[p, c, m, n, r]: [u64; 5]| {
        let len = (8 * c + 8 * m * (p + 1) + 40) as usize;
        let mut image = vec![0x55; len];
        let answer = format2(&mut image, p, c, m, n, r);
        assert!(answer.is_ok() || image == vec![0x55; len]);
        answer
    };
    for [p, c, m, n] in [
        [2, 1, 2, 2],
        [2, 1, 2, 3],
        [4, 4, 5, 4],
        [4, 4, 5, 20],
        [16, 1, 33, 16],
        [16, 1, 33, 528],
        [16, 256, 288, 4608],
    ] {
        for r in [0, 1, n - p, n - p + 1, n - p + 2, n - 1, n, n + 1, p * m] {
            let due = if r <= n - p {
                Ok(())
            } else {
                Err(refusal(3, 0))
            };
            assert_eq!(try_format([p, c, m, n, r]), due, "{n} {r}");
        }
        for r in [
            1 << 16,
            u64::from(u32::MAX),
            1 << 32,
            (1 << 32) + 1,
            (1 << 32) + n - p,
            1 << 63,
            u64::MAX - n,
            u64::MAX,
            0u64.wrapping_sub(p),
        ] {
            assert_eq!(try_format([p, c, m, n, r]), Err(refusal(3, 0)));
        }
        // "N is compared with P and P·M first [..] so that N below P gives 3
        // and nothing wraps" (Decision 74).
        for n in (0..p).chain([p * m + 1]) {
            for r in [0, 1, n, n.wrapping_sub(p), n.wrapping_sub(p) - 1, u64::MAX] {
                assert_eq!(try_format([p, c, m, n, r]), Err(refusal(3, 0)));
            }
        }
    }
}

/// "A shape of edition 1 has R = 0." (Decision 74)
#[test]
fn edition_1_has_no_r_but_0() {
    use crate::model::geometry::Geometry;
    for r in 0..=17 {
        let within = |edition| Geometry::within_limits(edition, [4, 4, 5, 20, r]);
        assert_eq!(within(Edition::One).is_some(), r == 0);
        assert_eq!(within(Edition::Two).is_some(), r <= 16);
    }
}

/// The same limits in a trailer, where R has 32 bits; "the u32 after it must
/// still be 0, else 3" (Decision 74).
#[test]
fn the_limits_of_r_in_a_trailer() {
    for r in [0, 1, 3, 15, 16] {
        let mut image = reserving(0);
        put32(&mut image, 264, r);
        assert_eq!(shape(&image).map(|shape| shape.r), Ok(u64::from(r)));
        for last in [1, 1 << 16, u32::MAX] {
            put32(&mut image, 268, last);
            assert_eq!(load(&image), Err(refusal(3, 0)));
        }
    }
    for r in [17, 18, 20, 21, 1 << 16, 1 << 31, u32::MAX - 3, u32::MAX] {
        let mut image = reserving(0);
        put32(&mut image, 264, r);
        assert_eq!(load(&image), Err(refusal(3, 0)), "{r}");
    }
    // N below P, with an R that a wrapped N-P would let pass.
    for (n, r) in [(0, 0), (3, 0), (3, 1), (3, u32::MAX), (0, u32::MAX - 3)] {
        let mut image = reserving(0);
        put32(&mut image, 248, n);
        put32(&mut image, 264, r);
        assert_eq!(load(&image), Err(refusal(3, 0)));
    }
    // Row 2 is asked first, rows 4 to 6 afterwards.
    let mut image = reserving(0);
    put(&mut image, 0, 5);
    put32(&mut image, 264, 17);
    assert_eq!(load(&image), Err(refusal(3, 0)));
    image[232] ^= 1;
    assert_eq!(load(&image), Err(refusal(2, 0)));
}

/// "load answers it"; "`sumbilak_shape` answers it as its field r" (Decision
/// 78). "Edition 1 behaves as R = 0."
#[test]
fn load_and_shape_answer_r() {
    for r in 0..=16 {
        let image = reserving(r);
        assert_eq!(load(&image).map(|loaded| loaded.r), Ok(r));
        assert_eq!(
            shape(&image),
            Ok(Shape {
                edition: 2,
                p: 4,
                c: 4,
                m: 5,
                n: 20,
                r,
            })
        );
        assert!(free_units(&image).into_iter().eq(r..20));
        assert!(free_maps(&image).into_iter().eq(0..5));
    }
    assert_eq!(load(&worked()).map(|loaded| loaded.r), Ok(0));
    assert_eq!(shape(&worked()).map(|shape| shape.r), Ok(0));
    let mut image = worked3();
    assert_eq!(load(&image).map(|loaded| loaded.r), Ok(3));
    // A unit that becomes free again is one from R on.
    discard(&mut image, 0);
    discard(&mut image, 2);
    assert!(free_units(&image).into_iter().eq(3..20));
}

/// "so its bit in load's set is 0" (Decision 75), at every place of a word.
#[test]
fn the_bits_below_r_are_zero() {
    for r in 0..=190 {
        let units = load(&fresh2([2, 95, 96, 192, r])).unwrap().units;
        let free = (0..72 * 64).filter(|&u| units[u / 64] >> (u % 64) & 1 == 1);
        assert!(free.eq(r as usize..192));
    }
    let units = load(&fresh2([16, 256, 288, 4608, 4592])).unwrap().units;
    assert_eq!(units[..71], [0; 71]);
    assert_eq!(units[71], 0xFFFF << 48);
}

/// The planner begins at the lowest unit that is not reserved.
#[test]
fn the_three_writes_with_reserved_units() {
    let image = before_third3();
    assert_eq!(held_units(&image, 2), [3, 4]);
    assert_eq!(held_units(&image, 0), [5]);
    assert_eq!(planned(&image, 0, 5120), plan(&third_plan3()));
    let image = worked3();
    assert_eq!(held_units(&image, 0), [6, 7]);
    assert_eq!(stored_size(&image, 0), Ok(5120));
    assert!(free_units(&image)
        .into_iter()
        .eq([5].into_iter().chain(8..20)));
    // With R = N-P just one raw chunk fits.
    let mut image = reserving(16);
    write(&mut image, 1, 16_384);
    assert_eq!(held_units(&image, 1), [16, 17, 18, 19]);
    assert_eq!(free_units(&image), []);
}

/// "Units below R are never free and never held: a named map with one gives 5",
/// "at the lowest such chunk, before any 6" (Decision 75).
#[test]
fn a_named_map_with_a_reserved_unit() {
    for units in [
        [2, X, X, X],
        [0, X, X, X],
        [9, 2, X, X],
        [9, 10, 11, 0],
        [0, 1, 2, 9],
    ] {
        let size = UNIT * units.iter().filter(|&&unit| unit != X).count() as u64;
        let mut image = worked3();
        set2(&mut image, 1, 3, size, units);
        assert_eq!(load(&image), Err(refusal(5, 1)), "{units:?}");
        // "A map that no chunk names may hold anything."
        put(&mut image, 1, X);
        assert_eq!(load(&image), load(&worked3()));
        // The same units are good where they are not reserved.
        set2(&mut image, 1, 3, size, units);
        put32(&mut image, 264, 0);
        assert!(load(&image).is_ok());
    }
    // Unit R is one.
    let mut image = worked3();
    set2(&mut image, 2, 0, 4096, [4, X, X, X]);
    set2(&mut image, 1, 3, 4096, [3, X, X, X]);
    assert!(load(&image).is_ok());
    // Two chunks on one reserved unit, on one map with one, or one twice in a
    // map: 5, no 6, and the lowest chunk.
    set2(&mut image, 1, 3, 4096, [2, X, X, X]);
    set2(&mut image, 3, 4, 4096, [2, X, X, X]);
    assert_eq!(load(&image), Err(refusal(5, 1)));
    put(&mut image, 3, 3);
    assert_eq!(load(&image), Err(refusal(5, 1)));
    put(&mut image, 1, X);
    assert_eq!(load(&image), Err(refusal(5, 3)));
    set2(&mut image, 3, 4, 8192, [1, 1, X, X]);
    assert_eq!(load(&image), Err(refusal(5, 3)));
    // A clash of lower chunks comes after it, a bad link before.
    let mut image = worked3();
    put(&mut image, 1, 2);
    set2(&mut image, 3, 4, 4096, [0, X, X, X]);
    assert_eq!(load(&image), Err(refusal(5, 3)));
    put(&mut image, 2, 5);
    assert_eq!(load(&image), Err(refusal(4, 2)));
}

/// "The five rules stay as they are, rule 1 with its 'units below N'. A DATA
/// step on a reserved unit breaks rule 2 [..] A MAP word with a reserved unit
/// breaks rule 3, or rule 1 or 2 where the plan breaks one of them" (Decision
/// 76). A reserved unit is not among the lowest that are free (Decision 82).
#[test]
fn plans_on_reserved_units() {
    let check = |steps: &[[u32; 4]]| check_write(&before_third3(), 0, 5120, &plan(steps));
    assert_eq!(check(&third_plan3()), Ok(()));
    let broken = |rule, edit: &dyn Fn(&mut Vec<[u32; 4]>)| {
        let mut steps = third_plan3();
        edit(&mut steps);
        assert_eq!(check(&steps), Err(refusal(11, rule)), "{steps:?}");
        let mut image = before_third3();
        for n in [0, 10] {
            let carried = carry_write(&mut image, 0, 5120, &plan(&steps), n);
            assert_eq!(carried, Err(refusal(11, rule)));
        }
        assert_eq!(image, before_third3());
    };
    for unit in 0..3 {
        // In DATA and MAP alike, in DATA only, in MAP only.
        broken(2, &|s| (s[0][1], s[3][3]) = (unit, unit));
        broken(2, &|s| (s[1][1], s[4][3]) = (unit, unit));
        broken(2, &|s| s[0][1] = unit);
        broken(3, &|s| s[3][3] = unit);
        broken(3, &|s| s[4][3] = unit);
        // After the units, where X is due.
        broken(3, &|s| s[5][3] = unit);
        // Rules 1 and 2 come first.
        broken(2, &|s| (s[0][1], s[4][3]) = (4, unit));
        broken(1, &|s| (s[0][1], s[4][3]) = (20, unit));
        broken(1, &|s| (s[0][1], s[4][3]) = (unit, 20));
    }
    // Unit 8 is free, and 6 the lowest that is (02, request 6).
    broken(2, &|s| (s[0][1], s[3][3]) = (8, 8));
    let image = reserving(3);
    let first = planned(&image, 2, 6144);
    assert_eq!(first[..16], plan(&[[1, 3, 0, 0]]));
    assert_eq!(check_write(&image, 2, 6144, &first), Ok(()));
    // A plan made for the same volume with nothing reserved.
    let first = planned(&reserving(0), 2, 6144);
    assert_eq!(check_write(&image, 2, 6144, &first), Err(refusal(11, 2)));
    // A size below R is no unit: word 0 is none.
    let one_byte = planned(&image, 2, 1);
    assert_eq!(check_write(&image, 2, 1, &one_byte), Ok(()));
    // A discard has no DATA and no MAP, reserved or not.
    let image = worked3();
    for (rule, step) in [(2, [1, 0, 0, 0]), (3, [2, 3, 1, 0])] {
        let steps = plan(&[step, [3, 0, 0, X32], [4, 0, 0, 0]]);
        assert_eq!(check_discard(&image, 0, &steps), Err(refusal(11, rule)));
    }
}

/// "9's place" counts "the free units so counted" (Decision 77).
#[test]
fn no_room_but_reserved_units() {
    // Four units of twenty, three of them held.
    let mut image = reserving(16);
    write(&mut image, 0, 12_288);
    let mut out = [0xA5; STEP * 36];
    let no_room = Err(refusal(9, 1));
    assert_eq!(plan_write(&image, 1, 4097, &mut out), no_room);
    assert_eq!(plan_write(&image, 0, 16_384, &mut out), no_room);
    assert_eq!(plan_write(&image, 1, 4097, &mut []), no_room);
    assert_eq!(out, [0xA5; STEP * 36]);
    assert!(plan_write(&image, 1, 4096, &mut out).is_ok());
    write(&mut image, 1, 4096);
    assert_eq!(plan_write(&image, 2, 1, &mut out), Err(refusal(9, 0)));
    assert_eq!(plan_write(&image, 4, 1, &mut out), Err(refusal(7, 0)));
    assert_eq!(plan_write(&image, 2, 0, &mut out), Err(refusal(8, 0)));
}

/// "Refusal 9 never occurs for one write when N-R is at least (C+1)·P."
#[test]
fn enough_units_besides_the_reserved_ones() {
    for (p, c) in [(2, 1), (2, 3), (3, 2), (16, 4)] {
        let room = (c + 1) * p;
        for r in [1, 2, p, 2 * p] {
            // Three maps more than needed, so that N may be large enough.
            let n = room + r;
            let mut image = fresh2([p, c, c + 4, n, r]);
            for chunk in (0..c).chain((0..c).rev()).chain(0..c) {
                write(&mut image, chunk, p * UNIT);
            }
            // One unit less, and all chunks raw: it is a unit short.
            let mut image = fresh2([p, c, c + 4, n - 1, r]);
            for chunk in 0..c {
                write(&mut image, chunk, p * UNIT);
            }
            let mut out = [0; STEP * 36];
            let full = plan_write(&image, 0, p * UNIT, &mut out);
            assert_eq!(full, Err(refusal(9, p - 1)));
            assert!(plan_write(&image, 0, (p - 1) * UNIT, &mut out).is_ok());
        }
    }
}

/// "Held and free units are counted each for itself, and together they are
/// N-R [..] Held / N and the alarm's fraction stay over N" (Decision 77).
#[test]
fn report_and_alarm_with_reserved_units() {
    let image = worked3();
    assert_eq!(
        report(&image),
        Ok(Report {
            mapped: 2,
            held: 4,
            free: 13,
            saved: 4,
            held_ratio: 0.2,
            saved_ratio: 0.5,
        })
    );
    for (count, sounds) in [(0, false), (13, false), (14, true), (16, true), (17, true)] {
        assert_eq!(alarm_count(&image, count), Ok(sounds));
    }
    // 13 of 20: of 17 it would be 0.76..
    for (fraction, sounds) in [(0.65, false), (0.66, true), (0.75, true), (0.6, false)] {
        assert_eq!(alarm_fraction(&image, fraction), Ok(sounds), "{fraction}");
    }
    // A fresh volume with units reserved is below a fraction of 1.
    assert_eq!(alarm_fraction(&reserving(0), 1.0), Ok(false));
    assert_eq!(alarm_fraction(&reserving(1), 1.0), Ok(true));
    let figures = report(&reserving(16)).unwrap();
    assert_eq!([figures.mapped, figures.held], [0, 0]);
    assert_eq!([figures.free, figures.saved], [4, 0]);
    for r in 0..=16 {
        let mut image = reserving(r);
        write(&mut image, 3, 9000);
        let figures = report(&image).unwrap();
        assert_eq!((figures.held, figures.free), (3, 17 - r));
        assert_eq!(figures.held_ratio, 3.0 / 20.0);
    }
}

/// "and a repair unlinks that chunk" (Decision 75), among the bad maps: what
/// its map names counts for nobody.
#[test]
fn a_repair_with_reserved_units() {
    let mut image = worked3();
    // Chunk 1 names a reserved unit and one of chunk 0's, chunk 3 a reserved
    // one alone.
    set2(&mut image, 1, 3, 8192, [6, 2, X, X]);
    set2(&mut image, 3, 4, 4096, [2, X, X, X]);
    let damaged = image.clone();
    let mut out = [0xA5; 12];
    assert_eq!(repair(&mut image, &mut out[..7]), Err(refusal(10, 8)));
    assert_eq!(image, damaged);
    assert_eq!(repair(&mut image, &mut out), Ok(2));
    assert_eq!(out, [1, 0, 0, 0, 3, 0, 0, 0, 0xA5, 0xA5, 0xA5, 0xA5]);
    let mut expected = damaged;
    put(&mut expected, 1, X);
    put(&mut expected, 3, X);
    assert_eq!(image, expected);
    assert_eq!(load(&image), load(&worked3()));
    assert_eq!(repair(&mut image, &mut []), Ok(0));
    // R past its limit is no matter of tables.
    put32(&mut image, 264, 17);
    assert_eq!(repair(&mut image, &mut out), Err(refusal(3, 0)));
    // With another R every chunk is on reserved units.
    put32(&mut image, 264, 8);
    assert_eq!(repair(&mut image, &mut out), Ok(2));
    assert_eq!(out[..8], [0, 0, 0, 0, 2, 0, 0, 0]);
    assert!(free_units(&image).into_iter().eq(8..20));
}

/// "the converter writes 0", "also where the first units happen to be free"
/// (Decision 79). An image of edition 2 gives 2, whatever R it has.
#[test]
fn the_converter_reserves_nothing() {
    let mut image = worked();
    set(&mut image, 2, 0, [8, 9, X, X]);
    set(&mut image, 0, 2, [10, X, X, X]);
    let mut out = [0x5A; 272];
    assert_eq!(convert(&image, &mut out), Ok(272));
    assert_eq!(out[264..], [0; 8]);
    assert_eq!(shape(&out).map(|shape| shape.r), Ok(0));
    assert_eq!(load(&out), load(&image));
    for r in [0, 1, 16, 17] {
        put32(&mut out, 264, r);
        let converted = convert(&out, &mut [0x5A; 272]);
        assert_eq!(converted, Err(refusal(2, 0)));
    }
}

/// Split, access, held words and stored size ask nothing of R.
#[test]
fn what_reserved_units_do_not_change() {
    let mut zero = reserving(0);
    let mut some = reserving(16);
    write(&mut zero, 1, 10_000);
    write(&mut some, 1, 10_000);
    let (mut pieces, mut pieces2) = ([0; 48], [0; 48]);
    assert_eq!(split(&zero, 0, 65_536, &mut pieces), Ok(4));
    assert_eq!(split(&some, 0, 65_536, &mut pieces2), Ok(4));
    assert_eq!(pieces, pieces2);
    for (offset, length) in [(0, 4096), (16_384, 16_384), (20_480, 4096)] {
        for write in [false, true] {
            let asked = access(&zero, write, offset, length);
            assert_eq!(access(&some, write, offset, length), asked);
        }
    }
    assert_eq!(held(&some, 1), held(&zero, 1));
    assert_eq!(held_units(&some, 1), [16, 17, 18]);
    assert_eq!(stored_size(&some, 1), Ok(10_000));
}
