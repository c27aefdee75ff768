//! Edition 2 with the stored size (02, request 4), mostly on the worked
//! example's geometry, and the converter.

use super::*;

/// The volume of 01's example in edition 2.
fn small2() -> Vec<u8> {
    fresh2([4, 4, 5, 20, 0])
}

fn before_third2() -> Vec<u8> {
    two_writes(small2())
}

fn worked2() -> Vec<u8> {
    three_writes(small2())
}

fn third_plan2() -> Vec<[u32; 4]> {
    third_plan_on([3, 4])
}

fn check_third2(steps: &[[u32; 4]]) -> Answer<()> {
    check_write(&before_third2(), 0, 5120, &plan(steps))
}

/// "Edition 2 has version 2, a 40-byte trailer (edition 1's fields, then two
/// u32 that must be 0, else 3) whose distances and length are counted the same
/// way, and P+1 words for each map".
#[test]
fn the_trailer_of_edition_2() {
    let image = small2();
    assert_eq!(image.len(), 4 * 8 + 5 * 5 * 8 + 40);
    assert_eq!(image.len(), 272);
    assert_eq!(
        image[232..],
        [
            0x52, 0x4D, 0x41, 0x50, 0x02, 0x00, 0x04, 0x00, 0x04, 0x00, 0x00, 0x00, 0x05, 0x00,
            0x00, 0x00, 0x14, 0x00, 0x00, 0x00, 0xE8, 0x00, 0x00, 0x00, 0xC8, 0x00, 0x00, 0x00,
            0x10, 0x01, 0x00, 0x00, 0, 0, 0, 0, 0, 0, 0, 0
        ]
    );
    // "A fresh map is X throughout, the size too" (Decision 65).
    assert!(image[..232].iter().all(|&byte| byte == 0xFF));
}

/// "The edition comes from a new call, `sumbilak_shape`" (Decision 71).
#[test]
fn the_shape_of_either_edition() {
    let of = |edition| Shape {
        edition,
        p: 4,
        c: 4,
        m: 5,
        n: 20,
        r: 0,
    };
    assert_eq!(shape(&small()), Ok(of(1)));
    assert_eq!(shape(&small2()), Ok(of(2)));
    // Rows 1 to 6 come first.
    assert_eq!(shape(&small2()[..31]), Err(refusal(1, 0)));
    assert_eq!(shape(&small2()[..40]), Err(refusal(2, 0)));
    assert_eq!(shape(&small2()[8..]), Err(refusal(3, 0)));
    let mut image = worked2();
    put(&mut image, 1, 5);
    assert_eq!(shape(&image), Err(refusal(4, 1)));
    put(&mut image, 1, 4);
    assert_eq!(shape(&image), Err(refusal(5, 1)));
    put(&mut image, 1, 0);
    assert_eq!(shape(&image), Err(shared(1, 2)));
}

/// "`sumbilak_load` writes P, C, M, N and the sets" (Decision 71), as before.
#[test]
fn fresh_volume_of_edition_2_is_all_free() {
    assert_eq!(load(&small2()), load(&small()));
    assert_eq!(load(&worked2()), load(&worked()));
}

/// 41,256 bytes: "Every program's file limit becomes 41,256." The planner's
/// write has k+P+4 steps: at most 36.
#[test]
fn the_largest_image_of_edition_2() {
    let mut image = fresh2([16, 256, 288, 4608, 0]);
    assert_eq!(image.len(), 41_256);
    assert_eq!(image.len(), MAX_IMAGE2_LEN);
    for chunk in 0..256 {
        write(&mut image, chunk, 65_536 - chunk);
    }
    for chunk in 0..256 {
        assert_eq!(stored_size(&image, chunk), Ok(65_536 - chunk));
    }
    let figures = report(&image).unwrap();
    assert_eq!((figures.mapped, figures.held), (256, 4096));
    assert_eq!((figures.free, figures.saved), (512, 0));
    assert_eq!(planned(&image, 255, 65_536).len(), 36 * STEP);
}

/// "MAP words run from 0 to P: word 0 holds [..] the request's size, and word
/// j+1 is piece j's unit or X." "The planner's write has k+P+4 steps."
#[test]
fn the_three_writes_in_edition_2() {
    let mut image = small2();
    assert_eq!(
        planned(&image, 2, 6144),
        plan(&[
            [1, 0, 0, 0],
            [1, 1, 1, 0],
            [2, 0, 0, 6144],
            [2, 0, 1, 0],
            [2, 0, 2, 1],
            [2, 0, 3, X32],
            [2, 0, 4, X32],
            [4, 0, 0, 0],
            [3, 2, 0, 0],
            [4, 0, 0, 0],
        ])
    );
    write(&mut image, 2, 6144);
    assert_eq!(held_units(&image, 2), [0, 1]);
    assert_eq!(stored_size(&image, 2), Ok(6144));
    write(&mut image, 0, 3072);
    assert_eq!(held_units(&image, 0), [2]);
    assert_eq!(stored_size(&image, 0), Ok(3072));
    assert_eq!(planned(&image, 0, 5120), plan(&third_plan2()));
    write(&mut image, 0, 5120);
    assert_eq!(held_units(&image, 0), [3, 4]);
    assert_eq!(stored_size(&image, 0), Ok(5120));
    assert_eq!(free_maps(&image), [1, 3, 4]);
    assert_eq!(free_units(&image).len(), 16);
    // Map 2 stands after 4 entries and 2 maps of 5 words.
    assert_eq!(get(&image, 14), 5120);
    assert_eq!(get(&image, 15), 3);
}

/// "10's place is 16 times that" (Decision 67).
#[test]
fn room_for_a_plan_of_edition_2() {
    let image = small2();
    for (size, k) in [(1, 1), (4096, 1), (4097, 2), (16_384, 4)] {
        let steps = k + 4 + 4;
        let mut out = vec![0xA5; STEP * steps];
        let short = plan_write(&image, 0, size, &mut out[1..]);
        assert_eq!(short, Err(refusal(10, (STEP * steps) as u64)));
        assert_eq!(out, vec![0xA5; STEP * steps]);
        assert_eq!(plan_write(&image, 0, size, &mut out), Ok(steps as u64));
    }
    for size in [0, 16_385] {
        assert_eq!(plan_write(&image, 0, size, &mut []), Err(refusal(8, 0)));
    }
}

/// "The words handed back are still the units" - and not the size before them.
#[test]
fn held_words_of_edition_2_are_the_units() {
    let image = worked2();
    assert_eq!(held(&image, 0), Ok(120..136));
    assert_eq!(held(&image, 2), Ok(40..56));
    assert_eq!(held(&image, 1), Ok(0..0));
    assert_eq!(held(&image, 4), Err(refusal(7, 0)));
}

/// "a call answers a chunk's stored size, k·4,096 in edition 1 and 0 for an
/// unmapped chunk"; 7 for a chunk not below C (Decision 68).
#[test]
fn stored_sizes() {
    let sizes = |image: &[u8]| [0, 1, 2, 3].map(|chunk| stored_size(image, chunk).unwrap());
    assert_eq!(sizes(&worked()), [8192, 0, 8192, 0]);
    assert_eq!(sizes(&worked2()), [5120, 0, 6144, 0]);
    for image in [worked(), worked2()] {
        for chunk in [4, 1 << 32, u64::MAX] {
            assert_eq!(stored_size(&image, chunk), Err(refusal(7, 0)));
        }
    }
    // An unmapped chunk has 0 whatever dead maps hold.
    let mut image = worked2();
    discard(&mut image, 0);
    assert_eq!(get(&image, 14), 5120);
    assert_eq!(stored_size(&image, 0), Ok(0));
    for size in [1, 2, 4095, 4096, 4097, 8192, 8193, 16_383, 16_384] {
        let mut two = small2();
        write(&mut two, 3, size);
        assert_eq!(stored_size(&two, 3), Ok(size));
        let mut one = small();
        write(&mut one, 3, size);
        assert_eq!(stored_size(&one, 3), Ok(size.div_ceil(UNIT) * UNIT));
    }
}

/// "A sound map has k equal to the size rounded up in units; otherwise 5."
/// Words are 64 bits wide (Decision 65).
#[test]
fn the_size_takes_just_the_units() {
    for (units, good) in [
        ([9, X, X, X], 1..=4096),
        ([9, 10, X, X], 4097..=8192),
        ([9, 10, 11, X], 8193..=12_288),
        ([9, 10, 11, 12], 12_289..=16_384),
    ] {
        let mut image = worked2();
        for size in [
            0,
            1,
            2,
            4095,
            4096,
            4097,
            8191,
            8192,
            8193,
            12_287,
            12_288,
            12_289,
            16_383,
            16_384,
            16_385,
            20_480,
            65_536,
            1 << 32,
            (1 << 32) + 1,
            (1 << 32) + 4096,
            X - 4095,
            X - 1,
            X,
        ] {
            set2(&mut image, 1, 3, size, units);
            let due = if good.contains(&size) {
                Ok(size)
            } else {
                Err(refusal(5, 1))
            };
            assert_eq!(stored_size(&image, 1), due, "{size}");
            // "a map that no chunk names may hold anything"
            put(&mut image, 1, X);
            assert!(load(&image).is_ok());
        }
        // No size makes up for a map of the wrong form.
        for wrong in [
            [X; 4],
            [X, 9, X, X],
            [9, X, 10, X],
            [20, X, X, X],
            [9, 20, X, X],
        ] {
            for size in [0, 1, 4096, 4097, 8192, X] {
                set2(&mut image, 1, 3, size, wrong);
                assert_eq!(load(&image), Err(refusal(5, 1)));
            }
        }
    }
}

/// The size is no unit: it may be the number of a held one, of none, and above
/// N, and equal to other sizes.
#[test]
fn a_size_claims_nothing() {
    let mut image = small2();
    set2(&mut image, 0, 0, 3, [3, X, X, X]);
    set2(&mut image, 1, 1, 3, [4, X, X, X]);
    set2(&mut image, 2, 2, 4096, [0, X, X, X]);
    assert!(load(&image).is_ok());
    assert!(free_units(&image)
        .into_iter()
        .eq([1, 2].into_iter().chain(5..20)));
}

/// "The last 32 bytes are tried as edition 1 first, then the last 40 as
/// edition 2; if neither has tag and version, 2." Tag and version alone decide
/// (Decision 62).
#[test]
fn which_edition_an_image_has() {
    // 32 to 39 bytes without edition 1's tag and version give 2.
    for len in 0..=48 {
        let due = if len < 32 { 1 } else { 2 };
        assert_eq!(load(&vec![0; len]), Err(refusal(due, 0)));
        assert_eq!(load(&small2()[..len]), Err(refusal(due, 0)));
        let due = match len {
            0..=31 => 1,
            32..=39 => 2,
            _ => 3,
        };
        assert_eq!(load(&small2()[272 - len..]), Err(refusal(due, 0)), "{len}");
    }
    // Every byte of tag and version counts.
    for at in 232..238 {
        let mut image = worked2();
        image[at] ^= 0x20;
        put32(&mut image, 268, 1); // row 3 as well: row 2 wins
        assert_eq!(load(&image), Err(refusal(2, 0)));
    }
    for version in [0, 1, 3, 0x0102, 0x0200, 0xFFFF] {
        let mut image = worked2();
        image[236..238].copy_from_slice(&u16::to_le_bytes(version));
        assert_eq!(load(&image), Err(refusal(2, 0)));
        // Edition 2's version in edition 1's trailer does not help.
        let mut image = worked();
        image[196..198].copy_from_slice(&2u16.to_le_bytes());
        assert_eq!(load(&image), Err(refusal(2, 0)));
    }
    // An image of edition 1 "whatever stands before them": the last word of
    // its last map looks like edition 2's tag and version.
    let mut image = worked();
    image[184..190].copy_from_slice(b"RMAP\x02\x00");
    assert_eq!(shape(&image).map(|shape| shape.edition), Ok(1));
    // The same with a whole trailer of edition 2 there that would fit.
    image[184..192].copy_from_slice(&small2()[232..240]);
    assert_eq!(shape(&image).map(|shape| shape.edition), Ok(1));
    // An image of edition 2 whose last 32 bytes begin with edition 1's tag and
    // version is read as edition 1 and "not tried again": C is where the tag
    // stands, so it is not sound anyway.
    let mut image = worked2();
    image[240..246].copy_from_slice(b"RMAP\x01\x00");
    assert_eq!(load(&image), Err(refusal(3, 0)));
    let mut image = worked2();
    image[240..246].copy_from_slice(b"RMAP\x02\x00");
    assert_eq!(load(&image), Err(refusal(3, 0)));
}

/// "edition 1's fields, then two u32", the second of which must be 0, else 3;
/// the first is R (request 5).
#[test]
fn every_field_of_the_trailer_counts() {
    for at in (238..240).chain(240..272) {
        for bit in 0..8 {
            let mut image = worked2();
            image[at] ^= 1 << bit;
            // N is checked against P and P·M only: 20 becomes a smaller good
            // number, and unit 4 is held. R may be up to 16: chunk 0 holds
            // units 3 and 4, chunk 2 units 0 and 1.
            let due = match (at, bit) {
                (248, 2) => Ok(()),
                (248, 4) => Err(refusal(5, 0)),
                (264, 0 | 1) => Err(refusal(5, 2)),
                (264, 2..=4) => Err(refusal(5, 0)),
                _ => Err(refusal(3, 0)),
            };
            assert_eq!(load(&image).map(|_| ()), due, "{at} {bit}");
        }
    }
    for value in [1, 1 << 16, u32::MAX] {
        let mut image = worked2();
        put32(&mut image, 268, value);
        assert_eq!(load(&image), Err(refusal(3, 0)));
    }
    // Slack before the image, and an image of the other edition's length.
    let mut slack = vec![0xFF; 8];
    slack.extend(worked2());
    assert_eq!(load(&slack), Err(refusal(3, 0)));
    put32(&mut slack, 280 - 12, 280);
    assert_eq!(load(&slack), Err(refusal(3, 0)));
    let mut other = small2();
    put32(&mut other, 252, 8 * 4 + 8 * 5 * 4);
    assert_eq!(load(&other), Err(refusal(3, 0)));
}

/// "The limits of P, C, M and N are edition 1's" (Decision 63). R is request
/// 5's.
#[test]
fn format_of_edition_2() {
    let try_format = |p: u64, c: u64, m: u64, n: u64, r: u64| {
        let len = (8 * c + 8 * m * (p + 1) + 40) as usize;
        let mut image = vec![0x55; len];
        let answer = format2(&mut image, p, c, m, n, r);
        assert!(answer.is_ok() || image == vec![0x55; len]);
        answer
    };
    assert_eq!(try_format(4, 4, 5, 20, 0), Ok(()));
    for (p, c, m, n) in [(2, 1, 2, 2), (16, 1, 33, 16), (16, 256, 288, 4608)] {
        assert_eq!(try_format(p, c, m, n, 0), Ok(()));
    }
    for (p, c, m, n) in [
        (1, 4, 5, 5),
        (17, 4, 5, 20),
        (4, 0, 1, 4),
        (4, 257, 258, 20),
        (4, 4, 4, 16),
        (4, 4, 37, 20),
        (4, 4, 5, 3),
        (4, 4, 5, 21),
    ] {
        assert_eq!(try_format(p, c, m, n, 0), Err(refusal(3, 0)));
    }
    for len in [0, 31, 40, 224, 271, 273] {
        let mut image = vec![0x55; len];
        assert_eq!(format2(&mut image, 4, 4, 5, 20, 0), Err(refusal(3, 0)));
        assert_eq!(image, vec![0x55; len]);
    }
    // Each edition's own length only.
    assert_eq!(format(&mut [0; 272], 4, 4, 5, 20), Err(refusal(3, 0)));
}

/// "word 0 holds 1 to P·4,096 (rule 1)"; "0, more, or X breaks rule 1, and N
/// does not bound it"; "Word P is good in edition 2 and breaks rule 1 in edition
/// 1; a DATA step's piece is below P in both" (Decision 66).
#[test]
fn rule_1_in_edition_2() {
    assert_eq!(check_third2(&third_plan2()), Ok(()));
    for (at, step) in [
        (2, [2, 2, 0, 0]),
        (2, [2, 2, 0, 16_385]),
        (2, [2, 2, 0, X32]),
        (2, [2, 2, 0, X32 - 1]),
        (2, [2, 5, 0, 5120]),
        (2, [2, 2, 5, 5120]),
        (3, [2, 2, 1, 20]),
        (3, [2, 2, 1, 5120]),
        (6, [2, 2, 5, X32]),
        (1, [1, 4, 4, 0]),
    ] {
        let mut steps = third_plan2();
        steps[at] = step;
        assert_eq!(check_third2(&steps), Err(refusal(11, 1)), "{step:?}");
    }
    // The largest volume's word 16, and its longest plan with fences.
    let image = fresh2([16, 1, 2, 16, 0]);
    let mut steps = planned(&image, 0, 65_536);
    assert_eq!(steps.len(), 36 * STEP);
    while steps.len() < 64 * STEP {
        assert_eq!(check_write(&image, 0, 65_536, &steps), Ok(()));
        steps.extend(plan(&[[4, 0, 0, 0]]));
    }
    assert_eq!(check_write(&image, 0, 65_536, &steps), Ok(()));
    steps.extend(plan(&[[4, 0, 0, 0]]));
    assert_eq!(check_write(&image, 0, 65_536, &steps), Err(refusal(11, 1)));
    // In edition 1, word P breaks rule 1.
    let mut steps = third_plan();
    steps[5][2] = 4;
    let answer = check_write(&before_third(), 0, 5120, &plan(&steps));
    assert_eq!(answer, Err(refusal(11, 1)));
}

/// "the request's size (rule 3), and word j+1 is piece j's unit or X": "A size
/// in these limits that is not the request's breaks rule 3, also where it takes
/// as many units"; "A plan without word 0 breaks rule 3" (Decision 66).
#[test]
fn rule_3_in_edition_2() {
    let broken = |edit: &dyn Fn(&mut Vec<[u32; 4]>)| {
        let mut steps = third_plan2();
        edit(&mut steps);
        assert_eq!(check_third2(&steps), Err(refusal(11, 3)), "{steps:?}");
    };
    for size in [1, 4096, 4097, 5119, 5121, 8192, 8193, 16_384] {
        broken(&|s| s[2][3] = size);
    }
    // Word 0 missing, or twice.
    broken(&|s| _ = s.remove(2));
    broken(&|s| s.insert(2, s[2]));
    broken(&|s| s[2] = s[3]);
    // Units one word too far down: word 0 taken for a unit's.
    broken(&|s| {
        s[2][3] = 3;
        s[3][3] = 4;
        s[4][3] = X32;
    });
    broken(&|s| s[3][3] = 4);
    broken(&|s| s[6][3] = 5);
    broken(&|s| s[4][3] = X32);
    // The order before the fence is free.
    let mut steps = third_plan2();
    steps[..7].reverse();
    assert_eq!(check_third2(&steps), Ok(()));
}

/// "A plan made for the other edition has one word too few or too many"
/// (Decision 66).
#[test]
fn plans_of_the_other_edition() {
    // Edition 1's plan: word 0 says 3 bytes, and word 4 is missing.
    assert_eq!(check_third2(&third_plan()), Err(refusal(11, 3)));
    // Unit 0 in word 0 is no size.
    let first = planned(&small(), 2, 6144);
    assert_eq!(check_write(&small2(), 2, 6144, &first), Err(refusal(11, 1)));
    // Edition 2's plan has word 4, and a size that is no unit.
    let answer = check_write(&before_third(), 0, 5120, &plan(&third_plan2()));
    assert_eq!(answer, Err(refusal(11, 1)));
}

/// Carrying out stores the size as any other word.
#[test]
fn carrying_out_in_edition_2() {
    let plan = plan(&third_plan2());
    let before = before_third2();
    let stores = [
        (3, 14, 5120),
        (4, 15, 3),
        (5, 16, 4),
        (6, 17, X),
        (7, 18, X),
        (9, 0, 2),
    ];
    for n in 0..=10u64 {
        let mut image = before.clone();
        let mut expected = before.clone();
        carry_write(&mut image, 0, 5120, &plan, n).unwrap();
        for (step, word, value) in stores {
            if step <= n {
                put(&mut expected, word, value);
            }
        }
        assert_eq!(image, expected, "after {n} steps");
        let due = if n < 9 { 3072 } else { 5120 };
        assert_eq!(stored_size(&image, 0), Ok(due));
    }
    let mut image = before.clone();
    let carried = carry_write(&mut image, 0, 5120, &plan, 11);
    assert_eq!(carried, Err(refusal(7, 0)));
    assert_eq!(image, before);
}

/// Split, access, report and alarm ask nothing of the words of a map.
#[test]
fn the_other_calls_answer_alike() {
    let (one, two) = (worked(), worked2());
    let (mut pieces, mut pieces2) = ([0; 48], [0; 48]);
    assert_eq!(split(&one, 4096, 20_480, &mut pieces), Ok(2));
    assert_eq!(split(&two, 4096, 20_480, &mut pieces2), Ok(2));
    assert_eq!(pieces, pieces2);
    for (write, offset) in [(true, 0), (false, 0), (true, 16_384), (false, 32_768)] {
        for length in [4096, 16_384] {
            let asked = access(&one, write, offset, length);
            assert_eq!(access(&two, write, offset, length), asked);
        }
    }
    assert_eq!(report(&one), report(&two));
    for count in 15..18 {
        assert_eq!(alarm_count(&one, count), alarm_count(&two, count));
    }
    for fraction in [0.75, 0.8, 0.875, f64::NAN] {
        let sounds = alarm_fraction(&one, fraction);
        assert_eq!(alarm_fraction(&two, fraction), sounds);
    }
}

/// A repair unlinks a chunk whose size does not take its units, as any other
/// with a bad map, and what that map names counts for nobody.
#[test]
fn a_repair_in_edition_2() {
    let mut image = worked2();
    set2(&mut image, 1, 3, 4097, [3, X, X, X]);
    let damaged = image.clone();
    let mut out = [0xA5; 8];
    assert_eq!(repair(&mut image, &mut out[..3]), Err(refusal(10, 4)));
    assert_eq!(image, damaged);
    assert_eq!(repair(&mut image, &mut out), Ok(1));
    assert_eq!(out, [1, 0, 0, 0, 0xA5, 0xA5, 0xA5, 0xA5]);
    let mut expected = damaged.clone();
    put(&mut expected, 1, X);
    assert_eq!(image, expected);
    // With a size that takes one unit, both sides of the clash go.
    image = damaged;
    put(&mut image, 4 + 15, 4096);
    assert_eq!(repair(&mut image, &mut out), Ok(2));
    assert_eq!(out, [0, 0, 0, 0, 1, 0, 0, 0]);
    assert_eq!(repair(&mut worked2(), &mut []), Ok(0));
}

/// "a converter from 1 to 2 [..] into a second buffer, where the size is
/// k·4,096 and maps that no chunk names become X throughout".
#[test]
fn the_example_converted() {
    // The dead map 1 still names unit 2; maps 3 and 4 hold litter.
    let mut image = worked();
    for word in 16..24 {
        put(&mut image, word, word as u64);
    }
    let mut out = [0x5A; 272];
    assert_eq!(convert(&image, &mut out), Ok(272));
    let mut expected = small2();
    set2(&mut expected, 0, 2, 8192, [3, 4, X, X]);
    set2(&mut expected, 2, 0, 8192, [0, 1, X, X]);
    assert_eq!(out[..], expected);
    assert_eq!(load(&out), load(&image));
    assert_eq!(shape(&out).map(|shape| shape.edition), Ok(2));
    // "an edition 2 input gives 2", also the converter's own.
    let mut again = [0x5A; 272];
    assert_eq!(convert(&out, &mut again), Err(refusal(2, 0)));
    assert_eq!(again, [0x5A; 272]);
    // A fresh image becomes a fresh image.
    assert_eq!(convert(&small(), &mut again), Ok(272));
    assert_eq!(again[..], small2());
}

/// "a buffer not of exactly the new length gives 10": "shorter or longer, with
/// the new length as its place" (Decision 69).
#[test]
fn the_converters_room() {
    for len in (0..600).filter(|&len| len != 272) {
        let mut out = vec![0x5A; len];
        assert_eq!(convert(&worked(), &mut out), Err(refusal(10, 272)));
        assert_eq!(out, vec![0x5A; len]);
    }
}

/// "The converter gives 1; then 2 on whatever is not read as edition 1, sound
/// or damaged, since the lowest number wins; then 3 to 6; then 10" (69).
#[test]
fn what_the_converter_refuses() {
    let refused = |image: &[u8], due: Refusal| {
        for len in [0, 271, 272, 273] {
            let mut out = vec![0x5A; len];
            assert_eq!(convert(image, &mut out), Err(due));
            assert_eq!(out, vec![0x5A; len]);
        }
    };
    refused(&worked()[..31], refusal(1, 0));
    refused(&worked()[..40], refusal(2, 0));
    refused(&worked()[8..], refusal(3, 0));
    // Edition 2: sound, with a bad trailer, with bad tables.
    refused(&worked2(), refusal(2, 0));
    refused(&worked2()[8..], refusal(2, 0));
    let mut image = worked2();
    put32(&mut image, 268, 1);
    put(&mut image, 1, 5);
    refused(&image, refusal(2, 0));
    // Read as edition 1, and no geometry.
    image[240..246].copy_from_slice(b"RMAP\x01\x00");
    refused(&image, refusal(3, 0));
    let mut image = worked();
    put(&mut image, 1, 5);
    refused(&image, refusal(4, 1));
    put(&mut image, 1, 4);
    refused(&image, refusal(5, 1));
    put(&mut image, 1, 0);
    refused(&image, shared(1, 2));
}

/// Every chunk raw, in the largest volume: 41,256 bytes.
#[test]
fn the_largest_image_converted() {
    let mut image = fresh(16, 256, 288, 4608);
    for chunk in (0..256).rev() {
        write(&mut image, chunk, 65_536 - 4096 * (chunk % 16));
    }
    let mut out = vec![0; MAX_IMAGE2_LEN];
    assert_eq!(convert(&image, &mut out), Ok(41_256));
    assert_eq!(load(&out), load(&image));
    for chunk in 0..256 {
        assert_eq!(held_units(&out, chunk), held_units(&image, chunk));
        assert_eq!(get(&out, chunk as usize), get(&image, chunk as usize));
        assert_eq!(stored_size(&out, chunk), stored_size(&image, chunk));
    }
}
