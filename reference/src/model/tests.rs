//! 01's worked cases, [P] and not, with 02's correction of the report, and what
//! the decisions fix. The other requests of 02 have files of their own.

use super::*;

mod edition2;
mod held_index;
mod lowest;
mod repair;
mod reserved;

const X: u64 = u64::MAX;
const X32: u32 = ABSENT;

/// The volume of 01's example: P 4, C 4, M 5, N 20.
fn small() -> Vec<u8> {
    fresh(4, 4, 5, 20)
}

fn fresh(p: u64, c: u64, m: u64, n: u64) -> Vec<u8> {
    let mut image = vec![0; (8 * c + 8 * m * p + 32) as usize];
    format(&mut image, p, c, m, n).expect("a good geometry");
    image
}

/// The same in edition 2, with R as the fifth number.
fn fresh2([p, c, m, n, r]: [u64; 5]) -> Vec<u8> {
    let mut image = vec![0; (8 * c + 8 * m * (p + 1) + 40) as usize];
    format2(&mut image, p, c, m, n, r).expect("a good geometry");
    image
}

fn refusal(number: u64, place: u64) -> Refusal {
    Refusal::at(number, place)
}

fn shared(first: u64, second: u64) -> Refusal {
    Refusal {
        number: 6,
        place: first,
        second,
    }
}

fn put(image: &mut [u8], word: usize, value: u64) {
    image[8 * word..8 * word + 8].copy_from_slice(&value.to_le_bytes());
}

fn get(image: &[u8], word: usize) -> u64 {
    u64::from_le_bytes(image[8 * word..8 * word + 8].try_into().unwrap())
}

/// Links a chunk of the small volume to a map with these words.
fn set(image: &mut [u8], chunk: usize, map: usize, words: [u64; 4]) {
    put(image, chunk, map as u64);
    for (i, word) in words.into_iter().enumerate() {
        put(image, 4 + 4 * map + i, word);
    }
}

/// The same in edition 2, with this size.
fn set2(image: &mut [u8], chunk: usize, map: usize, size: u64, units: [u64; 4]) {
    put(image, chunk, map as u64);
    put(image, 4 + 5 * map, size);
    for (i, unit) in units.into_iter().enumerate() {
        put(image, 4 + 5 * map + 1 + i, unit);
    }
}

fn put32(image: &mut [u8], at: usize, value: u32) {
    image[at..at + 4].copy_from_slice(&value.to_le_bytes());
}

fn plan(steps: &[[u32; 4]]) -> Vec<u8> {
    steps
        .iter()
        .flatten()
        .flat_map(|field| field.to_le_bytes())
        .collect()
}

fn planned(image: &[u8], chunk: u64, size: u64) -> Vec<u8> {
    let mut out = [0; STEP * 36];
    let steps = plan_write(image, chunk, size, &mut out).expect("a plan");
    out[..STEP * steps as usize].to_vec()
}

fn write(image: &mut [u8], chunk: u64, size: u64) {
    let plan = planned(image, chunk, size);
    let steps = (plan.len() / STEP) as u64;
    carry_write(image, chunk, size, &plan, steps).expect("the planner's plan");
}

fn discard(image: &mut [u8], chunk: u64) {
    let mut out = [0; STEP * 2];
    let steps = plan_discard(image, chunk, &mut out).expect("a plan");
    let plan = &out[..STEP * steps as usize];
    carry_discard(image, chunk, plan, steps).expect("the planner's plan");
}

fn held_units(image: &[u8], chunk: u64) -> Vec<u64> {
    let (words, rest) = image[held(image, chunk).unwrap()].as_chunks::<8>();
    assert!(rest.is_empty());
    words.iter().map(|word| u64::from_le_bytes(*word)).collect()
}

fn free_units(image: &[u8]) -> Vec<u64> {
    let units = load(image).unwrap().units;
    (0..72 * 64)
        .filter(|&u| units[u / 64] >> (u % 64) & 1 == 1)
        .map(|u| u as u64)
        .collect()
}

fn free_maps(image: &[u8]) -> Vec<u64> {
    let maps = load(image).unwrap().maps;
    (0..5 * 64)
        .filter(|&m| maps[m / 64] >> (m % 64) & 1 == 1)
        .map(|m| m as u64)
        .collect()
}

/// A fresh volume after the example's first two writes.
fn two_writes(mut image: Vec<u8>) -> Vec<u8> {
    write(&mut image, 2, 6144);
    write(&mut image, 0, 3072);
    image
}

/// The same after the third one.
fn three_writes(image: Vec<u8>) -> Vec<u8> {
    let mut image = two_writes(image);
    write(&mut image, 0, 5120);
    image
}

/// The example after its first three writes.
fn worked() -> Vec<u8> {
    three_writes(small())
}

/// Chunk 0 to map 2 as in the third write, hand-written.
fn third_plan() -> Vec<[u32; 4]> {
    vec![
        [1, 3, 0, 0],
        [1, 4, 1, 0],
        [2, 2, 0, 3],
        [2, 2, 1, 4],
        [2, 2, 2, X32],
        [2, 2, 3, X32],
        [4, 0, 0, 0],
        [3, 0, 0, 2],
        [4, 0, 0, 0],
    ]
}

/// The same in edition 2, on these units.
fn third_plan_on(units: [u32; 2]) -> Vec<[u32; 4]> {
    vec![
        [1, units[0], 0, 0],
        [1, units[1], 1, 0],
        [2, 2, 0, 5120],
        [2, 2, 1, units[0]],
        [2, 2, 2, units[1]],
        [2, 2, 3, X32],
        [2, 2, 4, X32],
        [4, 0, 0, 0],
        [3, 0, 0, 2],
        [4, 0, 0, 0],
    ]
}

/// The example before its third write.
fn before_third() -> Vec<u8> {
    two_writes(small())
}

#[test]
fn the_trailer_is_the_papers() {
    let image = small();
    assert_eq!(image.len(), 224);
    assert_eq!(
        image[192..],
        [
            0x52, 0x4D, 0x41, 0x50, 0x01, 0x00, 0x04, 0x00, 0x04, 0x00, 0x00, 0x00, 0x05, 0x00,
            0x00, 0x00, 0x14, 0x00, 0x00, 0x00, 0xC0, 0x00, 0x00, 0x00, 0xA0, 0x00, 0x00, 0x00,
            0xE0, 0x00, 0x00, 0x00
        ]
    );
    assert!(image[..192].iter().all(|&byte| byte == 0xFF));
}

#[test]
fn fresh_volume_is_all_free() {
    let image = small();
    let loaded = load(&image).unwrap();
    assert_eq!((loaded.p, loaded.c, loaded.m, loaded.n), (4, 4, 5, 20));
    assert_eq!(loaded.units[0], 0xF_FFFF);
    assert!(loaded.units[1..].iter().all(|&word| word == 0));
    assert_eq!(loaded.maps, [0x1F, 0, 0, 0, 0]);
    assert!(free_units(&image).into_iter().eq(0..20));
    assert!(free_maps(&image).into_iter().eq(0..5));
}

#[test]
fn the_three_writes() {
    let mut image = small();
    let first = planned(&image, 2, 6144);
    assert_eq!(first.len(), 9 * STEP);
    assert_eq!(
        first,
        plan(&[
            [1, 0, 0, 0],
            [1, 1, 1, 0],
            [2, 0, 0, 0],
            [2, 0, 1, 1],
            [2, 0, 2, X32],
            [2, 0, 3, X32],
            [4, 0, 0, 0],
            [3, 2, 0, 0],
            [4, 0, 0, 0],
        ])
    );
    write(&mut image, 2, 6144);
    assert_eq!(held_units(&image, 2), [0, 1]);
    assert_eq!(get(&image, 2), 0);

    write(&mut image, 0, 3072);
    assert_eq!(held_units(&image, 0), [2]);
    assert_eq!(get(&image, 0), 1);

    assert_eq!(planned(&image, 0, 5120), plan(&third_plan()));
    write(&mut image, 0, 5120);
    assert_eq!(held_units(&image, 0), [3, 4]);
    assert_eq!(get(&image, 0), 2);
    assert!(free_units(&image).contains(&2));
    assert_eq!(free_units(&image).len(), 16);
    assert_eq!(free_maps(&image), [1, 3, 4]);
    // The dead map still names unit 2, and nothing leaks.
    assert_eq!(get(&image, 4 + 4), 2);
}

#[test]
fn a_cut_before_the_link_shows_the_old_chunk() {
    let plan = plan(&third_plan());
    for n in 0..=7 {
        let mut image = before_third();
        carry_write(&mut image, 0, 5120, &plan, n).unwrap();
        assert_eq!(held_units(&image, 0), [2]);
    }
    for n in 8..=9 {
        let mut image = before_third();
        carry_write(&mut image, 0, 5120, &plan, n).unwrap();
        assert_eq!(held_units(&image, 0), [3, 4]);
    }
}

#[test]
fn carrying_out_stores_the_words_of_the_first_n_steps_only() {
    let plan = plan(&third_plan());
    let before = before_third();
    let stores = [
        (3, 4 + 8, 3),
        (4, 4 + 9, 4),
        (5, 4 + 10, X),
        (6, 4 + 11, X),
        (8, 0, 2),
    ];
    for n in 0..=9u64 {
        let mut image = before.clone();
        let mut expected = before.clone();
        carry_write(&mut image, 0, 5120, &plan, n).unwrap();
        for (step, word, value) in stores {
            if step <= n {
                put(&mut expected, word, value);
            }
        }
        assert_eq!(image, expected, "after {n} steps");
    }
}

#[test]
fn sizes_take_their_units() {
    let image = small();
    for (size, k) in [(1, 1), (4096, 1), (4097, 2), (16_384, 4)] {
        assert_eq!(planned(&image, 0, size).len(), STEP * (k + 4 + 3));
    }
    for size in [0, 16_385, 1 << 32, (1 << 32) + 1, u64::MAX] {
        let mut out = [0; 1024];
        assert_eq!(plan_write(&image, 0, size, &mut out), Err(refusal(8, 0)));
        assert_eq!(check_write(&image, 0, size, &[]), Err(refusal(8, 0)));
        let mut copy = image.clone();
        let carried = carry_write(&mut copy, 0, size, &[], 0);
        assert_eq!(carried, Err(refusal(8, 0)));
    }
}

#[test]
fn twenty_kilobytes_at_four() {
    let mut out = [0xAA; 30];
    assert_eq!(split(&small(), 4096, 20_480, &mut out), Ok(2));
    let mut expected = plan(&[[0, 4096, 12_288, 1], [0, 8192, 0, 0]]);
    expected.truncate(24);
    expected.extend([0xAA; 6]);
    assert_eq!(out[..], expected);
}

#[test]
fn two_chunks_on_one_map() {
    let mut image = small();
    write(&mut image, 0, 6144);
    put(&mut image, 3, 0);
    assert_eq!(load(&image), Err(shared(0, 3)));
}

#[test]
fn discard_of_an_unmapped_chunk() {
    let image = small();
    assert_eq!(plan_discard(&image, 1, &mut []), Ok(0));
    assert_eq!(check_discard(&image, 1, &[]), Ok(()));
    let fence = plan(&[[4, 0, 0, 0]]);
    assert_eq!(check_discard(&image, 1, &fence), Err(refusal(11, 5)));
}

#[test]
fn chunks_and_ranges_at_the_end() {
    let image = small();
    let mut out = [0; 256];
    assert!(plan_write(&image, 3, 1, &mut out).is_ok());
    assert_eq!(plan_write(&image, 4, 1, &mut out), Err(refusal(7, 0)));
    assert_eq!(split(&image, 0, 65_536, &mut out), Ok(4));
    assert_eq!(split(&image, 65_536, 4096, &mut out), Err(refusal(7, 0)));
    assert_eq!(split(&image, 0, 0, &mut out), Err(refusal(7, 0)));
    assert_eq!(split(&image, 65_536, 0, &mut out), Err(refusal(7, 0)));
}

#[test]
fn geometry_limits() {
    let try_format = |p: u64, c: u64, m: u64, n: u64| {
        let len = (8 * c + 8 * m * p + 32) as usize;
        format(&mut vec![0; len], p, c, m, n)
    };
    assert_eq!(try_format(4, 256, 257, 20), Ok(()));
    assert_eq!(try_format(4, 257, 258, 20), Err(refusal(3, 0)));
    assert_eq!(try_format(4, 4, 5, 20), Ok(()));
    assert_eq!(try_format(4, 4, 5, 21), Err(refusal(3, 0)));
    for (p, c, m, n) in [(2, 1, 2, 2), (16, 1, 33, 16), (16, 256, 288, 4608)] {
        assert_eq!(try_format(p, c, m, n), Ok(()));
    }
    for (p, c, m, n) in [
        (1, 4, 5, 5),
        (17, 4, 5, 20),
        (0, 4, 5, 0),
        (4, 0, 1, 4),
        (4, 4, 4, 16),
        (4, 4, 37, 20),
        (4, 4, 5, 3),
    ] {
        assert_eq!(try_format(p, c, m, n), Err(refusal(3, 0)));
    }
    let mut image = [0x55; 224];
    for (p, c, m, n) in [
        ((1 << 32) + 4, 4, 5, 20),
        (4, (1 << 32) + 4, 5, 20),
        (4, 4, (1 << 32) + 5, 20),
        (4, 4, 5, (1 << 32) + 20),
        (4, u64::MAX, 5, 20),
        (u64::MAX, u64::MAX, u64::MAX, u64::MAX),
    ] {
        assert_eq!(format(&mut image, p, c, m, n), Err(refusal(3, 0)));
    }
    assert_eq!(image, [0x55; 224]);
}

#[test]
fn the_largest_image() {
    let mut image = fresh(16, 256, 288, 4608);
    assert_eq!(image.len(), MAX_IMAGE_LEN);
    assert_eq!(free_units(&image).len(), 4608);
    assert_eq!(free_maps(&image).len(), 288);
    for chunk in 0..256 {
        write(&mut image, chunk, 65_536);
    }
    let figures = report(&image).unwrap();
    assert_eq!((figures.mapped, figures.held), (256, 4096));
    assert_eq!((figures.free, figures.saved), (512, 0));
    assert_eq!(planned(&image, 255, 65_536).len(), 35 * STEP);
    let mut out = [0; 256 * PIECE];
    assert_eq!(split(&image, 0, 256 * 65_536, &mut out), Ok(256));
    assert_eq!(
        split(&image, 0, 256 * 65_536, &mut out[1..]),
        Err(refusal(10, 3072))
    );
}

#[test]
fn enough_units_never_run_out() {
    // N = (C+1)·P: a raw rewrite of every chunk always has room.
    let mut image = fresh(2, 3, 4, 8);
    for chunk in [0, 1, 2, 0, 1, 2, 2, 1, 0] {
        write(&mut image, chunk, 8192);
    }
    // One unit less, and it has not once all chunks are raw.
    let mut image = fresh(2, 3, 4, 7);
    for chunk in 0..3 {
        write(&mut image, chunk, 8192);
    }
    let mut out = [0; 256];
    assert_eq!(plan_write(&image, 0, 8192, &mut out), Err(refusal(9, 1)));
    assert!(plan_write(&image, 0, 4096, &mut out).is_ok());
}

#[test]
fn the_alarm_of_the_example() {
    let image = worked();
    assert_eq!(alarm_fraction(&image, 0.75), Ok(false));
    assert_eq!(alarm_fraction(&image, 0.875), Ok(true));
    assert_eq!(alarm_fraction(&image, 0.8), Ok(false));
    for (count, sounds) in [(0, false), (16, false), (17, true), (u64::MAX, true)] {
        assert_eq!(alarm_count(&image, count), Ok(sounds));
    }
}

/// "After 01's third write it is 4 saved and 0.5" (02, request 1).
#[test]
fn the_report_of_the_example() {
    assert_eq!(
        report(&worked()),
        Ok(Report {
            mapped: 2,
            held: 4,
            free: 16,
            saved: 4,
            held_ratio: 0.2,
            saved_ratio: 0.5,
        })
    );
}

/// "the ratio is 0.0 when nothing is mapped" (02, request 1): +0.0, bit by bit.
#[test]
fn nothing_mapped_saves_nothing() {
    let nothing = |image: &[u8]| {
        let figures = report(image).unwrap();
        let counts = [figures.mapped, figures.held, figures.free, figures.saved];
        assert_eq!(counts, [0, 0, 20, 0]);
        assert_eq!(figures.held_ratio.to_bits(), 0);
        assert_eq!(figures.saved_ratio.to_bits(), 0);
    };
    nothing(&small());
    // All chunks written and discarded again: the dead maps still name units.
    let mut image = small();
    for chunk in 0..4 {
        write(&mut image, chunk, 6144);
    }
    for chunk in 0..4 {
        discard(&mut image, chunk);
    }
    assert_eq!(get(&image, 4), 0);
    nothing(&image);
}

/// One unit of P is the best that a chunk can do. The chunks that are not
/// mapped, few or many, change nothing.
#[test]
fn a_chunk_on_one_unit_saves_the_others() {
    for p in 2..=16 {
        for c in [1, 2, 256] {
            let mut image = fresh(p, c, c + 1, p * c);
            write(&mut image, c - 1, 1);
            let figures = report(&image).unwrap();
            assert_eq!((figures.mapped, figures.held), (1, 1));
            assert_eq!(figures.saved, p - 1);
            assert_eq!(figures.saved_ratio, (p - 1) as f64 / p as f64);
        }
    }
}

#[test]
fn raw_chunks_save_nothing() {
    let mut image = small();
    for chunk in 0..4 {
        write(&mut image, chunk, 16_384);
        let figures = report(&image).unwrap();
        assert_eq!((figures.mapped, figures.held), (chunk + 1, 4 * chunk + 4));
        assert_eq!(figures.saved, 0);
        assert_eq!(figures.saved_ratio.to_bits(), 0);
    }
}

/// "one rounded division" (01): the nearest f64 to 1/3 is below it, that to
/// 1/5 above. The rest of a whole, 1 less held/(mapped·P), is rounded twice and
/// gives another number for both.
#[test]
fn a_ratio_that_is_not_exact_is_rounded_once() {
    for (p, bits) in [(3, 0x3FD5_5555_5555_5555), (5, 0x3FC9_9999_9999_999A)] {
        let mut image = fresh(p, 2, 3, 2 * p);
        write(&mut image, 0, (p - 1) * UNIT);
        let figures = report(&image).unwrap();
        assert_eq!((figures.mapped, figures.saved), (1, 1));
        assert_eq!(figures.saved_ratio.to_bits(), bits);
        let rest = 1.0 - figures.held as f64 / p as f64;
        assert_ne!(rest.to_bits(), bits);
    }
}

/// The lines of 01's listing, from the model's answers.
#[test]
fn the_listing_of_the_example() {
    let image = worked();
    let loaded = load(&image).unwrap();
    let mut text = format!(
        "volume chunks {} per-chunk {} maps {} units {}\n",
        loaded.c, loaded.p, loaded.m, loaded.n
    );
    for chunk in 0..loaded.c {
        let units = held_units(&image, chunk);
        if units.is_empty() {
            text += &format!("chunk {chunk} unmapped\n");
        } else {
            text += &format!("chunk {chunk} map {} units", get(&image, chunk as usize));
            units.iter().for_each(|unit| text += &format!(" {unit}"));
            text += "\n";
        }
    }
    text += &format!("free-units {}\n", free_units(&image).len());
    text += &format!("free-maps {}\ns SOUND\n", free_maps(&image).len());
    assert_eq!(
        text,
        "volume chunks 4 per-chunk 4 maps 5 units 20\n\
         chunk 0 map 2 units 3 4\n\
         chunk 1 unmapped\n\
         chunk 2 map 0 units 0 1\n\
         chunk 3 unmapped\n\
         free-units 16\n\
         free-maps 3\n\
         s SOUND\n"
    );
}

#[test]
fn decision_1_nothing_wraps() {
    let image = small();
    let mut copy = image.clone();
    let mut out = [0; 256];
    let range = Err(refusal(7, 0));
    for chunk in [4, 1 << 32, (1 << 32) + 1, u64::MAX] {
        assert_eq!(plan_write(&image, chunk, 1, &mut out), range);
        assert_eq!(plan_discard(&image, chunk, &mut out), range);
        assert_eq!(held(&image, chunk), Err(refusal(7, 0)));
        assert_eq!(check_write(&image, chunk, 1, &[]), Err(refusal(7, 0)));
        assert_eq!(check_discard(&image, chunk, &[]), Err(refusal(7, 0)));
        let carried = carry_discard(&mut copy, chunk, &[], 0);
        assert_eq!(carried, Err(refusal(7, 0)));
    }
    for (offset, length) in [
        (u64::MAX - 4095, 8192),
        (u64::MAX - 4095, 4096),
        (4096, u64::MAX - 4095),
        (1 << 32, 4096),
        (0, (1 << 32) + 4096),
        (1, 4096),
        (0, 4097),
        (0, 69_632),
    ] {
        assert_eq!(split(&image, offset, length, &mut out), range);
        let asked = access(&image, false, offset, length);
        assert_eq!(asked, Err(refusal(7, 0)));
    }
}

#[test]
fn decision_2_only_row_6_has_a_second_place() {
    let image = worked();
    let mut bad_link = image.clone();
    put(&mut bad_link, 3, 5);
    let mut bad_map = image.clone();
    put(&mut bad_map, 3, 4);
    for refusal in [
        load(&image[..31]).unwrap_err(),
        load(&image[8..]).unwrap_err(),
        load(&bad_link).unwrap_err(),
        load(&bad_map).unwrap_err(),
        held(&image, 4).unwrap_err(),
        plan_write(&image, 3, 0, &mut []).unwrap_err(),
        plan_write(&image, 3, 1, &mut []).unwrap_err(),
        check_write(&image, 3, 1, &[]).unwrap_err(),
        alarm_fraction(&image, 2.0).unwrap_err(),
    ] {
        assert_eq!(refusal.second, 0);
    }
}

#[test]
fn decision_8_steps_and_pieces_are_little_endian() {
    let mut image = fresh(2, 256, 288, 576);
    // Units 0 to 511 and maps 0 to 255 are held.
    for chunk in 0..256 {
        write(&mut image, chunk, 8192);
    }
    let plan = planned(&image, 255, 1);
    assert_eq!(plan[..16], [1, 0, 0, 0, 0, 2, 0, 0, 0, 0, 0, 0, 0, 0, 0, 0]);
    assert_eq!(
        plan[16..32],
        [2, 0, 0, 0, 0, 1, 0, 0, 0, 0, 0, 0, 0, 2, 0, 0]
    );
    assert_eq!(plan[44..48], [0xFF; 4]);
    assert_eq!(
        plan[64..80],
        [3, 0, 0, 0, 255, 0, 0, 0, 0, 0, 0, 0, 0, 1, 0, 0]
    );
    let mut piece = [0; PIECE];
    assert_eq!(split(&image, 255 * 8192 + 4096, 4096, &mut piece), Ok(1));
    assert_eq!(piece, [255, 0, 0, 0, 0, 16, 0, 0, 0, 16, 0, 0]);
}

#[test]
fn decision_3_rows_4_to_6_in_turn() {
    let mut image = small();
    put(&mut image, 0, 0); // an empty map
    put(&mut image, 1, 5);
    assert_eq!(load(&image), Err(refusal(4, 1)));
    put(&mut image, 1, 0);
    assert_eq!(load(&image), Err(refusal(5, 0)));
    // A clash below a bad map: the bad map's row is lower.
    set(&mut image, 0, 0, [7, X, X, X]);
    set(&mut image, 1, 1, [7, X, X, X]);
    set(&mut image, 3, 2, [X, 3, X, X]);
    assert_eq!(load(&image), Err(refusal(5, 3)));
}

#[test]
fn decision_4_second_chunk_first() {
    // Clashes 0-3 and 1-2.
    let mut image = small();
    set(&mut image, 0, 0, [0, X, X, X]);
    set(&mut image, 1, 1, [1, X, X, X]);
    set(&mut image, 2, 2, [2, 1, X, X]);
    set(&mut image, 3, 3, [3, 0, X, X]);
    assert_eq!(load(&image), Err(shared(1, 2)));
    // The second chunk clashes with two lower ones: the lowest is named.
    set(&mut image, 2, 2, [1, 0, X, X]);
    assert_eq!(load(&image), Err(shared(0, 2)));
    // One unit twice in its own map, and a higher chunk on the same unit.
    let mut image = small();
    set(&mut image, 1, 0, [6, 5, 6, X]);
    set(&mut image, 2, 1, [6, X, X, X]);
    assert_eq!(load(&image), Err(shared(1, 1)));
    // Twice in its own map, and a lower chunk's as well.
    set(&mut image, 0, 4, [5, X, X, X]);
    assert_eq!(load(&image), Err(shared(0, 1)));
}

#[test]
fn decision_5_words_are_64_bits() {
    for entry in [5, 6, (1 << 32) + 1, (1 << 32) - 1, X - 1, 1 << 63] {
        let mut image = worked();
        put(&mut image, 1, entry);
        assert_eq!(load(&image), Err(refusal(4, 1)));
    }
    for words in [
        [X, X, X, X],
        [X, 9, X, X],
        [9, X, 10, X],
        [20, X, X, X],
        [9, 20, X, X],
        [9, (1 << 32) - 1, X, X],
        [9, X - 1, X, X],
        [(1 << 32) + 9, X, X, X],
        [9, X, X, (1 << 32) - 1],
    ] {
        let mut image = worked();
        set(&mut image, 1, 3, words);
        assert_eq!(load(&image), Err(refusal(5, 1)));
        put(&mut image, 1, X);
        assert!(load(&image).is_ok(), "a dead map may hold anything");
    }
    let mut image = worked();
    set(&mut image, 1, 3, [19, 5, 6, 7]);
    assert!(load(&image).is_ok(), "P units and no X");
}

#[test]
fn decision_6_the_slice_is_the_image() {
    let image = worked();
    let mut slack = vec![0xFF; 8];
    slack.extend(&image);
    assert_eq!(load(&slack), Err(refusal(3, 0)));
    // The length field follows the slice, and the geometry does not.
    let length_at = slack.len() - 4;
    put32(&mut slack, length_at, 232);
    assert_eq!(load(&slack), Err(refusal(3, 0)));
    // The other way round.
    let mut other = image.clone();
    put32(&mut other, 220, 232);
    assert_eq!(load(&other), Err(refusal(3, 0)));
    for at in [212, 216, 220] {
        for change in [1, u32::MAX] {
            let mut other = image.clone();
            let field = u32::from_le_bytes(other[at..at + 4].try_into().unwrap());
            put32(&mut other, at, field.wrapping_add(change));
            assert_eq!(load(&other), Err(refusal(3, 0)));
        }
    }
    for len in 0..32 {
        assert_eq!(load(&image[224 - len..]), Err(refusal(1, 0)));
        assert_eq!(load(&image[..len]), Err(refusal(1, 0)));
    }
    assert_eq!(load(&image[192..]), Err(refusal(3, 0)));
    for at in 192..198 {
        let mut other = image.clone();
        other[at] ^= 0x20;
        put32(&mut other, 220, 0); // row 3 as well: row 2 wins
        assert_eq!(load(&other), Err(refusal(2, 0)));
    }
}

#[test]
fn decision_7_bits_past_the_counts_are_zero() {
    let loaded = load(&fresh(3, 62, 63, 67)).unwrap();
    assert_eq!(loaded.units[..3], [u64::MAX, 7, 0]);
    assert_eq!(loaded.maps, [u64::MAX >> 1, 0, 0, 0, 0]);
}

#[test]
fn decision_9_format_gives_only_3() {
    for len in [0, 1, 31, 32, 223, 225, 448] {
        let mut image = vec![0x55; len];
        let answer = format(&mut image, 4, 4, 5, 20);
        assert_eq!(answer, Err(refusal(3, 0)));
        assert_eq!(image, vec![0x55; len]);
    }
    let mut image = [0; 224];
    assert_eq!(format(&mut image, 4, 4, 5, 20), Ok(()));
}

#[test]
fn decision_10_order_and_places_of_the_planner() {
    let mut image = fresh(2, 2, 3, 3);
    write(&mut image, 0, 8192);
    let mut out = [0xAA; 200];
    assert_eq!(plan_write(&image, 2, 0, &mut []), Err(refusal(7, 0)));
    assert_eq!(plan_write(&image, 0, 0, &mut []), Err(refusal(8, 0)));
    assert_eq!(plan_write(&image, 0, 8192, &mut []), Err(refusal(9, 1)));
    let too_short = plan_write(&image, 0, 1, &mut out[..95]);
    assert_eq!(too_short, Err(refusal(10, 96)));
    assert_eq!(out, [0xAA; 200]);
    assert_eq!(plan_write(&image, 0, 1, &mut out[..96]), Ok(6));
    assert_eq!(out[96..], [0xAA; 104]);

    assert_eq!(
        plan_discard(&image, 0, &mut out[..31]),
        Err(refusal(10, 32))
    );
    assert_eq!(plan_discard(&image, 0, &mut out[..32]), Ok(2));
    assert_eq!(out[..32], plan(&[[3, 0, 0, X32], [4, 0, 0, 0]]));
    assert_eq!(plan_discard(&image, 1, &mut []), Ok(0));

    let range = split(&image, 4096, 8192, &mut out[..23]);
    assert_eq!(range, Err(refusal(10, 24)));
    assert_eq!(split(&image, 4096, 8192, &mut out[..24]), Ok(2));
}

#[test]
fn decision_11_carrying_out() {
    let before = before_third();
    let mut image = before.clone();
    let good = plan(&third_plan());
    let mut carry = |chunk, size, plan: &[u8], n| {
        let answer = carry_write(&mut image, chunk, size, plan, n);
        assert_eq!(image, before, "a refusal, or no step, changes nothing");
        answer
    };
    assert_eq!(carry(0, 5120, &good, 10), Err(refusal(7, 0)));
    assert_eq!(carry(0, 5120, &good, u64::MAX), Err(refusal(7, 0)));
    assert_eq!(carry(0, 0, &good, 10), Err(refusal(7, 0)));
    assert_eq!(carry(0, 0, &good, 9), Err(refusal(8, 0)));
    assert_eq!(carry(0, 5120, &good[..143], 9), Err(refusal(7, 0)));
    assert_eq!(carry(0, 5120, &good[..143], 8), Err(refusal(11, 1)));
    assert_eq!(carry(0, 5120, &good, 0), Ok(()));
    assert_eq!(carry(0, 5120, &good[..128], 0), Err(refusal(11, 5)));
    // The whole steps are not capped at 64.
    let mut long = third_plan();
    long.resize(70, [4, 0, 0, 0]);
    assert_eq!(carry(0, 5120, &plan(&long), 70), Err(refusal(11, 1)));
    assert_eq!(carry(0, 5120, &plan(&long), 71), Err(refusal(7, 0)));
}

#[test]
fn decision_12_bad_requests_and_bad_chunks_in_plans() {
    let image = before_third();
    let mut steps = third_plan();
    assert_eq!(
        check_write(&image, 4, 5120, &plan(&steps)),
        Err(refusal(7, 0))
    );
    assert_eq!(check_write(&image, 0, 0, &plan(&steps)), Err(refusal(8, 0)));
    steps[7] = [3, 4, 0, 2];
    assert_eq!(
        check_write(&image, 0, 5120, &plan(&steps)),
        Err(refusal(11, 1))
    );
}

#[test]
fn decision_13_fences() {
    let image = before_third();
    let mut steps = third_plan();
    for at in [9, 8, 7, 6, 2, 1, 0] {
        steps.insert(at, [4, 0, 0, 0]);
        assert_eq!(check_write(&image, 0, 5120, &plan(&steps)), Ok(()));
    }
    steps.resize(64, [4, 0, 0, 0]);
    assert_eq!(check_write(&image, 0, 5120, &plan(&steps)), Ok(()));
    steps.push([4, 0, 0, 0]);
    assert_eq!(
        check_write(&image, 0, 5120, &plan(&steps)),
        Err(refusal(11, 1))
    );

    let link = [3, 0, 0, X32];
    let fence = [4, 0, 0, 0];
    let discard = |chunk, steps: &[[u32; 4]]| check_discard(&image, chunk, &plan(steps));
    assert_eq!(discard(0, &[link, fence]), Ok(()));
    assert_eq!(discard(0, &[fence, link, fence, fence]), Ok(()));
    assert_eq!(discard(0, &[]), Err(refusal(11, 4)));
    assert_eq!(discard(0, &[fence]), Err(refusal(11, 4)));
    assert_eq!(discard(0, &[link, link, fence]), Err(refusal(11, 4)));
    assert_eq!(discard(0, &[[3, 0, 0, 1], fence]), Err(refusal(11, 4)));
    assert_eq!(discard(0, &[[3, 2, 0, X32], fence]), Err(refusal(11, 4)));
    assert_eq!(discard(0, &[link]), Err(refusal(11, 5)));
    assert_eq!(discard(0, &[fence, link]), Err(refusal(11, 5)));
    let unmapped = [3, 1, 0, X32];
    assert_eq!(discard(1, &[unmapped]), Err(refusal(11, 4)));
    assert_eq!(discard(1, &[unmapped, fence]), Err(refusal(11, 4)));
    assert_eq!(discard(1, &[fence]), Err(refusal(11, 5)));
    assert_eq!(
        discard(0, &[[1, 5, 0, 0], link, fence]),
        Err(refusal(11, 2))
    );
    assert_eq!(
        discard(0, &[[2, 3, 0, 5], link, fence]),
        Err(refusal(11, 3))
    );
}

#[test]
fn decision_14_plan_lengths() {
    let image = before_third();
    assert_eq!(check_discard(&image, 1, &[]), Ok(()));
    assert_eq!(check_write(&image, 0, 1, &[]), Err(refusal(11, 2)));
    for len in 1..16 {
        assert_eq!(check_discard(&image, 1, &vec![0; len]), Err(refusal(11, 1)));
        let mut copy = image.clone();
        assert_eq!(
            carry_discard(&mut copy, 1, &vec![0; len], 1),
            Err(refusal(7, 0))
        );
        assert_eq!(
            carry_discard(&mut copy, 1, &vec![0; len], 0),
            Err(refusal(11, 1))
        );
    }
}

#[test]
fn decision_15_held_words() {
    let image = worked();
    // Map 2 begins after 4 entries and 2 maps of 4 words.
    assert_eq!(held(&image, 0), Ok(96..112));
    assert_eq!(held(&image, 2), Ok(32..48));
    assert_eq!(held(&image, 1), Ok(0..0));
    let mut image = small();
    write(&mut image, 3, 16_384);
    assert_eq!(held(&image, 3), Ok(32..64));
}

#[test]
fn decision_16_access() {
    let image = worked();
    for (write, offset, length, answer) in [
        (true, 0, 16_384, Ok(Access::ReadsNothing)),
        (true, 16_384, 16_384, Ok(Access::ReadsNothing)),
        (true, 0, 12_288, Ok(Access::ReadsChunk)),
        (true, 16_384, 4096, Ok(Access::ReadsZeros)),
        (false, 0, 16_384, Ok(Access::ReadsChunk)),
        (false, 16_384, 16_384, Ok(Access::ReadsZeros)),
        (false, 36_864, 4096, Ok(Access::ReadsChunk)),
        (true, 12_288, 8192, Err(refusal(7, 0))),
        (true, 0, 32_768, Err(refusal(7, 0))),
        (false, 65_536, 4096, Err(refusal(7, 0))),
        (false, 0, 0, Err(refusal(7, 0))),
    ] {
        assert_eq!(access(&image, write, offset, length), answer);
    }
}

#[test]
fn decision_17_fractions() {
    let least = f64::from_bits(1);
    let mut full = fresh(2, 1, 2, 2);
    let image = full.clone();
    write(&mut full, 0, 8192);
    for fraction in [-0.0, 0.0] {
        assert_eq!(alarm_fraction(&full, fraction), Ok(false));
    }
    assert_eq!(alarm_fraction(&full, least), Ok(true));
    assert_eq!(alarm_fraction(&image, least), Ok(false));
    assert_eq!(alarm_fraction(&full, 1.0), Ok(true));
    assert_eq!(alarm_fraction(&image, 1.0), Ok(false));
    for fraction in [
        f64::NAN,
        -f64::NAN,
        -least,
        -1.0,
        1.0 + f64::EPSILON,
        f64::INFINITY,
        f64::NEG_INFINITY,
    ] {
        assert_eq!(alarm_fraction(&image, fraction), Err(refusal(12, 0)));
    }
}

#[test]
fn rule_1_step_by_step() {
    let image = before_third();
    let changes: [(usize, [u32; 4]); 20] = [
        (0, [0, 3, 0, 0]),
        (0, [5, 3, 0, 0]),
        (0, [1, 20, 0, 0]),
        (0, [1, 3, 4, 0]),
        (0, [1, 3, 0, 1]),
        (0, [1, X32, 0, 0]),
        (2, [2, 5, 0, 3]),
        (2, [2, 2, 4, 3]),
        (2, [2, 2, 0, 20]),
        (2, [2, 2, 0, X32 - 1]),
        (2, [2, X32, 0, 3]),
        (7, [3, 4, 0, 2]),
        (7, [3, 0, 1, 2]),
        (7, [3, 0, 0, 5]),
        (7, [3, 0, 0, X32 - 1]),
        (7, [3, X32, 0, 2]),
        (6, [4, 1, 0, 0]),
        (6, [4, 0, 1, 0]),
        (8, [4, 0, 0, 1]),
        (8, [1 << 16, 0, 0, 0]),
    ];
    for (at, step) in changes {
        let mut steps = third_plan();
        steps[at] = step;
        let answer = check_write(&image, 0, 5120, &plan(&steps));
        assert_eq!(answer, Err(refusal(11, 1)), "{step:?}");
    }
}

#[test]
fn rules_2_to_5_of_a_write() {
    let image = before_third();
    let broken = |rule, edit: &dyn Fn(&mut Vec<[u32; 4]>)| {
        let mut steps = third_plan();
        edit(&mut steps);
        let answer = check_write(&image, 0, 5120, &plan(&steps));
        assert_eq!(answer, Err(refusal(11, rule)), "{steps:?}");
    };
    // Held by another chunk, by the chunk itself, one unit for two pieces.
    broken(2, &|s| (s[0][1], s[2][3]) = (0, 0));
    broken(2, &|s| (s[0][1], s[2][3]) = (2, 2));
    broken(2, &|s| (s[0][1], s[2][3]) = (4, 4));
    // A piece missing, twice, too many.
    broken(2, &|s| _ = s.remove(0));
    broken(2, &|s| s[1][2] = 0);
    broken(2, &|s| s.insert(0, [1, 5, 2, 0]));
    broken(2, &|s| s.insert(0, s[0]));
    // The map is named, two maps, a word missing or twice, a wrong word.
    broken(3, &|s| {
        s[2..6].iter_mut().for_each(|step| step[1] = 0);
        s[7][3] = 0;
    });
    broken(3, &|s| s[5][1] = 3);
    broken(3, &|s| _ = s.remove(4));
    broken(3, &|s| s[5][2] = 2);
    broken(3, &|s| s.insert(2, s[2]));
    broken(3, &|s| s[2][3] = 5);
    broken(3, &|s| s[2][3] = X32);
    broken(3, &|s| s[5][3] = 5);
    // No LINK, two, another chunk, another map, X.
    broken(4, &|s| _ = s.remove(7));
    broken(4, &|s| s.insert(7, s[7]));
    broken(4, &|s| s[7][1] = 1);
    broken(4, &|s| s[7][3] = 3);
    broken(4, &|s| s[7][3] = X32);
    // No fence before LINK, none at the end, DATA or MAP after it.
    broken(5, &|s| _ = s.remove(6));
    broken(5, &|s| _ = s.remove(8));
    broken(5, &|s| s.swap(0, 7));
    broken(5, &|s| s.swap(0, 8));
    broken(5, &|s| s.swap(5, 6));
    // The order before the fence is free, and another free map does.
    let mut steps = third_plan();
    steps[..6].reverse();
    assert_eq!(check_write(&image, 0, 5120, &plan(&steps)), Ok(()));
    let mut steps = third_plan();
    steps[2..6].iter_mut().for_each(|step| step[1] = 4);
    steps[7][3] = 4;
    assert_eq!(check_write(&image, 0, 5120, &plan(&steps)), Ok(()));
    // Other free units do not (02, request 6).
    broken(2, &|s| (s[0][1], s[2][3]) = (19, 19));
    // A lower rule wins over a higher one.
    broken(2, &|s| {
        s[0][1] = 0;
        s[7][3] = X32;
    });
    broken(1, &|s| {
        s[0][1] = 0;
        s[8] = [9, 9, 9, 9];
    });
}

#[test]
fn the_planners_plans_pass_at_every_size() {
    let mut image = fresh(5, 3, 6, 19);
    let mut out = [0; STEP * 36];
    for size in (1..=5).flat_map(|k| [4096 * (k - 1) + 1, 4096 * k]) {
        for chunk in 0..3 {
            match plan_write(&image, chunk, size, &mut out) {
                Ok(steps) => {
                    let plan = &out[..STEP * steps as usize];
                    assert_eq!(check_write(&image, chunk, size, plan), Ok(()));
                    carry_write(&mut image, chunk, size, plan, steps).unwrap();
                    assert_eq!(held_units(&image, chunk).len() as u64, size.div_ceil(UNIT));
                }
                Err(refusal) => assert_eq!(refusal.number, 9),
            }
        }
    }
    for chunk in 0..3 {
        let steps = plan_discard(&image, chunk, &mut out).unwrap();
        let plan = &out[..STEP * steps as usize];
        assert_eq!(check_discard(&image, chunk, plan), Ok(()));
        carry_discard(&mut image, chunk, plan, steps).unwrap();
        assert_eq!(held(&image, chunk), Ok(0..0));
    }
    assert_eq!(free_units(&image).len(), 19);
}
