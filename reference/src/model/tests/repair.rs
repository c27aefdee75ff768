//! Repair (02, request 3) on hand-made images of the 224-byte volume.

use super::*;

/// Chunk 0 on units 0 and 1 by map 0, chunk 1 on unit 2 by map 1, chunk 2 on
/// units 3 to 6 by map 2, chunk 3 on units 7 to 9 by map 3. Map 4 is dead and
/// holds litter, units of others among it.
fn sound() -> Vec<u8> {
    let mut image = small();
    set(&mut image, 0, 0, [0, 1, X, X]);
    set(&mut image, 1, 1, [2, X, X, X]);
    set(&mut image, 2, 2, [3, 4, 5, 6]);
    set(&mut image, 3, 3, [7, 8, 9, X]);
    words(&mut image, 4, [X, 0, 1 << 40, 0]);
    image
}

/// The words of a map.
fn words(image: &mut [u8], map: usize, words: [u64; 4]) {
    for (i, word) in words.into_iter().enumerate() {
        put(image, 4 + 4 * map + i, word);
    }
}

/// Repairs a copy, and holds all of it to the list that is due: number of
/// chunks, list, every byte of the image and of the lent output.
fn repairs(image: &[u8], due: &[u32]) {
    let mut repaired = image.to_vec();
    let mut out = [0xA5; 24];
    assert_eq!(repair(&mut repaired, &mut out), Ok(due.len() as u64));
    let mut list = [0xA5; 24];
    let mut expected = image.to_vec();
    for (at, &chunk) in due.iter().enumerate() {
        put32(&mut list, LISTED * at, chunk);
        put(&mut expected, chunk as usize, X);
    }
    assert_eq!(out, list);
    assert_eq!(repaired, expected);

    // "The result is sound", "and a second repair changes nothing."
    assert!(load(&repaired).is_ok());
    assert_eq!(repair(&mut repaired, &mut []), Ok(0));
    assert_eq!(repaired, expected);
}

#[test]
fn a_sound_image_comes_back_unchanged() {
    repairs(&sound(), &[]);
    repairs(&small(), &[]);
    repairs(&worked(), &[]);
    repairs(&fresh(2, 1, 2, 2), &[]);
    repairs(&fresh(16, 256, 288, 4608), &[]);
}

#[test]
fn a_bad_link_goes() {
    // X is 64 bits wide, and so is a map's number.
    for link in [5, 6, X - 1, (1 << 32) - 1, 1 << 32, (1 << 32) + 1, 1 << 63] {
        for chunk in 0..4 {
            let mut image = sound();
            put(&mut image, chunk, link);
            repairs(&image, &[chunk as u32]);
        }
    }
    let mut image = sound();
    put(&mut image, 1, 5);
    put(&mut image, 3, 5);
    repairs(&image, &[1, 3]);
}

#[test]
fn a_bad_map_goes() {
    for bad in [
        // Empty, though named.
        [X, X, X, X],
        // A gap, and X first.
        [2, X, 10, X],
        [X, 2, X, X],
        [X, X, X, 2],
        // No units.
        [20, X, X, X],
        [2, 20, X, X],
        [2, 10, 11, 20],
        [2, X - 1, X, X],
        [2, (1 << 32) - 1, X, X],
        [2, (1 << 32) + 10, X, X],
        // Behind an X, too.
        [2, X, X, 20],
        [2, X, X, X - 1],
    ] {
        let mut image = sound();
        words(&mut image, 1, bad);
        repairs(&image, &[1]);
    }
}

#[test]
fn chunks_that_share_a_map_go() {
    // Chunk 1 on chunk 3's map; its own map 1 is dead then.
    let mut image = sound();
    put(&mut image, 1, 3);
    repairs(&image, &[1, 3]);
    // 01's case: chunks 0 and 3 both name map 0.
    let mut image = small();
    set(&mut image, 0, 0, [7, X, X, X]);
    put(&mut image, 3, 0);
    repairs(&image, &[0, 3]);
    // All of them on one map.
    for chunk in 0..4 {
        put(&mut image, chunk, 0);
    }
    repairs(&image, &[0, 1, 2, 3]);
    // Shared, but bad: both go for that.
    let mut image = sound();
    put(&mut image, 0, 2);
    words(&mut image, 2, [3, X, 5, X]);
    repairs(&image, &[0, 2]);
}

#[test]
fn chunks_that_share_a_unit_go() {
    // The first, a middle and the last word of a map.
    for at in 0..4 {
        let mut image = sound();
        put(&mut image, 4 + 4 * 2 + at, 1);
        repairs(&image, &[0, 2]);
    }
    // One unit for three chunks.
    let mut image = sound();
    words(&mut image, 0, [9, X, X, X]);
    words(&mut image, 2, [9, X, X, X]);
    repairs(&image, &[0, 2, 3]);
    // The last unit of the volume.
    words(&mut image, 0, [0, 19, X, X]);
    words(&mut image, 2, [19, 5, X, X]);
    repairs(&image, &[0, 2]);
}

#[test]
fn a_chunk_that_names_a_unit_twice_goes() {
    for twice in [[2, 2, X, X], [2, 10, 2, X], [10, 11, 2, 2], [2, 2, 2, 2]] {
        let mut image = sound();
        words(&mut image, 1, twice);
        repairs(&image, &[1]);
    }
    // Whoever shares that unit goes with it.
    let mut image = sound();
    words(&mut image, 1, [9, 9, X, X]);
    repairs(&image, &[1, 3]);
}

#[test]
fn several_faults_at_once() {
    let mut image = sound();
    put(&mut image, 0, X - 1);
    words(&mut image, 1, [X, X, X, X]);
    words(&mut image, 2, [3, 3, X, X]);
    repairs(&image, &[0, 1, 2]);
    put(&mut image, 3, 2);
    repairs(&image, &[0, 1, 2, 3]);
    // Two clashes that have nothing to do with each other.
    let mut image = sound();
    words(&mut image, 0, [6, X, X, X]);
    words(&mut image, 1, [8, X, X, X]);
    repairs(&image, &[0, 1, 2, 3]);
    // A bad link and a clash; the chunk between them stays.
    let mut image = sound();
    put(&mut image, 3, 5);
    words(&mut image, 0, [2, X, X, X]);
    repairs(&image, &[0, 1, 3]);
}

/// "among chunks with good links and maps" (02, request 3).
#[test]
fn a_bad_map_claims_nothing() {
    // Chunk 2's bad map names all units of chunks 0 and 1.
    for bad in [[0, 1, 2, 20], [0, X, 1, 2], [20, 0, 1, 2]] {
        let mut image = sound();
        words(&mut image, 2, bad);
        repairs(&image, &[2]);
    }
    // Two bad maps with one unit, which chunk 3 holds.
    let mut image = sound();
    words(&mut image, 0, [8, 8, 20, X]);
    words(&mut image, 2, [8, X, X, 8]);
    repairs(&image, &[0, 2]);
    // A bad link, of which a careless reading makes map 1.
    let mut image = sound();
    put(&mut image, 0, (1 << 32) + 1);
    repairs(&image, &[0]);
}

/// All are judged at once: that chunk 1 goes because of chunk 0 is no reason
/// for chunk 2 to stay.
#[test]
fn of_a_chain_all_go() {
    // By units: 0 and 1 share unit 2, 1 and 2 share unit 10.
    let mut image = sound();
    words(&mut image, 0, [0, 2, X, X]);
    words(&mut image, 1, [2, 10, X, X]);
    words(&mut image, 2, [10, 4, X, X]);
    repairs(&image, &[0, 1, 2]);
    // By a map and a unit: 0 and 3 share map 0, whose unit 1 chunk 2 names.
    let mut image = sound();
    put(&mut image, 3, 0);
    words(&mut image, 2, [1, 4, X, X]);
    repairs(&image, &[0, 2, 3]);
    // Of a chain whose middle is bad, both ends stay.
    let mut image = sound();
    words(&mut image, 0, [0, 2, X, X]);
    words(&mut image, 1, [2, 10, 20, X]);
    words(&mut image, 2, [10, 4, X, X]);
    repairs(&image, &[1]);
}

/// "A map that no chunk names may hold anything" (01), before a repair and
/// after it.
#[test]
fn dead_maps_stay_as_they_are() {
    for litter in [[0, 0, 1, 2], [20, X, 3, X - 1], [X, X, X, X], [3, 4, 5, 6]] {
        let mut image = sound();
        words(&mut image, 4, litter);
        repairs(&image, &[]);
        // Chunk 1 is unmapped, so that its map is dead, and chunk 3 goes.
        put(&mut image, 1, X);
        words(&mut image, 1, litter);
        put(&mut image, 3, 5);
        repairs(&image, &[3]);
    }
}

#[test]
fn what_a_repair_frees_can_be_written() {
    let mut image = sound();
    put(&mut image, 1, 0);
    assert_eq!(repair(&mut image, &mut [0; 8]), Ok(2));
    let free: Vec<u64> = [0, 1, 2].into_iter().chain(10..20).collect();
    assert_eq!(free_units(&image), free);
    assert_eq!(free_maps(&image), [0, 1, 4]);
    write(&mut image, 3, 4096);
    assert_eq!(held_units(&image, 3), [0]);
    assert_eq!(held_units(&image, 2), [3, 4, 5, 6]);
}

/// "A list buffer too short gives 10", with the bytes needed, "A refusal
/// changes nothing lent".
#[test]
fn the_lists_room() {
    let mut image = sound();
    put(&mut image, 0, 5);
    words(&mut image, 1, [9, X, X, X]);
    let damaged = image.clone();
    for room in 0..12 {
        let mut out = vec![0xA5; room];
        assert_eq!(repair(&mut image, &mut out), Err(refusal(10, 12)));
        assert_eq!(image, damaged);
        assert_eq!(out, vec![0xA5; room]);
    }
    for room in 12..17 {
        let mut image = damaged.clone();
        let mut out = vec![0xA5; room];
        assert_eq!(repair(&mut image, &mut out), Ok(3));
        assert_eq!(out[..12], [0, 0, 0, 0, 1, 0, 0, 0, 3, 0, 0, 0]);
        assert!(out[12..].iter().all(|&byte| byte == 0xA5));
    }
    // An empty list needs no room.
    assert_eq!(repair(&mut sound(), &mut []), Ok(0));
}

/// "Answers 1 to 3 still refuse", whatever the tables hold and however short
/// the list buffer is.
#[test]
fn the_trailer_is_judged_first() {
    let mut image = sound();
    put(&mut image, 0, 5);
    let refused = |image: &[u8], number: u64| {
        let mut copy = image.to_vec();
        let mut out = [0xA5; 8];
        assert_eq!(repair(&mut copy, &mut out), Err(refusal(number, 0)));
        assert_eq!(repair(&mut copy, &mut []), Err(refusal(number, 0)));
        assert_eq!(copy, image);
        assert_eq!(out, [0xA5; 8]);
    };
    refused(&image[193..], 1);
    refused(&[], 1);
    refused(&image[8..], 3);
    for (at, number) in [(192, 2), (196, 2), (198, 3), (200, 3), (212, 3), (220, 3)] {
        let mut image = image.clone();
        image[at] ^= 1;
        refused(&image, number);
    }
    // The lowest number wins.
    image[198] = 1;
    image[193] = 0;
    refused(&image, 2);
}

#[test]
fn every_chunk_of_the_largest_volume() {
    let mut image = fresh(16, 256, 288, 4608);
    for chunk in 0..256 {
        put(&mut image, chunk, 287 - chunk as u64);
        // Each on the next one's unit, too.
        for at in 0..2 {
            let unit = (chunk + at) as u64 % 256;
            put(&mut image, 256 + 16 * (287 - chunk) + at, unit);
        }
    }
    let damaged = image.clone();
    let mut out = [0; 1024];
    let short = repair(&mut image, &mut out[..1023]);
    assert_eq!(short, Err(refusal(10, 1024)));
    assert_eq!(image, damaged);
    assert_eq!(repair(&mut image, &mut out), Ok(256));
    assert!((0..256).all(|chunk| get(&image, chunk) == X));
    assert_eq!(image[2048..], damaged[2048..]);
    for (chunk, slot) in (0u32..).zip(out.chunks_exact(4)) {
        assert_eq!(slot, chunk.to_le_bytes());
    }
}
