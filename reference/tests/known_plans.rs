//! Plans that are kept step by step, with the answer that is due, asked of the
//! model and of the library: what request 6 of 02 refuses and was accepted
//! before, on the 64 KB volume that 01 works through.

use sumbilak_reference::ffi;
use sumbilak_reference::inputs::{encode, Fields, FENCE, X, X32};
use sumbilak_reference::model;

/// C 4, P 4, M 5, N 20, as 01 has the trailer "whole".
const TRAILER: [u8; 32] = [
    0x52, 0x4D, 0x41, 0x50, 0x01, 0x00, 0x04, 0x00, 0x04, 0x00, 0x00, 0x00, 0x05, 0x00, 0x00, 0x00,
    0x14, 0x00, 0x00, 0x00, 0xC0, 0x00, 0x00, 0x00, 0xA0, 0x00, 0x00, 0x00, 0xE0, 0x00, 0x00, 0x00,
];

/// 01's volume after its first two writes: chunk 2 on units 0 and 1 by map 0,
/// chunk 0 on unit 2 by map 1. Units 3 and 4 are the lowest that are free.
const ENTRIES: [u64; 4] = [1, X, 0, X];
const MAPS: [[u64; 4]; 5] = [[0, 1, X, X], [2, X, X, X], [X; 4], [X; 4], [X; 4]];

/// The third write, 5,120 bytes to chunk 0, on units 5 and 9 by map 2: legal but
/// for its units, which are free and not the lowest.
const SCATTERED: [Fields; 9] = [
    [1, 5, 0, 0],
    [1, 9, 1, 0],
    [2, 2, 0, 5],
    [2, 2, 1, 9],
    [2, 2, 2, X32],
    [2, 2, 3, X32],
    FENCE,
    [3, 0, 0, 2],
    FENCE,
];

/// The same with its pieces on units 4 and 3: the lowest, in the wrong order.
const SWAPPED: [Fields; 9] = [
    [1, 4, 0, 0],
    [1, 3, 1, 0],
    [2, 2, 0, 4],
    [2, 2, 1, 3],
    [2, 2, 2, X32],
    [2, 2, 3, X32],
    FENCE,
    [3, 0, 0, 2],
    FENCE,
];

/// On units 3 and 4, by the last map and in another order than the planner's,
/// with a FENCE more: all that is the maker's to choose.
const LOWEST: [Fields; 10] = [
    [2, 4, 3, X32],
    [1, 4, 1, 0],
    [2, 4, 0, 3],
    FENCE,
    [2, 4, 2, X32],
    [1, 3, 0, 0],
    [2, 4, 1, 4],
    FENCE,
    [3, 0, 0, 4],
    FENCE,
];

fn image(entries: [u64; 4], maps: [[u64; 4]; 5]) -> Vec<u8> {
    let words = entries.into_iter().chain(maps.into_iter().flatten());
    let mut image: Vec<u8> = words.flat_map(u64::to_le_bytes).collect();
    image.extend(TRAILER);
    assert_eq!(image.len(), 224);
    image
}

/// Number and place of a refusal.
fn pair(answer: model::Answer<()>) -> [u64; 2] {
    answer.map_or_else(|refusal| [refusal.number, refusal.place], |()| [0, 0])
}

/// What the model and the library say of the third write by this plan. Carrying
/// out each number of steps gives the same, and a refusal changes no byte.
fn verdict(image: &[u8], steps: &[Fields]) -> [u64; 2] {
    let plan = encode(steps);
    let answer = pair(model::check_write(image, 0, 5120, &plan));
    let library = ffi::check_write(image, 0, 5120, &plan);
    assert_eq!([library.number, library.place], answer);
    for n in 0..=steps.len() as u64 {
        let mut copies = [image.to_vec(), image.to_vec()];
        let carried = model::carry_write(&mut copies[0], 0, 5120, &plan, n);
        assert_eq!(pair(carried), answer);
        let library = ffi::carry_write(&mut copies[1], 0, 5120, &plan, n);
        assert_eq!([library.number, library.place], answer);
        assert_eq!(copies[0], copies[1]);
        assert!(answer == [0, 0] || copies[0] == image);
    }
    answer
}

/// "A plan on other free units, accepted until now, gives 11 with rule 2." (02,
/// request 6)
#[test]
fn a_plan_accepted_until_request_6_gives_11_with_rule_2() {
    let before_third = image(ENTRIES, MAPS);
    assert_eq!(verdict(&before_third, &SCATTERED), [11, 2]);
    // Nothing else is wrong with it: where chunks 1 and 3 hold what lies below
    // and between, its units are the lowest that are free.
    let mut maps = MAPS;
    maps[3] = [3, 4, 6, 7];
    maps[4] = [8, X, X, X];
    let fuller = image([1, 3, 0, 4], maps);
    assert_eq!(verdict(&fuller, &SCATTERED), [0, 0]);
}

/// "piece 0 on the lowest" (02, request 6).
#[test]
fn the_lowest_units_in_the_wrong_order_give_11_with_rule_2() {
    assert_eq!(verdict(&image(ENTRIES, MAPS), &SWAPPED), [11, 2]);
}

/// "The choice of map stays free." (02, request 6)
#[test]
fn the_lowest_units_by_any_free_map_and_in_any_order_pass() {
    assert_eq!(verdict(&image(ENTRIES, MAPS), &LOWEST), [0, 0]);
}
