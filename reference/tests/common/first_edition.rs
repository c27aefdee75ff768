//! Rows 1 to 3 as document 01 alone has them, for an image of which nobody
//! knows that there is a second edition: "Edition 1 code must give 2 on it."
//! (02, request 4)

use super::cases::{Call, Case, Outcome};
use super::rows::Verdict;

/// What is wrong if edition 1 code does not give 2 on the sound image of edition
/// 2 that an answered call was given or has left: a format and a converter write
/// one, a repair makes one.
pub fn flaw_of_two(case: &Case, library: &Outcome) -> &'static str {
    let image = match case.call {
        Call::Convert => &library.out,
        _ => &library.image,
    };
    match refusal(image) {
        2 => "",
        _ => "  edition 1 code does not give 2 on a sound image of edition 2\n",
    }
}

/// What is wrong if edition 1 code says anything else of rows 1 to 3 than is due,
/// on an image that is not of edition 2.
pub fn flaw_of_one(case: &Case, verdict: &Verdict) -> &'static str {
    let is_format = matches!(case.call, Call::Format { .. } | Call::Format2 { .. });
    if is_format || verdict.edition == 2 {
        return "";
    }
    let due = match verdict.rows().first() {
        Some(&row @ 1..=3) => row as u64,
        _ => 0,
    };
    match refusal(&case.image) {
        given if given == due => "",
        _ => "  edition 1 code gives another of rows 1 to 3\n",
    }
}

fn u32_at(bytes: &[u8], at: usize) -> u64 {
    u64::from(u32::from_le_bytes([
        bytes[at],
        bytes[at + 1],
        bytes[at + 2],
        bytes[at + 3],
    ]))
}

/// The lowest of rows 1 to 3 that holds, else 0.
pub fn refusal(image: &[u8]) -> u64 {
    // 1 SHORT: "image under 32 bytes".
    if image.len() < 32 {
        return 1;
    }
    // 2 FOREIGN: "first four trailer bytes or version wrong".
    let trailer = &image[image.len() - 32..];
    if trailer[..4] != [0x52, 0x4D, 0x41, 0x50] || trailer[4..6] != [1, 0] {
        return 2;
    }
    // 3 GEOMETRY: "a limit broken, or a distance or length that disagrees".
    let p = u64::from(u16::from_le_bytes([trailer[6], trailer[7]]));
    let [c, m, n] = [8, 12, 16].map(|at| u32_at(trailer, at));
    let limits = (2..=16).contains(&p)
        && (1..=256).contains(&c)
        && c < m
        && m <= c + 32
        && p <= n
        && n <= p * m;
    let tables = 8 * c + 8 * m * p;
    let agrees = u32_at(trailer, 20) == tables
        && u32_at(trailer, 24) == 8 * m * p
        && u32_at(trailer, 28) == tables + 32
        && image.len() as u64 == tables + 32;
    if !limits || !agrees {
        return 3;
    }
    0
}
