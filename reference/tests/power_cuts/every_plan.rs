//! Every plan of a few steps, on the smallest volume.

use std::collections::BTreeSet;

use sumbilak_reference::inputs::{encode, Fields, Shape, FENCE as FENCE_STEP, X32};

use crate::event::{Request, DATA, LINK, MAP};
use crate::rules::check;

/// Sizes of edition 2 that are tried: the request's, one of as many units and
/// one of more.
const SIZES: [u32; 3] = [4096, 4095, 8192];

/// Every step that keeps rule 1 on a volume of this geometry; of the sizes, the
/// few above.
fn alphabet(shape: &Shape) -> Vec<Fields> {
    let Shape { p, c, m, n, .. } = *shape;
    let [p, c, m, n] = [p, c, m, n].map(|limit| limit as u32);
    let mut steps = vec![FENCE_STEP];
    for piece in 0..p {
        steps.extend((0..n).map(|unit| [DATA, unit, piece, 0]));
    }
    let first = shape.size_words() as u32;
    for map in 0..m {
        for word in first..first + p {
            let values = (0..n).chain([X32]);
            steps.extend(values.map(|value| [MAP, map, word, value]));
        }
        for word in 0..first {
            steps.extend(SIZES.map(|size| [MAP, map, word, size]));
        }
    }
    for chunk in 0..c {
        let values = (0..m).chain([X32]);
        steps.extend(values.map(|value| [LINK, chunk, 0, value]));
    }
    steps
}

/// Checks every plan of so many steps followed by `end`; answers how many
/// there are and which the library accepts.
pub fn accepted(
    shape: &Shape,
    image: &[u8],
    request: Request,
    length: usize,
    end: &[Fields],
) -> (u64, BTreeSet<Vec<u8>>) {
    let alphabet: Vec<Vec<u8>> = alphabet(shape)
        .iter()
        .map(|step| encode(&[*step]))
        .collect();
    let mut digits = vec![0; length];
    let mut plan: Vec<u8> = alphabet[0].repeat(length);
    plan.extend(encode(end));
    let mut accepted = BTreeSet::new();
    let mut tried = 0;
    loop {
        tried += 1;
        let answer = check(image, request, &plan);
        match answer.number {
            0 => drop(accepted.insert(plan.clone())),
            11 => assert!((2..=5).contains(&answer.place), "rule 1 is kept"),
            other => panic!("refusal {other} of a good request"),
        }
        // The next plan: the last digit first.
        let Some(at) = (0..length).rposition(|at| digits[at] + 1 < alphabet.len()) else {
            return (tried, accepted);
        };
        digits[at] += 1;
        digits[at + 1..].fill(0);
        for at in at..length {
            plan[16 * at..16 * at + 16].copy_from_slice(&alphabet[digits[at]]);
        }
    }
}
