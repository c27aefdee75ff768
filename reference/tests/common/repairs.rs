//! What has to hold of every repair that the library answers, asked of its own
//! answer and bytes without the model's repair: "Only the entries of those
//! chunks change, to X; the list of unlinked chunks comes out in rising order,
//! a u32 each. The result is sound, a sound image comes back unchanged with an
//! empty list, and a second repair changes nothing." (02, request 3)

use std::collections::BTreeSet;
use std::fmt::Write;

use sumbilak_reference::ffi::{self, LOAD_WORDS};
use sumbilak_reference::inputs::{self, Edition, Shape, X};

use super::cases::{Case, Outcome};

/// Up to so many chunks each two are compared in every case; above, in every
/// one of so many cases. It takes the square of the chunks.
const FEW_CHUNKS: u64 = 40;
const ONE_OF: u64 = 25;

/// Edition and numbers as an image's trailer has them, in their limits or not:
/// edition 1's where the last 32 bytes begin with its tag and version, else
/// edition 2's, for which there must be 40 bytes.
pub fn shape(image: &[u8]) -> Shape {
    let first = &image[image.len() - 32..];
    let (edition, trailer) = if first.starts_with(b"RMAP\x01\x00") {
        (Edition::One, first)
    } else {
        (Edition::Two, &image[image.len() - 40..])
    };
    let number = |at: usize, bytes: usize| {
        let bytes = trailer[at..at + bytes].iter().rev();
        bytes.fold(0, |number, &byte| number << 8 | u64::from(byte))
    };
    Shape {
        edition,
        p: number(6, 2),
        c: number(8, 4),
        m: number(12, 4),
        n: number(16, 4),
        r: match edition {
            Edition::One => 0,
            Edition::Two => number(32, 4),
        },
    }
}

/// A chunk that names a map.
struct Linked {
    chunk: u64,
    map: u64,
    words: Vec<u64>,
    units: BTreeSet<u64>,
}

/// The chunks to unlink, chunk against chunk, as the sentence has it.
fn pairwise(shape: &Shape, image: &[u8]) -> Vec<u64> {
    let mut unlinked = BTreeSet::new();
    // "unlinks every chunk with a bad link or bad map"
    let mut good = Vec::new();
    for chunk in 0..shape.c {
        let map = inputs::entry(image, chunk);
        if map == X {
            continue;
        }
        if map >= shape.m {
            unlinked.insert(chunk);
            continue;
        }
        let words = inputs::units_in(shape, image, map);
        let k = words.len() as u64;
        let mut after = (k..shape.p).map(|at| inputs::word(image, shape.unit_at(map, at)));
        let size = inputs::size_in(shape, image, map).unwrap_or(4096 * k);
        if k == 0 || after.any(|word| word != X) || size.div_ceil(4096) != k {
            unlinked.insert(chunk);
            continue;
        }
        let units = words.iter().copied().collect();
        good.push(Linked {
            chunk,
            map,
            words,
            units,
        });
    }
    // "and then, among chunks with good links and maps, every chunk that
    // shares a map or unit with another or names a unit twice"
    for one in &good {
        let shares = |other: &Linked| one.map == other.map || !one.units.is_disjoint(&other.units);
        let mut others = good.iter().filter(|other| other.chunk != one.chunk);
        if others.any(shares) || one.units.len() < one.words.len() {
            unlinked.insert(one.chunk);
        }
    }
    unlinked.into_iter().collect()
}

/// What is wrong with a repair that the library answered, and rightly so: the
/// trailer is good and the list has room. Empty if nothing is. `listed` are the
/// chunks that another reading unlinks.
pub fn flaws(at: u64, case: &Case, library: &Outcome, listed: &[u64]) -> String {
    let mut text = String::new();
    let mut flaw = |good: bool, what: &str| {
        if !good {
            let _ = writeln!(text, "  {what}");
        }
    };
    let shape = shape(&case.image);
    let value = library.answer[3] as usize;
    if value > shape.c as usize || 4 * value > library.out.len() {
        return format!("  {value} chunks are no list\n");
    }
    let (list, rest) = library.out.split_at(4 * value);
    let list: Vec<u64> = list
        .chunks_exact(4)
        .map(|slot| u64::from(u32::from_le_bytes(slot.try_into().expect("four bytes"))))
        .collect();

    let loads = |image: &[u8]| ffi::load(image, &mut [0; LOAD_WORDS]).number;
    flaw(
        loads(&library.image) == 0,
        "the repaired image does not load",
    );

    let mut again = library.image.clone();
    let mut out = [0xA5; 8];
    let second = ffi::repair(&mut again, &mut out);
    let fields = [second.number, second.place, second.second, second.value];
    let unchanged = again == library.image && out == [0xA5; 8];
    flaw(
        fields == [0; 4] && second.extent == 0 && unchanged,
        "a second repair finds something",
    );

    let rising = list.windows(2).all(|pair| pair[0] < pair[1]);
    flaw(rising, "the list does not rise");
    flaw(list.iter().all(|&c| c < shape.c), "no such chunk");
    flaw(rest == &case.out[4 * value..], "written past the list");
    let as_listed = |chunk: u64| {
        let before = inputs::entry(&case.image, chunk);
        let after = inputs::entry(&library.image, chunk);
        match list.binary_search(&chunk) {
            Ok(_) => before != X && after == X,
            Err(_) => before == after,
        }
    };
    let entries = (0..shape.c).all(as_listed);
    flaw(entries, "an entry is not as the list says");
    let maps = 8 * shape.c as usize;
    let kept = library.image[maps..] == case.image[maps..];
    flaw(kept, "a byte past the entries has changed");

    match loads(&case.image) {
        0 => flaw(
            value == 0 && library.image == case.image,
            "a sound image was changed",
        ),
        4..=6 => flaw(value > 0, "of an unsound image nothing was unlinked"),
        other => flaw(false, &format!("load gives {other}")),
    }

    flaw(list == listed, "the claims give another list");
    if shape.c <= FEW_CHUNKS || at.is_multiple_of(ONE_OF) {
        let pairs = pairwise(&shape, &case.image);
        flaw(list == pairs, "chunk against chunk gives another list");
    }
    text
}
