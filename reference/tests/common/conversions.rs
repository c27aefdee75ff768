//! What has to hold of every conversion that the library answers, asked of its
//! own bytes and calls without the model's converter: "into a second buffer,
//! where the size is k·4,096 and maps that no chunk names become X throughout"
//! (02, request 4); "Entries, map numbers and the order of units stay, so the
//! free units and maps are the same. It writes every byte of its buffer."
//! (Decision 69) "the converter writes 0" for R (02, request 5).

use std::fmt::Write;

use sumbilak_reference::ffi::{self, LOAD_WORDS};
use sumbilak_reference::inputs::{self, Edition, X};

use super::cases::{Case, Outcome};
use super::repairs;

/// The flaws of a conversion that the library answered, and rightly so. Empty
/// if there are none.
pub fn flaws(at: u64, case: &Case, library: &Outcome) -> String {
    let mut text = String::new();
    let mut flaw = |good: bool, what: &str| {
        if !good {
            let _ = writeln!(text, "  {what}");
        }
    };
    let one = repairs::shape(&case.image);
    let two = one.in_edition(Edition::Two);
    let (image, out) = (&case.image, &library.out);
    if one.edition != Edition::One || out.len() != two.image_len() {
        return "  no image of edition 1, or a buffer of another length\n".to_string();
    }
    flaw(library.answer[3] == out.len() as u64, "bytes written");

    // It loads as edition 2, and the free sets are equal.
    let shape = ffi::shape(out);
    let numbers = [shape.number, shape.edition, shape.p, shape.c, shape.m];
    let due = [0, 2, one.p, one.c, one.m];
    let rest = [shape.place, shape.second, shape.r];
    flaw(
        numbers == due && shape.n == one.n && rest == [0; 3],
        "the result is no image of edition 2 with the same numbers",
    );
    let mut words = [[1; LOAD_WORDS], [2; LOAD_WORDS]];
    let loaded = [
        ffi::load(image, &mut words[0]),
        ffi::load(out, &mut words[1]),
    ];
    let answered = |answer: &ffi::CAnswer| [answer.number, answer.value] == [0, 0];
    flaw(
        loaded.iter().all(answered) && words[0] == words[1],
        "other free sets, or a reserved unit",
    );
    flaw(out.ends_with(&[0; 8]), "the last two numbers are not 0");

    // Every chunk has the same map number, and the same units in the same
    // order; each named map's size is k·4,096.
    let mut named = vec![false; one.m as usize];
    for chunk in 0..one.c {
        let map = inputs::entry(image, chunk);
        flaw(inputs::entry(out, chunk) == map, "an entry has changed");
        if map == X {
            continue;
        }
        named[map as usize] = true;
        let unit_words = |shape: &inputs::Shape, image: &[u8]| -> Vec<u64> {
            (0..shape.p)
                .map(|j| inputs::word(image, shape.unit_at(map, j)))
                .collect()
        };
        let units = unit_words(&one, image);
        flaw(unit_words(&two, out) == units, "a map's units have changed");
        let k = units.iter().filter(|&&unit| unit != X).count() as u64;
        let size = inputs::word(out, two.word_at(map, 0));
        flaw(size == 4096 * k, "a size is not k·4,096");
    }
    // Maps that no chunk names are X throughout.
    for map in (0..one.m).filter(|&map| !named[map as usize]) {
        let absent = |word| inputs::word(out, two.word_at(map, word)) == X;
        let all = (0..two.map_words()).all(absent);
        flaw(all, "a map that no chunk names is not absent throughout");
    }

    // The calls say the same of a chunk.
    let chunk = at % one.c;
    let part = |image: &[u8]| -> Vec<u8> {
        let held = ffi::held(image, chunk);
        let from = held.value as usize;
        image[from..from + held.extent as usize].to_vec()
    };
    flaw(part(image) == part(out), "other held words");
    let sizes = [image, out].map(|image| ffi::stored_size(image, chunk));
    flaw(
        sizes[0] == sizes[1] && sizes[0].number == 0,
        "another stored size",
    );

    // "an edition 2 input gives 2"
    let mut again = vec![0xA5; out.len()];
    let second = ffi::convert(out, &mut again);
    let fields = [second.number, second.place, second.second];
    let nothing = [second.value, second.extent] == [0, 0];
    flaw(
        fields == [2, 0, 0] && nothing && again.iter().all(|&byte| byte == 0xA5),
        "a second conversion does not give 2",
    );
    text
}
