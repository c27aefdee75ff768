//! One call with an index, and what it answers and leaves: by the library, in
//! guarded memory; by the model; and by the library's scanning call of the same
//! name.

use std::fmt::Write;

use sumbilak_reference::ffi::{self, CAnswer, CIndex, COpened, CReport};
use sumbilak_reference::inputs::{decode, Shape as Geometry};
use sumbilak_reference::model::{self, index, Access, Answer, Refusal, Shape};

use crate::guard::{Pages, Stand};

pub const WORDS: usize = ffi::INDEX_WORDS;
/// The bytes of an index's words.
pub const WORDS_BYTES: u64 = 616;
/// More than any image here, damaged ones with too many bytes too, or than the
/// longest plan or words.
const MOST_BYTES: usize = 256 * 1024;

/// A call of the index's part of the C interface.
#[derive(Clone, Copy, Debug)]
pub enum Call {
    Open,
    PlanWrite {
        chunk: u64,
        size: u64,
    },
    PlanDiscard {
        chunk: u64,
    },
    CheckWrite {
        chunk: u64,
        size: u64,
    },
    CheckDiscard {
        chunk: u64,
    },
    CarryWrite {
        chunk: u64,
        size: u64,
        n: u64,
    },
    CarryDiscard {
        chunk: u64,
        n: u64,
    },
    Access {
        write: bool,
        offset: u64,
        length: u64,
    },
    Held {
        chunk: u64,
    },
    StoredSize {
        chunk: u64,
    },
    Report,
    AlarmCount {
        units: u64,
    },
    AlarmFraction {
        fraction: f64,
    },
}

pub const NAMES: [&str; 13] = [
    "open",
    "plan_write",
    "plan_discard",
    "check_write",
    "check_discard",
    "carry_write",
    "carry_discard",
    "access",
    "held",
    "stored_size",
    "report",
    "alarm_count",
    "alarm_fraction",
];

impl Call {
    /// The place of its name.
    pub fn number(&self) -> usize {
        match self {
            Call::Open => 0,
            Call::PlanWrite { .. } => 1,
            Call::PlanDiscard { .. } => 2,
            Call::CheckWrite { .. } => 3,
            Call::CheckDiscard { .. } => 4,
            Call::CarryWrite { .. } => 5,
            Call::CarryDiscard { .. } => 6,
            Call::Access { .. } => 7,
            Call::Held { .. } => 8,
            Call::StoredSize { .. } => 9,
            Call::Report => 10,
            Call::AlarmCount { .. } => 11,
            Call::AlarmFraction { .. } => 12,
        }
    }

    /// Writes or discards by its plan, with a step count.
    pub fn carries(&self) -> Option<u64> {
        match *self {
            Call::CarryWrite { n, .. } | Call::CarryDiscard { n, .. } => Some(n),
            _ => None,
        }
    }
}

/// All that a call is lent.
#[derive(Clone, Debug)]
pub struct Case {
    pub call: Call,
    pub index: Shape,
    pub sets: Vec<u64>,
    pub image: Vec<u8>,
    pub out: Vec<u8>,
    pub plan: Vec<u8>,
    /// Where the image, the plan and the output stand; the words are the other
    /// way round.
    pub stand: Stand,
}

/// Everything that a call may answer or change.
#[derive(Clone, Debug, PartialEq, Eq)]
pub struct Outcome {
    /// The answer's fields in order, ratios as their bits, an index last.
    pub answer: [u64; 11],
    pub sets: Vec<u64>,
    pub image: Vec<u8>,
    pub out: Vec<u8>,
    pub plan: Vec<u8>,
}

impl Outcome {
    pub fn number(&self) -> u64 {
        self.answer[0]
    }
}

/// A geometry as an index has it.
pub fn index_of(shape: &Geometry) -> Shape {
    let Geometry { p, c, m, n, r, .. } = *shape;
    Shape {
        edition: shape.edition.number(),
        p,
        c,
        m,
        n,
        r,
    }
}

pub fn in_c(index: &Shape) -> CIndex {
    let Shape {
        edition,
        p,
        c,
        m,
        n,
        r,
    } = *index;
    CIndex {
        edition,
        p,
        c,
        m,
        n,
        r,
    }
}

fn padded<const GIVEN: usize>(fields: [u64; GIVEN]) -> [u64; 11] {
    let mut answer = [0; 11];
    answer[..GIVEN].copy_from_slice(&fields);
    answer
}

fn plain(answer: CAnswer) -> [u64; 11] {
    let CAnswer {
        number,
        place,
        second,
        value,
        extent,
    } = answer;
    padded([number, place, second, value, extent])
}

fn opened(opened: COpened) -> [u64; 11] {
    let COpened { answer, index } = opened;
    let mut fields = plain(answer);
    let CIndex {
        edition,
        p,
        c,
        m,
        n,
        r,
    } = index;
    fields[5..].copy_from_slice(&[edition, p, c, m, n, r]);
    fields
}

fn report(report: CReport) -> [u64; 11] {
    padded([
        report.number,
        report.place,
        report.second,
        report.mapped,
        report.held,
        report.free,
        report.saved,
        report.held_ratio.to_bits(),
        report.saved_ratio.to_bits(),
    ])
}

fn fields<T>(answer: Answer<T>, good: impl FnOnce(T) -> [u64; 11]) -> [u64; 11] {
    answer.map_or_else(
        |refusal| {
            let Refusal {
                number,
                place,
                second,
            } = refusal;
            padded([number, place, second])
        },
        good,
    )
}

fn value(value: u64) -> [u64; 11] {
    padded([0, 0, 0, value])
}

fn done((): ()) -> [u64; 11] {
    [0; 11]
}

/// What the model makes of the case.
pub fn by_model(case: &Case) -> Outcome {
    let mut sets = case.sets.clone();
    let mut image = case.image.clone();
    let mut out = case.out.clone();
    let plan = &case.plan;
    let at = &case.index;
    let sounds = |sounds| value(u64::from(sounds));
    let answer = match case.call {
        Call::Open => fields(index::open(&image, &mut sets), |shape| {
            let Shape {
                edition,
                p,
                c,
                m,
                n,
                r,
            } = shape;
            [0, 0, 0, 0, 0, edition, p, c, m, n, r]
        }),
        Call::PlanWrite { chunk, size } => {
            let planned = index::plan_write(at, &sets, &image, chunk, size, &mut out);
            fields(planned, value)
        }
        Call::PlanDiscard { chunk } => {
            let planned = index::plan_discard(at, &sets, &image, chunk, &mut out);
            fields(planned, value)
        }
        Call::CheckWrite { chunk, size } => fields(
            index::check_write(at, &sets, &image, chunk, size, plan),
            done,
        ),
        Call::CheckDiscard { chunk } => {
            fields(index::check_discard(at, &sets, &image, chunk, plan), done)
        }
        Call::CarryWrite { chunk, size, n } => {
            let carried = index::carry_write(at, &mut sets, &mut image, chunk, size, plan, n);
            fields(carried, done)
        }
        Call::CarryDiscard { chunk, n } => {
            let carried = index::carry_discard(at, &mut sets, &mut image, chunk, plan, n);
            fields(carried, done)
        }
        Call::Access {
            write,
            offset,
            length,
        } => {
            let access = index::access(at, &sets, &image, write, offset, length);
            fields(access, |access| {
                value(match access {
                    Access::ReadsNothing => 0,
                    Access::ReadsZeros => 1,
                    Access::ReadsChunk => 2,
                })
            })
        }
        Call::Held { chunk } => fields(index::held(at, &sets, &image, chunk), |part| {
            padded([0, 0, 0, part.start as u64, part.len() as u64])
        }),
        Call::StoredSize { chunk } => fields(index::stored_size(at, &sets, &image, chunk), value),
        Call::Report => fields(index::report(at, &sets, &image), |report| {
            padded([
                0,
                0,
                0,
                report.mapped,
                report.held,
                report.free,
                report.saved,
                report.held_ratio.to_bits(),
                report.saved_ratio.to_bits(),
            ])
        }),
        Call::AlarmCount { units } => fields(index::alarm_count(at, &sets, &image, units), sounds),
        Call::AlarmFraction { fraction } => {
            fields(index::alarm_fraction(at, &sets, &image, fraction), sounds)
        }
    };
    Outcome {
        answer,
        sets,
        image,
        out,
        plan: case.plan.clone(),
    }
}

/// What the library's scanning call of the same name makes of it; it has no
/// words to change. Load's words stand for open's.
pub fn by_scan(case: &Case) -> Outcome {
    let mut sets = case.sets.clone();
    let mut image = case.image.clone();
    let mut out = case.out.clone();
    let plan = &case.plan;
    let answer = match case.call {
        Call::Open => {
            let mut words = [0; ffi::LOAD_WORDS];
            let answer = ffi::load(&image, &mut words);
            if answer.number == 0 {
                sets[..WORDS].copy_from_slice(&words[4..]);
            }
            let shape = ffi::shape(&image);
            let CAnswer {
                number,
                place,
                second,
                ..
            } = answer;
            let ffi::CShape {
                edition,
                p,
                c,
                m,
                n,
                r,
                ..
            } = shape;
            [number, place, second, 0, 0, edition, p, c, m, n, r]
        }
        Call::PlanWrite { chunk, size } => plain(ffi::plan_write(&image, chunk, size, &mut out)),
        Call::PlanDiscard { chunk } => plain(ffi::plan_discard(&image, chunk, &mut out)),
        Call::CheckWrite { chunk, size } => plain(ffi::check_write(&image, chunk, size, plan)),
        Call::CheckDiscard { chunk } => plain(ffi::check_discard(&image, chunk, plan)),
        Call::CarryWrite { chunk, size, n } => {
            plain(ffi::carry_write(&mut image, chunk, size, plan, n))
        }
        Call::CarryDiscard { chunk, n } => plain(ffi::carry_discard(&mut image, chunk, plan, n)),
        Call::Access {
            write,
            offset,
            length,
        } => plain(ffi::access(&image, write, offset, length)),
        Call::Held { chunk } => plain(ffi::held(&image, chunk)),
        Call::StoredSize { chunk } => plain(ffi::stored_size(&image, chunk)),
        Call::Report => report(ffi::report(&image)),
        Call::AlarmCount { units } => plain(ffi::alarm_count(&image, units)),
        Call::AlarmFraction { fraction } => plain(ffi::alarm_fraction(&image, fraction)),
    };
    Outcome {
        answer,
        sets,
        image,
        out,
        plan: case.plan.clone(),
    }
}

/// Guarded memory for one call of the library.
pub struct Bench {
    sets: Pages,
    image: Pages,
    out: Pages,
    plan: Pages,
}

impl Bench {
    pub fn new() -> Self {
        Bench {
            sets: Pages::new(MOST_BYTES),
            image: Pages::new(MOST_BYTES),
            out: Pages::new(MOST_BYTES),
            plan: Pages::new(MOST_BYTES),
        }
    }

    /// What the library makes of the case. It must keep to what it is lent.
    pub fn by_library(&mut self, case: &Case) -> Outcome {
        let other_way = match case.stand {
            Stand::First => Stand::Last,
            Stand::Last => Stand::First,
            within => within,
        };
        let mut sets = self.sets.lend(&case.sets, other_way);
        let mut image = self.image.lend(&case.image, case.stand);
        let mut out = self.out.lend(&case.out, case.stand);
        let plan = self.plan.lend(&case.plan, case.stand);
        let at = in_c(&case.index);
        let answer = match case.call {
            Call::Open => opened(ffi::open(image.slice(), sets.slice_mut())),
            Call::PlanWrite { chunk, size } => plain(ffi::index_plan_write(
                at,
                sets.slice(),
                image.slice(),
                chunk,
                size,
                out.slice_mut(),
            )),
            Call::PlanDiscard { chunk } => plain(ffi::index_plan_discard(
                at,
                sets.slice(),
                image.slice(),
                chunk,
                out.slice_mut(),
            )),
            Call::CheckWrite { chunk, size } => plain(ffi::index_check_write(
                at,
                sets.slice(),
                image.slice(),
                chunk,
                size,
                plan.slice(),
            )),
            Call::CheckDiscard { chunk } => plain(ffi::index_check_discard(
                at,
                sets.slice(),
                image.slice(),
                chunk,
                plan.slice(),
            )),
            Call::CarryWrite { chunk, size, n } => plain(ffi::index_carry_write(
                at,
                sets.slice_mut(),
                image.slice_mut(),
                chunk,
                size,
                plan.slice(),
                n,
            )),
            Call::CarryDiscard { chunk, n } => plain(ffi::index_carry_discard(
                at,
                sets.slice_mut(),
                image.slice_mut(),
                chunk,
                plan.slice(),
                n,
            )),
            Call::Access {
                write,
                offset,
                length,
            } => plain(ffi::index_access(
                at,
                sets.slice(),
                image.slice(),
                write,
                offset,
                length,
            )),
            Call::Held { chunk } => plain(ffi::index_held(at, sets.slice(), image.slice(), chunk)),
            Call::StoredSize { chunk } => plain(ffi::index_stored_size(
                at,
                sets.slice(),
                image.slice(),
                chunk,
            )),
            Call::Report => report(ffi::index_report(at, sets.slice(), image.slice())),
            Call::AlarmCount { units } => plain(ffi::index_alarm_count(
                at,
                sets.slice(),
                image.slice(),
                units,
            )),
            Call::AlarmFraction { fraction } => plain(ffi::index_alarm_fraction(
                at,
                sets.slice(),
                image.slice(),
                fraction,
            )),
        };
        let intact = sets.intact() && image.intact() && out.intact() && plan.intact();
        assert!(intact, "cells outside were changed\n{}", describe(case));
        Outcome {
            answer,
            sets: sets.slice().to_vec(),
            image: image.slice().to_vec(),
            out: out.slice().to_vec(),
            plan: plan.slice().to_vec(),
        }
    }

    /// Library against model: answer, words and every byte. A refusal alters
    /// nothing, and only a carrying out alters words or image. Answers the
    /// library's outcome.
    pub fn compare(&mut self, case: &Case) -> Outcome {
        let library = self.by_library(case);
        let model = by_model(case);
        if library != model {
            let text = differences("model", &model, &library);
            panic!("library and model differ\n{text}{}", describe(case));
        }
        let untouched = library.sets == case.sets && library.image == case.image;
        let unwritten = library.out == case.out;
        let kept = match case.call {
            _ if library.number() != 0 => untouched && unwritten,
            Call::Open => library.image == case.image && unwritten,
            Call::PlanWrite { .. } | Call::PlanDiscard { .. } => untouched,
            _ if case.call.carries().is_some() => unwritten,
            _ => untouched && unwritten,
        };
        assert!(kept, "more was altered than may be\n{}", describe(case));
        assert_eq!(library.plan, case.plan, "the plan was altered");
        library
    }
}

/// Where two outcomes differ.
pub fn differences(other: &str, due: &Outcome, library: &Outcome) -> String {
    let mut text = String::new();
    if due.answer != library.answer {
        let _ = writeln!(
            text,
            "  answer: {other} {:?}\n          library {:?}",
            due.answer, library.answer
        );
    }
    let words = due.sets.iter().zip(&library.sets).enumerate();
    for (at, (due, library)) in words.filter(|(_, (due, library))| due != library) {
        let _ = writeln!(text, "  word {at}: {other} {due:#x} library {library:#x}");
    }
    for (what, due, library) in [
        ("image", &due.image, &library.image),
        ("output", &due.out, &library.out),
        ("plan", &due.plan, &library.plan),
    ] {
        if let Some(at) = (0..due.len()).find(|&at| due[at] != library[at]) {
            let end = due.len().min(at + 16);
            let _ = writeln!(
                text,
                "  {what} from byte {at}: {other} {:02X?} library {:02X?}",
                &due[at..end],
                &library[at..end]
            );
        }
    }
    text
}

/// The case in full.
pub fn describe(case: &Case) -> String {
    let mut text = format!("  call {:?} at {:?}\n", case.call, case.stand);
    let _ = writeln!(text, "  index {:?}", case.index);
    let _ = writeln!(text, "  {} words {:x?}", case.sets.len(), case.sets);
    if case.image.len() <= 4096 {
        let bytes = case.image.iter().map(|byte| format!("{byte:02X}"));
        let bytes: String = bytes.collect();
        let _ = writeln!(text, "  image of {} bytes {bytes}", case.image.len());
    } else {
        let _ = writeln!(text, "  image of {} bytes", case.image.len());
    }
    let _ = writeln!(text, "  output of {} bytes", case.out.len());
    let _ = writeln!(text, "  plan of {} bytes", case.plan.len());
    for (at, step) in decode(&case.plan).iter().enumerate() {
        let _ = writeln!(text, "    step {at}: {step:?}");
    }
    text
}

/// The words that the scanning load gives for an image.
pub fn current_words(image: &[u8]) -> [u64; WORDS] {
    let mut words = [0; WORDS];
    let opened = ffi::open(image, &mut words);
    assert_eq!(opened.answer.number, 0, "the image is sound");
    words
}

/// The same by the model.
pub fn model_words(image: &[u8]) -> [u64; WORDS] {
    let loaded = model::load(image).expect("the image is sound");
    let mut words = [0; WORDS];
    words[..72].copy_from_slice(&loaded.units);
    words[72..].copy_from_slice(&loaded.maps);
    words
}
