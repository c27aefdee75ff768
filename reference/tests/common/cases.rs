//! One case: the bytes that are lent and one call on them; run by the model
//! and by the library, and compared byte for byte.

use std::fmt::Write;

use sumbilak_reference::ffi::{self, CAnswer, CReport, CShape, LOAD_WORDS};
use sumbilak_reference::inputs::Fields;
use sumbilak_reference::model::{self, Access, Answer, Refusal};

/// The entry points of the C interface.
#[derive(Clone, Copy, Debug, PartialEq, Eq)]
pub enum Entry {
    Format,
    Load,
    Split,
    Access,
    Held,
    PlanWrite,
    PlanDiscard,
    CheckWrite,
    CheckDiscard,
    CarryWrite,
    CarryDiscard,
    AlarmCount,
    AlarmFraction,
    Report,
    Repair,
    Format2,
    Shape,
    StoredSize,
    Convert,
}

impl Entry {
    pub const ALL: [Entry; 19] = [
        Entry::Format,
        Entry::Load,
        Entry::Split,
        Entry::Access,
        Entry::Held,
        Entry::PlanWrite,
        Entry::PlanDiscard,
        Entry::CheckWrite,
        Entry::CheckDiscard,
        Entry::CarryWrite,
        Entry::CarryDiscard,
        Entry::AlarmCount,
        Entry::AlarmFraction,
        Entry::Report,
        Entry::Repair,
        Entry::Format2,
        Entry::Shape,
        Entry::StoredSize,
        Entry::Convert,
    ];

    pub fn name(self) -> &'static str {
        match self {
            Entry::Format => "format",
            Entry::Load => "load",
            Entry::Split => "split",
            Entry::Access => "access",
            Entry::Held => "held",
            Entry::PlanWrite => "plan_write",
            Entry::PlanDiscard => "plan_discard",
            Entry::CheckWrite => "check_write",
            Entry::CheckDiscard => "check_discard",
            Entry::CarryWrite => "carry_write",
            Entry::CarryDiscard => "carry_discard",
            Entry::AlarmCount => "alarm_count",
            Entry::AlarmFraction => "alarm_fraction",
            Entry::Report => "report",
            Entry::Repair => "repair",
            Entry::Format2 => "format2",
            Entry::Shape => "shape",
            Entry::StoredSize => "stored_size",
            Entry::Convert => "convert",
        }
    }
}

/// A call with its arguments, except the image and the bytes lent for output.
#[derive(Clone, Debug)]
pub enum Call {
    Format {
        p: u64,
        c: u64,
        m: u64,
        n: u64,
    },
    Load,
    Split {
        offset: u64,
        length: u64,
    },
    Access {
        write: bool,
        offset: u64,
        length: u64,
    },
    Held {
        chunk: u64,
    },
    PlanWrite {
        chunk: u64,
        size: u64,
    },
    PlanDiscard {
        chunk: u64,
    },
    CheckWrite {
        chunk: u64,
        size: u64,
    },
    CheckDiscard {
        chunk: u64,
    },
    CarryWrite {
        chunk: u64,
        size: u64,
        n: u64,
    },
    CarryDiscard {
        chunk: u64,
        n: u64,
    },
    AlarmCount {
        units: u64,
    },
    AlarmFraction {
        fraction: f64,
    },
    Report,
    Repair,
    Format2 {
        p: u64,
        c: u64,
        m: u64,
        n: u64,
        r: u64,
    },
    Shape,
    StoredSize {
        chunk: u64,
    },
    Convert,
}

/// The lent bytes and the call. `out` is what an output holds before the call,
/// `plan` what a checker or carrier reads; either is empty where the call has
/// none. `load` writes words, so its `out` is a whole number of them.
#[derive(Clone, Debug)]
pub struct Case {
    pub call: Call,
    pub image: Vec<u8>,
    pub out: Vec<u8>,
    pub plan: Vec<u8>,
    /// How far the lent slices stand off an aligned address.
    pub skew: usize,
    /// Number and place, where whoever made the case knows them by how it was
    /// made.
    pub due: Option<[u64; 2]>,
}

/// Everything that a call may answer or change.
#[derive(Clone, Debug, PartialEq, Eq)]
pub struct Outcome {
    /// The answer's fields in order; the ratios of a report as their bits.
    pub answer: [u64; 9],
    pub image: Vec<u8>,
    pub out: Vec<u8>,
    pub plan: Vec<u8>,
}

fn refused(refusal: Refusal) -> [u64; 9] {
    let Refusal {
        number,
        place,
        second,
    } = refusal;
    [number, place, second, 0, 0, 0, 0, 0, 0]
}

fn answered(value: u64, extent: u64) -> [u64; 9] {
    [0, 0, 0, value, extent, 0, 0, 0, 0]
}

fn fields<T>(answer: Answer<T>, good: impl FnOnce(T) -> [u64; 9]) -> [u64; 9] {
    answer.map_or_else(refused, good)
}

/// What the model makes of the case.
pub fn by_model(case: &Case) -> Outcome {
    let mut image = case.image.clone();
    let mut out = case.out.clone();
    let plan = &case.plan;
    let nothing = |()| answered(0, 0);
    let value = |value| answered(value, 0);
    let sounds = |sounds| answered(u64::from(sounds), 0);
    let answer = match case.call {
        Call::Format { p, c, m, n } => fields(model::format(&mut image, p, c, m, n), nothing),
        Call::Load => fields(load_to(&image, &mut out), value),
        Call::Split { offset, length } => {
            fields(model::split(&image, offset, length, &mut out), value)
        }
        Call::Access {
            write,
            offset,
            length,
        } => fields(model::access(&image, write, offset, length), |access| {
            value(match access {
                Access::ReadsNothing => 0,
                Access::ReadsZeros => 1,
                Access::ReadsChunk => 2,
            })
        }),
        Call::Held { chunk } => fields(model::held(&image, chunk), |part| {
            answered(part.start as u64, part.len() as u64)
        }),
        Call::PlanWrite { chunk, size } => {
            fields(model::plan_write(&image, chunk, size, &mut out), value)
        }
        Call::PlanDiscard { chunk } => fields(model::plan_discard(&image, chunk, &mut out), value),
        Call::CheckWrite { chunk, size } => {
            fields(model::check_write(&image, chunk, size, plan), nothing)
        }
        Call::CheckDiscard { chunk } => fields(model::check_discard(&image, chunk, plan), nothing),
        Call::CarryWrite { chunk, size, n } => fields(
            model::carry_write(&mut image, chunk, size, plan, n),
            nothing,
        ),
        Call::CarryDiscard { chunk, n } => {
            fields(model::carry_discard(&mut image, chunk, plan, n), nothing)
        }
        Call::AlarmCount { units } => fields(model::alarm_count(&image, units), sounds),
        Call::AlarmFraction { fraction } => fields(model::alarm_fraction(&image, fraction), sounds),
        Call::Report => fields(model::report(&image), |report| {
            [
                0,
                0,
                0,
                report.mapped,
                report.held,
                report.free,
                report.saved,
                report.held_ratio.to_bits(),
                report.saved_ratio.to_bits(),
            ]
        }),
        Call::Repair => fields(model::repair(&mut image, &mut out), value),
        Call::Format2 { p, c, m, n, r } => {
            fields(model::format2(&mut image, p, c, m, n, r), nothing)
        }
        Call::Shape => fields(model::shape(&image), |shape| {
            let model::Shape {
                edition,
                p,
                c,
                m,
                n,
                r,
            } = shape;
            [0, 0, 0, edition, p, c, m, n, r]
        }),
        Call::StoredSize { chunk } => fields(model::stored_size(&image, chunk), value),
        Call::Convert => fields(model::convert(&image, &mut out), value),
    };
    Outcome {
        answer,
        image,
        out,
        plan: case.plan.clone(),
    }
}

/// Load as the C interface has it, with a lent output: "fewer give 10 with
/// 648". The words are kept in the machine's own byte order. "Load answers R as
/// its value" (Decision 78).
fn load_to(image: &[u8], out: &mut [u8]) -> Answer<u64> {
    let loaded = model::load(image)?;
    if out.len() < 8 * LOAD_WORDS {
        return Err(Refusal {
            number: model::refusals::SMALL,
            place: 8 * LOAD_WORDS as u64,
            second: 0,
        });
    }
    let words = [loaded.p, loaded.c, loaded.m, loaded.n]
        .into_iter()
        .chain(loaded.units)
        .chain(loaded.maps);
    for (slot, word) in out.chunks_exact_mut(8).zip(words) {
        slot.copy_from_slice(&word.to_ne_bytes());
    }
    Ok(loaded.r)
}

/// Cells lent to the library, inside a larger allocation whose other cells
/// must stay as they are.
struct Lent<T> {
    cells: Vec<T>,
    start: usize,
    len: usize,
    guard: fn(usize) -> T,
}

const MARGIN: usize = 64;

impl<T: Copy + PartialEq> Lent<T> {
    fn new(content: &[T], skew: usize, guard: fn(usize) -> T) -> Self {
        let start = MARGIN + skew;
        let mut cells: Vec<T> = (0..start).map(guard).collect();
        cells.extend(content);
        let end = cells.len();
        cells.extend((end..end + MARGIN).map(guard));
        Lent {
            cells,
            start,
            len: content.len(),
            guard,
        }
    }

    fn slice(&self) -> &[T] {
        &self.cells[self.start..self.start + self.len]
    }

    fn slice_mut(&mut self) -> &mut [T] {
        &mut self.cells[self.start..self.start + self.len]
    }

    fn guards_intact(&self) -> bool {
        let end = self.start + self.len;
        let guarded = (0..self.start).chain(end..self.cells.len());
        guarded
            .into_iter()
            .all(|at| self.cells[at] == (self.guard)(at))
    }
}

fn byte_guard(at: usize) -> u8 {
    0xC5 ^ at as u8
}

fn word_guard(at: usize) -> u64 {
    0xC5C5_C5C5_C5C5_C5C5 ^ at as u64
}

fn words(answer: CAnswer) -> [u64; 9] {
    let CAnswer {
        number,
        place,
        second,
        value,
        extent,
    } = answer;
    [number, place, second, value, extent, 0, 0, 0, 0]
}

fn report_words(report: CReport) -> [u64; 9] {
    [
        report.number,
        report.place,
        report.second,
        report.mapped,
        report.held,
        report.free,
        report.saved,
        report.held_ratio.to_bits(),
        report.saved_ratio.to_bits(),
    ]
}

fn shape_words(shape: CShape) -> [u64; 9] {
    let CShape {
        number,
        place,
        second,
        edition,
        p,
        c,
        m,
        n,
        r,
    } = shape;
    [number, place, second, edition, p, c, m, n, r]
}

/// What the library makes of the case, and whether it kept to what it was
/// lent.
pub fn by_library(case: &Case) -> (Outcome, bool) {
    let mut image = Lent::new(&case.image, case.skew, byte_guard);
    let plan = Lent::new(&case.plan, case.skew / 2, byte_guard);
    if let Call::Load = case.call {
        let (before, _) = case.out.as_chunks::<8>();
        let before: Vec<u64> = before
            .iter()
            .map(|word| u64::from_ne_bytes(*word))
            .collect();
        let mut out = Lent::new(&before, case.skew, word_guard);
        let answer = ffi::load(image.slice(), out.slice_mut());
        let intact = image.guards_intact() && out.guards_intact();
        let outcome = Outcome {
            answer: words(answer),
            image: image.slice().to_vec(),
            out: out.slice().iter().flat_map(|w| w.to_ne_bytes()).collect(),
            plan: plan.slice().to_vec(),
        };
        return (outcome, intact);
    }
    let mut out = Lent::new(&case.out, case.skew / 3, byte_guard);
    let answer = match case.call {
        Call::Load => unreachable!("answered above"),
        Call::Format { p, c, m, n } => words(ffi::format(image.slice_mut(), p, c, m, n)),
        Call::Split { offset, length } => {
            words(ffi::split(image.slice(), offset, length, out.slice_mut()))
        }
        Call::Access {
            write,
            offset,
            length,
        } => words(ffi::access(image.slice(), write, offset, length)),
        Call::Held { chunk } => words(ffi::held(image.slice(), chunk)),
        Call::PlanWrite { chunk, size } => {
            words(ffi::plan_write(image.slice(), chunk, size, out.slice_mut()))
        }
        Call::PlanDiscard { chunk } => {
            words(ffi::plan_discard(image.slice(), chunk, out.slice_mut()))
        }
        Call::CheckWrite { chunk, size } => {
            words(ffi::check_write(image.slice(), chunk, size, plan.slice()))
        }
        Call::CheckDiscard { chunk } => {
            words(ffi::check_discard(image.slice(), chunk, plan.slice()))
        }
        Call::CarryWrite { chunk, size, n } => words(ffi::carry_write(
            image.slice_mut(),
            chunk,
            size,
            plan.slice(),
            n,
        )),
        Call::CarryDiscard { chunk, n } => words(ffi::carry_discard(
            image.slice_mut(),
            chunk,
            plan.slice(),
            n,
        )),
        Call::AlarmCount { units } => words(ffi::alarm_count(image.slice(), units)),
        Call::AlarmFraction { fraction } => words(ffi::alarm_fraction(image.slice(), fraction)),
        Call::Report => report_words(ffi::report(image.slice())),
        Call::Repair => words(ffi::repair(image.slice_mut(), out.slice_mut())),
        Call::Format2 { p, c, m, n, r } => words(ffi::format2(image.slice_mut(), p, c, m, n, r)),
        Call::Shape => shape_words(ffi::shape(image.slice())),
        Call::StoredSize { chunk } => words(ffi::stored_size(image.slice(), chunk)),
        Call::Convert => words(ffi::convert(image.slice(), out.slice_mut())),
    };
    let intact = image.guards_intact() && out.guards_intact() && plan.guards_intact();
    let outcome = Outcome {
        answer,
        image: image.slice().to_vec(),
        out: out.slice().to_vec(),
        plan: plan.slice().to_vec(),
    };
    (outcome, intact)
}

fn hex(bytes: &[u8]) -> String {
    let mut text = String::with_capacity(3 * bytes.len() + 8);
    for (at, byte) in bytes.iter().enumerate() {
        let gap = match at {
            _ if at % 32 == 0 => "\n    ",
            _ if at % 8 == 0 => "  ",
            _ => " ",
        };
        let _ = write!(text, "{gap}{byte:02X}");
    }
    text
}

/// The case in full, to be read or rebuilt by hand.
pub fn describe(case: &Case) -> String {
    let mut text = format!("  call {:?}\n", case.call);
    if let Call::AlarmFraction { fraction } = case.call {
        let _ = writeln!(text, "  fraction's bits {:#018X}", fraction.to_bits());
    }
    let _ = writeln!(
        text,
        "  image, {} bytes:{}",
        case.image.len(),
        hex(&case.image)
    );
    let _ = writeln!(text, "  output lent, {} bytes", case.out.len());
    if !case.plan.is_empty() {
        let _ = writeln!(
            text,
            "  plan, {} bytes:{}",
            case.plan.len(),
            hex(&case.plan)
        );
        let steps: Vec<Fields> = sumbilak_reference::inputs::decode(&case.plan);
        for (at, step) in steps.iter().enumerate() {
            let _ = writeln!(text, "    step {at}: {step:?}");
        }
    }
    text
}

/// Where two byte strings of one length differ first.
fn difference(what: &str, model: &[u8], library: &[u8], text: &mut String) {
    if let Some(at) = (0..model.len()).find(|&at| model[at] != library[at]) {
        let end = (at + 16).min(model.len());
        let _ = writeln!(
            text,
            "  {what} differs from byte {at} on:\n    model  {}\n    library{}",
            hex(&model[at..end]).trim_start_matches('\n'),
            hex(&library[at..end]).trim_start_matches('\n')
        );
    }
}

/// All differences between the two outcomes; empty if there are none.
pub fn differences(model: &Outcome, library: &Outcome, intact: bool) -> String {
    let mut text = String::new();
    if model.answer != library.answer {
        let _ = writeln!(
            text,
            "  answer differs:\n    model   {:?}\n    library {:?}",
            model.answer, library.answer
        );
    }
    difference("image", &model.image, &library.image, &mut text);
    difference("output", &model.out, &library.out, &mut text);
    difference("plan", &model.plan, &library.plan, &mut text);
    if !intact {
        text += "  bytes outside the lent slices were changed\n";
    }
    text
}
