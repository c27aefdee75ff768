//! The proved library against the one-pass yardstick, call by call.
//!
//! Both sides get the same bytes, fill the same buffers and answer the same
//! structs, in one process and in turns. Every input, every buffer and even
//! the function that is called go through `black_box`, so that nothing can be
//! worked out ahead or left out. Before anything is timed, both sides must give
//! the same answers and bytes.
//!
//! A figure is the least of many short batches: what else the machine does can
//! only make a batch slower. The medians are given as well.

use std::hint::black_box;
use std::time::Instant;

use sumbilak_reference::ffi::{self, CAnswer, CReport, LOAD_WORDS};
use sumbilak_reference::inputs::{
    entry, fresh, mapped, put_word, word, Edition, Shape, LONGEST_PLAN as PLAN,
};
use sumbilak_reference::model::{self, Answer, Report};
use sumbilak_reference::onepass;
use sumbilak_reference::rng::Rng;
use sumbilak_reference::timing::{batch, least, median, BATCH};

/// Turns of all rows; batches of each side in one row and turn.
const TURNS: usize = 25;
const BATCHES: usize = 40;
/// Random writes and discards that a volume is aged by.
const EVENTS: u64 = 4000;
/// Images of the row of images in turn.
const IMAGES: u64 = 16;
/// The longest list of a repair: 256 chunks, "a u32 each" (02, request 3).
const LIST: usize = 256 * 4;
const LARGEST: Shape = Shape::one(16, 256, 288, 4608);

/// A volume, and a chunk of it that two writes of one size take there and back:
/// the second one leaves the image that the first one found, byte for byte.
struct Case {
    shape: Shape,
    image: Vec<u8>,
    chunk: u64,
    size: u64,
    plans: [Vec<u8>; 2],
}

/// What calls answer and write, apart from the image.
#[derive(Clone, Debug, PartialEq)]
struct Output {
    answers: [CAnswer; 3],
    report: CReport,
    words: [u64; LOAD_WORDS],
    plan: [u8; PLAN],
    list: [u8; LIST],
    converted: Vec<u8>,
}

const NOTHING: CAnswer = CAnswer {
    number: 0,
    place: 0,
    second: 0,
    value: 0,
    extent: 0,
};

impl Output {
    fn new(case: &Case) -> Self {
        Output {
            answers: [NOTHING; 3],
            report: by_rust::report(Ok(Report {
                mapped: 0,
                held: 0,
                free: 0,
                saved: 0,
                held_ratio: 0.0,
                saved_ratio: 0.0,
            })),
            words: [0; LOAD_WORDS],
            plan: [0; PLAN],
            list: [0; LIST],
            converted: vec![0; case.shape.in_edition(Edition::Two).image_len()],
        }
    }
}

/// A call on the image lent, there or back.
type Run = fn(&Case, usize, &mut [u8], &mut Output);

/// A call by the library, and by the yardstick or the model.
struct Call {
    name: &'static str,
    library: Run,
    other: Run,
}

const CALLS: [Call; 9] = [
    Call {
        name: "load",
        library: |_, _, image, out| out.answers[0] = ffi::load(image, &mut out.words),
        other: |_, _, image, out| {
            out.answers[0] = by_rust::answer(onepass::load(image, &mut out.words))
        },
    },
    Call {
        name: "plan_write",
        library: |case, _, image, out| {
            out.answers[0] = ffi::plan_write(image, case.chunk, case.size, &mut out.plan)
        },
        other: |case, _, image, out| {
            let planned = onepass::plan_write(image, case.chunk, case.size, &mut out.plan);
            out.answers[0] = by_rust::answer(planned)
        },
    },
    Call {
        name: "plan_discard",
        library: |case, _, image, out| {
            out.answers[0] = ffi::plan_discard(image, case.chunk, &mut out.plan)
        },
        other: |case, _, image, out| {
            let planned = onepass::plan_discard(image, case.chunk, &mut out.plan);
            out.answers[0] = by_rust::answer(planned)
        },
    },
    Call {
        name: "check_write",
        library: |case, _, image, out| {
            out.answers[0] = ffi::check_write(image, case.chunk, case.size, &case.plans[0])
        },
        other: |case, _, image, out| {
            let checked = onepass::check_write(image, case.chunk, case.size, &case.plans[0]);
            out.answers[0] = by_rust::done(checked)
        },
    },
    Call {
        name: "carry_write",
        library: |case, way, image, out| {
            let plan = &case.plans[way];
            let steps = plan.len() as u64 / 16;
            out.answers[0] = ffi::carry_write(image, case.chunk, case.size, plan, steps)
        },
        other: |case, way, image, out| {
            let plan = &case.plans[way];
            let steps = plan.len() as u64 / 16;
            let carried = onepass::carry_write(image, case.chunk, case.size, plan, steps);
            out.answers[0] = by_rust::done(carried)
        },
    },
    Call {
        name: "whole write",
        library: |case, _, image, out| {
            let Case { chunk, size, .. } = *case;
            let planned = ffi::plan_write(image, chunk, size, &mut out.plan);
            let plan = &out.plan[..16 * planned.value as usize];
            let checked = ffi::check_write(image, chunk, size, plan);
            let carried = ffi::carry_write(image, chunk, size, plan, planned.value);
            out.answers = [planned, checked, carried];
        },
        other: |case, _, image, out| {
            let Case { chunk, size, .. } = *case;
            let planned = by_rust::answer(onepass::plan_write(image, chunk, size, &mut out.plan));
            let plan = &out.plan[..16 * planned.value as usize];
            let checked = onepass::check_write(image, chunk, size, plan);
            let carried = onepass::carry_write(image, chunk, size, plan, planned.value);
            out.answers = [planned, by_rust::done(checked), by_rust::done(carried)];
        },
    },
    Call {
        name: "report",
        library: |_, _, image, out| out.report = ffi::report(image),
        other: |_, _, image, out| out.report = by_rust::report(onepass::report(image)),
    },
    Call {
        name: "stored_size",
        library: |case, _, image, out| out.answers[0] = ffi::stored_size(image, case.chunk),
        other: |case, _, image, out| {
            out.answers[0] = by_rust::answer(onepass::stored_size(image, case.chunk))
        },
    },
    Call {
        name: "repair, sound",
        library: |_, _, image, out| out.answers[0] = ffi::repair(image, &mut out.list),
        other: |_, _, image, out| {
            out.answers[0] = by_rust::answer(onepass::repair(image, &mut out.list))
        },
    },
];

/// Only the entries change, and they are copied anew for each call, by both
/// sides.
const REPAIR: Call = Call {
    name: "repair, every chunk clashing",
    library: |case, _, image, out| {
        copy_entries(case, image);
        out.answers[0] = ffi::repair(image, &mut out.list)
    },
    other: |case, _, image, out| {
        copy_entries(case, image);
        out.answers[0] = by_rust::answer(model::repair(image, &mut out.list))
    },
};

/// Only on images of edition 1.
const CONVERT: Call = Call {
    name: "convert",
    library: |_, _, image, out| out.answers[0] = ffi::convert(image, &mut out.converted),
    other: |_, _, image, out| {
        out.answers[0] = by_rust::answer(model::convert(image, &mut out.converted))
    },
};

/// The load in two other ways, for columns of their own.
const PER_P: Call = Call {
    name: "per P",
    library: CALLS[0].library,
    other: |_, _, image, out| {
        out.answers[0] = by_rust::answer(onepass::per_p::load(image, &mut out.words))
    },
};
const BYTES: Call = Call {
    name: "bytes",
    library: CALLS[0].library,
    other: |_, _, image, out| {
        out.answers[0] = by_rust::answer(onepass::bytes::load(image, &mut out.words))
    },
};

fn copy_entries(case: &Case, image: &mut [u8]) {
    let entries = 8 * case.shape.c as usize;
    image[..entries].copy_from_slice(&case.image[..entries]);
}

/// Answers of the yardstick and the model in the structs of the C interface.
mod by_rust {
    use super::{Answer, CAnswer, CReport, Report, NOTHING};

    #[inline(always)]
    pub fn answer(answer: Answer<u64>) -> CAnswer {
        match answer {
            Ok(value) => CAnswer { value, ..NOTHING },
            Err(refusal) => CAnswer {
                number: refusal.number,
                place: refusal.place,
                second: refusal.second,
                ..NOTHING
            },
        }
    }

    #[inline(always)]
    pub fn done(answer: Answer<()>) -> CAnswer {
        self::answer(answer.map(|()| 0))
    }

    pub fn report(answer: Answer<Report>) -> CReport {
        let CAnswer {
            number,
            place,
            second,
            ..
        } = self::answer(answer.map(|_| 0));
        let (counts, ratios) = match answer {
            Ok(report) => (
                [report.mapped, report.held, report.free, report.saved],
                [report.held_ratio, report.saved_ratio],
            ),
            Err(_) => ([0; 4], [0.0; 2]),
        };
        let [mapped, held, free, saved] = counts;
        let [held_ratio, saved_ratio] = ratios;
        CReport {
            number,
            place,
            second,
            mapped,
            held,
            free,
            saved,
            held_ratio,
            saved_ratio,
        }
    }
}

/// One write, planned and carried out by the model; its plan, or None where too
/// few units are free.
fn write(image: &mut [u8], chunk: u64, size: u64) -> Option<Vec<u8>> {
    let mut plan = [0; PLAN];
    let steps = model::plan_write(image, chunk, size, &mut plan).ok()?;
    let plan = &plan[..16 * steps as usize];
    model::carry_write(image, chunk, size, plan, steps).expect("the planner's plans pass");
    Some(plan.to_vec())
}

fn discard(image: &mut [u8], chunk: u64) {
    let mut plan = [0; PLAN];
    let steps = model::plan_discard(image, chunk, &mut plan).expect("a sound image");
    let plan = &plan[..16 * steps as usize];
    model::carry_discard(image, chunk, plan, steps).expect("the planner's plans pass");
}

/// A volume after random writes of any size, one event in ten a discard.
fn aged(rng: &mut Rng, shape: &Shape) -> Vec<u8> {
    let mut image = fresh(shape);
    for _ in 0..EVENTS {
        let chunk = rng.below(shape.c);
        if rng.chance(10) {
            discard(&mut image, chunk);
        } else {
            write(&mut image, chunk, rng.between(1, shape.chunk_bytes()));
        }
    }
    image
}

/// The same, and then all chunks stored raw, again and again at random.
fn all_raw(rng: &mut Rng, shape: &Shape) -> Vec<u8> {
    let mut image = aged(rng, shape);
    let mut chunks: Vec<u64> = (0..shape.c).collect();
    rng.shuffle(&mut chunks);
    chunks.extend((0..EVENTS).map(|_| rng.below(shape.c)));
    for chunk in chunks {
        write(&mut image, chunk, shape.chunk_bytes()).expect("room");
    }
    image
}

/// Rewrites of a chunk in the middle, of this size. A chunk that is written
/// again and again with one size comes to lie on the lowest units that are free
/// or its own, then on those above, and so on in turns; the same for maps.
fn case(shape: Shape, mut image: Vec<u8>, size: u64) -> Case {
    let chunks = mapped(&shape, &image);
    let chunk = chunks.get(chunks.len() / 2).copied().unwrap_or(0);
    let mut plans = Vec::new();
    for _ in 0..6 {
        plans.push(write(&mut image, chunk, size).expect("room"));
    }
    let plans = [plans[4].clone(), plans[5].clone()];
    Case {
        shape,
        image,
        chunk,
        size,
        plans,
    }
}

/// An image and nothing else.
fn only(shape: Shape, image: Vec<u8>) -> Case {
    Case {
        shape,
        image,
        chunk: 0,
        size: 0,
        plans: Default::default(),
    }
}

/// An image to repair: each chunk's second unit is the next one's first. All
/// chunks must be mapped, and to two units at least.
fn clashing(shape: Shape, sound: &[u8]) -> Case {
    let mut image = sound.to_vec();
    let word_at = |chunk: u64, at: u64| shape.unit_at(entry(sound, chunk), at);
    for chunk in 0..shape.c {
        let next = word_at((chunk + 1) % shape.c, 0);
        put_word(&mut image, word_at(chunk, 1), word(sound, next));
    }
    only(shape, image)
}

/// A volume to measure, or several in turn.
struct Measured {
    name: &'static str,
    edition: Edition,
    cases: Vec<Case>,
}

/// One call, of which nothing can be worked out ahead.
#[inline(always)]
fn once(run: Run, case: &Case, way: usize, image: &mut [u8], out: &mut Output) {
    let run = black_box(run);
    run(black_box(case), way, black_box(image), black_box(out));
}

/// One line of the table.
struct Row<'a> {
    volume: &'a Measured,
    call: &'a Call,
    images: Vec<Vec<u8>>,
    output: Output,
    rounds: u32,
    /// Batches of the library and of the other side.
    batches: [Vec<f64>; 2],
}

impl<'a> Row<'a> {
    fn new(volume: &'a Measured, call: &'a Call) -> Self {
        volume.cases.iter().for_each(|case| compare(case, call));
        let mut row = Row {
            volume,
            call,
            images: volume.cases.iter().map(|case| case.image.clone()).collect(),
            output: Output::new(&volume.cases[0]),
            rounds: 1,
            batches: Default::default(),
        };
        while row.batch(call.library) * f64::from(row.calls()) < BATCH.as_secs_f64() * 1e9 {
            row.rounds *= 2;
        }
        row
    }

    /// Calls in a batch: each image there and back.
    fn calls(&self) -> u32 {
        self.rounds * 2 * self.images.len() as u32
    }

    /// Nanoseconds of one call in a batch of one side.
    fn batch(&mut self, run: Run) -> f64 {
        let cases = &self.volume.cases;
        let (images, output) = (&mut self.images, &mut self.output);
        let round = batch(self.rounds, || {
            for way in 0..2 {
                for (case, image) in cases.iter().zip(images.iter_mut()) {
                    once(run, case, way, image, output);
                }
            }
        });
        round / (2 * cases.len()) as f64
    }

    fn turn(&mut self) {
        for _ in 0..BATCHES {
            let library = self.batch(self.call.library);
            self.batches[0].push(library);
            let other = self.batch(self.call.other);
            self.batches[1].push(other);
        }
    }

    /// Library and the other side in nanoseconds, by this measure of many
    /// batches.
    fn figures(&self, measure: Measure) -> [f64; 2] {
        [0, 1].map(|side| measure(&self.batches[side]))
    }

    fn ratio(&self, measure: Measure) -> f64 {
        let [library, other] = self.figures(measure);
        library / other
    }
}

/// Both sides give the same answers and bytes, there and back, and leave the
/// image as it was.
fn compare(case: &Case, call: &Call) {
    let run = |run: Run| {
        let mut out = Output::new(case);
        let mut image = case.image.clone();
        let states = [0, 1].map(|way| {
            run(case, way, &mut image, &mut out);
            (out.clone(), image.clone())
        });
        for (out, _) in &states {
            let numbers = out.answers.map(|answer| answer.number);
            assert_eq!((numbers, out.report.number), ([0; 3], 0), "{}", call.name);
        }
        states
    };
    let (library, other) = (run(call.library), run(call.other));
    assert!(library == other, "{} differs", call.name);
    let repairs = library[0].0.list != [0; LIST];
    assert!(library[1].1 == case.image || repairs, "{}", call.name);
}

fn geometric_mean(ratios: impl Iterator<Item = f64>) -> f64 {
    let logs: Vec<f64> = ratios.map(f64::ln).collect();
    (logs.iter().sum::<f64>() / logs.len() as f64).exp()
}

/// The volumes of one edition.
fn volumes(edition: Edition) -> Vec<Measured> {
    let largest = LARGEST.in_edition(edition);
    let half = |shape: Shape, image| case(shape, image, shape.chunk_bytes() / 2);
    let measured = |name, cases| Measured {
        name,
        edition,
        cases,
    };
    let mut volumes: Vec<Measured> = [
        ("smallest", Shape::one(2, 1, 2, 2)),
        ("224 bytes", Shape::one(4, 4, 5, 20)),
        ("16 chunks", Shape::one(16, 16, 18, 288)),
        ("64 chunks", Shape::one(16, 64, 72, 1152)),
        ("128 chunks", Shape::one(16, 128, 144, 2304)),
        ("256 chunks", LARGEST),
    ]
    .into_iter()
    .map(|(name, shape)| {
        let shape = shape.in_edition(edition);
        let image = aged(&mut Rng::new(1), &shape);
        measured(name, vec![half(shape, image)])
    })
    .collect();
    let raw = all_raw(&mut Rng::new(2), &largest);
    let raw = case(largest, raw, largest.chunk_bytes());
    volumes.push(measured("256 raw", vec![raw]));
    let images = (0..IMAGES).map(|seed| aged(&mut Rng::new(3 + seed), &largest));
    let in_turn = images.map(|image| half(largest, image)).collect();
    volumes.push(measured("16 in turn", in_turn));
    volumes
}

/// The figures of a row that are given, by name.
type Measure = fn(&[f64]) -> f64;
const MEASURES: [(&str, Measure); 2] = [("least times", least), ("medians", median)];

/// Calls that are timed in edition 2 as well.
const ALSO_IN_EDITION_2: [&str; 2] = ["load", "whole write"];

/// The first volume on which the load is timed in other ways too, of 64 chunks.
const FIRST_OF_LOADS: usize = 3;

fn main() {
    let begun = Instant::now();
    let [one, two] = Edition::ALL.map(volumes);
    let raw = all_raw(&mut Rng::new(2), &LARGEST);
    let alone = |case| Measured {
        name: "256 raw",
        edition: Edition::One,
        cases: vec![case],
    };
    let to_repair = alone(clashing(LARGEST, &raw));
    let to_convert = alone(only(LARGEST, raw));

    let all_calls = one
        .iter()
        .flat_map(|volume| CALLS.iter().map(move |call| (volume, call)));
    let in_both = |call: &&Call| ALSO_IN_EDITION_2.contains(&call.name);
    let few_calls = two
        .iter()
        .flat_map(|volume| CALLS.iter().filter(in_both).map(move |call| (volume, call)));
    let of_pair = |(volume, call)| Row::new(volume, call);
    let mut rows: Vec<Row> = all_calls.chain(few_calls).map(of_pair).collect();
    let large = &one[FIRST_OF_LOADS..];
    let loads = |call| large.iter().map(move |volume| Row::new(volume, call));
    let mut loads: [Vec<Row>; 3] = [&CALLS[0], &PER_P, &BYTES].map(|call| loads(call).collect());
    let pairs = [(&to_repair, &REPAIR), (&to_convert, &CONVERT)];
    let mut by_model = pairs.map(of_pair);
    for _ in 0..TURNS {
        let loads = loads.iter_mut().flatten();
        let all = rows.iter_mut().chain(loads).chain(&mut by_model);
        all.for_each(Row::turn);
    }

    print_matrix(&rows, &one);
    print_rows("yardstick", &rows);
    print_loads(&loads);
    print_rows("model", &by_model);
    println!(
        "\n{} batches a side of about {BATCH:?} or more; {:.1?} in all",
        TURNS * BATCHES,
        begun.elapsed()
    );
}

/// The ratios of library and yardstick by their least times, a column for each
/// volume, and the geometric means.
fn print_matrix(rows: &[Row], volumes: &[Measured]) {
    print!("| library / yardstick |");
    for volume in volumes {
        print!(" {} |", volume.name.trim_end_matches(" chunks"));
    }
    println!(" mean |\n|---|{}---:|", "---:|".repeat(volumes.len()));
    for edition in Edition::ALL {
        for call in &CALLS {
            let of_call = |row: &&Row| row.call.name == call.name && row.volume.edition == edition;
            let of_call = rows.iter().filter(of_call);
            let ratios: Vec<f64> = of_call.map(|row| row.ratio(least)).collect();
            if ratios.is_empty() {
                continue;
            }
            let suffix = match edition {
                Edition::One => "",
                Edition::Two => ", edition 2",
            };
            print!("| {}{suffix} |", call.name);
            ratios.iter().for_each(|ratio| print!(" {ratio:.2} |"));
            println!(" {:.2} |", geometric_mean(ratios.into_iter()));
        }
    }
    for (name, measure) in MEASURES {
        let all = geometric_mean(rows.iter().map(|row| row.ratio(measure)));
        println!("\nGeometric mean of all, by {name}: {all:.2}");
    }
}

/// The least times of a load by the library, by the yardstick, compiled for each
/// P and with bytes, a line for each volume.
fn print_loads([plain, per_p, bytes]: &[Vec<Row>; 3]) {
    println!("\n| load, edition 1 | library ns | yardstick ns | per P ns | bytes ns |");
    println!("|---|---:|---:|---:|---:|");
    for ((plain, per_p), bytes) in plain.iter().zip(per_p).zip(bytes) {
        let [library, yardstick] = plain.figures(least);
        let [per_p, bytes] = [per_p, bytes].map(|row| row.figures(least)[1]);
        println!(
            "| {} | {library:.1} | {yardstick:.1} | {per_p:.1} | {bytes:.1} |",
            plain.volume.name
        );
    }
}

fn print_rows(other: &str, rows: &[Row]) {
    println!("\n| volume | edition | call | library ns | {other} ns | ratio | ratio of medians |");
    println!("|---|---:|---|---:|---:|---:|---:|");
    for row in rows {
        let [library, other] = row.figures(least);
        println!(
            "| {} | {} | {} | {library:.1} | {other:.1} | {:.2} | {:.2} |",
            row.volume.name,
            row.volume.edition.number(),
            row.call.name,
            row.ratio(least),
            row.ratio(median)
        );
    }
}
