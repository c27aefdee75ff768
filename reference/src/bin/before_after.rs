//! The library before and after a change, in one run.
//!
//! `reference/before-after COMMIT` makes what this is given: of each of the two
//! trees a shared object with the whole archive, and one with the search and the
//! count of a set of words alone, which the archive does not export.
//!
//! Both sides get the same inputs, must give the same answers, and take turns.
//! A figure is the least of many short batches.

use std::env;
use std::ffi::{c_char, c_int, c_void, CStr, CString};
use std::hint::black_box;
use std::mem::transmute_copy;

use sumbilak_reference::ffi::{CAnswer, CReport, LOAD_WORDS};
use sumbilak_reference::inputs::{with_free, Shape};
use sumbilak_reference::timing::{batch, least, repeats, BATCH, BATCHES, TURNS};

extern "C" {
    fn dlopen(path: *const c_char, flags: c_int) -> *mut c_void;
    fn dlsym(object: *mut c_void, name: *const c_char) -> *mut c_void;
    fn dlerror() -> *const c_char;
}

/// Resolve everything at once, and keep the names apart from other objects'.
const RTLD_NOW: c_int = 2;

fn found(pointer: *mut c_void, what: &str) -> *mut c_void {
    if pointer.is_null() {
        // SAFETY: an error was just raised, and its text is read at once.
        let why = unsafe { CStr::from_ptr(dlerror()) };
        panic!("{what}: {}", why.to_string_lossy());
    }
    pointer
}

fn open(path: &str) -> *mut c_void {
    let name = CString::new(path).expect("a path");
    // SAFETY: these objects have no initialisers.
    found(unsafe { dlopen(name.as_ptr(), RTLD_NOW) }, path)
}

/// The function of that name, of the type F.
///
/// # Safety
/// The object has it, with that type.
unsafe fn symbol<F: Copy>(object: *mut c_void, name: &str) -> F {
    let text = CString::new(name).expect("a name");
    let pointer = found(dlsym(object, text.as_ptr()), name);
    transmute_copy(&pointer)
}

/// The functions of one side, as `include/sumbilak.h` and `before-after` declare
/// them.
struct Side {
    load: unsafe extern "C" fn(*const u8, usize, *mut u64, usize) -> CAnswer,
    plan_write: unsafe extern "C" fn(*const u8, usize, u64, u64, *mut u8, usize) -> CAnswer,
    report: unsafe extern "C" fn(*const u8, usize) -> CReport,
    alarm_count: unsafe extern "C" fn(*const u8, usize, u64) -> CAnswer,
    next_member: unsafe extern "C" fn(*const u64, usize, usize) -> usize,
    count: unsafe extern "C" fn(*const u64, usize) -> usize,
}

impl Side {
    fn new(archive: &str, sets: &str) -> Self {
        let (archive, sets) = (open(archive), open(sets));
        // SAFETY: each symbol has the type that it is declared with.
        unsafe {
            Side {
                load: symbol(archive, "sumbilak_load"),
                plan_write: symbol(archive, "sumbilak_plan_write"),
                report: symbol(archive, "sumbilak_report"),
                alarm_count: symbol(archive, "sumbilak_alarm_count"),
                next_member: symbol(sets, "sets_next_member"),
                count: symbol(sets, "sets_count"),
            }
        }
    }
}

/// The largest volume but for N: its chunks hold 4,096 units at the most, so with
/// 4,160 units in 65 words all but those of the last word can be held.
const SHAPE: Shape = Shape::one(16, 256, 288, 4160);

/// The words of a set of units, of which a volume can have 4,608.
const SET_WORDS: usize = 72;

/// The chunk that is written, and the longest plan: 35 steps of 16 bytes.
const CHUNK: u64 = 0;
const PLAN: usize = 35 * 16;

struct Input {
    name: &'static str,
    image: Vec<u8>,
    set: [u64; SET_WORDS],
}

/// The volume whose chunks hold every unit that is not free, and the set of 72
/// words in which the numbers that pass the test are.
fn input(name: &'static str, free: fn(u64) -> bool, member: fn(u64) -> bool) -> Input {
    let image = with_free(&SHAPE, free);
    let word = |at: u64| {
        (0..64)
            .filter(|bit| member(64 * at + bit))
            .map(|bit| 1 << bit)
            .sum()
    };
    let set = std::array::from_fn(|at| word(at as u64));
    Input { name, image, set }
}

/// What a call answers and writes.
#[derive(Default, PartialEq)]
struct Output {
    answer: Option<CAnswer>,
    report: Option<CReport>,
    words: Vec<u64>,
    plan: Vec<u8>,
    number: usize,
}

impl Output {
    fn new() -> Self {
        Output {
            words: vec![0; LOAD_WORDS],
            plan: vec![0; PLAN],
            ..Default::default()
        }
    }
}

type Run = fn(&Side, &Input, &mut Output);

// SAFETY, for every call below: pointer and length are those of one live slice.

fn plan_write(side: &Side, input: &Input, out: &mut Output, units: u64) {
    let Input { image, .. } = input;
    let plan = &mut out.plan;
    let (at, room) = (plan.as_mut_ptr(), plan.len());
    let planned =
        unsafe { (side.plan_write)(image.as_ptr(), image.len(), CHUNK, 4096 * units, at, room) };
    out.answer = Some(planned);
}

/// The k lowest members, one after the other, as a plan takes them.
fn lowest_members(side: &Side, input: &Input, out: &mut Output, k: usize) {
    let Input { set, .. } = input;
    let mut from = 0;
    for _ in 0..k {
        out.number = unsafe { (side.next_member)(set.as_ptr(), set.len(), from) };
        from = out.number + 1;
    }
}

const SET_CALLS: [(&str, Run); 3] = [
    ("lowest member", |side, input, out| {
        lowest_members(side, input, out, 1)
    }),
    ("16 lowest members", |side, input, out| {
        lowest_members(side, input, out, 16)
    }),
    ("count of members", |side, Input { set, .. }, out| {
        out.number = unsafe { (side.count)(set.as_ptr(), set.len()) }
    }),
];

const VOLUME_CALLS: [(&str, Run); 5] = [
    ("load", |side, Input { image, .. }, out| {
        let words = &mut out.words;
        let (at, room) = (words.as_mut_ptr(), words.len());
        out.answer = Some(unsafe { (side.load)(image.as_ptr(), image.len(), at, room) })
    }),
    ("plan_write, 1 unit", |side, input, out| {
        plan_write(side, input, out, 1)
    }),
    ("plan_write, 16 units", |side, input, out| {
        plan_write(side, input, out, 16)
    }),
    ("report", |side, Input { image, .. }, out| {
        out.report = Some(unsafe { (side.report)(image.as_ptr(), image.len()) })
    }),
    ("alarm_count", |side, Input { image, .. }, out| {
        out.answer = Some(unsafe { (side.alarm_count)(image.as_ptr(), image.len(), 64) })
    }),
];

/// One line of a table.
struct Row<'a> {
    call: &'static str,
    run: Run,
    input: &'a Input,
    repeats: [u32; 2],
    batches: [Vec<f64>; 2],
}

fn once(run: Run, side: &Side, input: &Input, out: &mut Output) {
    let run = black_box(run);
    run(black_box(side), black_box(input), black_box(out));
}

impl<'a> Row<'a> {
    fn new(sides: &[Side; 2], input: &'a Input, (call, run): (&'static str, Run)) -> Self {
        let [before, after] = [0, 1].map(|side| {
            let mut out = Output::new();
            once(run, &sides[side], input, &mut out);
            out
        });
        assert!(before == after, "{}: {call} differs", input.name);
        let refusals = [
            before.answer.map_or(0, |answer| answer.number),
            before.report.map_or(0, |report| report.number),
        ];
        assert_eq!(refusals, [0, 0], "{}: {call}", input.name);
        let mut out = Output::new();
        Row {
            call,
            run,
            input,
            repeats: [0, 1].map(|side| repeats(|| once(run, &sides[side], input, &mut out))),
            batches: Default::default(),
        }
    }

    fn turn(&mut self, sides: &[Side; 2]) {
        let Row { run, input, .. } = *self;
        let mut out = Output::new();
        for _ in 0..BATCHES {
            for (side, repeats) in self.repeats.into_iter().enumerate() {
                let took = batch(repeats, || once(run, &sides[side], input, &mut out));
                self.batches[side].push(took);
            }
        }
    }

    /// Before and after, in nanoseconds.
    fn figures(&self) -> [f64; 2] {
        [0, 1].map(|side| least(&self.batches[side]))
    }
}

/// Measures these calls on each input, and prints a table.
fn table(what: &str, sides: &[Side; 2], inputs: &[Input], calls: &[(&'static str, Run)]) {
    let row = |input| calls.iter().map(move |&call| Row::new(sides, input, call));
    let mut rows: Vec<Row> = inputs.iter().flat_map(row).collect();
    for _ in 0..TURNS {
        rows.iter_mut().for_each(|row| row.turn(sides));
    }
    println!("| {what} | call | before ns | after ns | gained ns |");
    println!("|---|---|---:|---:|---:|");
    for row in rows {
        let [before, after] = row.figures();
        println!(
            "| {} | {} | {before:.1} | {after:.1} | {:.0} |",
            row.input.name,
            row.call,
            before - after
        );
    }
}

fn main() {
    let paths: Vec<String> = env::args().skip(1).collect();
    let [archive_before, sets_before, archive_after, sets_after] = &paths[..] else {
        panic!("run by reference/before-after");
    };
    let sides = [
        Side::new(archive_before, sets_before),
        Side::new(archive_after, sets_after),
    ];
    let last_word = input(
        "lowest free unit in the last word",
        |unit| unit >= 4096,
        |number| number >= 4544,
    );
    let each_word = input(
        "one free unit in each word",
        |unit| unit % 64 == 63,
        |number| number % 64 == 63,
    );
    let inputs = [last_word, each_word];
    table("set of 72 words", &sides, &inputs, &SET_CALLS);
    println!();
    table("volume", &sides, &inputs, &VOLUME_CALLS);
    println!("\n{} batches a side of about {BATCH:?}", TURNS * BATCHES);
}
