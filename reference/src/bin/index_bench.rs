//! Times of equal writes, planned, checked and carried out, in three ways: by an
//! ordinary Rust program with an index of its own (`src/ordinary`), by the
//! library's calls with a held index, and by its scanning calls. "Measure both
//! against an ordinary Rust program, written for the purpose, doing equal writes
//! on 256 chunks; the aim is at most twice its time." (02, request 7)
//!
//! Each way has an image of its own, and all do the same writes: round after round
//! over all chunks, sizes of 1 to 16 units mixed. They take turns in short blocks,
//! in every order; a figure is the median of many blocks.

use std::hint::black_box;
use std::time::Instant;

use sumbilak_reference::ffi::{self, CAnswer, CIndex, INDEX_WORDS};
use sumbilak_reference::inputs::{fresh, Shape, LONGEST_PLAN};
use sumbilak_reference::ordinary::{Reads, Volume};
use sumbilak_reference::rng::Rng;
use sumbilak_reference::settings::number;
use sumbilak_reference::timing::{least, median};
use sumbilak_reference::workload::Workload;

/// Writes in a block.
const BLOCK: usize = 64;
/// Blocks of each way, for every row.
const TURNS: usize = 1_200;
/// Rounds over all chunks before anything is timed.
const ROUNDS: u64 = 20;

/// A plan and its length in bytes.
#[derive(Clone)]
struct Plan {
    bytes: [u8; LONGEST_PLAN],
    len: usize,
}

impl Plan {
    const NONE: Plan = Plan {
        bytes: [0; LONGEST_PLAN],
        len: 0,
    };

    fn get(&self) -> &[u8] {
        &self.bytes[..self.len]
    }

    fn steps(&self) -> u64 {
        (self.len / 16) as u64
    }
}

/// One of the three ways. Every call is good, so that a way says how many steps a
/// plan has, and no more.
trait Way {
    fn plan(&mut self, chunk: u64, size: u64, out: &mut [u8]) -> usize;
    fn check(&mut self, chunk: u64, size: u64, plan: &[u8]) -> bool;
    fn carry(&mut self, chunk: u64, size: u64, plan: &[u8], n: u64) -> bool;
    /// Access and held words of a chunk: whether it is read, and its part of the
    /// image.
    fn read(&mut self, chunk: u64, offset: u64) -> (bool, usize, usize);
    fn image(&self) -> &[u8];
    /// 77 words of what is free.
    fn free(&self) -> Vec<u64>;
}

struct Ordinary(Volume);

impl Way for Ordinary {
    fn plan(&mut self, chunk: u64, size: u64, out: &mut [u8]) -> usize {
        self.0.plan_write(chunk, size, out).unwrap_or(0)
    }
    fn check(&mut self, chunk: u64, size: u64, plan: &[u8]) -> bool {
        self.0.check_write(chunk, size, plan).is_ok()
    }
    fn carry(&mut self, chunk: u64, size: u64, plan: &[u8], n: u64) -> bool {
        self.0.carry_write(chunk, size, plan, n).is_ok()
    }
    fn read(&mut self, chunk: u64, offset: u64) -> (bool, usize, usize) {
        let read = self.0.access(false, offset, 4096) == Ok(Reads::Chunk);
        let (first, bytes) = self.0.held(chunk).unwrap_or((0, 0));
        (read, first, bytes)
    }
    fn image(&self) -> &[u8] {
        self.0.image()
    }
    fn free(&self) -> Vec<u64> {
        let (units, maps) = self.0.free();
        [units, maps].concat()
    }
}

struct Indexed {
    index: CIndex,
    sets: [u64; INDEX_WORDS],
    image: Vec<u8>,
}

fn part(access: CAnswer, held: CAnswer) -> (bool, usize, usize) {
    let read = access.number == 0 && access.value == 2;
    (read, held.value as usize, held.extent as usize)
}

impl Way for Indexed {
    fn plan(&mut self, chunk: u64, size: u64, out: &mut [u8]) -> usize {
        ffi::index_plan_write(self.index, &self.sets, &self.image, chunk, size, out).value as usize
    }
    fn check(&mut self, chunk: u64, size: u64, plan: &[u8]) -> bool {
        ffi::index_check_write(self.index, &self.sets, &self.image, chunk, size, plan).number == 0
    }
    fn carry(&mut self, chunk: u64, size: u64, plan: &[u8], n: u64) -> bool {
        let (sets, image) = (&mut self.sets, &mut self.image);
        ffi::index_carry_write(self.index, sets, image, chunk, size, plan, n).number == 0
    }
    fn read(&mut self, chunk: u64, offset: u64) -> (bool, usize, usize) {
        let (index, sets, image) = (self.index, &self.sets, &self.image);
        part(
            ffi::index_access(index, sets, image, false, offset, 4096),
            ffi::index_held(index, sets, image, chunk),
        )
    }
    fn image(&self) -> &[u8] {
        &self.image
    }
    fn free(&self) -> Vec<u64> {
        self.sets.to_vec()
    }
}

struct Scanning(Vec<u8>);

impl Way for Scanning {
    fn plan(&mut self, chunk: u64, size: u64, out: &mut [u8]) -> usize {
        ffi::plan_write(&self.0, chunk, size, out).value as usize
    }
    fn check(&mut self, chunk: u64, size: u64, plan: &[u8]) -> bool {
        ffi::check_write(&self.0, chunk, size, plan).number == 0
    }
    fn carry(&mut self, chunk: u64, size: u64, plan: &[u8], n: u64) -> bool {
        ffi::carry_write(&mut self.0, chunk, size, plan, n).number == 0
    }
    fn read(&mut self, chunk: u64, offset: u64) -> (bool, usize, usize) {
        part(
            ffi::access(&self.0, false, offset, 4096),
            ffi::held(&self.0, chunk),
        )
    }
    fn image(&self) -> &[u8] {
        &self.0
    }
    fn free(&self) -> Vec<u64> {
        let mut words = [0; INDEX_WORDS];
        ffi::open(&self.0, &mut words);
        words.to_vec()
    }
}

/// What is timed: four kinds of block on writes, and one on reads.
const PARTS: [&str; 5] = ["whole write", "plan", "check", "carry", "read"];
const NAMES: [&str; 3] = ["ordinary", "indexed", "scanning"];

/// The same requests for one block, and what is prepared for it.
struct Block {
    /// Chunk and size of each write.
    writes: Vec<(u64, u64)>,
    /// The plan of each as it comes, one after the other.
    plans: Vec<Plan>,
    /// The plan of each if it were the next, as the way has made it.
    next: Vec<Plan>,
    /// Chunk and offset of each read.
    reads: Vec<(u64, u64)>,
}

impl Block {
    fn new() -> Self {
        Block {
            writes: Vec::new(),
            plans: vec![Plan::NONE; BLOCK],
            next: vec![Plan::NONE; BLOCK],
            reads: Vec::new(),
        }
    }

    /// The writes from this one on; where `driver` is, it does them, and their
    /// plans are kept.
    fn draw(&mut self, workload: &Workload, from: u64, rng: &mut Rng, driver: &mut dyn Way) {
        let Shape { p, c, .. } = workload.shape;
        self.writes.clear();
        self.reads.clear();
        for at in 0..BLOCK {
            let (chunk, size) = workload.write(from + at as u64);
            let plan = &mut self.plans[at];
            plan.len = 16 * driver.plan(chunk, size, &mut plan.bytes);
            assert!(plan.len > 0 && driver.carry(chunk, size, plan.get(), plan.steps()));
            self.writes.push((chunk, size));
            let read = rng.below(c);
            self.reads.push((read, 4096 * (read * p + rng.below(p))));
        }
    }
}

/// Nanoseconds of one write or read in a block.
fn timed(mut run: impl FnMut() -> usize) -> f64 {
    let start = Instant::now();
    let good = run();
    let time = start.elapsed().as_secs_f64() * 1e9 / BLOCK as f64;
    assert_eq!(good, BLOCK, "every call is good");
    time
}

/// Generic over the way, so that nothing stands between the block and its calls.
fn whole<W: Way>(way: &mut W, block: &Block, plan: &mut Plan) -> f64 {
    timed(|| {
        let mut good = 0;
        for &(chunk, size) in &block.writes {
            let (chunk, size) = (black_box(chunk), black_box(size));
            plan.len = 16 * way.plan(chunk, size, &mut plan.bytes);
            let plan = black_box(&*plan);
            let passed = way.check(chunk, size, plan.get());
            let carried = way.carry(chunk, size, plan.get(), plan.steps());
            good += usize::from(passed & carried);
        }
        good
    })
}

fn plans<W: Way>(way: &mut W, block: &mut Block) -> f64 {
    let Block { writes, next, .. } = block;
    timed(|| {
        let mut good = 0;
        for (&(chunk, size), plan) in writes.iter().zip(next.iter_mut()) {
            let (chunk, size) = (black_box(chunk), black_box(size));
            plan.len = 16 * way.plan(chunk, size, black_box(&mut plan.bytes));
            good += usize::from(plan.len > 0);
        }
        good
    })
}

fn checks<W: Way>(way: &mut W, block: &Block) -> f64 {
    timed(|| {
        let mut good = 0;
        for (&(chunk, size), plan) in block.writes.iter().zip(&block.next) {
            let (chunk, size) = (black_box(chunk), black_box(size));
            good += usize::from(way.check(chunk, size, black_box(plan.get())));
        }
        good
    })
}

fn carries<W: Way>(way: &mut W, block: &Block) -> f64 {
    timed(|| {
        let mut good = 0;
        for (&(chunk, size), plan) in block.writes.iter().zip(&block.plans) {
            let (chunk, size) = (black_box(chunk), black_box(size));
            let carried = way.carry(chunk, size, black_box(plan.get()), plan.steps());
            good += usize::from(carried);
        }
        good
    })
}

fn reads<W: Way>(way: &mut W, block: &Block) -> f64 {
    timed(|| {
        let mut good = 0;
        for &(chunk, offset) in &block.reads {
            let (chunk, offset) = (black_box(chunk), black_box(offset));
            let (read, first, bytes) = black_box(way.read(chunk, offset));
            good += usize::from(read && first > 0 && bytes > 0);
        }
        good
    })
}

/// Blocks of each part, of one way.
type Times = [Vec<f64>; PARTS.len()];

/// One turn of a way: a block of whole writes, then the parts on the next block.
/// Both blocks start from what the one before left.
fn turn<W: Way>(way: &mut W, first: &Block, second: &mut Block, plan: &mut Plan, into: &mut Times) {
    into[0].push(whole(way, first, plan));
    into[1].push(plans(way, second));
    into[2].push(checks(way, second));
    into[3].push(carries(way, second));
    into[4].push(reads(way, second));
}

/// The orders in which the ways take turns.
const ORDERS: [[usize; 3]; 6] = [
    [0, 1, 2],
    [1, 2, 0],
    [2, 0, 1],
    [0, 2, 1],
    [2, 1, 0],
    [1, 0, 2],
];

fn measure(workload: &Workload, turns: usize) -> [Times; 3] {
    let image = fresh(&workload.shape);
    let open = |image: &[u8]| Volume::open(image.to_vec()).expect("sound");
    let mut driver = Ordinary(open(&image));
    // Some rounds first, by the driver alone; the others take over what it left.
    let mut plan = Plan::NONE;
    let mut at = 0;
    while at < ROUNDS * workload.shape.c {
        let (chunk, size) = workload.write(at);
        plan.len = 16 * driver.plan(chunk, size, &mut plan.bytes);
        assert!(plan.len > 0 && driver.carry(chunk, size, plan.get(), plan.steps()));
        at += 1;
    }
    let image = driver.image().to_vec();
    let mut ordinary = Ordinary(open(&image));
    let mut sets = [0; INDEX_WORDS];
    let opened = ffi::open(&image, &mut sets);
    assert_eq!(opened.answer.number, 0);
    let mut indexed = Indexed {
        index: opened.index,
        sets,
        image: image.clone(),
    };
    let mut scanning = Scanning(image);

    let mut times: [Times; 3] = Default::default();
    let rng = &mut Rng::new(11);
    let (mut first, mut second) = (Block::new(), Block::new());
    for number in 0..turns {
        first.draw(workload, at, rng, &mut driver);
        second.draw(workload, at + BLOCK as u64, rng, &mut driver);
        at += 2 * BLOCK as u64;
        for way in ORDERS[number % ORDERS.len()] {
            let into = &mut times[way];
            match way {
                0 => turn(&mut ordinary, &first, &mut second, &mut plan, into),
                1 => turn(&mut indexed, &first, &mut second, &mut plan, into),
                _ => turn(&mut scanning, &first, &mut second, &mut plan, into),
            }
        }
        // All have done the same.
        if number % 100 == 0 || number + 1 == turns {
            let ways: [&dyn Way; 3] = [&ordinary, &indexed, &scanning];
            for way in ways {
                assert!(way.image() == driver.image(), "the images differ");
                assert!(way.free() == driver.free(), "what is free differs");
            }
        }
    }
    times
}

fn main() {
    let begun = Instant::now();
    let turns = number("SUMBILAK_TURNS").map_or(TURNS, |turns| turns as usize);
    let workloads = Workload::all();
    let rows: Vec<(&Workload, [Times; 3])> = workloads
        .iter()
        .map(|workload| (workload, measure(workload, turns)))
        .collect();
    println!(
        "| volume | edition | part | {} ns | {} ns | {} ns | indexed / ordinary | of least times | scanning / ordinary |",
        NAMES[0], NAMES[1], NAMES[2]
    );
    println!("|---|---:|---|---:|---:|---:|---:|---:|---:|");
    for (part, name) in PARTS.iter().enumerate() {
        for (workload, times) in &rows {
            let medians = [0, 1, 2].map(|way| median(&times[way][part]));
            let [ordinary, indexed, scanning] = medians;
            let [low, low_indexed, _] = [0, 1, 2].map(|way| least(&times[way][part]));
            println!(
                "| {} | {} | {name} | {ordinary:.1} | {indexed:.1} | {scanning:.1} | {:.2} | {:.2} | {:.2} |",
                workload.name,
                workload.shape.edition.number(),
                indexed / ordinary,
                low_indexed / low,
                scanning / ordinary,
            );
        }
    }
    println!(
        "\nMedians of {turns} blocks of {BLOCK} calls a way; {:.1?} in all",
        begun.elapsed()
    );
}
