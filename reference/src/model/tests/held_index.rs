//! The held index (02, request 7, and Decisions 99 to 106), with answers worked
//! out by hand.

use super::index::{self, INDEX_WORDS};
use super::*;

const FENCE: [u32; 4] = [4, 0, 0, 0];

/// An image with its index, as a caller keeps both.
struct Kept {
    image: Vec<u8>,
    shape: Shape,
    sets: Vec<u64>,
}

impl Kept {
    fn open(image: Vec<u8>) -> Self {
        let mut sets = vec![0xEE; INDEX_WORDS];
        let shape = index::open(&image, &mut sets).expect("a sound image");
        Kept { image, shape, sets }
    }

    fn plan(&self, chunk: u64, size: u64) -> Answer<Vec<u8>> {
        let mut out = [0; STEP * 36];
        let (shape, sets, image) = (&self.shape, &self.sets, &self.image);
        let steps = index::plan_write(shape, sets, image, chunk, size, &mut out)?;
        Ok(out[..STEP * steps as usize].to_vec())
    }

    fn carry(&mut self, chunk: u64, size: u64, plan: &[u8], n: u64) -> Answer<()> {
        let Kept { image, shape, sets } = self;
        index::carry_write(shape, sets, image, chunk, size, plan, n)
    }

    fn write(&mut self, chunk: u64, size: u64) {
        let plan = self.plan(chunk, size).expect("a plan");
        let steps = (plan.len() / STEP) as u64;
        self.carry(chunk, size, &plan, steps).expect("it passes");
    }

    /// Units 0 to 63, and maps 0 to 63.
    fn low(&self) -> [u64; 2] {
        [self.sets[0], self.sets[72]]
    }
}

/// 01's worked example with an index: units 0 to 19 and maps 0 to 4 are free; then
/// units 0, 1 and map 0 go to chunk 2, unit 2 and map 1 to chunk 0, then units 3, 4
/// and map 2, "after it unit 2 and map 1 are free".
#[test]
fn the_three_writes() {
    let mut kept = Kept::open(small());
    assert_eq!(kept.low(), [0xFFFFF, 0b11111]);
    kept.write(2, 6144);
    assert_eq!(kept.low(), [0xFFFFC, 0b11110]);
    kept.write(0, 3072);
    assert_eq!(kept.low(), [0xFFFF8, 0b11100]);
    kept.write(0, 5120);
    assert_eq!(kept.low(), [0xFFFE4, 0b11010]);
    assert!(kept.sets[1..72]
        .iter()
        .chain(&kept.sets[73..])
        .all(|&word| word == 0));
    assert_eq!(index::open(&kept.image, &mut [0; 77]), Ok(kept.shape));
    let part = index::held(&kept.shape, &kept.sets, &kept.image, 0).unwrap();
    assert_eq!(part, 96..112);
    let report = index::report(&kept.shape, &kept.sets, &kept.image).unwrap();
    assert_eq!(
        [report.mapped, report.held, report.free, report.saved],
        [2, 4, 16, 4]
    );
    let alarm = |units| index::alarm_count(&kept.shape, &kept.sets, &kept.image, units);
    assert_eq!([16, 17].map(alarm), [Ok(false), Ok(true)]);
}

/// "Exactly where carrying out is accepted and LINK is among the n steps"
/// (Decision 103): of nine steps it is the eighth.
#[test]
fn the_words_change_with_link() {
    let plan = Kept::open(small()).plan(2, 6144).unwrap();
    for n in 0..=9 {
        let mut kept = Kept::open(small());
        kept.carry(2, 6144, &plan, n).unwrap();
        let due = if n < 8 {
            [0xFFFFF, 0b11111]
        } else {
            [0xFFFFC, 0b11110]
        };
        assert_eq!(kept.low(), due, "{n} steps");
    }
    // "A plan that was carried out up to LINK is no plan for the image any more"
    // (Decision 104): its units are not free.
    let mut kept = Kept::open(small());
    kept.carry(2, 6144, &plan, 8).unwrap();
    let before = kept.sets.clone();
    assert_eq!(kept.carry(2, 6144, &plan, 9), Err(refusal(11, 2)));
    assert_eq!(kept.sets, before);
    assert_eq!(kept.carry(2, 6144, &plan, 10), Err(refusal(7, 0)));
}

/// "1 to 3, by the image's trailer [..]; 3 where the trailer passes and does not
/// say what the index says [..]; 4 with that chunk [..]; 10 with 616 [..]; then 7 to
/// 12" (Decision 100), the first of these where several hold.
#[test]
fn refusals_in_their_order() {
    let mut kept = Kept::open(small());
    kept.write(1, 1);
    put(&mut kept.image, 1, 5);
    let answer = |kept: &Kept, chunk, size| kept.plan(chunk, size).map(|_| ()).unwrap_err();
    // Chunk 1's entry leads outside, chunk 0's does not, and nobody else asks.
    assert_eq!(answer(&kept, 1, 0), refusal(4, 1));
    assert_eq!(answer(&kept, 0, 0), refusal(8, 0));
    kept.sets.truncate(76);
    assert_eq!(answer(&kept, 1, 0), refusal(4, 1));
    assert_eq!(answer(&kept, 0, 0), refusal(10, 616));
    assert_eq!(answer(&kept, 4, 0), refusal(10, 616));
    kept.shape.n += 1 << 32;
    assert_eq!(answer(&kept, 1, 0), refusal(3, 0));
    let at = kept.image.len() - 32;
    kept.image[at] = 0;
    assert_eq!(answer(&kept, 1, 0), refusal(2, 0));
    kept.image.truncate(31);
    assert_eq!(answer(&kept, 1, 0), refusal(1, 0));
}

/// "Access judges no entry" (Decision 101), nor do report and alarm.
#[test]
fn access_judges_no_entry() {
    let mut kept = Kept::open(small());
    put(&mut kept.image, 1, 5);
    let access = |kept: &Kept, offset| {
        let (shape, sets) = (&kept.shape, &kept.sets);
        index::access(shape, sets, &kept.image, false, offset, 4096)
    };
    assert_eq!(access(&kept, 16384), Ok(Access::ReadsChunk));
    assert_eq!(access(&kept, 0), Ok(Access::ReadsZeros));
    assert!(index::report(&kept.shape, &kept.sets, &kept.image).is_ok());
    assert_eq!(
        index::held(&kept.shape, &kept.sets, &kept.image, 1),
        Err(refusal(4, 1))
    );
    kept.sets.clear();
    // The words before the range.
    assert_eq!(access(&kept, 1), Err(refusal(10, 616)));
}

/// "the free units are the members below N of the first 72 words, reserved units
/// too if a set has them; the free maps are the members below M of the next 5"
/// (Decision 102).
#[test]
fn sets_that_are_made_up() {
    let image = fresh2([4, 4, 5, 20, 3]);
    let mut kept = Kept::open(image);
    assert_eq!(kept.low(), [0xFFFF8, 0b11111]);
    kept.sets.fill(u64::MAX);
    let plan = kept.plan(0, 4096).unwrap();
    assert_eq!(plan[4..8], [0; 4], "unit 0, which is reserved");
    let report = index::report(&kept.shape, &kept.sets, &kept.image).unwrap();
    // Of 17 units that may be held, 20 are free.
    assert_eq!(
        [report.mapped, report.held, report.free, report.saved],
        [0, 0, 20, 0]
    );
    // Carried out, the reserved unit stays in: a map holds none. Map 0 goes, the
    // bits from N and M on stay.
    let steps = (plan.len() / STEP) as u64;
    kept.carry(0, 4096, &plan, steps).unwrap();
    assert_eq!(kept.low(), [u64::MAX, u64::MAX - 1]);
    // Nothing free: 9 with 0. One unit: 9 with 1 for two, and 9 with 0 for one, as
    // there is no map.
    kept.sets.fill(0);
    assert_eq!(kept.plan(0, 4096), Err(refusal(9, 0)));
    kept.sets[0] = 1 << 7;
    assert_eq!(kept.plan(0, 4097), Err(refusal(9, 1)));
    assert_eq!(kept.plan(0, 4096), Err(refusal(9, 0)));
    let report = index::report(&kept.shape, &kept.sets, &kept.image).unwrap();
    assert_eq!(
        [report.mapped, report.held, report.free, report.saved],
        [5, 16, 1, 4]
    );
    // 10's own bytes come after 9.
    kept.sets[72] = 1 << 4;
    let (shape, sets) = (&kept.shape, &kept.sets);
    let answer = index::plan_write(shape, sets, &kept.image, 0, 4096, &mut [0; 143]);
    assert_eq!(answer, Err(refusal(10, 144)));
}

/// The next index "in this order" (Decision 103), where the old map counts as free
/// and takes the new units: they are put in and taken out again, and so is the
/// map; what the old map held before is not read any more.
#[test]
fn the_old_map_is_the_new_one() {
    let mut kept = Kept::open(small());
    kept.write(0, 8192);
    kept.write(1, 4096);
    assert_eq!(kept.low(), [0xFFFF8, 0b11100]);
    // Map 0, chunk 0's own, is said to be free.
    kept.sets[72] |= 1;
    kept.write(0, 4096);
    // It lies on unit 3 by map 0 now; units 0 and 1 are lost to this index.
    assert_eq!(kept.low(), [0xFFFF0, 0b11100]);
    assert_eq!(get(&kept.image, 0), 0);
    assert_eq!(get(&kept.image, 4), 3);
}

/// The chunk's own map "up to the first that is not one of R to N-1; in edition 2 a
/// stored size is word 0 as it stands" (Decision 102).
#[test]
fn what_a_damaged_map_holds() {
    let mut kept = Kept::open(fresh2([4, 4, 5, 20, 3]));
    for (units, k) in [([5, 6, 2, 7], 2), ([5, 20, X, X], 1), ([X, 5, X, X], 0)] {
        set2(&mut kept.image, 1, 3, 77, units);
        let (shape, sets) = (&kept.shape, &kept.sets);
        // After four entries and three maps of five words, and the size.
        let first = 8 * (4 + 15 + 1);
        let held = index::held(shape, sets, &kept.image, 1);
        assert_eq!(held, Ok(first..first + 8 * k));
        assert_eq!(index::stored_size(shape, sets, &kept.image, 1), Ok(77));
    }
    // A discard puts in just these units, and the map.
    set2(&mut kept.image, 1, 3, 77, [5, 6, 2, 7]);
    kept.sets[0] = 0;
    kept.sets[72] = 0;
    let discard = plan(&[[3, 1, 0, X32], FENCE]);
    let Kept { image, shape, sets } = &mut kept;
    index::carry_discard(shape, sets, image, 1, &discard, 2).unwrap();
    assert_eq!(kept.low(), [0b110_0000, 0b1000]);
    // "A discard of an unmapped chunk has no LINK, and changes no index."
    // (Decision 104)
    let Kept { image, shape, sets } = &mut kept;
    index::carry_discard(shape, sets, image, 1, &[], 0).unwrap();
    assert_eq!(kept.low(), [0b110_0000, 0b1000]);
}
