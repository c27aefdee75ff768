//! Rules that are wrong on purpose. Under most of them a volume comes to lie,
//! and the simulator has to notice from the volume alone. Where no chunk comes to
//! harm, the words of the rule that is broken have to give it away.

use sumbilak_reference::ffi::{self, CAnswer, LOAD_WORDS};
use sumbilak_reference::inputs::{
    assemble, decode, encode, entry, free_maps, free_units, mapped, put_entry, put_word, units_in,
    word, Edition, Fields, Shape, FENCE as FENCE_STEP, X,
};

use crate::event::{Request, DATA, LINK, MAP};
use crate::rules::{carry_step, check, Fate, Library, Rules};
use crate::volume::{faults, Fault, Held};

const GOOD: CAnswer = CAnswer {
    number: 0,
    place: 0,
    second: 0,
    value: 0,
    extent: 0,
};

fn refusal(number: u64, place: u64) -> CAnswer {
    CAnswer {
        number,
        place,
        ..GOOD
    }
}

/// Carries out what a wrong checker let pass; the library's carrier would
/// check for itself.
pub fn carry_as_judged(
    shape: &Shape,
    image: &mut [u8],
    plan: &[u8],
    n: u64,
    verdict: CAnswer,
) -> CAnswer {
    let steps = decode(plan);
    if n > steps.len() as u64 {
        return refusal(7, 0);
    }
    if verdict.number == 0 {
        for step in &steps[..n as usize] {
            carry_step(shape, image, step);
        }
    }
    verdict
}

/// What a checker is.
pub type CheckFn = fn(&Shape, &[u8], Request, &[u8]) -> CAnswer;

/// A wrong checker, with a carrier that believes it.
pub struct Checker(pub CheckFn);

impl Rules for Checker {
    const BELIEVED: bool = true;

    fn check(&self, shape: &Shape, image: &[u8], request: Request, plan: &[u8]) -> CAnswer {
        (self.0)(shape, image, request, plan)
    }
}

/// "LINK before the fence": asks the library about the plan with a FENCE put
/// in before LINK.
pub fn without_the_fence_before_link(
    _: &Shape,
    image: &[u8],
    request: Request,
    plan: &[u8],
) -> CAnswer {
    if !plan.len().is_multiple_of(16) {
        return check(image, request, plan);
    }
    let fenced: Vec<Fields> = decode(plan)
        .into_iter()
        .flat_map(|step| {
            let fence = (step[0] == LINK).then_some(FENCE_STEP);
            fence.into_iter().chain([step])
        })
        .collect();
    check(image, request, &encode(&fenced))
}

/// "No last FENCE": asks the library about the plan with one put at its end.
pub fn without_the_last_fence(_: &Shape, image: &[u8], request: Request, plan: &[u8]) -> CAnswer {
    let mut fenced = plan.to_vec();
    fenced.extend(encode(&[FENCE_STEP]));
    let answer = check(image, request, &fenced);
    // The empty plan of an unmapped chunk's discard is good without.
    if answer.number == 0 {
        answer
    } else {
        check(image, request, plan)
    }
}

/// "Old units counted free for the write that replaces them": asks the library
/// about an image in which the chunk is unmapped already. Its old map still is
/// not free.
pub fn with_old_units_free(_: &Shape, image: &[u8], request: Request, plan: &[u8]) -> CAnswer {
    let right = check(image, request, plan);
    if right.number != 11 || request.size.is_none() {
        return right;
    }
    let old_map = entry(image, request.chunk);
    let on_old_map = |step: &Fields| step[0] == MAP && u64::from(step[1]) == old_map;
    if decode(plan).iter().any(on_old_map) {
        return right;
    }
    let mut unmapped = image.to_vec();
    put_entry(&mut unmapped, request.chunk, X);
    check(&unmapped, request, plan)
}

/// "On a double claim, letting the later chunk win": what lower chunks hold
/// may be claimed again.
pub fn with_the_later_chunk_winning(
    shape: &Shape,
    image: &[u8],
    request: Request,
    plan: &[u8],
) -> CAnswer {
    let mut later = image.to_vec();
    for chunk in 0..request.chunk.min(shape.c) {
        put_entry(&mut later, chunk, X);
    }
    check(&later, request, plan)
}

/// A checker that stops after rule 1: "one that accepts all" (01), as far as
/// its steps can be carried out at all.
pub fn of_rule_1_only(_: &Shape, image: &[u8], request: Request, plan: &[u8]) -> CAnswer {
    let answer = check(image, request, plan);
    if answer.number == 11 && answer.place > 1 {
        GOOD
    } else {
        answer
    }
}

/// Answers a write's plan on the lowest of these units.
fn plan_on(shape: &Shape, image: &[u8], request: Request, free: &[u64], out: &mut [u8]) -> CAnswer {
    let k = request.k() as usize;
    if free.len() < k {
        return refusal(9, free.len() as u64);
    }
    let named: Vec<u64> = (0..shape.c).map(|chunk| entry(image, chunk)).collect();
    let map = (0..shape.m).find(|map| !named.contains(map));
    let map = map.expect("more maps than chunks");
    let size = request.size.expect("a write");
    let steps = assemble(shape, request.chunk, size, &free[..k], map);
    let plan = encode(&steps);
    out[..plan.len()].copy_from_slice(&plan);
    CAnswer {
        value: steps.len() as u64,
        ..GOOD
    }
}

/// A planner that counts the chunk's old units as free; the checker is right
/// or goes along with it.
pub struct GreedyPlanner {
    pub checker_agrees: bool,
}

impl Rules for GreedyPlanner {
    const BELIEVED: bool = true;

    fn plan(&self, shape: &Shape, image: &[u8], request: Request, out: &mut [u8]) -> CAnswer {
        if request.size.is_none() || !request.is_good(shape) {
            return Library.plan(shape, image, request, out);
        }
        let held: Vec<usize> = (0..shape.c)
            .filter(|&chunk| chunk != request.chunk)
            .flat_map(|chunk| Held::of(shape, image, chunk).units().to_vec())
            .collect();
        let units = shape.units();
        let free: Vec<u64> = units
            .filter(|&unit| !held.contains(&(unit as usize)))
            .collect();
        plan_on(shape, image, request, &free, out)
    }

    fn check(&self, shape: &Shape, image: &[u8], request: Request, plan: &[u8]) -> CAnswer {
        if self.checker_agrees {
            with_old_units_free(shape, image, request, plan)
        } else {
            check(image, request, plan)
        }
    }
}

/// "Rebuilding the free set from all maps, not the named ones": a loader and a
/// planner that do so.
pub struct AllMaps;

impl AllMaps {
    fn free_units(shape: &Shape, image: &[u8]) -> Vec<u64> {
        let mut free = vec![true; shape.n as usize];
        for map in 0..shape.m {
            for at in 0..shape.p {
                let unit = word(image, shape.unit_at(map, at));
                if unit < shape.n {
                    free[unit as usize] = false;
                }
            }
        }
        let units = shape.units();
        units.filter(|&unit| free[unit as usize]).collect()
    }
}

impl Rules for AllMaps {
    fn load(&self, shape: &Shape, image: &[u8], out: &mut [u64]) -> CAnswer {
        let answer = ffi::load(image, out);
        if answer.number == 0 {
            out[4..76].fill(0);
            for unit in AllMaps::free_units(shape, image) {
                out[4 + unit as usize / 64] |= 1 << (unit % 64);
            }
        }
        answer
    }

    fn plan(&self, shape: &Shape, image: &[u8], request: Request, out: &mut [u8]) -> CAnswer {
        if request.size.is_none() || !request.is_good(shape) {
            return Library.plan(shape, image, request, out);
        }
        let free = AllMaps::free_units(shape, image);
        plan_on(shape, image, request, &free, out)
    }
}

/// A loader and a planner that take word 0 of a map for a unit's, as in
/// edition 1: they count a size below N as a held unit.
pub struct SizeAsUnit;

impl SizeAsUnit {
    fn free_units(shape: &Shape, image: &[u8]) -> Vec<u64> {
        let mut free = vec![true; shape.n as usize];
        for map in (0..shape.c).map(|chunk| entry(image, chunk)) {
            if map < shape.m {
                for at in 0..shape.map_words() {
                    let unit = word(image, shape.word_at(map, at));
                    if unit < shape.n {
                        free[unit as usize] = false;
                    }
                }
            }
        }
        let units = shape.units();
        units.filter(|&unit| free[unit as usize]).collect()
    }
}

impl Rules for SizeAsUnit {
    fn load(&self, shape: &Shape, image: &[u8], out: &mut [u64]) -> CAnswer {
        let answer = ffi::load(image, out);
        if answer.number == 0 {
            out[4..76].fill(0);
            for unit in SizeAsUnit::free_units(shape, image) {
                out[4 + unit as usize / 64] |= 1 << (unit % 64);
            }
        }
        answer
    }

    fn plan(&self, shape: &Shape, image: &[u8], request: Request, out: &mut [u8]) -> CAnswer {
        if request.size.is_none() || !request.is_good(shape) {
            return Library.plan(shape, image, request, out);
        }
        let free = SizeAsUnit::free_units(shape, image);
        plan_on(shape, image, request, &free, out)
    }
}

/// A checker that lets any size word pass: it asks the library about the plan
/// with the request's size in it. Words with no size in range are left alone.
pub fn with_any_size(shape: &Shape, image: &[u8], request: Request, plan: &[u8]) -> CAnswer {
    let Some(size) = request.size.filter(|_| plan.len().is_multiple_of(16)) else {
        return check(image, request, plan);
    };
    let mut steps = decode(plan);
    for step in &mut steps {
        let is_size = step[0] == MAP && u64::from(step[2]) < shape.size_words();
        if is_size && (1..=shape.chunk_bytes()).contains(&u64::from(step[3])) {
            step[3] = size as u32;
        }
    }
    check(image, request, &encode(&steps))
}

/// A checker that takes another size of as many units for the same.
pub fn with_rounded_sizes(shape: &Shape, image: &[u8], request: Request, plan: &[u8]) -> CAnswer {
    let Some(size) = request.size.filter(|_| plan.len().is_multiple_of(16)) else {
        return check(image, request, plan);
    };
    let mut steps = decode(plan);
    for step in &mut steps {
        let is_size = step[0] == MAP && u64::from(step[2]) < shape.size_words();
        if is_size && u64::from(step[3]).div_ceil(4096) == size.div_ceil(4096) {
            step[3] = size as u32;
        }
    }
    check(image, request, &encode(&steps))
}

/// A checker and a carrier that take word 0 for the first unit's: each MAP word
/// of the plan stands for the one before it. A plan of edition 1 passes, and its
/// words are stored from word 0 on.
pub fn with_word_0_a_unit(shape: &Shape, image: &[u8], request: Request, plan: &[u8]) -> CAnswer {
    let right = check(image, request, plan);
    let Some(size) = request.size.filter(|_| right.number == 11) else {
        return right;
    };
    // The plan with its size put in and every unit one word on.
    let mut steps = decode(plan);
    let Some(map) = steps.iter().find(|step| step[0] == MAP).map(|step| step[1]) else {
        return right;
    };
    for step in steps.iter_mut().filter(|step| step[0] == MAP) {
        step[2] = step[2].saturating_add(shape.size_words() as u32);
    }
    steps.insert(0, [MAP, map, 0, size as u32]);
    let mut shifted = encode(&steps);
    shifted.extend(&plan[plan.len() / 16 * 16..]);
    match check(image, request, &shifted) {
        good if good.number == 0 => good,
        _ => right,
    }
}

/// What a converter is.
pub type ConvertFn = fn(&Shape, &[u8], &mut [u8]) -> CAnswer;

/// A wrong converter.
pub struct Converter(pub ConvertFn);

impl Rules for Converter {
    fn convert(&self, one: &Shape, image: &[u8], out: &mut [u8]) -> CAnswer {
        (self.0)(one, image, out)
    }
}

/// Copies the words of dead maps along.
pub fn convert_with_dead_maps(one: &Shape, image: &[u8], out: &mut [u8]) -> CAnswer {
    let answer = ffi::convert(image, out);
    let two = one.in_edition(Edition::Two);
    for map in free_maps(one, image) {
        for at in 0..one.p {
            let value = word(image, one.unit_at(map, at));
            put_word(out, two.unit_at(map, at), value);
        }
    }
    answer
}

/// Loses the entry of the last chunk that is mapped.
pub fn convert_without_an_entry(one: &Shape, image: &[u8], out: &mut [u8]) -> CAnswer {
    let answer = ffi::convert(image, out);
    if let Some(&chunk) = mapped(one, image).last() {
        put_entry(out, chunk, X);
    }
    answer
}

/// Writes k for the size, and not k·4,096.
pub fn convert_with_counts(one: &Shape, image: &[u8], out: &mut [u8]) -> CAnswer {
    let answer = ffi::convert(image, out);
    let two = one.in_edition(Edition::Two);
    for chunk in mapped(one, image) {
        let at = two.word_at(entry(image, chunk), 0);
        put_word(out, at, word(out, at) / 4096);
    }
    answer
}

/// Writes the units of each map the other way round.
pub fn convert_in_reverse(one: &Shape, image: &[u8], out: &mut [u8]) -> CAnswer {
    let answer = ffi::convert(image, out);
    let two = one.in_edition(Edition::Two);
    for chunk in mapped(one, image) {
        let map = entry(image, chunk);
        let units = units_in(one, image, map);
        for (j, &unit) in (0..).zip(units.iter().rev()) {
            put_word(out, two.unit_at(map, j), unit);
        }
    }
    answer
}

/// Reserves the first unit.
pub fn convert_and_reserve(_: &Shape, image: &[u8], out: &mut [u8]) -> CAnswer {
    let answer = ffi::convert(image, out);
    put_reserved(out, 1);
    answer
}

/// Writes R into an image of edition 2.
fn put_reserved(image: &mut [u8], r: u32) {
    let at = image.len() - 8;
    image[at..at + 4].copy_from_slice(&r.to_le_bytes());
}

/// The image as if nothing were reserved.
fn unreserved(image: &[u8]) -> Vec<u8> {
    let mut image = image.to_vec();
    put_reserved(&mut image, 0);
    image
}

/// A checker to which reserved units are free.
pub fn with_reserved_units_free(_: &Shape, image: &[u8], request: Request, plan: &[u8]) -> CAnswer {
    check(&unreserved(image), request, plan)
}

/// A checker to which they are free where other units are too few.
pub fn with_reserved_units_at_need(
    shape: &Shape,
    image: &[u8],
    request: Request,
    plan: &[u8],
) -> CAnswer {
    if (free_units(shape, image).len() as u64) < request.k() {
        with_reserved_units_free(shape, image, request, plan)
    } else {
        check(image, request, plan)
    }
}

/// A checker that refuses them, but by rule 1, which says "units below N" (01).
pub fn with_reserved_units_no_units(
    shape: &Shape,
    image: &[u8],
    request: Request,
    plan: &[u8],
) -> CAnswer {
    let reserved = |step: &Fields| step[0] == DATA && u64::from(step[1]) < shape.r;
    match check(image, request, plan) {
        broken if broken.number == 11 && decode(plan).iter().any(reserved) => refusal(11, 1),
        answer => answer,
    }
}

/// Rule 2 with another word on which units will do: where the rule alone is
/// broken by a plan with each piece once, and these units pass, the library is
/// asked about the plan with the lowest units in their place.
fn with_units(
    shape: &Shape,
    image: &[u8],
    request: Request,
    plan: &[u8],
    will_do: fn(units: &[u64], free: &[u64]) -> bool,
) -> CAnswer {
    let right = check(image, request, plan);
    if [right.number, right.place] != [11, 2] || request.size.is_none() {
        return right;
    }
    let mut steps = decode(plan);
    let mut data: Vec<Fields> = steps
        .iter()
        .copied()
        .filter(|step| step[0] == DATA)
        .collect();
    data.sort_unstable_by_key(|step| step[2]);
    let pieces = data.iter().map(|step| u64::from(step[2]));
    let units: Vec<u64> = data.iter().map(|step| u64::from(step[1])).collect();
    let free = free_units(shape, image);
    if !pieces.eq(0..request.k()) || units.len() > free.len() || !will_do(&units, &free) {
        return right;
    }
    // One unit for another throughout, so that MAP is right where it was.
    let mut exchanged: Vec<u64> = (0..shape.n).collect();
    for (&unit, &lowest) in units.iter().zip(&free) {
        let other = exchanged.iter().position(|&new| new == lowest);
        exchanged.swap(unit as usize, other.expect("each is there once"));
    }
    for step in &mut steps {
        let field = match step[0] {
            DATA => 1,
            MAP if u64::from(step[2]) >= shape.size_words() => 3,
            _ => continue,
        };
        if let Some(&new) = exchanged.get(step[field] as usize) {
            step[field] = new as u32;
        }
    }
    check(image, request, &encode(&steps))
}

/// Rule 2 as it was until request 6: "on different free units" (01).
pub fn with_any_free_units(shape: &Shape, image: &[u8], request: Request, plan: &[u8]) -> CAnswer {
    with_units(shape, image, request, plan, |units, free| {
        let different = (1..units.len()).all(|at| !units[..at].contains(&units[at]));
        different && units.iter().all(|unit| free.contains(unit))
    })
}

/// Free units in rising order, though not the lowest.
pub fn with_rising_free_units(
    shape: &Shape,
    image: &[u8],
    request: Request,
    plan: &[u8],
) -> CAnswer {
    with_units(shape, image, request, plan, |units, free| {
        let rising = units.windows(2).all(|pair| pair[0] < pair[1]);
        rising && units.iter().all(|unit| free.contains(unit))
    })
}

/// The lowest free units, though not piece 0 on the lowest.
pub fn with_lowest_in_any_order(
    shape: &Shape,
    image: &[u8],
    request: Request,
    plan: &[u8],
) -> CAnswer {
    with_units(shape, image, request, plan, |units, free| {
        let mut units = units.to_vec();
        units.sort_unstable();
        free.starts_with(&units)
    })
}

/// Takes no map but the lowest free one.
pub fn with_the_lowest_map_only(
    shape: &Shape,
    image: &[u8],
    request: Request,
    plan: &[u8],
) -> CAnswer {
    let lowest = free_maps(shape, image)[0];
    let other = |step: &Fields| step[0] == MAP && u64::from(step[1]) != lowest;
    match check(image, request, plan) {
        good if good.number == 0 && decode(plan).iter().any(other) => refusal(11, 3),
        answer => answer,
    }
}

/// Takes DATA steps in the order of their pieces only.
pub fn with_data_in_order_only(_: &Shape, image: &[u8], request: Request, plan: &[u8]) -> CAnswer {
    let steps = decode(plan);
    let data = steps.iter().filter(|step| step[0] == DATA);
    match check(image, request, plan) {
        good if good.number == 0 && !data.is_sorted_by_key(|step| step[2]) => refusal(11, 2),
        answer => answer,
    }
}

/// Gives the planner's 9 where too few units are free.
pub fn with_no_room(shape: &Shape, image: &[u8], request: Request, plan: &[u8]) -> CAnswer {
    let answer = check(image, request, plan);
    let free = free_units(shape, image).len() as u64;
    if [answer.number, answer.place] == [11, 2] && free < request.k() {
        refusal(9, free)
    } else {
        answer
    }
}

/// A loader and a planner to which reserved units are free; the checker is right
/// or goes along with them.
pub struct ReservedFree {
    pub checker_agrees: bool,
}

impl Rules for ReservedFree {
    const BELIEVED: bool = true;

    /// Its value is then 0, too.
    fn load(&self, _: &Shape, image: &[u8], out: &mut [u64]) -> CAnswer {
        ffi::load(&unreserved(image), out)
    }

    fn plan(&self, shape: &Shape, image: &[u8], request: Request, out: &mut [u8]) -> CAnswer {
        Library.plan(shape, &unreserved(image), request, out)
    }

    fn check(&self, shape: &Shape, image: &[u8], request: Request, plan: &[u8]) -> CAnswer {
        if self.checker_agrees {
            with_reserved_units_free(shape, image, request, plan)
        } else {
            check(image, request, plan)
        }
    }
}

/// A loader that, "on a double claim", unmaps the earlier chunk and goes on.
pub fn let_the_later_chunk_win(shape: &Shape, image: &mut [u8]) {
    for _ in 0..shape.c {
        let answer = ffi::load(image, &mut [0; LOAD_WORDS]);
        if answer.number != 6 {
            break;
        }
        put_entry(image, answer.place, X);
    }
}

/// A landing that takes no notice of fences.
pub struct Unfenced;

impl Rules for Unfenced {
    fn fenced(&self, _: &[Fields], _: usize) -> usize {
        0
    }
}

/// A landing in which a word that has been passed lands by half.
pub struct TornWords;

impl Rules for TornWords {
    fn store(&self, image: &mut [u8], at: usize, value: u64, fate: Fate) {
        let bytes = match fate {
            Fate::Landed => 8,
            Fate::Passed => 4,
            Fate::Later => 0,
        };
        image[at..at + bytes].copy_from_slice(&value.to_le_bytes()[..bytes]);
    }
}

/// A landing that stores each word one place too far.
pub struct WordsTooFar;

impl Rules for WordsTooFar {
    fn store(&self, image: &mut [u8], at: usize, value: u64, fate: Fate) {
        if fate == Fate::Landed {
            put_word(image, at + 8, value);
        }
    }
}

/// Wrong carriers.
pub enum Carrier {
    /// "one that stores everything at step one" (01).
    AllAtOnce,
    /// "a carrier that does nothing" (01).
    Idle,
    /// One that stores first and counts the steps afterwards.
    StoresFirst,
}

impl Rules for Carrier {
    fn carry(
        &self,
        shape: &Shape,
        image: &mut [u8],
        request: Request,
        plan: &[u8],
        n: u64,
    ) -> CAnswer {
        let verdict = check(image, request, plan);
        let whole = plan.len() as u64 / 16;
        match self {
            Carrier::AllAtOnce if n > 0 && n <= whole => {
                carry_as_judged(shape, image, plan, whole, verdict)
            }
            Carrier::Idle if n <= whole => verdict,
            Carrier::StoresFirst if n > whole => {
                carry_as_judged(shape, image, plan, whole, verdict);
                refusal(7, 0)
            }
            _ => carry_as_judged(shape, image, plan, n, verdict),
        }
    }
}

/// What a repair is.
pub type RepairFn = fn(&Shape, &mut [u8], &mut [u8]) -> CAnswer;

/// A wrong repair.
pub struct Repair(pub RepairFn);

impl Rules for Repair {
    fn repair(&self, shape: &Shape, image: &mut [u8], out: &mut [u8]) -> CAnswer {
        (self.0)(shape, image, out)
    }
}

/// Unlinks these chunks.
fn unlink(image: &mut [u8], chunks: &[u64], out: &mut [u8]) -> CAnswer {
    for (&chunk, slot) in chunks.iter().zip(out.chunks_exact_mut(4)) {
        put_entry(image, chunk, X);
        slot.copy_from_slice(&(chunk as u32).to_le_bytes());
    }
    CAnswer {
        value: chunks.len() as u64,
        ..GOOD
    }
}

/// Repairs all but faults of these kinds.
fn repair_but(left: &[Fault], shape: &Shape, image: &mut [u8], out: &mut [u8]) -> CAnswer {
    let chunks: Vec<u64> = faults(shape, image)
        .into_iter()
        .filter(|(_, fault)| !left.contains(fault))
        .map(|(chunk, _)| chunk)
        .collect();
    unlink(image, &chunks, out)
}

pub fn repair_of_links_and_maps(shape: &Shape, image: &mut [u8], out: &mut [u8]) -> CAnswer {
    let clashes = [Fault::SharedMap, Fault::SharedUnit, Fault::UnitTwice];
    repair_but(&clashes, shape, image, out)
}

pub fn repair_with_maps_shared(shape: &Shape, image: &mut [u8], out: &mut [u8]) -> CAnswer {
    repair_but(&[Fault::SharedMap], shape, image, out)
}

pub fn repair_with_units_twice(shape: &Shape, image: &mut [u8], out: &mut [u8]) -> CAnswer {
    repair_but(&[Fault::UnitTwice], shape, image, out)
}

pub fn repair_with_bad_maps(shape: &Shape, image: &mut [u8], out: &mut [u8]) -> CAnswer {
    repair_but(&[Fault::Map], shape, image, out)
}

pub fn repair_with_bad_links(shape: &Shape, image: &mut [u8], out: &mut [u8]) -> CAnswer {
    repair_but(&[Fault::Link], shape, image, out)
}

/// Repairs all but maps that are bad by a reserved unit alone.
pub fn repair_with_reserved_units(shape: &Shape, image: &mut [u8], out: &mut [u8]) -> CAnswer {
    let all = Shape { r: 0, ..*shape };
    let found = faults(&all, image).into_iter();
    let chunks: Vec<u64> = found.map(|(chunk, _)| chunk).collect();
    unlink(image, &chunks, out)
}

/// Unlinks what is bad by itself; then goes over the chunks in this order, and
/// whoever finds all that it names unclaimed keeps it.
fn repair_in_order(
    shape: &Shape,
    image: &mut [u8],
    out: &mut [u8],
    order: impl Iterator<Item = u64>,
) -> CAnswer {
    let found = faults(shape, image);
    let mut gone: Vec<u64> = found
        .iter()
        .filter(|(_, fault)| matches!(fault, Fault::Link | Fault::Map))
        .map(|(chunk, _)| *chunk)
        .collect();
    let mut claimed = Vec::new();
    for chunk in order {
        if entry(image, chunk) == X || gone.contains(&chunk) {
            continue;
        }
        let held = Held::of(shape, image, chunk);
        let units = held.units();
        let twice = (1..units.len()).any(|at| units[..at].contains(&units[at]));
        if twice || units.iter().any(|unit| claimed.contains(unit)) {
            gone.push(chunk);
        } else {
            claimed.extend_from_slice(units);
        }
    }
    gone.sort_unstable();
    unlink(image, &gone, out)
}

/// "On a double claim, letting the later chunk win." (01)
pub fn repair_for_the_later(shape: &Shape, image: &mut [u8], out: &mut [u8]) -> CAnswer {
    repair_in_order(shape, image, out, (0..shape.c).rev())
}

pub fn repair_for_the_earlier(shape: &Shape, image: &mut [u8], out: &mut [u8]) -> CAnswer {
    repair_in_order(shape, image, out, 0..shape.c)
}

/// A good chunk goes, too, where a bad map names one of its units.
pub fn repair_with_bad_claims(shape: &Shape, image: &mut [u8], out: &mut [u8]) -> CAnswer {
    let found = faults(shape, image);
    let borrowed: Vec<u64> = found
        .iter()
        .filter(|(_, fault)| *fault == Fault::Map)
        .flat_map(|&(chunk, _)| {
            let map = entry(image, chunk);
            let words = (0..shape.p).map(|at| word(image, shape.unit_at(map, at)));
            words.collect::<Vec<u64>>()
        })
        .collect();
    let goes = |&chunk: &u64| {
        let held = Held::of(shape, image, chunk);
        let lends = held
            .units()
            .iter()
            .any(|&unit| borrowed.contains(&(unit as u64)));
        lends || found.iter().any(|(faulty, _)| *faulty == chunk)
    };
    let chunks: Vec<u64> = (0..shape.c).filter(goes).collect();
    unlink(image, &chunks, out)
}

/// Writes X over the maps of the chunks that go.
pub fn repair_and_wipe(shape: &Shape, image: &mut [u8], out: &mut [u8]) -> CAnswer {
    let chunks: Vec<u64> = faults(shape, image)
        .into_iter()
        .map(|(chunk, _)| chunk)
        .collect();
    for &chunk in &chunks {
        let map = entry(image, chunk);
        if map < shape.m {
            (0..shape.map_words()).for_each(|at| put_word(image, shape.word_at(map, at), X));
        }
    }
    unlink(image, &chunks, out)
}

/// A repaired image of which the last changed entry has not landed.
pub struct HalfWrittenBack;

impl Rules for HalfWrittenBack {
    fn write_back(&self, damaged: &[u8], repaired: &mut [u8]) {
        let differs = |&at: &usize| damaged[at] != repaired[at];
        if let Some(last) = (0..damaged.len()).rev().find(differs) {
            let at = last / 8 * 8;
            repaired[at..at + 8].copy_from_slice(&damaged[at..at + 8]);
        }
    }
}
