//! The C interface of the proved library, and a thin safe wrapper for each of
//! its functions.
//!
//! A slice goes over as its pointer and its length. The wrappers answer the
//! library's structs as they come, for tests to compare field by field.

/// `sumbilak_answer`: number 0 is an answer, with `value` and `extent` as each
/// function says; otherwise number and place (`second` for refusal 6).
#[repr(C)]
#[derive(Clone, Copy, Debug, PartialEq, Eq)]
pub struct CAnswer {
    pub number: u64,
    pub place: u64,
    pub second: u64,
    pub value: u64,
    pub extent: u64,
}

/// `sumbilak_report_answer`.
#[repr(C)]
#[derive(Clone, Copy, Debug, PartialEq)]
pub struct CReport {
    pub number: u64,
    pub place: u64,
    pub second: u64,
    pub mapped: u64,
    pub held: u64,
    pub free: u64,
    pub saved: u64,
    pub held_ratio: f64,
    pub saved_ratio: f64,
}

/// `sumbilak_shape_answer`.
#[repr(C)]
#[derive(Clone, Copy, Debug, PartialEq, Eq)]
pub struct CShape {
    pub number: u64,
    pub place: u64,
    pub second: u64,
    pub edition: u64,
    pub p: u64,
    pub c: u64,
    pub m: u64,
    pub n: u64,
    pub r: u64,
}

/// `sumbilak_index`: edition and geometry, "as sumbilak_shape answers them".
#[repr(C)]
#[derive(Clone, Copy, Debug, PartialEq, Eq)]
pub struct CIndex {
    pub edition: u64,
    pub p: u64,
    pub c: u64,
    pub m: u64,
    pub n: u64,
    pub r: u64,
}

/// `sumbilak_opened`: the index is "all 0 beside a refusal".
#[repr(C)]
#[derive(Clone, Copy, Debug, PartialEq, Eq)]
pub struct COpened {
    pub answer: CAnswer,
    pub index: CIndex,
}

/// Words that `load` writes: P, C, M, N, 72 unit words, 5 map words.
pub const LOAD_WORDS: usize = 81;
/// Words that an index has: 72 unit words, 5 map words.
pub const INDEX_WORDS: usize = 77;

mod sys {
    use super::{CAnswer, CIndex, COpened, CReport, CShape};

    extern "C" {
        pub fn sumbilak_format(
            image: *mut u8,
            len: usize,
            p: u64,
            c: u64,
            m: u64,
            n: u64,
        ) -> CAnswer;
        pub fn sumbilak_format2(
            image: *mut u8,
            len: usize,
            p: u64,
            c: u64,
            m: u64,
            n: u64,
            r: u64,
        ) -> CAnswer;
        pub fn sumbilak_shape(image: *const u8, len: usize) -> CShape;
        pub fn sumbilak_load(
            image: *const u8,
            len: usize,
            out: *mut u64,
            out_len: usize,
        ) -> CAnswer;
        pub fn sumbilak_split(
            image: *const u8,
            len: usize,
            offset: u64,
            length: u64,
            out: *mut u8,
            out_len: usize,
        ) -> CAnswer;
        pub fn sumbilak_access(
            image: *const u8,
            len: usize,
            write: bool,
            offset: u64,
            length: u64,
        ) -> CAnswer;
        pub fn sumbilak_held(image: *const u8, len: usize, chunk: u64) -> CAnswer;
        pub fn sumbilak_stored_size(image: *const u8, len: usize, chunk: u64) -> CAnswer;
        pub fn sumbilak_plan_write(
            image: *const u8,
            len: usize,
            chunk: u64,
            size: u64,
            out: *mut u8,
            out_len: usize,
        ) -> CAnswer;
        pub fn sumbilak_plan_discard(
            image: *const u8,
            len: usize,
            chunk: u64,
            out: *mut u8,
            out_len: usize,
        ) -> CAnswer;
        pub fn sumbilak_check_write(
            image: *const u8,
            len: usize,
            chunk: u64,
            size: u64,
            plan: *const u8,
            plan_len: usize,
        ) -> CAnswer;
        pub fn sumbilak_check_discard(
            image: *const u8,
            len: usize,
            chunk: u64,
            plan: *const u8,
            plan_len: usize,
        ) -> CAnswer;
        pub fn sumbilak_carry_write(
            image: *mut u8,
            len: usize,
            chunk: u64,
            size: u64,
            plan: *const u8,
            plan_len: usize,
            n: u64,
        ) -> CAnswer;
        pub fn sumbilak_carry_discard(
            image: *mut u8,
            len: usize,
            chunk: u64,
            plan: *const u8,
            plan_len: usize,
            n: u64,
        ) -> CAnswer;
        pub fn sumbilak_alarm_count(image: *const u8, len: usize, units: u64) -> CAnswer;
        pub fn sumbilak_alarm_fraction(image: *const u8, len: usize, fraction: f64) -> CAnswer;
        pub fn sumbilak_report(image: *const u8, len: usize) -> CReport;
        pub fn sumbilak_repair(image: *mut u8, len: usize, out: *mut u8, out_len: usize)
            -> CAnswer;
        pub fn sumbilak_convert(
            image: *const u8,
            len: usize,
            out: *mut u8,
            out_len: usize,
        ) -> CAnswer;
        pub fn sumbilak_open(
            image: *const u8,
            len: usize,
            sets: *mut u64,
            sets_len: usize,
        ) -> COpened;
        pub fn sumbilak_index_plan_write(
            index: CIndex,
            sets: *const u64,
            sets_len: usize,
            image: *const u8,
            len: usize,
            chunk: u64,
            size: u64,
            out: *mut u8,
            out_len: usize,
        ) -> CAnswer;
        pub fn sumbilak_index_plan_discard(
            index: CIndex,
            sets: *const u64,
            sets_len: usize,
            image: *const u8,
            len: usize,
            chunk: u64,
            out: *mut u8,
            out_len: usize,
        ) -> CAnswer;
        pub fn sumbilak_index_check_write(
            index: CIndex,
            sets: *const u64,
            sets_len: usize,
            image: *const u8,
            len: usize,
            chunk: u64,
            size: u64,
            plan: *const u8,
            plan_len: usize,
        ) -> CAnswer;
        pub fn sumbilak_index_check_discard(
            index: CIndex,
            sets: *const u64,
            sets_len: usize,
            image: *const u8,
            len: usize,
            chunk: u64,
            plan: *const u8,
            plan_len: usize,
        ) -> CAnswer;
        pub fn sumbilak_index_carry_write(
            index: CIndex,
            sets: *mut u64,
            sets_len: usize,
            image: *mut u8,
            len: usize,
            chunk: u64,
            size: u64,
            plan: *const u8,
            plan_len: usize,
            n: u64,
        ) -> CAnswer;
        pub fn sumbilak_index_carry_discard(
            index: CIndex,
            sets: *mut u64,
            sets_len: usize,
            image: *mut u8,
            len: usize,
            chunk: u64,
            plan: *const u8,
            plan_len: usize,
            n: u64,
        ) -> CAnswer;
        pub fn sumbilak_index_access(
            index: CIndex,
            sets: *const u64,
            sets_len: usize,
            image: *const u8,
            len: usize,
            write: bool,
            offset: u64,
            length: u64,
        ) -> CAnswer;
        pub fn sumbilak_index_held(
            index: CIndex,
            sets: *const u64,
            sets_len: usize,
            image: *const u8,
            len: usize,
            chunk: u64,
        ) -> CAnswer;
        pub fn sumbilak_index_stored_size(
            index: CIndex,
            sets: *const u64,
            sets_len: usize,
            image: *const u8,
            len: usize,
            chunk: u64,
        ) -> CAnswer;
        pub fn sumbilak_index_report(
            index: CIndex,
            sets: *const u64,
            sets_len: usize,
            image: *const u8,
            len: usize,
        ) -> CReport;
        pub fn sumbilak_index_alarm_count(
            index: CIndex,
            sets: *const u64,
            sets_len: usize,
            image: *const u8,
            len: usize,
            units: u64,
        ) -> CAnswer;
        pub fn sumbilak_index_alarm_fraction(
            index: CIndex,
            sets: *const u64,
            sets_len: usize,
            image: *const u8,
            len: usize,
            fraction: f64,
        ) -> CAnswer;
    }
}

// SAFETY, for every call below: pointer and length are those of one live
// slice, shared for the inputs and exclusive for what is written, and by its
// contract the library touches no byte outside the slices that it is lent.

pub fn format(image: &mut [u8], p: u64, c: u64, m: u64, n: u64) -> CAnswer {
    unsafe { sys::sumbilak_format(image.as_mut_ptr(), image.len(), p, c, m, n) }
}

pub fn format2(image: &mut [u8], p: u64, c: u64, m: u64, n: u64, r: u64) -> CAnswer {
    unsafe { sys::sumbilak_format2(image.as_mut_ptr(), image.len(), p, c, m, n, r) }
}

pub fn shape(image: &[u8]) -> CShape {
    unsafe { sys::sumbilak_shape(image.as_ptr(), image.len()) }
}

/// `out` is counted in words.
pub fn load(image: &[u8], out: &mut [u64]) -> CAnswer {
    unsafe { sys::sumbilak_load(image.as_ptr(), image.len(), out.as_mut_ptr(), out.len()) }
}

pub fn split(image: &[u8], offset: u64, length: u64, out: &mut [u8]) -> CAnswer {
    unsafe {
        sys::sumbilak_split(
            image.as_ptr(),
            image.len(),
            offset,
            length,
            out.as_mut_ptr(),
            out.len(),
        )
    }
}

pub fn access(image: &[u8], write: bool, offset: u64, length: u64) -> CAnswer {
    unsafe { sys::sumbilak_access(image.as_ptr(), image.len(), write, offset, length) }
}

pub fn held(image: &[u8], chunk: u64) -> CAnswer {
    unsafe { sys::sumbilak_held(image.as_ptr(), image.len(), chunk) }
}

pub fn stored_size(image: &[u8], chunk: u64) -> CAnswer {
    unsafe { sys::sumbilak_stored_size(image.as_ptr(), image.len(), chunk) }
}

pub fn plan_write(image: &[u8], chunk: u64, size: u64, out: &mut [u8]) -> CAnswer {
    unsafe {
        sys::sumbilak_plan_write(
            image.as_ptr(),
            image.len(),
            chunk,
            size,
            out.as_mut_ptr(),
            out.len(),
        )
    }
}

pub fn plan_discard(image: &[u8], chunk: u64, out: &mut [u8]) -> CAnswer {
    unsafe {
        sys::sumbilak_plan_discard(
            image.as_ptr(),
            image.len(),
            chunk,
            out.as_mut_ptr(),
            out.len(),
        )
    }
}

pub fn check_write(image: &[u8], chunk: u64, size: u64, plan: &[u8]) -> CAnswer {
    unsafe {
        sys::sumbilak_check_write(
            image.as_ptr(),
            image.len(),
            chunk,
            size,
            plan.as_ptr(),
            plan.len(),
        )
    }
}

pub fn check_discard(image: &[u8], chunk: u64, plan: &[u8]) -> CAnswer {
    unsafe {
        sys::sumbilak_check_discard(
            image.as_ptr(),
            image.len(),
            chunk,
            plan.as_ptr(),
            plan.len(),
        )
    }
}

pub fn carry_write(image: &mut [u8], chunk: u64, size: u64, plan: &[u8], n: u64) -> CAnswer {
    unsafe {
        sys::sumbilak_carry_write(
            image.as_mut_ptr(),
            image.len(),
            chunk,
            size,
            plan.as_ptr(),
            plan.len(),
            n,
        )
    }
}

pub fn carry_discard(image: &mut [u8], chunk: u64, plan: &[u8], n: u64) -> CAnswer {
    unsafe {
        sys::sumbilak_carry_discard(
            image.as_mut_ptr(),
            image.len(),
            chunk,
            plan.as_ptr(),
            plan.len(),
            n,
        )
    }
}

pub fn alarm_count(image: &[u8], units: u64) -> CAnswer {
    unsafe { sys::sumbilak_alarm_count(image.as_ptr(), image.len(), units) }
}

pub fn alarm_fraction(image: &[u8], fraction: f64) -> CAnswer {
    unsafe { sys::sumbilak_alarm_fraction(image.as_ptr(), image.len(), fraction) }
}

pub fn report(image: &[u8]) -> CReport {
    unsafe { sys::sumbilak_report(image.as_ptr(), image.len()) }
}

pub fn repair(image: &mut [u8], out: &mut [u8]) -> CAnswer {
    unsafe { sys::sumbilak_repair(image.as_mut_ptr(), image.len(), out.as_mut_ptr(), out.len()) }
}

pub fn convert(image: &[u8], out: &mut [u8]) -> CAnswer {
    unsafe { sys::sumbilak_convert(image.as_ptr(), image.len(), out.as_mut_ptr(), out.len()) }
}

// The calls with an index are short, and are timed: their wrappers go into the
// caller.

/// `sets` is counted in words.
#[inline]
pub fn open(image: &[u8], sets: &mut [u64]) -> COpened {
    unsafe { sys::sumbilak_open(image.as_ptr(), image.len(), sets.as_mut_ptr(), sets.len()) }
}

#[inline]
pub fn index_plan_write(
    index: CIndex,
    sets: &[u64],
    image: &[u8],
    chunk: u64,
    size: u64,
    out: &mut [u8],
) -> CAnswer {
    unsafe {
        sys::sumbilak_index_plan_write(
            index,
            sets.as_ptr(),
            sets.len(),
            image.as_ptr(),
            image.len(),
            chunk,
            size,
            out.as_mut_ptr(),
            out.len(),
        )
    }
}

#[inline]
pub fn index_plan_discard(
    index: CIndex,
    sets: &[u64],
    image: &[u8],
    chunk: u64,
    out: &mut [u8],
) -> CAnswer {
    unsafe {
        sys::sumbilak_index_plan_discard(
            index,
            sets.as_ptr(),
            sets.len(),
            image.as_ptr(),
            image.len(),
            chunk,
            out.as_mut_ptr(),
            out.len(),
        )
    }
}

#[inline]
pub fn index_check_write(
    index: CIndex,
    sets: &[u64],
    image: &[u8],
    chunk: u64,
    size: u64,
    plan: &[u8],
) -> CAnswer {
    unsafe {
        sys::sumbilak_index_check_write(
            index,
            sets.as_ptr(),
            sets.len(),
            image.as_ptr(),
            image.len(),
            chunk,
            size,
            plan.as_ptr(),
            plan.len(),
        )
    }
}

#[inline]
pub fn index_check_discard(
    index: CIndex,
    sets: &[u64],
    image: &[u8],
    chunk: u64,
    plan: &[u8],
) -> CAnswer {
    unsafe {
        sys::sumbilak_index_check_discard(
            index,
            sets.as_ptr(),
            sets.len(),
            image.as_ptr(),
            image.len(),
            chunk,
            plan.as_ptr(),
            plan.len(),
        )
    }
}

#[inline]
pub fn index_carry_write(
    index: CIndex,
    sets: &mut [u64],
    image: &mut [u8],
    chunk: u64,
    size: u64,
    plan: &[u8],
    n: u64,
) -> CAnswer {
    unsafe {
        sys::sumbilak_index_carry_write(
            index,
            sets.as_mut_ptr(),
            sets.len(),
            image.as_mut_ptr(),
            image.len(),
            chunk,
            size,
            plan.as_ptr(),
            plan.len(),
            n,
        )
    }
}

#[inline]
pub fn index_carry_discard(
    index: CIndex,
    sets: &mut [u64],
    image: &mut [u8],
    chunk: u64,
    plan: &[u8],
    n: u64,
) -> CAnswer {
    unsafe {
        sys::sumbilak_index_carry_discard(
            index,
            sets.as_mut_ptr(),
            sets.len(),
            image.as_mut_ptr(),
            image.len(),
            chunk,
            plan.as_ptr(),
            plan.len(),
            n,
        )
    }
}

#[inline]
pub fn index_access(
    index: CIndex,
    sets: &[u64],
    image: &[u8],
    write: bool,
    offset: u64,
    length: u64,
) -> CAnswer {
    unsafe {
        sys::sumbilak_index_access(
            index,
            sets.as_ptr(),
            sets.len(),
            image.as_ptr(),
            image.len(),
            write,
            offset,
            length,
        )
    }
}

#[inline]
pub fn index_held(index: CIndex, sets: &[u64], image: &[u8], chunk: u64) -> CAnswer {
    unsafe {
        sys::sumbilak_index_held(
            index,
            sets.as_ptr(),
            sets.len(),
            image.as_ptr(),
            image.len(),
            chunk,
        )
    }
}

#[inline]
pub fn index_stored_size(index: CIndex, sets: &[u64], image: &[u8], chunk: u64) -> CAnswer {
    unsafe {
        sys::sumbilak_index_stored_size(
            index,
            sets.as_ptr(),
            sets.len(),
            image.as_ptr(),
            image.len(),
            chunk,
        )
    }
}

#[inline]
pub fn index_report(index: CIndex, sets: &[u64], image: &[u8]) -> CReport {
    unsafe {
        sys::sumbilak_index_report(
            index,
            sets.as_ptr(),
            sets.len(),
            image.as_ptr(),
            image.len(),
        )
    }
}

#[inline]
pub fn index_alarm_count(index: CIndex, sets: &[u64], image: &[u8], units: u64) -> CAnswer {
    unsafe {
        sys::sumbilak_index_alarm_count(
            index,
            sets.as_ptr(),
            sets.len(),
            image.as_ptr(),
            image.len(),
            units,
        )
    }
}

#[inline]
pub fn index_alarm_fraction(index: CIndex, sets: &[u64], image: &[u8], fraction: f64) -> CAnswer {
    unsafe {
        sys::sumbilak_index_alarm_fraction(
            index,
            sets.as_ptr(),
            sets.len(),
            image.as_ptr(),
            image.len(),
            fraction,
        )
    }
}
