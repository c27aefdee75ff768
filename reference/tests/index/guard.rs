//! Lent memory with unreadable pages at both ends: a read or a write outside of
//! what is lent stops the run there, or shows in the cells around it.

use std::ffi::{c_int, c_long, c_void};
use std::ptr;
use std::slice;

const PAGE: usize = 4096;
/// Cells that are filled and looked at again, on the sides of a slice that does
/// not end at an unreadable page.
const CANARY: usize = 64;

const PROT_NONE: c_int = 0;
const PROT_READ_WRITE: c_int = 3;
const MAP_PRIVATE_ANONYMOUS: c_int = 0x22;

extern "C" {
    fn mmap(
        addr: *mut c_void,
        length: usize,
        prot: c_int,
        flags: c_int,
        fd: c_int,
        offset: c_long,
    ) -> *mut c_void;
    fn mprotect(addr: *mut c_void, length: usize, prot: c_int) -> c_int;
    fn munmap(addr: *mut c_void, length: usize) -> c_int;
}

/// Where a slice stands in the readable pages.
#[derive(Clone, Copy, Debug, PartialEq, Eq)]
pub enum Stand {
    /// Its first cell is the first that can be read.
    First,
    /// Its last cell is the last that can be read.
    Last,
    /// Off both ends, by this many cells from the first.
    Within(usize),
}

/// A cell that the memory may hold.
pub trait Cell: Copy + PartialEq {
    fn canary(at: usize) -> Self;
}

impl Cell for u8 {
    fn canary(at: usize) -> u8 {
        0xC5 ^ at as u8
    }
}

impl Cell for u64 {
    fn canary(at: usize) -> u64 {
        0xC5C5_C5C5_C5C5_C5C5 ^ at as u64
    }
}

/// Readable pages between two that are not.
pub struct Pages {
    base: *mut u8,
    readable: usize,
}

impl Pages {
    /// For slices of up to so many bytes.
    pub fn new(most: usize) -> Self {
        let readable = (most + 4 * CANARY * size_of::<u64>()).div_ceil(PAGE) * PAGE;
        let whole = readable + 2 * PAGE;
        // SAFETY: fresh pages of our own, of which the middle ones are then
        // opened.
        let base = unsafe {
            let flags = MAP_PRIVATE_ANONYMOUS;
            let base = mmap(ptr::null_mut(), whole, PROT_NONE, flags, -1, 0);
            assert!(base as isize != -1, "no memory");
            let middle = base.byte_add(PAGE);
            assert_eq!(mprotect(middle, readable, PROT_READ_WRITE), 0);
            base.cast()
        };
        Pages { base, readable }
    }

    /// The readable cells. Only one of these is used at a time.
    fn cells<T: Cell>(&mut self) -> &mut [T] {
        // SAFETY: these pages are readable, are as many bytes long, are aligned,
        // and any bytes are a cell.
        unsafe {
            let first = self.base.add(PAGE).cast::<T>();
            slice::from_raw_parts_mut(first, self.readable / size_of::<T>())
        }
    }

    /// Puts a content there, with canaries around it.
    pub fn lend<T: Cell>(&mut self, content: &[T], stand: Stand) -> Lent<'_, T> {
        let cells = self.cells::<T>();
        let room = cells.len() - content.len();
        let start = match stand {
            Stand::First => 0,
            Stand::Last => room,
            Stand::Within(at) => (CANARY + at).min(room - CANARY),
        };
        let end = start + content.len();
        cells[start..end].copy_from_slice(content);
        let lent = Lent { cells, start, end };
        for at in lent.around() {
            lent.cells[at] = T::canary(at);
        }
        lent
    }
}

impl Drop for Pages {
    fn drop(&mut self) {
        // SAFETY: what was mapped, whole; nothing is lent any more.
        unsafe { munmap(self.base.cast(), self.readable + 2 * PAGE) };
    }
}

/// A content in guarded pages.
pub struct Lent<'a, T> {
    cells: &'a mut [T],
    start: usize,
    end: usize,
}

impl<T: Cell> Lent<'_, T> {
    fn around(&self) -> impl Iterator<Item = usize> + use<T> {
        let (start, end) = (self.start, self.end);
        let after = end..self.cells.len().min(end + CANARY);
        (start.saturating_sub(CANARY)..start).chain(after)
    }

    pub fn slice(&self) -> &[T] {
        &self.cells[self.start..self.end]
    }

    pub fn slice_mut(&mut self) -> &mut [T] {
        &mut self.cells[self.start..self.end]
    }

    pub fn intact(&self) -> bool {
        self.around().all(|at| self.cells[at] == T::canary(at))
    }
}
