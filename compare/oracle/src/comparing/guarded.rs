//! Memory that ends, and begins, at a page that must not be touched: a read or write past either
//! end stops the program instead of going unseen.

use std::ffi::c_void;
use std::{ptr, slice};

const PAGE: usize = 4096;

/// From Linux's mman.h.
const NO_ACCESS: i32 = 0;
const READ: i32 = 1;
const READ_AND_WRITE: i32 = READ | 2;
const PRIVATE_AND_ANONYMOUS: i32 = 0x02 | 0x20;

unsafe extern "C" {
    fn mmap(at: *mut c_void, len: usize, prot: i32, flags: i32, fd: i32, off: i64) -> *mut c_void;
    fn mprotect(at: *mut c_void, len: usize, prot: i32) -> i32;
}

/// Bytes between two guard pages. They are kept until the program ends.
pub struct Guarded {
    start: *mut u8,
    capacity: usize,
    /// The place and the length of the bytes that are held for reading alone.
    held: (usize, usize),
}

/// Which end of the memory the lent bytes touch.
#[derive(Clone, Copy, PartialEq)]
pub enum Side {
    Start,
    End,
}

impl Guarded {
    /// Memory for at least this many bytes.
    pub fn new(at_least: usize) -> Self {
        let capacity = at_least.next_multiple_of(PAGE);
        // A new mapping of our own, of which only the pages between the first and the last are
        // opened.
        unsafe {
            let whole = capacity + 2 * PAGE;
            let at = mmap(
                ptr::null_mut(),
                whole,
                NO_ACCESS,
                PRIVATE_AND_ANONYMOUS,
                -1,
                0,
            );
            assert!(at as isize != -1, "there is memory");
            let start = at.byte_add(PAGE);
            assert_eq!(
                mprotect(start, capacity, READ_AND_WRITE),
                0,
                "it can be opened"
            );
            Guarded {
                start: start.cast(),
                capacity,
                held: (0, 0),
            }
        }
    }

    /// This many bytes, touching the guard page at the given side.
    pub fn bytes(&mut self, length: usize, side: Side) -> &mut [u8] {
        let at = self.place(length, side);
        // Inside the opened pages, and lent once while `self` is.
        unsafe { slice::from_raw_parts_mut(self.start.add(at), length) }
    }

    /// Copies the bytes in, touching the guard page at the given side. They can only be read until
    /// others are held: a write to them stops the program.
    pub fn hold(&mut self, bytes: &[u8], side: Side) {
        self.allow(READ_AND_WRITE);
        self.bytes(bytes.len(), side).copy_from_slice(bytes);
        self.held = (self.place(bytes.len(), side), bytes.len());
        self.allow(READ);
    }

    /// The bytes that are held.
    pub fn held(&self) -> &[u8] {
        let (at, length) = self.held;
        // Inside the opened pages, which may be read.
        unsafe { slice::from_raw_parts(self.start.add(at), length) }
    }

    fn place(&self, length: usize, side: Side) -> usize {
        assert!(length <= self.capacity, "it fits");
        match side {
            Side::Start => 0,
            Side::End => self.capacity - length,
        }
    }

    /// Sets what may be done with the pages of the held bytes.
    fn allow(&mut self, access: i32) {
        let (at, length) = self.held;
        let first = at / PAGE * PAGE;
        let pages = (at + length).next_multiple_of(PAGE) - first;
        // Whole pages of the mapping's inner part.
        let done = unsafe { mprotect(self.start.add(first).cast(), pages, access) };
        assert_eq!(done, 0, "its access can be set");
    }
}
