// Buffers between two stretches of memory without access, so that a call that reads or writes outside of what it was lent is ended
// by a signal.
use std::ffi::c_void;
use std::{ptr, slice};

extern "C" {
    fn mmap(address: *mut c_void, length: usize, protection: i32, flags: i32, file: i32, offset: i64) -> *mut c_void;
    fn mprotect(address: *mut c_void, length: usize, protection: i32) -> i32;
}

// Linux's numbers.
const NO_ACCESS: i32 = 0;
const READ_AND_WRITE: i32 = 3;
const PRIVATE_AND_ANONYMOUS: i32 = 0x22;

// A multiple of the size of a page on every machine.
const PAGES: usize = 65_536;

// How many entries on the side without a guard are looked at after a call.
const MARGIN: usize = 8;

// The guard that a buffer stands flush against.
#[derive(Clone, Copy, Debug, PartialEq)]
pub enum Side {
    Behind,
    Before,
}

// What a buffer holds.
pub trait Entry: Copy + PartialEq + std::fmt::Debug + 'static {
    const MARGIN: Self;
}

impl Entry for u8 {
    const MARGIN: u8 = 0x5b;
}

impl Entry for u16 {
    const MARGIN: u16 = 0xb5a7;
}

// A stretch of memory that is never given back, since it is lent again and again, and in it the entries that are lent now.
pub struct Buffer<T: Entry> {
    start: *mut T,
    capacity: usize,
    lent_from: usize,
    length: usize,
    side: Side,
}

impl<T: Entry> Buffer<T> {
    pub fn new(capacity: usize) -> Buffer<T> {
        let bytes = ((capacity + MARGIN) * size_of::<T>()).next_multiple_of(PAGES);
        // SAFETY: new memory of the kernel's choice, of which the middle is opened.
        let start = unsafe {
            let whole = mmap(ptr::null_mut(), bytes + 2 * PAGES, NO_ACCESS, PRIVATE_AND_ANONYMOUS, -1, 0);
            assert!(whole as isize != -1, "no memory for a guarded buffer");
            let start = whole.byte_add(PAGES);
            assert!(mprotect(start, bytes, READ_AND_WRITE) == 0, "no access to a guarded buffer");
            start as *mut T
        };
        Buffer { start, capacity: bytes / size_of::<T>(), lent_from: 0, length: 0, side: Side::Before }
    }

    // Lends as many entries as these, with these in them, flush against a guard.
    pub fn lend(&mut self, entries: &[T], side: Side) {
        let length = entries.len();
        assert!(length + MARGIN <= self.capacity, "{length} entries are more than a guarded buffer has");
        self.lent_from = if side == Side::Behind { self.capacity - length } else { 0 };
        (self.length, self.side) = (length, side);
        self.lent_mut().copy_from_slice(entries);
        let margin = self.margin_from();
        self.stretch_mut(margin, MARGIN).fill(T::MARGIN);
    }

    pub fn lent(&self) -> &[T] {
        self.stretch(self.lent_from, self.length)
    }

    pub fn lent_mut(&mut self) -> &mut [T] {
        self.stretch_mut(self.lent_from, self.length)
    }

    // Whether the entries on the side without a guard are as they were.
    pub fn margin_is_whole(&self) -> bool {
        self.stretch(self.margin_from(), MARGIN).iter().all(|entry| *entry == T::MARGIN)
    }

    fn margin_from(&self) -> usize {
        match self.side {
            Side::Behind => self.lent_from - MARGIN,
            Side::Before => self.length,
        }
    }

    fn stretch(&self, from: usize, length: usize) -> &[T] {
        assert!(from + length <= self.capacity);
        // SAFETY: within the memory that was opened, which holds entries of every value, and is borrowed like the buffer.
        unsafe { slice::from_raw_parts(self.start.add(from), length) }
    }

    fn stretch_mut(&mut self, from: usize, length: usize) -> &mut [T] {
        assert!(from + length <= self.capacity);
        // SAFETY: as above.
        unsafe { slice::from_raw_parts_mut(self.start.add(from), length) }
    }
}
