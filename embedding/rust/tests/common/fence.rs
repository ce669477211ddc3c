//! Memory between two pages that may be neither read nor written, with guard bytes around what is lent in it.

use std::ffi::{c_int, c_long, c_void};
use std::mem::size_of_val;
use std::ptr::null_mut;
use std::slice;

extern "C" {
    fn mmap(at: *mut c_void, bytes: usize, protection: c_int, flags: c_int, file: c_int, offset: c_long)
        -> *mut c_void;
    fn mprotect(at: *mut c_void, bytes: usize, protection: c_int) -> c_int;
    fn munmap(at: *mut c_void, bytes: usize) -> c_int;
}

// Linux on x86-64.
const NO_ACCESS: c_int = 0;
const READ_WRITE: c_int = 1 | 2;
const PRIVATE_ANONYMOUS: c_int = 0x02 | 0x20;
const PAGE: usize = 4096;

/// Bytes between the two pages.
const ROOM: usize = 64 * PAGE;
/// Guard bytes on each side, where the page is not.
const GUARD: usize = 256;
const PATTERN: u8 = 0xc3;

/// Where in the fence a memory is lent.
#[derive(Clone, Copy)]
pub enum Place {
    /// From the first byte on: the page is before it, guard bytes are after it.
    First,
    /// Guard bytes on both sides.
    Middle,
    /// To the last byte: guard bytes before it, the page after it.
    Last,
}

pub struct Fence {
    map: *mut u8,
}

impl Fence {
    pub fn new() -> Self {
        // SAFETY: a new mapping, of which the room in the middle is made accessible.
        unsafe {
            let map = mmap(null_mut(), ROOM + 2 * PAGE, NO_ACCESS, PRIVATE_ANONYMOUS, -1, 0);
            assert_ne!(map as isize, -1, "no memory");
            let map = map.cast::<u8>();
            assert_eq!(mprotect(map.add(PAGE).cast(), ROOM, READ_WRITE), 0);
            Fence { map }
        }
    }

    /// The bytes from `at` on, in the room.
    fn bytes(&self, at: usize, count: usize) -> *mut u8 {
        assert!(at + count <= ROOM);
        // SAFETY: inside the mapping.
        unsafe { self.map.add(PAGE + at) }
    }

    /// Lends a copy of the content.
    pub fn lend<'a, T: Copy + PartialEq>(&'a self, content: &'a [T], place: Place) -> Lent<'a, T> {
        let count = size_of_val(content);
        assert!(count + 2 * GUARD <= ROOM, "the content has no room");
        let at = match place {
            Place::First => 0,
            Place::Middle => GUARD,
            Place::Last => ROOM - count,
        };
        let lent = Lent { fence: self, content, at, count };
        for (at, count) in lent.guards() {
            // SAFETY: `bytes` is in the room, which nothing else refers to.
            unsafe { self.bytes(at, count).write_bytes(PATTERN, count) };
        }
        // SAFETY: as above; the room is aligned to its page, and every place keeps the alignment of `T`.
        unsafe { self.bytes(at, count).cast::<T>().copy_from_nonoverlapping(content.as_ptr(), content.len()) };
        lent
    }
}

impl Drop for Fence {
    fn drop(&mut self) {
        // SAFETY: the mapping of `new`.
        unsafe { munmap(self.map.cast(), ROOM + 2 * PAGE) };
    }
}

/// A memory that is lent.
pub struct Lent<'a, T> {
    fence: &'a Fence,
    content: &'a [T],
    at: usize,
    count: usize,
}

impl<T: Copy + PartialEq> Lent<'_, T> {
    pub fn start(&self) -> *mut T {
        self.fence.bytes(self.at, self.count).cast()
    }

    pub fn len(&self) -> usize {
        self.content.len()
    }

    /// Where guard bytes are, and how many.
    fn guards(&self) -> [(usize, usize); 2] {
        let (end, before) = (self.at + self.count, GUARD.min(self.at));
        [(self.at - before, before), (end, GUARD.min(ROOM - end))]
    }

    /// What it holds now. Asserts that the guard bytes are as they were.
    pub fn content(&self) -> Vec<T> {
        for (at, count) in self.guards() {
            // SAFETY: initialised by `lend`, in the room.
            let guard = unsafe { slice::from_raw_parts(self.fence.bytes(at, count), count) };
            assert!(guard.iter().all(|&byte| byte == PATTERN), "written outside what is lent");
        }
        // SAFETY: initialised by `lend`, in the room; every content is a `T`.
        unsafe { slice::from_raw_parts(self.start(), self.len()) }.to_vec()
    }

    /// Asserts that nothing in it or around it has changed.
    pub fn assert_same(&self) {
        assert!(self.content() == *self.content, "what is only read has changed");
    }
}
