//! Pages of memory between two that may not be touched. What is lent ends right before the second.

use std::ffi::c_void;

extern "C" {
    fn mmap(at: *mut c_void, len: usize, prot: i32, flags: i32, fd: i32, offset: i64) -> *mut c_void;
    fn mprotect(at: *mut c_void, len: usize, prot: i32) -> i32;
}

const PAGE: usize = 4096;
const NONE: i32 = 0;
const READ: i32 = 1;
const READ_WRITE: i32 = 3;
const PRIVATE_ANONYMOUS: i32 = 0x22;

pub struct Guarded {
    first: *mut u8,
    room: usize,
    len: usize,
}

// SAFETY: the pages belong to this value alone.
unsafe impl Send for Guarded {}

impl Guarded {
    /// Room for at least `most` bytes.
    pub fn new(most: usize) -> Guarded {
        let room = most.div_ceil(PAGE) * PAGE;
        // SAFETY: new private pages; the first and the last are never made accessible.
        let first = unsafe {
            let all = mmap(std::ptr::null_mut(), room + 2 * PAGE, NONE, PRIVATE_ANONYMOUS, -1, 0);
            assert!(all as isize != -1, "mmap");
            (all as *mut u8).add(PAGE)
        };
        let mut guarded = Guarded { first, room, len: most };
        guarded.protect(READ_WRITE);
        guarded
    }

    fn protect(&mut self, prot: i32) {
        // SAFETY: these pages were mapped in `new`.
        assert_eq!(unsafe { mprotect(self.first as *mut c_void, self.room, prot) }, 0, "mprotect");
    }

    /// The bytes that are lent: the last `len` before the guard.
    fn start(&self) -> *mut u8 {
        // SAFETY: len is at most the room.
        unsafe { self.first.add(self.room - self.len) }
    }

    pub fn fill(&mut self, bytes: &[u8]) {
        self.protect(READ_WRITE);
        self.len = bytes.len().min(self.room);
        // SAFETY: the room has at least len bytes.
        unsafe { std::ptr::copy_nonoverlapping(bytes.as_ptr(), self.start(), self.len) };
    }

    pub fn read_only(&mut self) -> &'static [u8] {
        self.protect(READ);
        // SAFETY: the pages live as long as the program.
        unsafe { std::slice::from_raw_parts(self.start(), self.len) }
    }

    pub fn writable(&mut self, byte: u8) -> &'static mut [u8] {
        self.protect(READ_WRITE);
        // SAFETY: the pages live as long as the program, and each slice is dropped before the next call.
        let bytes = unsafe { std::slice::from_raw_parts_mut(self.start(), self.len) };
        bytes.fill(byte);
        bytes
    }
}
