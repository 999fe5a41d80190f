//! A thread on a stack of just so many bytes, between pages that may not be touched: a byte more is a fault, which ends the
//! process. The C library keeps the thread's own data on the same stack, so what is run has some 4 KiB less than that.

use std::ffi::{c_int, c_ulong, c_void};
use std::ptr::null_mut;

/// Wider than the largest frame, in case code steps over a page without touching it.
const GUARD: usize = 1 << 20;

/// What the stack is filled with, to see how far it was written to.
const PAINT: u8 = 0xA5;

/// Room for C's `pthread_attr_t`, and more.
#[repr(C, align(16))]
struct Attributes([u8; 256]);

type Start = extern "C" fn(*mut c_void) -> *mut c_void;

extern "C" {
    fn mmap(at: *mut c_void, len: usize, may: c_int, flags: c_int, file: c_int, offset: i64) -> *mut c_void;
    fn mprotect(at: *mut c_void, len: usize, may: c_int) -> c_int;
    fn munmap(at: *mut c_void, len: usize) -> c_int;
    fn pthread_attr_init(attributes: *mut Attributes) -> c_int;
    fn pthread_attr_setstack(attributes: *mut Attributes, at: *mut c_void, len: usize) -> c_int;
    fn pthread_attr_destroy(attributes: *mut Attributes) -> c_int;
    fn pthread_create(thread: *mut c_ulong, with: *const Attributes, start: Start, job: *mut c_void) -> c_int;
    fn pthread_join(thread: c_ulong, result: *mut *mut c_void) -> c_int;
}

/// Linux on x86-64.
const NONE: c_int = 0;
const READ_AND_WRITE: c_int = 3;
const PRIVATE_AND_ANONYMOUS: c_int = 0x22;

pub struct Stack {
    guarded: *mut c_void,
    room: usize,
}

struct Job<F, T> {
    work: Option<F>,
    result: Option<T>,
}

extern "C" fn start<F: FnOnce() -> T, T>(job: *mut c_void) -> *mut c_void {
    // SAFETY: `run` hands over its own job, and waits for this thread before it looks at it again.
    let job = unsafe { &mut *job.cast::<Job<F, T>>() };
    job.result = job.work.take().map(|work| work());
    null_mut()
}

impl Stack {
    /// A stack of so many bytes, a number of whole pages.
    pub fn of(room: usize) -> Stack {
        // SAFETY: a new mapping, which overlaps nothing; what becomes writable lies within it.
        unsafe {
            let guarded = mmap(null_mut(), room + 2 * GUARD, NONE, PRIVATE_AND_ANONYMOUS, -1, 0);
            assert_ne!(guarded as isize, -1, "no memory for a stack");
            let stack = Stack { guarded, room };
            assert_eq!(mprotect(stack.lowest().cast(), room, READ_AND_WRITE), 0);
            stack
        }
    }

    fn lowest(&self) -> *mut u8 {
        self.guarded.cast::<u8>().wrapping_add(GUARD)
    }

    /// Runs the work on a thread that has this stack and no other; its result, and how many bytes of the stack were in use at
    /// most.
    pub fn run<F: FnOnce() -> T, T>(&mut self, work: F) -> (T, usize) {
        let mut job = Job { work: Some(work), result: None };
        let (mut attributes, mut thread) = (Attributes([0; 256]), 0);
        // SAFETY: no thread has the stack; the job outlives the thread, which is waited for.
        unsafe {
            self.lowest().write_bytes(PAINT, self.room);
            assert_eq!(pthread_attr_init(&mut attributes), 0);
            assert_eq!(pthread_attr_setstack(&mut attributes, self.lowest().cast(), self.room), 0);
            let job: *mut Job<F, T> = &mut job;
            assert_eq!(pthread_create(&mut thread, &attributes, start::<F, T>, job.cast()), 0);
            assert_eq!(pthread_join(thread, null_mut()), 0);
            assert_eq!(pthread_attr_destroy(&mut attributes), 0);
        }
        (job.result.expect("the thread's result"), self.used())
    }

    /// All but the bytes from the lowest on that are as they were painted.
    fn used(&self) -> usize {
        // SAFETY: the stack's own bytes, and no thread has it.
        let bytes = unsafe { std::slice::from_raw_parts(self.lowest(), self.room) };
        self.room - bytes.iter().take_while(|byte| **byte == PAINT).count()
    }
}

impl Drop for Stack {
    fn drop(&mut self) {
        // SAFETY: the whole mapping of `of`, and no thread has it.
        unsafe { munmap(self.guarded, self.room + 2 * GUARD) };
    }
}
