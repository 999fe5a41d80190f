//! A program without `std`, without an allocator and without a panic: it reads a policy from standard input, prints every access and
//! its answer, and then what is decided of the last access and of one that no policy has. A panic anywhere in it would call a function
//! that is nowhere, so it could not be linked.
#![no_std]
#![no_main]

use core::ffi::{c_int, c_void};
use core::fmt::{self, Write};
use core::panic::PanicInfo;
use snowdell::{Answers, Memory, Policy, Refused};

#[link(name = "c")]
unsafe extern "C" {
    fn read(from: c_int, bytes: *mut c_void, len: usize) -> isize;
    fn write(to: c_int, bytes: *const c_void, len: usize) -> isize;
    fn a_panic_is_possible() -> !;
}

#[panic_handler]
fn panicked(_: &PanicInfo) -> ! {
    // SAFETY: never linked, so never run.
    unsafe { a_panic_is_possible() }
}

struct Output;

impl Write for Output {
    fn write_str(&mut self, text: &str) -> fmt::Result {
        // SAFETY: the pointer comes with the length of the text that it points to.
        let written = unsafe { write(1, text.as_ptr().cast(), text.len()) };
        if usize::try_from(written) == Ok(text.len()) { Ok(()) } else { Err(fmt::Error) }
    }
}

/// What fits into the room, in one read.
fn input(room: &mut [u8]) -> &[u8] {
    // SAFETY: the pointer comes with the length of the slice that it points to.
    let len = unsafe { read(0, room.as_mut_ptr().cast(), room.len()) };
    usize::try_from(len).ok().and_then(|len| room.get(..len)).unwrap_or_default()
}

fn show(file: &[u8], memory: &mut Memory, answers: &mut Answers) -> Result<fmt::Result, Refused> {
    let policy = Policy::new(file)?;
    let all = policy.compose(answers, memory);
    for access in all.accesses() {
        if writeln!(Output, "{access}").is_err() {
            return Ok(Err(fmt::Error));
        }
    }
    let (Some(subject), Some(object), Some(action)) = (policy.subjects().last(), policy.objects().last(), policy.actions().last())
    else {
        return Ok(Err(fmt::Error));
    };
    let last = [policy.subjects(), policy.objects(), policy.actions()].map(|members| members.len().wrapping_sub(1));
    let said = policy.decide(subject.name, object.name, action.name, memory)?;
    let same = all.answer(last[0], last[1], last[2]) == Some(said.answer);
    let written = writeln!(Output, "last {}, {} rounds, the same {same}", said.answer, said.rounds);
    policy.decide(subject.name, "", action.name, memory)?;
    Ok(written)
}

#[unsafe(no_mangle)]
extern "C" fn main() -> c_int {
    let (mut memory, mut answers, mut room) = (Memory::new(), Answers::new(), [0; 1024]);
    let written = match show(input(&mut room), &mut memory, &mut answers) {
        Ok(written) => written,
        Err(refused) => writeln!(Output, "{refused}"),
    };
    c_int::from(written.is_err())
}
