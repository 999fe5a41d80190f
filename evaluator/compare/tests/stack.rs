//! The stack that the calls need: every case runs on a thread with 128 KiB for Check and 256 KiB for Compose and Decide, and not a
//! byte more. A stack that is too small ends the process with a fault, so the cases run in a process of their own, which names each
//! before it is run. `-- --nocapture` shows how much was in use at most.

mod policies;
mod stacks;
mod stored;

use policies::Case;
use snowdell::{check, compose, decide, Refusal, CHECK_STACK, MEMORY, RESULT, STACK};
use stacks::Stack;
use std::fmt::Debug;
use std::hint::black_box;
use std::os::unix::process::ExitStatusExt;
use std::process::{Command, Output};

const PAGE: usize = 4096;
const FAULT: i32 = 11;
const INSIDE: &str = "SNOWDELL_STACK_TEST";

/// Whether this is a process that `apart` has started.
fn is_inside() -> bool {
    std::env::var_os(INSIDE).is_some()
}

/// Runs one test of this program in a process of its own.
fn apart(test: &str) -> Output {
    let program = std::env::current_exe().expect("this program");
    let options = ["--exact", "--nocapture", "--test-threads=1"];
    Command::new(program).arg(test).args(options).env(INSIDE, "1").output().expect("a process")
}

/// Runs a call on every case, on a stack of so many bytes and on this thread's: both give the same, which `holds` then holds to what
/// is to be said of the case.
fn on_every_case<T: PartialEq + Debug>(test: &str, room: usize, call: fn(&Case) -> T, holds: fn(&Case, T)) {
    if is_inside() {
        let (cases, mut stack, mut most) = (policies::all(), Stack::of(room), (0, ""));
        for case in &cases {
            println!("{test}: {}", case.name);
            let (said, used) = stack.run(|| call(case));
            assert_eq!(said, call(case), "on two stacks");
            holds(case, said);
            most = most.max((used, &case.name));
        }
        println!("{test}: {} files, at most {} of {room} bytes, by {}", cases.len(), most.0, most.1);
        return;
    }
    let ran = apart(test);
    let said = String::from_utf8_lossy(&ran.stdout);
    let last = said.lines().rfind(|line| line.contains(&format!("{test}: "))).unwrap_or("no case");
    assert!(ran.status.success(), "{}\n{last}\n{}", ran.status, String::from_utf8_lossy(&ran.stderr));
    println!("{last}");
}

fn numbers(refusal: Refusal) -> [usize; 3] {
    [refusal.number, refusal.line, refusal.place]
}

/// The last member of a sort; for a file without one, a name that no file declares.
fn last_member(case: &Case, kind: u8) -> &[u8] {
    let is_of_kind = |line: &&[u8]| line.starts_with(&[kind, b',']);
    let line = case.file.split(|byte| *byte == b'\n').rfind(is_of_kind);
    line.and_then(|line| line.split(|byte| *byte == b',').nth(1)).unwrap_or(b"_")
}

#[test]
fn check_needs_128_kib() {
    let call = |case: &Case| check(&case.file);
    on_every_case("check_needs_128_kib", CHECK_STACK, call, |case, said| {
        let accesses = said.subjects * said.objects * said.actions;
        assert_eq!((numbers(said.refusal), accesses), (case.refusal, case.grants[0]));
    });
}

#[test]
fn compose_needs_256_kib() {
    let call = |case: &Case| {
        let (mut result, mut memory) = (vec![7; RESULT], vec![7; MEMORY]);
        (compose(&case.file, &mut result, &mut memory), result)
    };
    on_every_case("compose_needs_256_kib", STACK, call, |case, (said, _)| {
        let grants = [said.accesses, said.permits, said.undecided, said.rounds];
        assert_eq!((numbers(said.refusal), grants), (case.refusal, case.grants));
    });
}

#[test]
fn decide_needs_256_kib() {
    // Asked for the last access, and for an action that no file declares: the file itself is its name.
    let call = |case: &Case| {
        let [s, o, a] = [b'S', b'O', b'A'].map(|kind| last_member(case, kind));
        [a, &case.file].map(|action| decide(&case.file, s, o, action, &mut vec![7; MEMORY]))
    };
    on_every_case("decide_needs_256_kib", STACK, call, |case, [said, of_none]| {
        assert_eq!((numbers(said.refusal), said.rounds), (case.refusal, case.grants[3]));
        let no_action = if case.refusal[0] == 0 { [15, 0, 3] } else { case.refusal };
        assert_eq!((numbers(of_none.refusal), of_none.rounds), (no_action, 0));
    });
}

/// Takes more than so many pages of the stack.
fn take(pages: usize) -> usize {
    let mut page = [0u8; PAGE];
    black_box(&mut page)[pages % PAGE] = 1;
    match pages {
        0 | 1 => 0,
        _ => take(pages - 1) + usize::from(black_box(&page)[0]),
    }
}

#[test]
fn most_of_the_room_may_be_used() {
    let most = CHECK_STACK - 4 * PAGE;
    let (_, used) = Stack::of(CHECK_STACK).run(|| take(most / PAGE));
    assert!((most..CHECK_STACK).contains(&used), "{used} bytes");
}

#[test]
fn more_than_the_room_is_a_fault() {
    if is_inside() {
        Stack::of(CHECK_STACK).run(|| take(CHECK_STACK / PAGE));
        return;
    }
    assert_eq!(apart("more_than_the_room_is_a_fault").status.signal(), Some(FAULT));
}
