//! Document 01's worked file through the thin calls: K1, refusals and short buffers; templates and number 16. And the functions of
//! snowdell.h: what they return and write, with too little room for their numbers too; the version.

mod common;

use common::{K1, worked};
use snowdell::{MEMORY, RESULT, Refusal, check, compose, decide, version};

unsafe extern "C" {
    fn snowdell_check(file: *const u8, len: usize, numbers: *mut usize, count: usize) -> usize;
    fn snowdell_compose(
        file: *const u8,
        len: usize,
        result: *mut u8,
        result_len: usize,
        memory: *mut u8,
        memory_len: usize,
        numbers: *mut usize,
        count: usize,
    ) -> usize;
    fn snowdell_decide(
        file: *const u8,
        len: usize,
        subject: *const u8,
        subject_len: usize,
        object: *const u8,
        object_len: usize,
        action: *const u8,
        action_len: usize,
        memory: *mut u8,
        memory_len: usize,
        numbers: *mut usize,
        count: usize,
    ) -> usize;
}

const FIVE_BINDINGS: &[u8] = b"S,x,-\nO,y,-\nA,z,-\nT,b,here\nE,0,(t:x.(t:x.(t:x.(t:x.(t:x.x)(b))(b))(b))(b))(b)\n";
const ACCEPTED: Refusal = refusal(0, 0, 0);

fn k1() -> Vec<u8> {
    worked(4096, K1)
}

fn k11() -> Vec<u8> {
    worked(4096, "forms-")
}

const fn refusal(number: usize, line: usize, place: usize) -> Refusal {
    Refusal { number, line, place }
}

#[test]
fn check_counts_or_refuses() {
    let said = check(&k1());
    assert_eq!((said.refusal, said.subjects, said.objects, said.actions), (ACCEPTED, 2, 2, 1));
    let said = check(&k11());
    assert_eq!((said.refusal, said.subjects, said.objects, said.actions), (refusal(12, 11, 6), 0, 0, 0));
    assert_eq!(check(b"").refusal, refusal(2, 0, 0));
}

#[test]
fn compose_writes_n_bytes_and_clears_its_memory() {
    let (mut result, mut memory) = ([9; RESULT], vec![9; MEMORY + 1]);
    let said = compose(&k1(), &mut result, &mut memory);
    assert_eq!((said.refusal, said.accesses, said.permits, said.undecided, said.rounds), (ACCEPTED, 4, 2, 0, 1));
    assert_eq!(result[..5], [2, 0, 2, 0, 9]);
    assert!(memory[..MEMORY].iter().all(|b| *b == 0) && memory[MEMORY] == 9);
}

#[test]
fn a_refusal_leaves_the_result() {
    let (mut result, mut memory) = ([9; RESULT], vec![9; MEMORY]);
    let said = compose(&k11(), &mut result, &mut memory);
    assert_eq!((said.refusal, said.accesses), (refusal(12, 11, 6), 0));
    assert_eq!(result, [9; RESULT]);
    assert!(memory.iter().all(|b| *b == 0));
}

/// Bytes before and behind what is lent.
const GUARD: usize = 64;

/// A buffer of nines between guards, of which the middle is lent.
struct Guarded(Vec<u8>);

impl Guarded {
    fn of(len: usize) -> Guarded {
        Guarded(vec![9; len + 2 * GUARD])
    }

    fn lent(&mut self) -> &mut [u8] {
        let end = self.0.len() - GUARD;
        &mut self.0[GUARD..end]
    }

    /// Whether the lent bytes begin with these, and all others are as they were.
    fn has_only(&self, bytes: &[u8]) -> bool {
        let (before, lent) = self.0.split_at(GUARD);
        lent.starts_with(bytes) && before.iter().chain(&lent[bytes.len()..]).all(|b| *b == 9)
    }
}

#[test]
fn a_template_is_composed_once() {
    let template = worked(4096, "(t:x.x+x)(forms*down)");
    let (mut result, mut memory) = (Guarded::of(RESULT), Guarded::of(MEMORY + 1));
    let said = compose(&template, result.lent(), memory.lent());
    assert_eq!((said.refusal, said.accesses, said.permits, said.undecided, said.rounds), (ACCEPTED, 4, 2, 0, 1));
    assert!(result.has_only(&[2, 0, 2, 0]));
    assert!(memory.has_only(&[0; MEMORY]));
    let said = decide(&template, b"ann", b"week", b"read", memory.lent());
    assert_eq!((said.refusal, said.answer, said.rounds), (ACCEPTED, 2, 1));
}

#[test]
fn a_fifth_binding_gives_16_and_leaves_the_result() {
    let fifth = refusal(16, 5, 0);
    let said = check(FIVE_BINDINGS);
    assert_eq!((said.refusal, said.subjects, said.objects, said.actions), (fifth, 0, 0, 0));
    let (mut result, mut memory) = (Guarded::of(RESULT), Guarded::of(MEMORY + 1));
    let said = compose(FIVE_BINDINGS, result.lent(), memory.lent());
    assert_eq!((said.refusal, said.accesses, said.permits, said.undecided, said.rounds), (fifth, 0, 0, 0, 0));
    assert!(result.has_only(&[]));
    assert!(memory.has_only(&[0; MEMORY]));
    // Before 15, and after 1.
    let mut memory = Guarded::of(MEMORY + 1);
    let said = decide(FIVE_BINDINGS, b"nobody", b"y", b"z", memory.lent());
    assert_eq!((said.refusal, said.answer, said.rounds), (fifth, 0, 0));
    assert!(memory.has_only(&[0; MEMORY]));
    let mut memory = Guarded::of(MEMORY - 1);
    assert_eq!(compose(FIVE_BINDINGS, result.lent(), memory.lent()).refusal, refusal(1, 0, 0));
    assert!(result.has_only(&[]) && memory.has_only(&[]));
}

#[test]
fn t_alone_is_no_name() {
    let mut memory = Guarded::of(MEMORY);
    let file = b"S,x,-\nO,y,-\nA,z,-\nT,t,here\nE,0,t\n";
    assert_eq!(check(file).refusal, refusal(3, 4, 0));
    assert_eq!(decide(file, b"x", b"y", b"z", memory.lent()).refusal, refusal(3, 4, 0));
    assert!(memory.has_only(&[0; MEMORY]));
}

#[test]
fn short_buffers_give_1_and_stay() {
    let (mut result, mut memory) = ([9; RESULT], vec![9; MEMORY]);
    assert_eq!(compose(&k1(), &mut result[1..], &mut memory).refusal, refusal(1, 0, 0));
    assert_eq!(compose(&k1(), &mut result, &mut memory[1..]).refusal, refusal(1, 0, 0));
    assert_eq!(decide(&k1(), b"ann", b"week", b"read", &mut memory[1..]).refusal, refusal(1, 0, 0));
    assert!(result.iter().chain(&memory).all(|b| *b == 9));
}

#[test]
fn decide_answers_or_names_the_unknown() {
    let mut memory = vec![9; MEMORY];
    let mut ask = |s: &[u8], o: &[u8], a: &[u8]| {
        let said = decide(&k1(), s, o, a, &mut memory);
        (said.refusal, said.answer, said.rounds)
    };
    assert_eq!(ask(b"ann", b"week", b"read"), (ACCEPTED, 2, 1));
    assert_eq!(ask(b"ann", b"mon", b"read"), (ACCEPTED, 0, 1));
    assert_eq!(ask(b"", b"nothing", b"read"), (refusal(15, 0, 1), 0, 0));
    assert_eq!(ask(b"ann", b"ann", b"read"), (refusal(15, 0, 2), 0, 0));
    assert_eq!(ask(b"ann", b"week", b"\xFF"), (refusal(15, 0, 3), 0, 0));
    assert!(memory.iter().all(|b| *b == 0));
}

/// What a call of snowdell.h returns where it has too little room for its numbers.
const TOO_LITTLE: usize = 256;

/// The functions of snowdell.h on one file, with buffers of nines and room for so many numbers.
struct Called {
    file: Vec<u8>,
    result: Vec<u8>,
    memory: Vec<u8>,
    numbers: [usize; 8],
}

impl Called {
    fn on(file: Vec<u8>) -> Called {
        Called { file, result: vec![9; RESULT], memory: vec![9; MEMORY], numbers: [9; 8] }
    }

    /// Has anything been written?
    fn is_touched(&self) -> bool {
        self.result.iter().chain(&self.memory).any(|b| *b != 9) || self.numbers != [9; 8]
    }

    fn check(&mut self, room: usize) -> usize {
        let numbers = &mut self.numbers[..room];
        // SAFETY: each pointer comes with the length of what it points to.
        unsafe { snowdell_check(self.file.as_ptr(), self.file.len(), numbers.as_mut_ptr(), numbers.len()) }
    }

    fn compose(&mut self, room: usize) -> usize {
        let (file, result, memory, numbers) = (&self.file, &mut self.result, &mut self.memory, &mut self.numbers[..room]);
        // SAFETY: each pointer comes with the length of what it points to; nothing overlaps.
        unsafe {
            snowdell_compose(
                file.as_ptr(),
                file.len(),
                result.as_mut_ptr(),
                result.len(),
                memory.as_mut_ptr(),
                memory.len(),
                numbers.as_mut_ptr(),
                numbers.len(),
            )
        }
    }

    fn decide(&mut self, subject: &str, room: usize) -> usize {
        let (file, memory, numbers) = (&self.file, &mut self.memory, &mut self.numbers[..room]);
        let (object, action) = ("week", "read");
        // SAFETY: each pointer comes with the length of what it points to; nothing overlaps.
        unsafe {
            snowdell_decide(
                file.as_ptr(),
                file.len(),
                subject.as_ptr(),
                subject.len(),
                object.as_ptr(),
                object.len(),
                action.as_ptr(),
                action.len(),
                memory.as_mut_ptr(),
                memory.len(),
                numbers.as_mut_ptr(),
                numbers.len(),
            )
        }
    }
}

#[test]
fn too_little_room_for_the_numbers_and_nothing_is_done() {
    for file in [k1(), k11()] {
        let mut called = Called::on(file);
        for room in 0..5 {
            assert_eq!([called.check(room), called.compose(room), called.decide("ann", room)], [TOO_LITTLE; 3]);
        }
        assert_eq!([called.check(5), called.compose(5), called.compose(6)], [TOO_LITTLE; 3]);
        assert!(!called.is_touched());
    }
}

#[test]
fn a_call_returns_its_number_and_writes_no_more_than_its_numbers() {
    let mut called = Called::on(k1());
    assert_eq!((called.check(8), called.numbers), (0, [0, 0, 0, 2, 2, 1, 9, 9]));
    assert_eq!((called.compose(8), called.numbers), (0, [0, 0, 0, 4, 2, 0, 1, 9]));
    assert_eq!((called.decide("ann", 5), called.numbers), (0, [0, 0, 0, 2, 1, 0, 1, 9]));
    assert_eq!((called.decide("bob", 5), called.numbers), (15, [15, 0, 1, 0, 0, 0, 1, 9]));
    let mut called = Called::on(k11());
    assert_eq!((called.check(6), called.numbers), (12, [12, 11, 6, 0, 0, 0, 9, 9]));
    assert_eq!((called.compose(7), called.numbers), (12, [12, 11, 6, 0, 0, 0, 0, 9]));
    assert_eq!((called.decide("ann", 8), called.numbers), (12, [12, 11, 6, 0, 0, 0, 0, 9]));
    called.memory.pop();
    assert_eq!([called.compose(7), called.decide("ann", 5)], [1, 1]);
}

#[test]
fn the_librarys_version_is_the_crates() {
    let parts = [env!("CARGO_PKG_VERSION_MAJOR"), env!("CARGO_PKG_VERSION_MINOR"), env!("CARGO_PKG_VERSION_PATCH")];
    let number = parts.into_iter().fold(0, |number, part| number * 100 + part.parse::<usize>().expect("a number"));
    assert_eq!(version(), number);
}
