//! The fuzzing target: each input is a policy file. The three calls run on buffers with a page on either side
//! that may not be touched, the file's own pages are read-only, and every number and byte is compared with the
//! separate evaluator, whose branches guide the fuzzer.

mod guarded;

use evaluator::Refusal;
use guarded::Guarded;
use std::sync::OnceLock;

struct Lent {
    file: Guarded,
    names: Guarded,
    result: Guarded,
    memory: Guarded,
}

/// The most bytes of an input; the calls refuse files over 32,768.
const MOST: usize = 33_000;

fn lent() -> &'static std::sync::Mutex<Lent> {
    static LENT: OnceLock<std::sync::Mutex<Lent>> = OnceLock::new();
    LENT.get_or_init(|| {
        std::sync::Mutex::new(Lent {
            file: Guarded::new(MOST),
            names: Guarded::new(4096),
            result: Guarded::new(snowdell::RESULT),
            memory: Guarded::new(snowdell::MEMORY),
        })
    })
}

fn numbers(refusal: Option<Refusal>) -> (usize, usize, usize) {
    refusal.map_or((0, 0, 0), |r| (r.number as usize, r.line, r.place))
}

fn said(refusal: snowdell::Refusal) -> (usize, usize, usize) {
    (refusal.number, refusal.line, refusal.place)
}

/// The three names of Decide are taken from the file's own text.
fn names(file: &[u8]) -> [&[u8]; 3] {
    let mut fields = file.split(|b| *b == b',' || *b == b'\n');
    let step = file.first().map_or(1, |b| *b as usize % 5 + 1);
    [0; 3].map(|_| fields.nth(step).unwrap_or(b""))
}

#[no_mangle]
pub unsafe extern "C" fn LLVMFuzzerTestOneInput(data: *const u8, size: usize) -> i32 {
    let input = if size == 0 { &[][..] } else { std::slice::from_raw_parts(data, size.min(MOST)) };
    let lent = &mut *lent().lock().unwrap();
    // The file ends right before a page that may not be touched, and may only be read.
    lent.file.fill(input);
    let file = lent.file.read_only();
    let result = lent.result.writable(0x5A);
    let memory = lent.memory.writable(0x3C);

    let check = snowdell::check(file);
    let expected = evaluator::check(input);
    assert_eq!(said(check.refusal), numbers(expected.err()));
    let counts = expected.unwrap_or([0; 3]);
    assert_eq!([check.subjects, check.objects, check.actions], counts);

    let composed = snowdell::compose(file, result, memory);
    let expected = evaluator::compose(input);
    assert_eq!(said(composed.refusal), numbers(expected.as_ref().err().copied()));
    let answers = expected.as_ref().map_or(&[][..], |c| &c.answers);
    assert_eq!(composed.accesses, answers.len());
    assert_eq!(&result[..answers.len()], answers);
    assert!(result[answers.len()..].iter().all(|b| *b == 0x5A), "the result beyond N");
    assert!(memory.iter().all(|b| *b == 0), "working memory after Compose");
    if let Ok(c) = &expected {
        assert_eq!((composed.permits, composed.undecided, composed.rounds), (c.permits, c.undecided, c.rounds));
    }

    let [s, o, a] = names(input);
    let memory = lent.memory.writable(0x3C);
    lent.names.fill(s);
    let decided = snowdell::decide(file, lent.names.read_only(), o, a, memory);
    let expected = evaluator::decide(input, s, o, a);
    assert_eq!(said(decided.refusal), numbers(expected.as_ref().err().copied()));
    let expected = expected.map_or((0, 0), |d| (d.answer as usize, d.rounds));
    assert_eq!((decided.answer, decided.rounds), expected);
    assert!(memory.iter().all(|b| *b == 0), "working memory after Decide");
    0
}
