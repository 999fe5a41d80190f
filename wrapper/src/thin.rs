//! The library's functions, and the thin ones over them: each hands slices over the boundary and names the numbers that come back.
//! What these are is said by the contracts of the engine's Check, Compose and Decide. Nothing checks the declarations against the
//! library: they are assumed to fit. All `unsafe` of this crate is here.
#![allow(unsafe_code)]

// Each call returns the first of its numbers too.
unsafe extern "C" {
    safe fn snowdell_version() -> usize;
    fn snowdell_check(file: *const u8, file_len: usize, numbers: *mut usize, numbers_len: usize) -> usize;
    fn snowdell_compose(
        file: *const u8,
        file_len: usize,
        result: *mut u8,
        result_len: usize,
        memory: *mut u8,
        memory_len: usize,
        numbers: *mut usize,
        numbers_len: usize,
    ) -> usize;
    fn snowdell_decide(
        file: *const u8,
        file_len: usize,
        subject: *const u8,
        subject_len: usize,
        object: *const u8,
        object_len: usize,
        action: *const u8,
        action_len: usize,
        memory: *mut u8,
        memory_len: usize,
        numbers: *mut usize,
        numbers_len: usize,
    ) -> usize;
}

/// The library's version: major × 10,000 + minor × 100 + patch.
///
/// ```
/// assert_eq!(snowdell::version(), 200); // 0.2.0
/// ```
#[must_use]
pub fn version() -> usize {
    snowdell_version()
}

/// The least length of [`compose`]'s result: a byte for each possible access.
///
/// ```
/// let mut result = vec![0; snowdell::RESULT];
/// # let mut memory = vec![0; snowdell::MEMORY];
/// # let file = b"S,ann,-\nO,wk3,-\nA,read,-\nT,ward,here\nE,0,ward\n";
/// let said = snowdell::compose(file, &mut result, &mut memory);
/// assert_eq!(said.refusal.number, 0);
/// ```
pub const RESULT: usize = 4096;

/// The least length of the working memory.
///
/// ```
/// let mut memory = vec![0; snowdell::MEMORY - 1];
/// let said = snowdell::decide(b"", b"ann", b"wk3", b"read", &mut memory);
/// assert_eq!(said.refusal.number, 1);
/// ```
pub const MEMORY: usize = 65536;

/// The stack that [`check`] needs, at most: 128 KiB.
///
/// ```
/// let small = std::thread::Builder::new().stack_size(snowdell::CHECK_STACK);
/// let said = small.spawn(|| snowdell::check(b"")).unwrap().join().unwrap();
/// assert_eq!(said.refusal.number, 2);
/// ```
pub const CHECK_STACK: usize = 128 * 1024;

/// The stack that each of the calls needs, at most: 256 KiB.
///
/// ```
/// let mut memory = vec![0; snowdell::MEMORY];
/// let small = std::thread::Builder::new().stack_size(snowdell::STACK);
/// let asked = small.spawn(move || snowdell::decide(b"", b"ann", b"wk3", b"read", &mut memory));
/// assert_eq!(asked.unwrap().join().unwrap().refusal.number, 2);
/// ```
pub const STACK: usize = 256 * 1024;

/// Number, line and place as the engine gives them, all 0 when the file is accepted. [`Refusal::accepted`] makes a `Result` of it.
///
/// ```
/// use snowdell::Refusal;
///
/// let said = snowdell::check(b"S,ann,-\nS,ann,-\n");
/// assert_eq!(said.refusal, Refusal { number: 5, line: 2, place: 0 });
/// ```
#[derive(Clone, Copy, Debug, PartialEq, Eq, Hash)]
pub struct Refusal {
    /// Which rule is broken: 1 to 16, or 0.
    pub number: usize,
    /// The line at fault, from 1; 0 for the file as a whole.
    pub line: usize,
    /// For 12 and 13 the byte of the expression, from 0; for 15 which name: 1 subject, 2 object, 3 action; else 0.
    pub place: usize,
}

/// What [`check`] says: the counts are 0 when the file is refused.
///
/// ```
/// let said = snowdell::check(b"S,ann,-\nO,wk3,-\nO,wk2,wk3\nA,read,-\nT,ward,here\nE,0,ward\n");
/// assert_eq!((said.subjects, said.objects, said.actions), (1, 2, 1));
/// ```
#[derive(Clone, Copy, Debug, PartialEq, Eq)]
pub struct Checked {
    /// Accepted, or why not.
    pub refusal: Refusal,
    /// How many subjects the file declares.
    pub subjects: usize,
    /// How many objects the file declares.
    pub objects: usize,
    /// How many actions the file declares.
    pub actions: usize,
}

/// What [`compose`] says: the counts are 0 when the file is refused.
///
/// ```
/// # let (mut result, mut memory) = (vec![0; snowdell::RESULT], vec![0; snowdell::MEMORY]);
/// let file = b"S,ann,-\nO,wk3,-\nA,read,-\nA,write,-\nT,ward,here\nG,ward,ann,wk3,read\nE,0,ward\n";
/// let said = snowdell::compose(file, &mut result, &mut memory);
/// assert_eq!((said.accesses, said.permits, said.undecided, said.rounds), (2, 1, 0, 0));
/// ```
#[derive(Clone, Copy, Debug, PartialEq, Eq)]
pub struct Composed {
    /// Accepted, or why not.
    pub refusal: Refusal,
    /// N, the count of possible accesses: subjects times objects times actions.
    pub accesses: usize,
    /// How many of them are permitted.
    pub permits: usize,
    /// How many of them are undecided.
    pub undecided: usize,
    /// The rounds that the closures took, added up.
    pub rounds: usize,
}

/// What [`decide`] says: answer and rounds are 0 when the file or a name is refused.
///
/// ```
/// # let mut memory = vec![0; snowdell::MEMORY];
/// let file = b"S,ann,-\nO,wk3,-\nA,read,-\nT,ward,away\nE,0,ward\n";
/// let said = snowdell::decide(file, b"ann", b"wk3", b"read", &mut memory);
/// assert_eq!((said.refusal.number, said.answer, said.rounds), (0, 1, 0));
/// ```
#[derive(Clone, Copy, Debug, PartialEq, Eq)]
pub struct Decided {
    /// Accepted, or why not.
    pub refusal: Refusal,
    /// 0 deny, 1 undecided, 2 permit: [`Answer::of`](crate::Answer::of) names it. It is 0 too when refused, so look there first.
    pub answer: usize,
    /// The rounds that the closures took, added up.
    pub rounds: usize,
}

/// Reads a file: the counts of its three sorts, or why it is refused. Needs a stack of at most [`CHECK_STACK`] bytes.
///
/// ```
/// let said = snowdell::check(b"S,ann,-\nO,wk3,-\nA,read,-\nT,ward,here\nE,0,ward+\n");
/// assert_eq!((said.refusal.number, said.refusal.line, said.refusal.place), (12, 5, 5));
/// ```
#[must_use]
pub fn check(file: &[u8]) -> Checked {
    let mut numbers = [0; 6];
    // SAFETY: each pointer comes with the length of the slice that it points to.
    unsafe { snowdell_check(file.as_ptr(), file.len(), numbers.as_mut_ptr(), numbers.len()) };
    let [number, line, place, subjects, objects, actions] = numbers;
    Checked { refusal: Refusal { number, line, place }, subjects, objects, actions }
}

/// The answer to every access: byte (s × objects + o) × actions + a of `result`, members numbered from 0 in file order. Bytes from N on
/// stay, and all of them when the file is refused. `memory` is zero afterwards in its first [`MEMORY`] bytes. Where a buffer is too
/// short the number is 1 and nothing is touched. Needs a stack of at most [`STACK`] bytes.
///
/// ```
/// let (mut result, mut memory) = (vec![9; snowdell::RESULT], vec![0; snowdell::MEMORY]);
/// let file = b"S,ann,-\nO,wk3,-\nA,read,-\nA,write,-\nT,ward,here\nG,ward,ann,wk3,read\nE,0,ward\n";
/// let said = snowdell::compose(file, &mut result, &mut memory);
/// assert_eq!(said.accesses, 2);
/// assert_eq!(result[..3], [2, 0, 9]);
/// ```
#[must_use]
pub fn compose(file: &[u8], result: &mut [u8], memory: &mut [u8]) -> Composed {
    let mut numbers = [0; 7];
    // SAFETY: each pointer comes with the length of the slice that it points to; the slices do not overlap.
    unsafe {
        snowdell_compose(
            file.as_ptr(),
            file.len(),
            result.as_mut_ptr(),
            result.len(),
            memory.as_mut_ptr(),
            memory.len(),
            numbers.as_mut_ptr(),
            numbers.len(),
        )
    };
    let [number, line, place, accesses, permits, undecided, rounds] = numbers;
    Composed { refusal: Refusal { number, line, place }, accesses, permits, undecided, rounds }
}

/// The answer to the one access that three names ask for. `memory` is zero afterwards in its first [`MEMORY`] bytes; where it is too
/// short the number is 1 and nothing is touched. Needs a stack of at most [`STACK`] bytes.
///
/// ```
/// let mut memory = vec![0; snowdell::MEMORY];
/// let file = b"S,ann,-\nO,wk3,-\nA,read,-\nT,ward,here\nG,ward,ann,wk3,read\nE,0,ward\n";
/// assert_eq!(snowdell::decide(file, b"ann", b"wk3", b"read", &mut memory).answer, 2);
/// let said = snowdell::decide(file, b"ann", b"wk4", b"read", &mut memory);
/// assert_eq!((said.refusal.number, said.refusal.place), (15, 2));
/// ```
#[must_use]
pub fn decide(file: &[u8], subject: &[u8], object: &[u8], action: &[u8], memory: &mut [u8]) -> Decided {
    let mut numbers = [0; 5];
    // SAFETY: each pointer comes with the length of the slice that it points to; the slices do not overlap.
    unsafe {
        snowdell_decide(
            file.as_ptr(),
            file.len(),
            subject.as_ptr(),
            subject.len(),
            object.as_ptr(),
            object.len(),
            action.as_ptr(),
            action.len(),
            memory.as_mut_ptr(),
            memory.len(),
            numbers.as_mut_ptr(),
            numbers.len(),
        )
    };
    let [number, line, place, answer, rounds] = numbers;
    Decided { refusal: Refusal { number, line, place }, answer, rounds }
}
