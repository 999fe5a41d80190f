//! The library's calls, with memory that is lent anew to each. All answers of this program come through here.

use crate::outline::Outline;
pub use library::{Answer, Decision, Refusal};
use library::{Answers, Memory, MEMORY};

/// How many members each sort has.
#[derive(Clone, Copy, Debug, PartialEq, Eq)]
pub struct Counts {
    pub subjects: usize,
    pub objects: usize,
    pub actions: usize,
}

impl Counts {
    /// Document 01's number of an access.
    pub fn access(&self, subject: usize, object: usize, action: usize) -> usize {
        (subject * self.objects + object) * self.actions + action
    }
}

/// What Compose says of an accepted file.
pub struct Composition {
    pub counts: Counts,
    /// The answer of every access, by its number.
    pub answers: Vec<Answer>,
    pub permits: usize,
    pub undecided: usize,
    pub rounds: usize,
}

/// An accepted policy: what its lines say, and the engine's answers.
pub struct Policy<'a> {
    pub outline: Outline<'a>,
    pub all: Composition,
}

impl Policy<'_> {
    pub fn of(file: &[u8]) -> Result<Policy<'_>, Refusal> {
        compose(file).map(|all| Policy { outline: Outline::of(file), all })
    }

    /// The answer to the access of these members, by their numbers.
    pub fn answer(&self, [subject, object, action]: [usize; 3]) -> Answer {
        self.all.answers[self.all.counts.access(subject, object, action)]
    }
}

/// The file is accepted, or why it is not.
pub fn check(file: &[u8]) -> Result<Counts, Refusal> {
    Ok(counts(&library::Policy::new(file)?))
}

pub fn compose(file: &[u8]) -> Result<Composition, Refusal> {
    let policy = library::Policy::new(file)?;
    let (mut answers, mut memory) = (Answers::new(), Memory::new());
    let all = policy.compose(&mut answers, &mut memory);
    let answers = all.accesses().map(|access| access.answer).collect();
    Ok(Composition { counts: counts(&policy), answers, permits: all.permits, undecided: all.undecided, rounds: all.rounds })
}

fn counts(policy: &library::Policy) -> Counts {
    Counts { subjects: policy.subjects().len(), objects: policy.objects().len(), actions: policy.actions().len() }
}

/// By the thin call, since the names may be any bytes.
pub fn decide(file: &[u8], subject: &[u8], object: &[u8], action: &[u8]) -> Result<Decision, Refusal> {
    let said = library::decide(file, subject, object, action, &mut vec![0; MEMORY]);
    said.refusal.accepted()?;
    let answer = Answer::of(said.answer).expect("the call's contract knows no other answer");
    Ok(Decision { answer, rounds: said.rounds })
}

/// The line that document 01's listing has for a refusal.
pub fn refusal_line(r: Refusal) -> String {
    format!("refused,{},{},{}", r.number, r.line, r.place)
}

/// The first line of document 01's listing: how many accesses there are, are permitted, are undecided, and the rounds.
pub fn first_line(all: &Composition) -> String {
    format!("grants,{},{},{},{}", all.answers.len(), all.permits, all.undecided, all.rounds)
}
