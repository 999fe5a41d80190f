//! The answers to all accesses of a policy.

use crate::{Answer, Composed, Members, Policy};
use core::fmt;
use core::iter::FusedIterator;
use core::slice;

/// What [`Policy::compose`] says: the answer to every access, with the counts.
///
/// ```
/// use snowdell::{Answers, Memory, Policy};
///
/// let file = b"S,ann,-\nS,cook,-\nO,wk3,-\nA,read,-\nT,ward,here\nG,ward,ann,wk3,read\nE,0,ward\n";
/// let policy = Policy::new(file).unwrap();
/// let mut answers = Answers::new();
/// let all = policy.compose(&mut answers, &mut Memory::new());
/// assert_eq!((all.permits, all.undecided, all.rounds), (1, 0, 0));
/// let permitted = all.accesses().find(|access| access.answer.is_permit()).unwrap();
/// assert_eq!(permitted.subject, "ann");
/// ```
#[derive(Clone)]
#[must_use]
pub struct Composition<'a> {
    policy: Policy<'a>,
    /// A byte for each access, in the order of the accesses' numbers.
    answers: &'a [u8],
    /// How many accesses are permitted.
    pub permits: usize,
    /// How many accesses are undecided.
    pub undecided: usize,
    /// The rounds that the closures of the expression took, added up.
    pub rounds: usize,
}

impl<'a> Composition<'a> {
    /// What Compose said of the policy and wrote to the result.
    pub(crate) fn of(policy: Policy<'a>, result: &'a [u8], said: Composed) -> Composition<'a> {
        let Composed { accesses, permits, undecided, rounds, .. } = said;
        let answers = result.get(..accesses).unwrap_or_default();
        Composition { policy, answers, permits, undecided, rounds }
    }

    /// The answer to the access of these members, each by its number in its sort: from 0, in file order. None where a sort has no such
    /// member.
    ///
    /// ```
    /// use snowdell::{Answer, Answers, Memory, Policy};
    ///
    /// let file = b"S,ann,-\nS,cook,-\nO,wk3,-\nA,read,-\nT,ward,here\nG,ward,ann,wk3,read\nE,0,ward\n";
    /// let policy = Policy::new(file).unwrap();
    /// let mut answers = Answers::new();
    /// let all = policy.compose(&mut answers, &mut Memory::new());
    /// assert_eq!(all.answer(0, 0, 0), Some(Answer::Permit));
    /// assert_eq!(all.answer(1, 0, 0), Some(Answer::Deny));
    /// assert_eq!(all.answer(0, 1, 0), None);
    /// ```
    #[must_use]
    pub fn answer(&self, subject: usize, object: usize, action: usize) -> Option<Answer> {
        let (objects, actions) = (self.policy.objects().len(), self.policy.actions().len());
        if object >= objects || action >= actions {
            return None;
        }
        let access = subject.checked_mul(objects)?.checked_add(object)?.checked_mul(actions)?.checked_add(action)?;
        self.answers.get(access).copied().map(answer)
    }

    /// All accesses with their names and answers, in the order of their numbers: by subject, then by object, then by action.
    ///
    /// ```
    /// # use snowdell::{Answers, Memory, Policy};
    /// # let file = b"S,ann,-\nO,wk3,-\nA,read,-\nA,write,-\nT,ward,here\nG,ward,ann,wk3,read\nE,0,ward\n";
    /// # let policy = Policy::new(file).unwrap();
    /// # let mut answers = Answers::new();
    /// # let all = policy.compose(&mut answers, &mut Memory::new());
    /// let lines: Vec<String> = all.accesses().map(|access| access.to_string()).collect();
    /// assert_eq!(lines, ["permit,ann,wk3,read", "deny,ann,wk3,write"]);
    /// ```
    pub fn accesses(&self) -> Accesses<'a> {
        Accesses::of(&self.policy, self.answers)
    }
}

fn answer(byte: u8) -> Answer {
    Answer::given(byte.into())
}

impl fmt::Debug for Composition<'_> {
    fn fmt(&self, f: &mut fmt::Formatter) -> fmt::Result {
        let mut shown = f.debug_struct("Composition");
        shown.field("permits", &self.permits).field("undecided", &self.undecided).field("rounds", &self.rounds);
        shown.finish_non_exhaustive()
    }
}

/// An access with its answer. Written out it is a line of the listing, and for a denied one a line of the same form.
///
/// ```
/// use snowdell::{Access, Answer};
///
/// let access = Access { answer: Answer::Permit, subject: "ann", object: "wk3", action: "read" };
/// assert_eq!(access.to_string(), "permit,ann,wk3,read");
/// ```
#[derive(Clone, Copy, Debug, PartialEq, Eq, Hash)]
pub struct Access<'a> {
    /// The answer to it.
    pub answer: Answer,
    /// Who.
    pub subject: &'a str,
    /// On what.
    pub object: &'a str,
    /// What is done.
    pub action: &'a str,
}

impl fmt::Display for Access<'_> {
    fn fmt(&self, f: &mut fmt::Formatter) -> fmt::Result {
        write!(f, "{},{},{},{}", self.answer, self.subject, self.object, self.action)
    }
}

/// All accesses of a composition, in the order of their numbers.
///
/// ```
/// use snowdell::{Accesses, Answer, Answers, Memory, Policy};
///
/// fn undecided(accesses: Accesses) -> usize {
///     accesses.filter(|access| access.answer == Answer::Undecided).count()
/// }
/// let policy = Policy::new(b"S,ann,-\nO,wk3,-\nA,read,-\nA,write,-\nT,ward,away\nE,0,ward\n").unwrap();
/// let mut answers = Answers::new();
/// assert_eq!(undecided(policy.compose(&mut answers, &mut Memory::new()).accesses()), 2);
/// ```
#[derive(Clone)]
#[must_use]
pub struct Accesses<'a> {
    policy: Policy<'a>,
    /// Those of the accesses that are still to come.
    answers: slice::Iter<'a, u8>,
    /// The subject and the object of the last access.
    subject: &'a str,
    object: &'a str,
    /// The subjects, the objects for this subject and the actions for this object that are still to come.
    subjects: Members<'a>,
    objects: Members<'a>,
    actions: Members<'a>,
}

impl<'a> Accesses<'a> {
    fn of(policy: &Policy<'a>, answers: &'a [u8]) -> Accesses<'a> {
        Accesses {
            policy: policy.clone(),
            answers: answers.iter(),
            subject: "",
            object: "",
            subjects: policy.subjects(),
            objects: Members::NONE,
            actions: Members::NONE,
        }
    }

    /// The next action; behind the last the first again, for the next object.
    fn next_action(&mut self) -> Option<&'a str> {
        if self.actions.len() == 0 {
            self.object = self.next_object()?;
            self.actions = self.policy.actions();
        }
        self.actions.next().map(|action| action.name)
    }

    /// The next object; behind the last the first again, for the next subject.
    fn next_object(&mut self) -> Option<&'a str> {
        if self.objects.len() == 0 {
            self.subject = self.subjects.next()?.name;
            self.objects = self.policy.objects();
        }
        self.objects.next().map(|object| object.name)
    }
}

impl<'a> Iterator for Accesses<'a> {
    type Item = Access<'a>;

    fn next(&mut self) -> Option<Access<'a>> {
        let answer = self.answers.next().copied().map(answer)?;
        let action = self.next_action()?;
        Some(Access { answer, subject: self.subject, object: self.object, action })
    }

    fn size_hint(&self) -> (usize, Option<usize>) {
        self.answers.size_hint()
    }
}

impl ExactSizeIterator for Accesses<'_> {}

impl FusedIterator for Accesses<'_> {}

impl fmt::Debug for Accesses<'_> {
    fn fmt(&self, f: &mut fmt::Formatter) -> fmt::Result {
        f.debug_list().entries(self.clone()).finish()
    }
}
