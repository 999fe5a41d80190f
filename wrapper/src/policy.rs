//! An accepted file: its members, and the calls that can be made of it.

use crate::{Answer, Answers, Composition, Decision, Memory, Refused, Undeclared, thin};
use core::fmt;
use core::iter::FusedIterator;

/// A file that the engine has accepted. It keeps the file borrowed, so that it stays the one that was checked, and copies nothing.
///
/// ```
/// use snowdell::{Answer, Memory, Policy};
///
/// let file = b"S,staff,-\nS,ann,staff\nO,wk3,-\nA,read,-\nT,ward,here\nG,ward,ann,wk3,read\nE,0,ward\n";
/// let policy = Policy::new(file).unwrap();
/// assert!(policy.subjects().map(|subject| subject.name).eq(["staff", "ann"]));
/// let said = policy.decide("ann", "wk3", "read", &mut Memory::new()).unwrap();
/// assert_eq!(said.answer, Answer::Permit);
/// ```
#[derive(Clone)]
#[must_use]
pub struct Policy<'a> {
    file: &'a [u8],
    subjects: Members<'a>,
    objects: Members<'a>,
    actions: Members<'a>,
}

impl<'a> Policy<'a> {
    /// Has the engine check a file. Needs a stack of [`CHECK_STACK`](crate::CHECK_STACK) bytes.
    ///
    /// # Errors
    ///
    /// The engine's refusal, 2 to 14 or 16.
    ///
    /// ```
    /// use snowdell::Policy;
    ///
    /// assert!(Policy::new(b"S,ann,-\nO,wk3,-\nA,read,-\nT,ward,here\nE,0,ward\n").is_ok());
    /// assert_eq!(Policy::new(b"S,ann,-\nO,wk3,-\nA,read,-\n").unwrap_err().number(), 9);
    /// ```
    pub fn new(file: &'a [u8]) -> Result<Policy<'a>, Refused> {
        let said = thin::check(file);
        said.refusal.accepted()?;
        // An accepted file begins with its S, O and A lines, in this order.
        let (subjects, rest) = Members::first(said.subjects, file);
        let (objects, rest) = Members::first(said.objects, rest);
        let (actions, _) = Members::first(said.actions, rest);
        Ok(Policy { file, subjects, objects, actions })
    }

    /// The subjects in file order.
    ///
    /// ```
    /// # let file = b"S,staff,-\nS,ann,staff\nO,wk3,-\nA,read,-\nT,ward,here\nE,0,ward\n";
    /// # let policy = snowdell::Policy::new(file).unwrap();
    /// assert_eq!(policy.subjects().len(), 2);
    /// assert_eq!(policy.subjects().next().unwrap().name, "staff");
    /// ```
    pub fn subjects(&self) -> Members<'a> {
        self.subjects.clone()
    }

    /// The objects in file order.
    ///
    /// ```
    /// # let file = b"S,ann,-\nO,wk4,-\nO,wk3,wk4\nA,read,-\nT,ward,here\nE,0,ward\n";
    /// # let policy = snowdell::Policy::new(file).unwrap();
    /// assert_eq!(policy.objects().nth(1).unwrap().parent, Some("wk4"));
    /// ```
    pub fn objects(&self) -> Members<'a> {
        self.objects.clone()
    }

    /// The actions in file order.
    ///
    /// ```
    /// # let file = b"S,ann,-\nO,wk3,-\nA,read,-\nA,write,-\nT,ward,here\nE,0,ward\n";
    /// # let policy = snowdell::Policy::new(file).unwrap();
    /// assert!(policy.actions().map(|action| action.name).eq(["read", "write"]));
    /// ```
    pub fn actions(&self) -> Members<'a> {
        self.actions.clone()
    }

    /// The answer to one access, by its names. The engine reads the file and composes the expression for each ask; where many are
    /// asked, [`Policy::compose`] does it once. Needs a stack of [`STACK`](crate::STACK) bytes.
    ///
    /// # Errors
    ///
    /// The first of the names that is not declared in its sort.
    ///
    /// ```
    /// use snowdell::{Answer, Memory, Undeclared};
    ///
    /// # let file = b"S,ann,-\nO,wk3,-\nA,read,-\nT,ward,here\nG,ward,ann,wk3,read\nE,0,ward\n";
    /// # let policy = snowdell::Policy::new(file).unwrap();
    /// let mut memory = Memory::new();
    /// assert_eq!(policy.decide("ann", "wk3", "read", &mut memory).unwrap().answer, Answer::Permit);
    /// assert_eq!(policy.decide("bob", "wk3", "read", &mut memory), Err(Undeclared::Subject));
    /// ```
    pub fn decide(&self, subject: &str, object: &str, action: &str, memory: &mut Memory) -> Result<Decision, Undeclared> {
        let [subject, object, action] = [subject, object, action].map(str::as_bytes);
        let said = thin::decide(self.file, subject, object, action, &mut memory.0);
        match said.refusal.number {
            0 => Ok(Decision { answer: Answer::given(said.answer), rounds: said.rounds }),
            // The file is accepted and the memory long enough: only 15 is left.
            _ => Err(Undeclared::at(said.refusal.place)),
        }
    }

    /// The answers to all accesses. Needs a stack of [`STACK`](crate::STACK) bytes.
    ///
    /// ```
    /// use snowdell::{Answers, Memory};
    ///
    /// # let file = b"S,ann,-\nO,wk3,-\nA,read,-\nA,write,-\nT,ward,here\nG,ward,ann,wk3,read\nE,0,ward\n";
    /// # let policy = snowdell::Policy::new(file).unwrap();
    /// let (mut answers, mut memory) = (Answers::new(), Memory::new());
    /// let all = policy.compose(&mut answers, &mut memory);
    /// assert_eq!((all.accesses().len(), all.permits), (2, 1));
    /// ```
    pub fn compose<'b>(&self, answers: &'b mut Answers, memory: &mut Memory) -> Composition<'b>
    where
        'a: 'b,
    {
        let said = thin::compose(self.file, &mut answers.0, &mut memory.0);
        Composition::of(self.clone(), &answers.0, said)
    }
}

impl fmt::Debug for Policy<'_> {
    fn fmt(&self, f: &mut fmt::Formatter) -> fmt::Result {
        let mut shown = f.debug_struct("Policy");
        shown.field("subjects", &self.subjects).field("objects", &self.objects).field("actions", &self.actions);
        shown.finish_non_exhaustive()
    }
}

/// A subject, an object or an action, as its line declares it.
///
/// ```
/// use snowdell::{Member, Policy};
///
/// let policy = Policy::new(b"S,staff,-\nS,ann,staff\nO,wk3,-\nA,read,-\nT,ward,here\nE,0,ward\n").unwrap();
/// assert_eq!(policy.subjects().last(), Some(Member { name: "ann", parent: Some("staff") }));
/// assert_eq!(policy.objects().last(), Some(Member { name: "wk3", parent: None }));
/// ```
#[derive(Clone, Copy, Debug, PartialEq, Eq, Hash)]
pub struct Member<'a> {
    /// Its name, 1 to 24 bytes.
    pub name: &'a str,
    /// The member of its sort that it stands right below.
    pub parent: Option<&'a str>,
}

/// The members of one sort, in file order: the engine numbers them from 0 in this order.
///
/// ```
/// use snowdell::{Members, Policy};
///
/// fn number(mut members: Members, name: &str) -> Option<usize> {
///     members.position(|member| member.name == name)
/// }
/// let policy = Policy::new(b"S,ann,-\nO,wk4,-\nO,wk3,wk4\nA,read,-\nT,ward,here\nE,0,ward\n").unwrap();
/// assert_eq!(number(policy.objects(), "wk3"), Some(1));
/// assert_eq!(policy.objects().len(), 2);
/// ```
#[derive(Clone)]
#[must_use]
pub struct Members<'a> {
    /// The rest of the file, from the next member's line on.
    rest: &'a [u8],
    left: usize,
}

impl<'a> Members<'a> {
    /// None.
    pub(crate) const NONE: Members<'a> = Members { rest: &[], left: 0 };

    /// Those of the first so many lines, and what comes after these lines.
    fn first(count: usize, file: &'a [u8]) -> (Members<'a>, &'a [u8]) {
        let members = Members { rest: file, left: count };
        let mut passed = members.clone();
        passed.by_ref().for_each(drop);
        (members, passed.rest)
    }
}

/// What stands before the first such sign, and what behind it.
fn cut(text: &[u8], sign: u8) -> Option<(&[u8], &[u8])> {
    let at = text.iter().position(|byte| *byte == sign)?;
    let (before, rest) = text.split_at_checked(at)?;
    Some((before, rest.get(1..)?))
}

/// A name of an accepted file, which is ASCII.
fn name(bytes: &[u8]) -> &str {
    core::str::from_utf8(bytes).unwrap_or_default()
}

impl<'a> Iterator for Members<'a> {
    type Item = Member<'a>;

    fn next(&mut self) -> Option<Member<'a>> {
        let left = self.left.checked_sub(1)?;
        let (line, rest) = cut(self.rest, b'\n')?;
        *self = Members { rest, left };
        let (_kind, fields) = cut(line, b',')?;
        let (own, parent) = cut(fields, b',')?;
        Some(Member { name: name(own), parent: if parent == b"-" { None } else { Some(name(parent)) } })
    }

    fn size_hint(&self) -> (usize, Option<usize>) {
        (self.left, Some(self.left))
    }
}

impl ExactSizeIterator for Members<'_> {}

impl FusedIterator for Members<'_> {}

impl fmt::Debug for Members<'_> {
    fn fmt(&self, f: &mut fmt::Formatter) -> fmt::Result {
        f.debug_list().entries(self.clone()).finish()
    }
}
