//! Why a file, or a name that was asked for, is refused: errors that say so in plain words.

use crate::Refusal;
use core::error::Error;
use core::fmt;

/// What happened and what to do, from number 1 on: the words of docs/REFUSALS.md, in ASCII.
const WORDS: [(&str, &str); 16] = [
    ("a buffer lent to the call is too short: the result needs 4,096 bytes, the working memory 65,536", "lend longer buffers"),
    (
        "the file is empty, longer than 32,768 bytes, or its last byte is no line feed",
        "fetch the file again; close the last line",
    ),
    (
        "a line cannot be read: an unknown kind, too few or too many fields, an empty field, a wrong word, a name or a number that \
         is none",
        "mend that line",
    ),
    (
        "a line stands in the wrong place: the order is S, O, A, P, T, G, then R with its B lines, then one E, last",
        "move that line",
    ),
    ("a member or a table is declared a second time", "drop or rename one"),
    (
        "a parent, member, table or predicate is named that no earlier line declares, in its own sort",
        "declare it, or mend the spelling",
    ),
    (
        "one too many: over 64 subjects, 64 objects, 16 actions, 16 predicates, 16 tables, 16 rule sets, 64 rules, 4 lines of a \
         body, or a limit over 4096",
        "take something out, or split the policy",
    ),
    (
        "the members are done, but a sort has none, or subjects times objects times actions is over 4,096",
        "add or take out members",
    ),
    (
        "every line is good, but there is no E line: nothing says how the lists are joined",
        "add the E line; the file may be cut off",
    ),
    ("a grant for a list that is away", "say `here` in its T line, or drop the grant"),
    ("a variable of one rule stands for members of two sorts", "use two variables"),
    ("the expression is no expression", "look at the byte at that place, counted from 0"),
    ("a name in the expression is not declared as what it stands for there", "declare it, or mend the spelling"),
    (
        "the expression would hold more than 14 sets at once, or has more than 64 operators",
        "nest less to the right; split the expression",
    ),
    ("a name asked for is not declared", "ask for a declared name"),
    (
        "more than four templates stand one within the other: a fifth `(t:` comes before the first is closed",
        "nest less, or move a template into the second brackets of another",
    ),
];

/// For a number that a later library may bring.
const UNKNOWN: (&str, &str) = ("a rule that this crate does not know is broken", "look the number up in the library's papers");

/// The numbers whose place has a meaning: a byte of the expression, and for the last one of the names.
const NO_EXPRESSION: usize = 12;
const UNDECLARED_THERE: usize = 13;
const UNDECLARED_ASKED: usize = 15;

impl Refusal {
    /// Good if the numbers say that the file is accepted, or the refusal as an error, for those who lend their own buffers.
    ///
    /// ```
    /// # use snowdell::Refused;
    /// fn is_small(file: &[u8]) -> Result<bool, Refused> {
    ///     let said = snowdell::check(file);
    ///     said.refusal.accepted()?;
    ///     Ok(said.subjects < 10)
    /// }
    /// assert_eq!(is_small(b"S,ann,-\nO,wk3,-\nA,read,-\nT,ward,here\nE,0,ward\n"), Ok(true));
    /// assert_eq!(is_small(b"").unwrap_err().number(), 2);
    /// ```
    pub const fn accepted(self) -> Result<(), Refused> {
        match self.number {
            0 => Ok(()),
            _ => Err(Refused(self)),
        }
    }
}

/// A file is refused: by which rule, on which line and at which place. Written out it is one line of plain words.
///
/// ```
/// use snowdell::Policy;
///
/// let refused = Policy::new(b"S,ann,-\nO,wk3,-\nA,read,-\nT,ward,here\nE,0,ward^[o<wk]\n").unwrap_err();
/// assert_eq!(
///     refused.to_string(),
///     "refused 13 at line 5, place 8: a name in the expression is not declared as what it stands for there; \
///      declare it, or mend the spelling"
/// );
/// ```
#[derive(Clone, Copy, Debug, PartialEq, Eq, Hash)]
pub struct Refused(Refusal);

impl Refused {
    /// The number of the rule that is broken, 1 to 16.
    ///
    /// ```
    /// assert_eq!(snowdell::Policy::new(b"").unwrap_err().number(), 2);
    /// ```
    #[must_use]
    pub const fn number(self) -> usize {
        self.0.number
    }

    /// The line at fault, from 1; none where it is the file as a whole.
    ///
    /// ```
    /// # use snowdell::Policy;
    /// assert_eq!(Policy::new(b"S,ann,-\nS,ann,-\n").unwrap_err().line(), Some(2));
    /// assert_eq!(Policy::new(b"S,ann,-\n").unwrap_err().line(), None);
    /// ```
    #[must_use]
    pub const fn line(self) -> Option<usize> {
        match self.0.line {
            0 => None,
            line => Some(line),
        }
    }

    /// For 12 and 13 the byte of the expression at fault, from 0; for 15 which name is: 1 subject, 2 object, 3 action. No other
    /// number has a place.
    ///
    /// ```
    /// # use snowdell::Policy;
    /// let refused = Policy::new(b"S,ann,-\nO,wk3,-\nA,read,-\nT,ward,here\nE,0,)\n").unwrap_err();
    /// assert_eq!((refused.number(), refused.place()), (12, Some(0)));
    /// assert_eq!(Policy::new(b"").unwrap_err().place(), None);
    /// ```
    #[must_use]
    pub const fn place(self) -> Option<usize> {
        match self.0.number {
            NO_EXPRESSION | UNDECLARED_THERE | UNDECLARED_ASKED => Some(self.0.place),
            _ => None,
        }
    }

    /// What happened, in plain words.
    ///
    /// ```
    /// # use snowdell::Policy;
    /// let refused = Policy::new(b"S,ann,-\nS,ann,-\n").unwrap_err();
    /// assert_eq!(refused.what_happened(), "a member or a table is declared a second time");
    /// ```
    #[must_use]
    pub fn what_happened(self) -> &'static str {
        match (self.0.number, self.0.place) {
            (UNDECLARED_ASKED, 1) => "the subject asked for is not declared",
            (UNDECLARED_ASKED, 2) => "the object asked for is not declared",
            (UNDECLARED_ASKED, 3) => "the action asked for is not declared",
            _ => self.words().0,
        }
    }

    /// What to do about it, in plain words.
    ///
    /// ```
    /// # use snowdell::Policy;
    /// assert_eq!(Policy::new(b"S,ann,-\nS,ann,-\n").unwrap_err().what_to_do(), "drop or rename one");
    /// ```
    #[must_use]
    pub fn what_to_do(self) -> &'static str {
        self.words().1
    }

    fn words(self) -> (&'static str, &'static str) {
        self.0.number.checked_sub(1).and_then(|at| WORDS.get(at)).copied().unwrap_or(UNKNOWN)
    }
}

impl fmt::Display for Refused {
    fn fmt(&self, f: &mut fmt::Formatter) -> fmt::Result {
        write!(f, "refused {}", self.number())?;
        if let Some(line) = self.line() {
            write!(f, " at line {line}")?;
            if let Some(place) = self.place() {
                write!(f, ", place {place}")?;
            }
        }
        write!(f, ": {}; {}", self.what_happened(), self.what_to_do())
    }
}

impl Error for Refused {}

/// The engine's three numbers.
impl From<Refused> for Refusal {
    fn from(refused: Refused) -> Refusal {
        refused.0
    }
}

/// A name that was asked for is not declared in the policy: the first of the three that is not. That is number 15, the only refusal
/// that is left once a file is accepted.
///
/// ```
/// use snowdell::{Memory, Policy, Undeclared};
///
/// let policy = Policy::new(b"S,ann,-\nO,wk3,-\nA,read,-\nT,ward,here\nE,0,ward\n").unwrap();
/// let unknown = policy.decide("ann", "wk4", "read", &mut Memory::new()).unwrap_err();
/// assert_eq!(unknown, Undeclared::Object);
/// assert_eq!(unknown.to_string(), "refused 15: the object asked for is not declared; ask for a declared name");
/// ```
#[derive(Clone, Copy, Debug, PartialEq, Eq, Hash)]
pub enum Undeclared {
    /// The subject is not.
    Subject,
    /// The object is not, the subject is.
    Object,
    /// The action is not, subject and object are.
    Action,
}

impl Undeclared {
    /// That one of the names which number 15 has the place for.
    pub(crate) fn at(place: usize) -> Undeclared {
        match place {
            1 => Undeclared::Subject,
            2 => Undeclared::Object,
            _ => Undeclared::Action,
        }
    }
}

/// So that `?` works for both errors in a function that gives [`Refused`].
impl From<Undeclared> for Refused {
    fn from(name: Undeclared) -> Refused {
        Refused(Refusal { number: UNDECLARED_ASKED, line: 0, place: name as usize + 1 })
    }
}

impl fmt::Display for Undeclared {
    fn fmt(&self, f: &mut fmt::Formatter) -> fmt::Result {
        Refused::from(*self).fmt(f)
    }
}

impl Error for Undeclared {}
