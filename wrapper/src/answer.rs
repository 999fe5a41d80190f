//! The three answers, and what is decided of one access.

use core::fmt;

/// The engine's answer to an access. Undecided is neither of the others: a list that matters is away, or the limit stopped a closure.
/// So there is no way to a `bool` but a question that says what it asks; what is to be done with undecided is the caller's to say.
///
/// ```
/// use snowdell::Answer;
///
/// fn shown(answer: Answer) -> &'static str {
///     match answer {
///         Answer::Permit => "open",
///         Answer::Undecided => "ask at the desk",
///         Answer::Deny => "closed",
///     }
/// }
/// assert_eq!(shown(Answer::Undecided), "ask at the desk");
/// assert!(Answer::Deny < Answer::Undecided && Answer::Undecided < Answer::Permit);
/// assert_eq!(Answer::Permit.to_string(), "permit");
/// ```
#[derive(Clone, Copy, Debug, PartialEq, Eq, PartialOrd, Ord, Hash)]
#[must_use]
pub enum Answer {
    /// Not granted.
    Deny,
    /// Not known yet. It is no permission.
    Undecided,
    /// Granted.
    Permit,
}

impl Answer {
    /// The answer that the engine gives as this number, for those who lend their own buffers; none for a number that is no answer.
    ///
    /// ```
    /// use snowdell::{Answer, MEMORY, RESULT, compose};
    ///
    /// let (mut result, mut memory) = (vec![0; RESULT], vec![0; MEMORY]);
    /// let said = compose(b"S,ann,-\nO,wk3,-\nA,read,-\nT,ward,away\nE,0,ward\n", &mut result, &mut memory);
    /// assert_eq!(said.refusal.accepted(), Ok(()));
    /// assert_eq!(Answer::of(result[0].into()), Some(Answer::Undecided));
    /// assert_eq!(Answer::of(3), None);
    /// ```
    #[must_use]
    pub const fn of(number: usize) -> Option<Answer> {
        match number {
            0 => Some(Answer::Deny),
            1 => Some(Answer::Undecided),
            2 => Some(Answer::Permit),
            _ => None,
        }
    }

    /// The answer that an accepted call gave. Its contract says that there is no other number; one would permit nothing.
    pub(crate) fn given(number: usize) -> Answer {
        Answer::of(number).unwrap_or(Answer::Undecided)
    }

    /// The number that the engine gives it.
    ///
    /// ```
    /// # use snowdell::Answer;
    /// assert_eq!([Answer::Deny, Answer::Undecided, Answer::Permit].map(Answer::number), [0, 1, 2]);
    /// ```
    #[must_use]
    pub const fn number(self) -> usize {
        self as usize
    }

    /// Its word, as listings have it.
    ///
    /// ```
    /// # use snowdell::Answer;
    /// assert_eq!(Answer::Undecided.word(), "undecided");
    /// ```
    #[must_use]
    pub const fn word(self) -> &'static str {
        match self {
            Answer::Deny => "deny",
            Answer::Undecided => "undecided",
            Answer::Permit => "permit",
        }
    }

    /// Is the access permitted? Undecided is no permission.
    ///
    /// ```
    /// # use snowdell::Answer;
    /// assert!(Answer::Permit.is_permit());
    /// assert!(!Answer::Undecided.is_permit());
    /// ```
    #[must_use]
    pub const fn is_permit(self) -> bool {
        matches!(self, Answer::Permit)
    }
}

impl fmt::Display for Answer {
    fn fmt(&self, f: &mut fmt::Formatter) -> fmt::Result {
        f.pad(self.word())
    }
}

/// What [`Policy::decide`](crate::Policy::decide) says of one access.
///
/// ```
/// # use snowdell::{Answer, Decision, Memory, Policy};
/// # let policy = Policy::new(b"S,ann,-\nO,wk3,-\nA,read,-\nT,ward,here\nG,ward,ann,wk3,read\nE,0,ward\n").unwrap();
/// let Decision { answer, rounds } = policy.decide("ann", "wk3", "read", &mut Memory::new()).unwrap();
/// assert_eq!((answer, rounds), (Answer::Permit, 0));
/// ```
#[derive(Clone, Copy, Debug, PartialEq, Eq, Hash)]
#[must_use]
pub struct Decision {
    /// The answer.
    pub answer: Answer,
    /// The rounds that the closures of the expression took, added up.
    pub rounds: usize,
}
