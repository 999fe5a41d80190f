//! What the calls are lent, as types that cannot be too short.

use crate::{MEMORY, RESULT};
use core::fmt;

/// The working memory of a call: 65,536 bytes. One can serve any number of calls, one after another; what was in it does not matter,
/// and the engine leaves it zero.
///
/// As a local variable it is on the stack, beside the [`STACK`](crate::STACK) bytes that a call needs. Where stacks are small, put it
/// into a box or make it a static.
///
/// ```
/// use snowdell::{Memory, Policy};
/// use std::sync::Mutex;
///
/// static MEMORY: Mutex<Memory> = Mutex::new(Memory::new());
///
/// let policy = Policy::new(b"S,ann,-\nO,wk3,-\nA,read,-\nT,ward,here\nE,0,ward\n").unwrap();
/// let said = policy.decide("ann", "wk3", "read", &mut MEMORY.lock().unwrap()).unwrap();
/// assert!(!said.answer.is_permit());
/// ```
#[must_use]
pub struct Memory(pub(crate) [u8; MEMORY]);

impl Memory {
    /// Memory for a call.
    ///
    /// ```
    /// let memory = Box::new(snowdell::Memory::new());
    /// assert_eq!(size_of_val(&*memory), snowdell::MEMORY);
    /// ```
    pub const fn new() -> Memory {
        Memory([0; MEMORY])
    }
}

impl Default for Memory {
    fn default() -> Memory {
        Memory::new()
    }
}

impl fmt::Debug for Memory {
    fn fmt(&self, f: &mut fmt::Formatter) -> fmt::Result {
        f.write_str("Memory")
    }
}

/// Room for the answers to all accesses of a policy: 4,096 bytes. One can serve any number of compositions, one after another.
///
/// ```
/// use snowdell::{Answers, Memory, Policy};
///
/// let policy = Policy::new(b"S,ann,-\nO,wk3,-\nA,read,-\nT,ward,away\nE,0,ward\n").unwrap();
/// let mut answers = Answers::new();
/// let all = policy.compose(&mut answers, &mut Memory::new());
/// assert_eq!(all.undecided, 1);
/// ```
#[must_use]
pub struct Answers(pub(crate) [u8; RESULT]);

impl Answers {
    /// Room for the answers.
    ///
    /// ```
    /// static ROOM: std::sync::Mutex<snowdell::Answers> = std::sync::Mutex::new(snowdell::Answers::new());
    /// assert_eq!(size_of_val(&*ROOM.lock().unwrap()), snowdell::RESULT);
    /// ```
    pub const fn new() -> Answers {
        Answers([0; RESULT])
    }
}

impl Default for Answers {
    fn default() -> Answers {
        Answers::new()
    }
}

impl fmt::Debug for Answers {
    fn fmt(&self, f: &mut fmt::Formatter) -> fmt::Result {
        f.write_str("Answers")
    }
}
