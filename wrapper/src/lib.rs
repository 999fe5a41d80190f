//! The access engine for Rust: who may do what with which week of a food diary. Every answer comes from the proved library
//! `libsnowdell.a`; what stands here is thin and not proved.
//!
//! A [`Policy`] is a file that the engine has accepted. It has the members' names, decides an access by its three names, and composes
//! the answers to all accesses at once. An [`Answer`] is deny, undecided or permit. A file that is refused gives [`Refused`], which
//! says in plain words what happened and what to do.
//!
//! ```
//! use snowdell::{Answer, Memory, Policy};
//!
//! # fn main() -> Result<(), Box<dyn std::error::Error>> {
//! let file = b"S,ann,-\nS,cook,-\nO,wk3,-\nA,read,-\nT,ward,here\nG,ward,ann,wk3,read\nE,0,ward\n";
//! let policy = Policy::new(file)?;
//! let mut memory = Memory::new();
//! assert_eq!(policy.decide("ann", "wk3", "read", &mut memory)?.answer, Answer::Permit);
//! assert_eq!(policy.decide("cook", "wk3", "read", &mut memory)?.answer, Answer::Deny);
//! # Ok(())
//! # }
//! ```
//!
//! [`check`], [`compose`] and [`decide`] are the same calls for those who lend their own buffers: they take slices and return the
//! engine's numbers as they are.
//!
//! # The stack
//!
//! The thread that calls needs a stack, whatever the input: [`CHECK_STACK`] bytes for [`Policy::new`] and [`check`], [`STACK`] for all
//! that decides or composes. That is tested and not proved: `evaluator/compare/tests/stack.rs` of the repository runs each of the
//! three calls on a stack of just so many bytes. On one that is too small the process ends with a fault, as in any other Rust program.
//! [`Memory`] and [`Answers`] come on top of that where they are local variables.
//!
//! # Panics, threads, `no_std`
//!
//! Nothing here panics or allocates, and nothing needs `std`. Calls may run side by side: each has the memory that is lent to it and
//! nothing else, and a [`Policy`] can be shared by threads.
#![no_std]
#![deny(missing_docs, unsafe_code)]

mod answer;
mod composition;
mod memory;
mod policy;
mod refusal;
mod thin;

pub use answer::{Answer, Decision};
pub use composition::{Access, Accesses, Composition};
pub use memory::{Answers, Memory};
pub use policy::{Member, Members, Policy};
pub use refusal::{Refused, Undeclared};
pub use thin::{CHECK_STACK, Checked, Composed, Decided, MEMORY, RESULT, Refusal, STACK, check, compose, decide, version};

/// The examples of README.md, run as the others are.
#[cfg(doctest)]
#[doc = include_str!("../README.md")]
struct Readme;
