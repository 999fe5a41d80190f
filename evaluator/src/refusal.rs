//! Refusals: document 01's table of returns, and document 02's number 16.

use std::fmt;

/// A refused call. The line counts from 1 and is 0 where no line is at fault;
/// the place is 0 but for numbers 12, 13 and 15.
#[derive(Clone, Copy, Debug, PartialEq, Eq)]
pub struct Refusal {
    pub number: u32,
    pub line: usize,
    pub place: usize,
}

impl Refusal {
    /// A refusal of the file as a whole.
    pub fn of_file(number: u32) -> Refusal {
        Refusal {
            number,
            line: 0,
            place: 0,
        }
    }
}

impl fmt::Display for Refusal {
    fn fmt(&self, out: &mut fmt::Formatter) -> fmt::Result {
        write!(out, "refused,{},{},{}", self.number, self.line, self.place)
    }
}
