//! A line of the file with a caret under one of its bytes.

use crate::shell::escaped;

/// Set before both lines, so that they stand apart from the messages.
const MARGIN: &str = "  ";
/// A line that takes no more columns is shown whole.
const WHOLE: usize = 100;
/// Of a longer one so many columns are shown before the byte at fault, and so many from it on.
const BEFORE: usize = 60;
const AFTER: usize = 30;
const CUT: &str = "..";

/// The line, or an excerpt around the byte `at`, and a caret under that byte.
pub fn with_caret(line: &[u8], at: usize) -> [String; 2] {
    let at = at.min(line.len());
    let (start, end) = if width(line) <= WHOLE { (0, line.len()) } else { excerpt(line, at) };
    let head = if start > 0 { CUT } else { "" };
    let tail = if end < line.len() { CUT } else { "" };
    let caret = head.len() + width(&line[start..at]);
    [format!("{MARGIN}{head}{}{tail}", escaped(&line[start..end])), format!("{MARGIN}{}^", " ".repeat(caret))]
}

/// The bytes around `at` that have room.
fn excerpt(line: &[u8], at: usize) -> (usize, usize) {
    let (mut start, mut end) = (at, at);
    while start > 0 && width(&line[start - 1..at]) <= BEFORE {
        start -= 1;
    }
    while end < line.len() && width(&line[at..end + 1]) <= AFTER {
        end += 1;
    }
    (start, end)
}

/// How many columns the bytes take.
fn width(bytes: &[u8]) -> usize {
    escaped(bytes).len()
}
