//! A line as its fields, with the place of each, and texts as messages quote them.

use crate::outline::Sort;
use crate::shell::escaped;

/// A field and the place of its first byte in the line.
#[derive(Clone, Copy)]
pub struct Field<'a> {
    pub at: usize,
    pub text: &'a [u8],
}

/// The fields of a line; an E line's third is all that follows the second comma.
pub fn of(line: &[u8]) -> Vec<Field<'_>> {
    let most = if line.starts_with(b"E,") { 3 } else { usize::MAX };
    let mut at = 0;
    let mut fields = Vec::new();
    for text in line.splitn(most, |&b| b == b',') {
        fields.push(Field { at, text });
        at += text.len() + 1;
    }
    fields
}

/// The sort that a field's letter names.
pub fn sort(field: Field) -> Option<Sort> {
    Sort::of(std::str::from_utf8(field.text).ok()?)
}

/// A text in quotes, escaped, and cut where it is long.
pub fn quoted(text: &[u8]) -> String {
    const MOST: usize = 32;
    match text.get(..MOST) {
        Some(beginning) if text.len() > MOST => format!("\"{}\"..", escaped(beginning)),
        _ => format!("\"{}\"", escaped(text)),
    }
}
