//! Numbers 12, 13, 14 and 16: what is wrong with an expression.

use super::fields::{quoted, Field};
use super::form::{is_comment, is_name_byte, lone_letter, long_name, NAMES_HAVE, NO_COMMENTS, WINDOWS_END};
use super::names::{unknown, Need};
use super::walk::{Walk, Wrong, MOST_BRACKETS};
use super::{Fault, Hint};

const MOST_SETS: usize = 14;
const MOST_OPERATORS: usize = 64;
const MOST_BINDINGS: usize = 4;

/// The expression of an E line.
fn of<'a>(fault: &Fault<'a>) -> Option<Field<'a>> {
    fault.fields().get(2).copied()
}

/// Number 12: the place is the first byte that no expression has there.
pub fn ungrammatical(fault: &Fault, place: usize) -> Option<Hint> {
    let Field { at, text } = of(fault)?;
    let (walk, wrong) = Walk::along(text);
    let wrong = wrong.filter(|_| walk.at == place)?;
    let words = match (&wrong, text.get(place)) {
        (Wrong::LongName, _) => long_name(name_around(text, place)),
        (Wrong::LoneLetter, _) => lone_letter(name_around(text, place)),
        (Wrong::Bracket, _) => format!("a bracket too many; at most {MOST_BRACKETS} may be open at once"),
        (_, None) => ends_too_early(walk.open, &due(&wrong)),
        (_, Some(&byte)) => own_words(text, place, &wrong, walk.open)
            .unwrap_or_else(|| format!("{} cannot stand here; expected {}", quoted(&[byte]), due(&wrong))),
    };
    Some(Hint::new(at + place, words))
}

/// The name bytes before and behind the place.
fn name_around(text: &[u8], place: usize) -> &[u8] {
    let outside = |&byte: &u8| !is_name_byte(byte);
    let start = text[..place].iter().rposition(outside).map_or(0, |i| i + 1);
    let end = text[place..].iter().position(outside).map_or(text.len(), |i| place + i);
    &text[start..end]
}

/// What may stand where the expression goes wrong.
fn due(wrong: &Wrong) -> String {
    match wrong {
        Wrong::Name(what) | Wrong::Mark(what) => what.clone(),
        Wrong::Operator(Some(end)) => format!("one of + & - ^ * or {}", quoted(&[*end])),
        _ => "one of + & - ^ * or the end".into(),
    }
}

fn ends_too_early(open: usize, due: &str) -> String {
    let brackets = match open {
        0 => String::new(),
        1 => ", with 1 bracket open".into(),
        _ => format!(", with {open} brackets open"),
    };
    format!("the expression ends too early{brackets}; expected {due}")
}

/// The byte at the place has words of its own where its cause is known.
fn own_words(text: &[u8], place: usize, wrong: &Wrong, open: usize) -> Option<String> {
    let name_due = matches!(wrong, Wrong::Name(_));
    let operator_due = matches!(wrong, Wrong::Operator(_));
    let before = place.checked_sub(1).map(|i| text[i]);
    Some(match text[place] {
        b'\r' if place + 1 == text.len() => WINDOWS_END.into(),
        b' ' | b'\t' if is_comment(text[place..].trim_ascii_start()) => NO_COMMENTS.into(),
        b' ' => "a blank; expressions have none".into(),
        b'\t' => "a tab; expressions have none".into(),
        b'#' => NO_COMMENTS.into(),
        b'A'..=b'Z' => format!("a capital letter; {NAMES_HAVE}"),
        128.. => format!("a byte over 127; {NAMES_HAVE}"),
        b'|' => "\"|\" is no operator; write + for \"or\"".into(),
        b'!' => "\"!\" is no operator; write - for \"but not\"".into(),
        order @ (b'<' | b'>') if before == Some(b'=') => format!("write {0}= for ={0}", order as char),
        b'[' if operator_due => "\"[\" without ^; a scope is written ^[..]".into(),
        b')' if operator_due && open == 0 => "\")\" closes no bracket".into(),
        b'0'..=b'9' | b'_' if name_due => format!("names begin with a letter; expected {}", due(wrong)),
        _ => return None,
    })
}

/// Number 13: the name at the place is not declared as what it has to be.
pub fn undeclared(fault: &Fault, place: usize) -> Option<Hint> {
    let Field { at, text } = of(fault)?;
    let (walk, _) = Walk::along(text);
    let name = walk.uses.iter().find(|name| name.at == place)?;
    let outside = name.need == Need::Table && walk.bindings.iter().any(|binding| binding.name == name.text);
    let words = if outside {
        format!("no table {}; a template's name stands only within its first brackets", quoted(name.text))
    } else {
        let bound = if name.need == Need::Table { &name.bound[..] } else { &[] };
        let bound: Vec<&str> = bound.iter().filter_map(|name| std::str::from_utf8(name).ok()).collect();
        unknown(&fault.before(), name.need, name.text, &bound)
    };
    Some(Hint::new(at + place, words))
}

/// Number 14: the operator that is one too many, or the table for which one set too many is held.
pub fn too_large(fault: &Fault) -> Option<Hint> {
    let Field { at, text } = of(fault)?;
    let (walk, _) = Walk::along(text);
    let operators = walk.operators.len();
    if operators > MOST_OPERATORS {
        let words = format!("{operators} operators; there may be at most {MOST_OPERATORS}");
        return Some(Hint::new(at + walk.operators[MOST_OPERATORS], words));
    }
    let table = walk.uses.iter().find(|name| name.held > MOST_SETS)?;
    let held = walk.uses.iter().map(|name| name.held).max()?;
    let words = format!("{held} sets would be held at once; there may be at most {MOST_SETS}; nest less to the right");
    Some(Hint::new(at + table.at, words))
}

/// Number 16: the template that is one too deep.
pub fn too_deep(fault: &Fault) -> Option<Hint> {
    let Field { at, text } = of(fault)?;
    let (walk, _) = Walk::along(text);
    let deepest = walk.bindings.iter().map(|binding| binding.depth).max()?;
    let binding = walk.bindings.iter().find(|binding| binding.depth > MOST_BINDINGS)?;
    let words = format!("{deepest} templates stand one within the other; there may be at most {MOST_BINDINGS}");
    Some(Hint::new(at + binding.at, words))
}
