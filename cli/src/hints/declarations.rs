//! Numbers 4 to 8, 10 and 11: a line that can be read but does not fit those before it.

use super::fields::{self, quoted, sort, Field};
use super::form::KINDS;
use super::names::{unknown, Need};
use super::{lines, Fault, Hint};
use crate::outline::{Outline, Sort, SORTS};

const MOST_MEMBERS: [usize; 3] = [64, 64, 16];
const MOST_ACCESSES: usize = 4096;
const MOST_RULES: usize = 64;

fn kind(line: &[u8]) -> u8 {
    line.first().copied().unwrap_or_default()
}

fn group(kind: u8) -> usize {
    let kind = if kind == b'B' { b'R' } else { kind };
    KINDS.iter().position(|&k| k == kind).unwrap_or(KINDS.len())
}

/// Number 4.
pub fn out_of_order(fault: &Fault) -> Option<Hint> {
    let this = kind(fault.line);
    let earlier: Vec<u8> = lines(fault.file).take(fault.number - 1).map(kind).collect();
    let words = match earlier.iter().position(|&other| group(other) > group(this)) {
        _ if earlier.last() == Some(&b'E') => "nothing may stand after the E line".into(),
        Some(i) => format!(
            "{} lines stand before {other} lines, and line {} begins with {other}; the order is S, O, A, P, T, G, R with B, E",
            this as char,
            i + 1,
            other = earlier[i] as char
        ),
        None => "a B line needs an R line above it".into(),
    };
    Some(Hint::new(0, words))
}

/// Number 5.
pub fn repeated(fault: &Fault) -> Option<Hint> {
    let before = fault.before();
    let fields = fault.fields();
    let name = std::str::from_utf8(fields.get(1)?.text).ok()?;
    let (what, line) = match sort(fields[0]) {
        Some(sort) => (sort.word(), before.members[sort as usize][before.member(sort, name)?].line),
        None => ("table", before.tables[before.table(name)?].line),
    };
    Some(Hint::new(fields[1].at, format!("{what} \"{name}\" is declared already, on line {line}")))
}

/// Number 6: the leftmost name that is not declared.
pub fn missing(fault: &Fault) -> Option<Hint> {
    let before = fault.before();
    let undeclared = |&(field, need): &(Field, Need)| !is_variable(field) && !need.is_met(&before, field.text);
    let (field, need) = named(&fault.fields()).into_iter().find(undeclared)?;
    let words = match need {
        Need::Member(_) if b"SOA".contains(&kind(fault.line)) => missing_parent(fault, &before, field, need),
        _ => unknown(&before, need, field.text, &[]),
    };
    Some(Hint::new(field.at, words))
}

/// A parent has to be declared before: it may be the line's own member, or stand further down.
fn missing_parent(fault: &Fault, before: &Outline, parent: Field, need: Need) -> String {
    let fields = fault.fields();
    if fields[1].text == parent.text {
        return format!("{} cannot be its own parent", quoted(parent.text));
    }
    let declares = |line: &[u8]| {
        let later = fields::of(line);
        later.len() == fields.len() && later[0].text == fields[0].text && later[1].text == parent.text
    };
    match lines(fault.file).skip(fault.number).position(declares) {
        Some(i) => format!("{} is declared on line {}; a parent stands above", quoted(parent.text), fault.number + i + 1),
        None => unknown(before, need, parent.text, &[]),
    }
}

fn is_variable(field: Field) -> bool {
    field.text.starts_with(b"?")
}

/// The fields that name something declared elsewhere, or hold a variable for it, with what they have to be.
fn named<'a>(fields: &[Field<'a>]) -> Vec<(Field<'a>, Need)> {
    let members = |from: usize| fields[from..].iter().copied().zip(SORTS.map(Need::Member));
    let of_sort = |at: usize| sort(fields[at]).unwrap_or(Sort::Subject);
    match (fields[0].text, fields[1].text) {
        (b"S" | b"O" | b"A", _) if fields[2].text == b"-" => Vec::new(),
        (b"S" | b"O" | b"A", _) => vec![(fields[2], Need::Member(of_sort(0)))],
        (b"P", _) => vec![(fields[3], Need::Member(of_sort(1)))],
        (b"G", _) => [(fields[1], Need::Table)].into_iter().chain(members(2)).collect(),
        (b"R", _) | (b"B", b"grant") => members(2).collect(),
        (b"B", b"has") => vec![(fields[3], Need::Predicate(of_sort(2))), (fields[4], Need::Member(of_sort(2)))],
        (b"B", _) => fields[3..].iter().map(|&field| (field, Need::Member(of_sort(2)))).collect(),
        _ => Vec::new(),
    }
}

/// Number 7.
pub fn too_many(fault: &Fault) -> Option<Hint> {
    let fields = fault.fields();
    let rules = fault.before().rules.len();
    let (at, words) = match fields[0].text {
        b"S" | b"O" | b"A" => {
            let sort = sort(fields[0])?;
            (fields[1].at, format!("there may be at most {} {}s", MOST_MEMBERS[sort as usize], sort.word()))
        }
        b"P" => (fields[2].at, "there may be at most 16 predicates, over all sorts".into()),
        b"T" => (fields[1].at, "there may be at most 16 tables".into()),
        b"R" if rules >= MOST_RULES => (0, format!("there may be at most {MOST_RULES} rules")),
        b"R" => (fields[1].at, "there may be at most 16 rule sets".into()),
        b"B" => (0, "a rule's body may have at most 4 lines".into()),
        _ => (fields[1].at, format!("the limit {} is over 4096", quoted(fields[1].text))),
    };
    Some(Hint::new(at, words))
}

/// Number 8.
pub fn sizes(fault: &Fault) -> Option<Hint> {
    let counts = fault.before().members.map(|members| members.len());
    let [s, o, a] = counts;
    let none: Vec<&str> = SORTS.into_iter().filter(|&sort| counts[sort as usize] == 0).map(Sort::word).collect();
    let words = if none.is_empty() {
        let product = s * o * a;
        format!("{s} subjects x {o} objects x {a} actions are {product} accesses; there may be at most {MOST_ACCESSES}")
    } else {
        format!("there is no {}; members come before all else", none.join(" and no "))
    };
    Some(Hint::new(0, words))
}

/// Number 10.
pub fn away(fault: &Fault) -> Option<Hint> {
    let before = fault.before();
    let field = fault.fields()[1];
    let table = &before.tables[before.table(std::str::from_utf8(field.text).ok()?)?];
    let words = format!("table \"{}\" is away (line {}); write here in that line, or drop the grant", table.name, table.line);
    Some(Hint::new(field.at, words))
}

/// Number 11: the first variable of the line that the rule had at another sort.
pub fn two_sorts(fault: &Fault) -> Option<Hint> {
    let head = (0..fault.number).rev().find(|&i| lines(fault.file).nth(i).is_some_and(|line| kind(line) == b'R'))?;
    let mut seen: Vec<(&[u8], Sort, usize)> = Vec::new();
    for (i, line) in lines(fault.file).enumerate().take(fault.number).skip(head) {
        for (field, need) in named(&fields::of(line)) {
            let Need::Member(sort) = need else { continue };
            let first = seen.iter().find(|(variable, ..)| *variable == field.text);
            match first {
                Some(&(_, other, line)) if is_variable(field) && other != sort => {
                    return Some(Hint::new(field.at, at_two_sorts(field, other, line, sort)));
                }
                _ => seen.push((field.text, sort, i + 1)),
            }
        }
    }
    None
}

fn at_two_sorts(variable: Field, first: Sort, line: usize, second: Sort) -> String {
    let [here, there] = [second, first].map(|sort| Need::Member(sort).one());
    format!("{} stands for {here} here but for {there} on line {line}; use two variables", quoted(variable.text))
}
