//! Names that are not declared as what they stand for: what is needed, and what may be meant.

use super::fields::quoted;
use crate::outline::{Outline, Sort};

/// What a name has to be at its place.
#[derive(Clone, Copy, Debug, PartialEq, Eq)]
pub enum Need {
    Member(Sort),
    Table,
    Predicate(Sort),
    RuleSet,
}

const NEEDS: [Need; 8] = [
    Need::Member(Sort::Subject),
    Need::Member(Sort::Object),
    Need::Member(Sort::Action),
    Need::Table,
    Need::RuleSet,
    Need::Predicate(Sort::Subject),
    Need::Predicate(Sort::Object),
    Need::Predicate(Sort::Action),
];

impl Need {
    /// With its article.
    pub fn one(self) -> String {
        match self {
            Need::Member(Sort::Subject) => "a subject".into(),
            Need::Member(sort) => format!("an {}", sort.word()),
            Need::Table => "a table".into(),
            Need::RuleSet => "a rule set".into(),
            Need::Predicate(sort) => format!("a predicate of {}s", sort.word()),
        }
    }

    fn none(self, name: &str) -> String {
        match self {
            Need::Member(sort) => format!("no {} {name}", sort.word()),
            Need::Table => format!("no table {name}"),
            Need::RuleSet => format!("no rule set {name}"),
            Need::Predicate(sort) => format!("no predicate {name} of {}s", sort.word()),
        }
    }

    /// The names that are declared so, in file order.
    fn names<'a>(self, outline: &Outline<'a>) -> Vec<&'a str> {
        match self {
            Need::Member(sort) => outline.members[sort as usize].iter().map(|m| m.name).collect(),
            Need::Table => outline.tables.iter().map(|t| t.name).collect(),
            Need::RuleSet => outline.rule_sets(),
            Need::Predicate(sort) => outline.predicates.iter().filter(|p| p.sort == sort).map(|p| p.name).collect(),
        }
    }

    pub fn is_met(self, outline: &Outline, name: &[u8]) -> bool {
        self.names(outline).iter().any(|known| known.as_bytes() == name)
    }
}

/// The words for a name that is not declared as needed. `bound` are names that stand for tables at that place.
pub fn unknown(outline: &Outline, need: Need, name: &[u8], bound: &[&str]) -> String {
    let shown = quoted(name);
    if let Some(other) = NEEDS.into_iter().find(|other| other.is_met(outline, name)) {
        return format!("{shown} is {}, not {}", other.one(), need.one());
    }
    let mut known = need.names(outline);
    known.extend(bound);
    match nearest(name, &known) {
        Some(near) => format!("{}; did you mean \"{near}\"?", need.none(&shown)),
        None => need.none(&shown),
    }
}

/// The known name that is nearest, the first of several; none where all are far.
fn nearest<'a>(name: &[u8], known: &[&'a str]) -> Option<&'a str> {
    const MOST_EDITS: usize = 2;
    let alike_in_length = known.iter().filter(|other| other.len().abs_diff(name.len()) <= MOST_EDITS);
    let distances = alike_in_length.map(|&other| (edits(name, other.as_bytes()), other));
    let near = distances.filter(|&(edits, other)| edits <= MOST_EDITS && 2 * edits < other.len().max(name.len()));
    near.min_by_key(|&(edits, _)| edits).map(|(_, other)| other)
}

/// How many bytes have to be put in, taken out or changed to make one name of the other.
fn edits(from: &[u8], to: &[u8]) -> usize {
    let mut row: Vec<usize> = (0..=to.len()).collect();
    for (i, a) in from.iter().enumerate() {
        let mut diagonal = row[0];
        row[0] = i + 1;
        for (j, b) in to.iter().enumerate() {
            let changed = diagonal + usize::from(a != b);
            diagonal = row[j + 1];
            row[j + 1] = changed.min(row[j] + 1).min(diagonal + 1);
        }
    }
    row[to.len()]
}
