//! The answers of every part of the expression, each asked of the engine with that part alone in the E line. Compose is asked,
//! since a derivation leads to other accesses too; at the asked one it writes what Decide returns.

use super::case::Case;
use super::{shortened, Said};
use crate::calls::Answer;
use crate::shell::Stop;
use crate::tree::{Form, Sign};
use std::collections::BTreeSet;

pub struct Parts {
    /// For each part the last one that reads alike under the same bindings. It stands for them all and is asked once.
    alike: Vec<usize>,
    /// For a part that stands for itself, its answer to every access.
    answers: Vec<Vec<Answer>>,
}

impl Parts {
    pub fn of(case: &Case) -> Result<Parts, Stop> {
        let alone = alone(case);
        let alike: Vec<usize> =
            alone.iter().map(|one| alone.iter().rposition(|other| one == other).unwrap_or_default()).collect();
        let mut answers = Vec::new();
        for (part, expression) in alone.iter().enumerate() {
            answers.push(if alike[part] == part { case.answers(expression)? } else { Vec::new() });
        }
        Ok(Parts { alike, answers })
    }

    /// The part that stands for all that read like this one.
    pub fn alike(&self, part: usize) -> usize {
        self.alike[part]
    }

    pub fn answer(&self, part: usize, access: usize) -> Answer {
        self.all(part)[access]
    }

    /// The part's answers by the accesses' numbers.
    pub fn all(&self, part: usize) -> &[Answer] {
        &self.answers[self.alike[part]]
    }
}

/// Each part as an expression of its own.
fn alone(case: &Case) -> Vec<String> {
    (0..case.tree.parts.len()).map(|part| case.tree.alone(part)).collect()
}

/// How many questions it takes to know the answers of every part.
pub fn questions(case: &Case) -> usize {
    alone(case).into_iter().collect::<BTreeSet<String>>().len()
}

/// The tree, with a line for each part.
pub fn said(case: &Case, parts: &Parts) -> Said {
    let mut said = Said { lines: Vec::new(), words: vec!["The parts of the expression, each with its answer:".into()] };
    for (i, part) in case.tree.parts.iter().enumerate() {
        let (answer, text) = (parts.answer(i, case.access), case.tree.text(i));
        said.lines.push(format!("part,{},{},{text}", part.depth, answer.number()));
        let indent = "  ".repeat(part.depth + 1);
        said.words.push(format!("{indent}{}: {} ({})", answer.word(), shortened(text), about(case, parts, i)));
    }
    said
}

/// What the part does with the access, in a few words.
fn about(case: &Case, parts: &Parts, part: usize) -> String {
    match case.tree.parts[part].form {
        Form::Name(name) => match case.tree.bound_to(part) {
            Some(filling) => format!("stands for {}", shortened(case.tree.text(filling))),
            None => of_table(case, name),
        },
        Form::Join(Sign::Plus) => "one of the two is enough".into(),
        Form::Join(Sign::And) => "both are needed".into(),
        Form::Join(Sign::Minus) => "the right is taken out of the left".into(),
        Form::Override => "where the third permits, the second counts; elsewhere the first".into(),
        Form::Scope(scope) => match scope.holds(&case.outline, case.members(case.access)) {
            Some(true) => "inside the scope".into(),
            _ => "outside the scope".into(),
        },
        Form::Closure(set) => of_closure(case, parts, part, set),
        Form::Template(name) => format!("with {name} for the second brackets"),
    }
}

fn of_table(case: &Case, name: &str) -> String {
    let (table, members) = (case.outline.table(name), case.members(case.access));
    if table.is_some_and(|table| !case.outline.tables[table].here) {
        return "this list is away".into();
    }
    match case.outline.grants.iter().find(|grant| Some(grant.table) == table && grant.access == members) {
        Some(grant) => format!("granted on line {}", grant.line),
        None => "not granted in this list".into(),
    }
}

fn of_closure(case: &Case, parts: &Parts, part: usize, set: &str) -> String {
    let operand = case.tree.parts[part].made_of[0];
    match parts.answer(part, case.access) {
        Answer::Permit if parts.answer(operand, case.access) == Answer::Permit => "permitted before any rule".into(),
        Answer::Permit => format!("derived by the rules {set}"),
        Answer::Deny => format!("not derived by the rules {set}"),
        Answer::Undecided if parts.all(operand).contains(&Answer::Undecided) => {
            format!("{set} starts from accesses that are undecided")
        }
        Answer::Undecided => format!("the limit stops {set}"),
    }
}
