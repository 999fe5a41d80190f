//! For the closures whose permits the answer rests on: the rules and the values that derive them, each step confirmed by the
//! engine.

use super::case::Case;
use super::grounds::{Derivation, Grounds};
use super::parts::Parts;
use super::rounds::Origin;
use super::rules::{Rule, Values};
use super::steps::Steps;
use super::{shortened, unfollowed, Said};
use crate::shell::Stop;

/// So many steps of a closure are put into words; the lines have all.
const MOST_WORDS: usize = 20;

pub fn said(case: &Case, parts: &Parts) -> Result<Said, Stop> {
    let rules: Option<Vec<Rule>> = case.outline.rules.iter().map(|rule| Rule::of(rule, &case.outline)).collect();
    let rules = rules.ok_or_else(unfollowed)?;
    let steps = Steps::of(&case.outline);
    let mut grounds = Grounds::of(case, parts, &rules)?;
    let mut said = Said::default();
    for Derivation { closure, accesses } in grounds.derivations()? {
        let text = case.tree.text(closure);
        said.lines.push(format!("closure,{},{text}", closure + 1));
        said.words.push(format!("How {} comes to its permit, each step confirmed by the engine:", shortened(text)));
        for (i, (access, origin)) in accesses.iter().enumerate() {
            let (line, words) = match origin {
                Origin::Given => given(&case.written(*access)),
                Origin::Step { round, rule, values } => {
                    let rule = grounds.rule(closure, *rule);
                    steps.confirm(case, rule, values)?;
                    step(*round, rule, &case.written(*access), &written(case, rule, values))
                }
            };
            said.lines.push(line);
            if i < MOST_WORDS {
                said.words.push(words);
            }
        }
        if accesses.len() > MOST_WORDS {
            said.words.push(format!("  and {} more, on standard output", accesses.len() - MOST_WORDS));
        }
    }
    Ok(said)
}

/// The line and the words for an access that the operand permits.
fn given(access: &str) -> (String, String) {
    (format!("given,{access}"), format!("  {access} is permitted before any rule"))
}

/// The line and the words for an access that a rule derives.
fn step(round: usize, rule: &Rule, access: &str, values: &str) -> (String, String) {
    let words = format!("  {access} in round {round} by the rule {} on line {}: {values}", rule.set, rule.line);
    (format!("step,{round},{},{access},{values}", rule.line), words)
}

/// The values of a rule's variables, or `-` where it has none.
fn written(case: &Case, rule: &Rule, values: &Values) -> String {
    let mut written = Vec::new();
    for (variable, sort) in rule.sorts.iter().enumerate() {
        if let (Some(sort), Some(value)) = (sort, values[variable]) {
            written.push(format!("?{variable}={}", case.outline.members[*sort as usize][value].name));
        }
    }
    if written.is_empty() {
        "-".into()
    } else {
        written.join(";")
    }
}
