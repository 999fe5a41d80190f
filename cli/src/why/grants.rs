//! The grants without which the answer changes.

use super::case::Case;
use super::Said;
use crate::calls::Answer;
use crate::outline::Grant;
use crate::shell::Stop;
use crate::tree::{Form, Sign, ROOT};
use std::collections::BTreeSet;

/// A grant that can matter, with all lines that say it.
pub struct Tried {
    pub lines: Vec<usize>,
    pub table: usize,
    pub access: usize,
    /// Its table stands in the right of a minus or in the third place of an override, at any depth.
    behind_minus: bool,
}

/// The uses of a table that matter here.
#[derive(Clone, Copy, Default, PartialEq, Eq, PartialOrd, Ord)]
struct Uses {
    under_closure: bool,
    behind_minus: bool,
}

/// The grants that can matter: of a table that the expression draws on, those on the access itself, or all where the table
/// stands under a closure.
pub fn tried(case: &Case) -> Vec<Tried> {
    let used = uses(case);
    let mut tried: Vec<Tried> = Vec::new();
    for grant in &case.outline.grants {
        let Some(uses) = used[grant.table] else { continue };
        let access = number(case, grant);
        if !uses.under_closure && access != case.access {
            continue;
        }
        match tried.iter_mut().find(|t| t.table == grant.table && t.access == access) {
            Some(again) => again.lines.push(grant.line),
            None => tried.push(Tried { lines: vec![grant.line], table: grant.table, access, behind_minus: uses.behind_minus }),
        }
    }
    tried
}

pub fn said(case: &Case, tried: &[Tried]) -> Result<Said, Stop> {
    let mut said = Said::default();
    for (grant, without) in needed(case, tried)? {
        let written = format!("{},{}", case.outline.tables[grant.table].name, case.written(grant.access));
        let lines: Vec<String> = grant.lines.iter().map(usize::to_string).collect();
        said.lines.push(format!("grant,{},{},{written}", lines[0], without.number()));
        let which = if lines.len() == 1 { "line" } else { "lines" };
        said.words.push(format!("Without {which} {} ({written}) it is {}.", lines.join(", "), without.word()));
    }
    if !said.lines.is_empty() {
        said.lines.push("ways,one".into());
    } else if together(case, tried)? {
        said.lines.push("ways,several".into());
        said.words.push("No grant alone changes it, but several at once do: there are several ways to it.".into());
    } else {
        said.lines.push("ways,none".into());
        said.words.push("No grant was found that changes it.".into());
    }
    Ok(said)
}

/// The grants without which, each alone, the answer changes, and what it changes to.
fn needed<'t>(case: &Case, tried: &'t [Tried]) -> Result<Vec<(&'t Tried, Answer)>, Stop> {
    let mut needed = Vec::new();
    for grant in tried {
        let without = case.without(&grant.lines)?;
        if without != case.answer {
            needed.push((grant, without));
        }
    }
    Ok(needed)
}

/// Does the answer change without all grants that can matter, or without all of them whose table stands behind a minus?
fn together(case: &Case, tried: &[Tried]) -> Result<bool, Stop> {
    let all = lines(tried.iter());
    let behind_minus = lines(tried.iter().filter(|grant| grant.behind_minus));
    Ok(case.without(&all)? != case.answer || case.without(&behind_minus)? != case.answer)
}

fn lines<'t>(tried: impl Iterator<Item = &'t Tried>) -> Vec<usize> {
    let mut lines: Vec<usize> = tried.flat_map(|grant| grant.lines.iter().copied()).collect();
    lines.sort_unstable();
    lines
}

fn number(case: &Case, grant: &Grant) -> usize {
    let [s, o, a] = grant.access;
    case.counts.access(s, o, a)
}

/// For each table how the expression draws on it, if it does. A bound name draws on its template's filling; a filling whose name
/// is not used is not drawn on.
fn uses(case: &Case) -> Vec<Option<Uses>> {
    let tree = &case.tree;
    let mut used: Vec<Option<Uses>> = vec![None; case.outline.tables.len()];
    let mut met = BTreeSet::new();
    let mut ahead = vec![(ROOT, Uses::default())];
    while let Some((part, uses)) = ahead.pop() {
        if !met.insert((part, uses)) {
            continue;
        }
        let form = tree.parts[part].form;
        if let (Form::Name(name), None) = (form, tree.bound_to(part)) {
            if let Some(table) = case.outline.table(name) {
                let of_table = used[table].get_or_insert(Uses::default());
                of_table.under_closure |= uses.under_closure;
                of_table.behind_minus |= uses.behind_minus;
            }
        }
        for (i, below) in tree.answers_from(part).into_iter().enumerate() {
            let under_closure = uses.under_closure || matches!(form, Form::Closure(_));
            let behind_minus = uses.behind_minus || matches!((form, i), (Form::Join(Sign::Minus), 1) | (Form::Override, 2));
            ahead.push((below, Uses { under_closure, behind_minus }));
        }
    }
    used
}
