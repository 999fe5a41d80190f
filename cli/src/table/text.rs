//! The table as text in fixed columns. A cell has no blank in it, so that a script may part a row at the blanks.

use super::View;
use crate::calls::Answer;
use crate::shell::escaped;

/// What a cell shows where nothing is permitted or undecided.
const NOTHING: &str = ".";
/// The step by which a subject stands to the right of its parent.
const INDENT: &str = "  ";
const BETWEEN_COLUMNS: &str = "  ";

pub fn table(view: &View) -> String {
    let mut lines = heading(view);
    lines.push(String::new());
    let rows = rows(view);
    let widths: Vec<usize> =
        (0..rows[0].len()).map(|column| rows.iter().map(|row| row[column].len()).max().unwrap_or(0)).collect();
    let rule: Vec<String> = widths.iter().map(|&width| "-".repeat(width)).collect();
    lines.push(line(&rows[0], &widths));
    lines.push(line(&rule, &widths));
    lines.extend(rows[1..].iter().map(|row| line(row, &widths)));
    lines.join("\n")
}

fn heading(view: &View) -> Vec<String> {
    let mut lines = vec![format!("policy: {}", escaped(view.file.as_bytes()))];
    let action = view.action(view.actions[0]);
    if view.restricted() {
        lines.push(format!("action: {action} alone"));
    }
    lines.push(format!(
        "accesses {}, permits {}, undecided {}, rounds {}",
        view.accesses(),
        view.count(Answer::Permit),
        view.count(Answer::Undecided),
        view.all.rounds
    ));
    lines.push(format!("away: {}", away(view)));
    lines.push(format!("legend: {action} = permitted, {action}? = undecided, not named = denied, {NOTHING} = all denied"));
    lines
}

fn away(view: &View) -> String {
    let here = "none, all lists are here";
    match view.stopped_by_limit() {
        Some(limit) => format!("{here}; a closure was stopped by the limit {limit}"),
        None if view.away().is_empty() => here.into(),
        None => view.away().join(", "),
    }
}

/// The header, then a row for each subject.
fn rows(view: &View) -> Vec<Vec<String>> {
    let mut rows = vec![vec!["subject".to_string()]];
    rows[0].extend(view.objects().iter().map(|object| object.name.to_string()));
    for subject in view.rows() {
        let mut row = vec![format!("{}{}", INDENT.repeat(view.depth(subject)), view.subjects()[subject].name)];
        row.extend((0..view.objects().len()).map(|object| cell(&view.cell(subject, object))));
        rows.push(row);
    }
    rows
}

fn cell(answers: &[(&str, Answer)]) -> String {
    let words: Vec<String> = answers
        .iter()
        .filter_map(|(action, answer)| match answer {
            Answer::Permit => Some(action.to_string()),
            Answer::Undecided => Some(format!("{action}?")),
            Answer::Deny => None,
        })
        .collect();
    if words.is_empty() {
        NOTHING.into()
    } else {
        words.join(",")
    }
}

fn line(row: &[String], widths: &[usize]) -> String {
    let fields: Vec<String> = row.iter().zip(widths).map(|(field, &width)| format!("{field:width$}")).collect();
    fields.join(BETWEEN_COLUMNS).trim_end().to_string()
}
