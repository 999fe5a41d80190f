//! The table for a spreadsheet: a header, then a line for each subject and action, with a column for each object. A field is
//! a name, an answer's word or empty, so nothing needs quoting and nothing begins a formula. The names of the fixed columns
//! begin with a capital, which no object's name does.

use super::View;
use crate::outline::Sort;

pub fn table(view: &View) -> String {
    let mut lines = vec![header(view)];
    for subject in view.rows() {
        lines.extend(view.actions.iter().map(|&action| line(view, subject, action)));
    }
    lines.join("\n")
}

fn header(view: &View) -> String {
    let mut fields = vec!["Subject", "Parent", "Action"];
    fields.extend(view.objects().iter().map(|object| object.name));
    fields.push("Away");
    fields.join(",")
}

fn line(view: &View, subject: usize, action: usize) -> String {
    let member = &view.subjects()[subject];
    let mut fields = vec![member.name, view.parent(Sort::Subject, member).unwrap_or(""), view.action(action)];
    fields.extend((0..view.objects().len()).map(|object| view.answer(subject, object, action).word()));
    format!("{},{}", fields.join(","), view.away().join(" "))
}
