//! The table for a program. Members stand in file order; `answers` has the answer's word by the names of the subject, the
//! object and the action. Names are of a-z, 0-9 and `_`, so nothing needs escaping.

use super::View;
use crate::calls::Answer;
use crate::outline::{Member, Sort};

pub fn table(view: &View) -> String {
    let actions: Vec<&Member> = view.actions.iter().map(|&action| &view.members(Sort::Action)[action]).collect();
    let fields = [
        format!("\"accesses\":{}", view.accesses()),
        format!("\"permits\":{}", view.count(Answer::Permit)),
        format!("\"undecided\":{}", view.count(Answer::Undecided)),
        format!("\"rounds\":{}", view.all.rounds),
        format!("\"away\":[{}]", joined(view.away(), text)),
        format!("\"subjects\":[{}]", joined(view.subjects(), |subject| member(view, Sort::Subject, subject))),
        format!("\"objects\":[{}]", joined(view.objects(), |object| member(view, Sort::Object, object))),
        format!("\"actions\":[{}]", joined(actions, |action| member(view, Sort::Action, action))),
        format!("\"answers\":{{\n{}\n}}", answers(view)),
    ];
    format!("{{\n{}\n}}", fields.join(",\n"))
}

fn joined<T>(items: impl IntoIterator<Item = T>, form: impl Fn(T) -> String) -> String {
    items.into_iter().map(form).collect::<Vec<String>>().join(",")
}

fn text(name: &str) -> String {
    format!("\"{name}\"")
}

fn member(view: &View, sort: Sort, member: &Member) -> String {
    let parent = view.parent(sort, member).map_or("null".into(), text);
    format!("{{\"name\":{},\"parent\":{parent}}}", text(member.name))
}

/// A line for each subject.
fn answers(view: &View) -> String {
    let lines = view.subjects().iter().enumerate().map(|(s, subject)| {
        let cells = joined(view.objects().iter().enumerate(), |(o, object)| {
            let cell = joined(view.cell(s, o), |(action, answer)| format!("{}:{}", text(action), text(answer.word())));
            format!("{}:{{{cell}}}", text(object.name))
        });
        format!("{}:{{{cells}}}", text(subject.name))
    });
    lines.collect::<Vec<String>>().join(",\n")
}
