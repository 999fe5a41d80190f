//! The page of an accepted policy: the heading, the filter and the table. Each cell has its subject, its object and an
//! element for each action with the answer, as attributes, so that a program can hold the page against the listing.

use super::name;
use super::paper::{upwards, Paper, DEEPEST};
use crate::calls::Answer;
use crate::outline::{Member, Sort};
use crate::table::View;

/// The mark of a permit where the table is of one action; the heading names that action.
const MARK: &str = "\u{2713}";

/// So many actions stand beside each other in a cell, more of them below each other.
const IN_ONE_LINE: usize = 3;

/// What the page is about.
pub fn title(view: &View) -> String {
    match only_action(view) {
        Some(action) => format!("Who may {action} where"),
        None => "Who may do what where".into(),
    }
}

pub fn body(view: &View, paper: &Paper) -> String {
    let alone = if view.restricted() { ", this action alone" } else { "" };
    format!(
        "<h1>{}</h1>\n<p class=\"policy\">Policy <strong>{}</strong>{alone}</p>\n{}{}{}<h2 class=\"table\">The table</h2>\n{}{}",
        title(view),
        name(&view.file),
        lists(view),
        counts(view),
        legend(view),
        FILTER,
        table(view, paper)
    )
}

/// The filter. The script shows it and fills in the names; without the script it would be of no use.
const FILTER: &str = "\
<form id=\"filter\" autocomplete=\"off\" hidden>
<p><label for=\"who\">Who</label> <select id=\"who\"><option value=\"\">everyone</option></select></p>
<p><label for=\"where\">Where</label> <select id=\"where\"><option value=\"\">everywhere</option></select></p>
<p><label for=\"answer\">Answer</label> <select id=\"answer\"><option value=\"\">all answers</option>\
<option value=\"permit\">permitted</option><option value=\"undecided\">undecided</option>\
<option value=\"deny\">denied</option></select></p>
<p><button type=\"button\" id=\"all\">Show all</button></p>
</form>
<p id=\"found\" role=\"status\" aria-live=\"polite\"></p>
";

fn only_action<'a>(view: &View<'a>) -> Option<&'a str> {
    match view.actions[..] {
        [action] => Some(view.action(action)),
        _ => None,
    }
}

fn lists(view: &View) -> String {
    let away = view.away();
    if !away.is_empty() {
        let names: Vec<String> = away.iter().map(|list| format!("<strong>{list}</strong>")).collect();
        let (lists, they) = if away.len() == 1 { ("List", "it has") } else { ("Lists", "they have") };
        return format!(
            "<p class=\"lists away\">{lists} away: {}. What depends on {} is undecided until {they} arrived.</p>\n",
            names.join(", "),
            if away.len() == 1 { "it" } else { "them" }
        );
    }
    match view.stopped_by_limit() {
        Some(limit) => format!(
            "<p class=\"lists away\">All lists are here. A closure was stopped by the limit <strong>{limit}</strong>: \
             what it had not settled by then is undecided.</p>\n"
        ),
        None => "<p class=\"lists\">All lists are here.</p>\n".into(),
    }
}

fn counts(view: &View) -> String {
    let count = |word: &str, number: usize| format!("<div><dt>{word}</dt><dd>{number}</dd></div>");
    format!(
        "<dl class=\"counts\">{}{}{}{}</dl>\n",
        count("accesses", view.accesses()),
        count("permitted", view.count(Answer::Permit)),
        count("undecided", view.count(Answer::Undecided)),
        count("rounds", view.all.rounds)
    )
}

fn legend(view: &View) -> String {
    let (permit, undecided, action) = match only_action(view) {
        Some(action) => (MARK.to_string(), "?".to_string(), action),
        None => {
            let action = view.action(view.actions[0]);
            (action.to_string(), format!("{action}?"), action)
        }
    };
    let denied = match only_action(view) {
        Some(_) => "denied",
        None => "all denied. Where some actions are named, the others are denied",
    };
    format!(
        "<h2>How to read it</h2>\n<ul class=\"legend\">\n<li><b class=\"permit\">{permit}</b> {action} is permitted</li>\n\
         <li><i class=\"undecided\">{undecided}</i> {action} is undecided: neither permitted nor denied</li>\n\
         <li><span class=\"point\">\u{b7}</span> {denied}</li>\n</ul>\n"
    )
}

fn table(view: &View, paper: &Paper) -> String {
    let mut classes = Vec::new();
    classes.extend(only_action(view).map(|_| "marks"));
    classes.extend((view.actions.len() > IN_ONE_LINE).then_some("stacked"));
    classes.extend(upwards(view).then_some("upwards"));
    classes.extend(paper.is_list().then_some("listed"));
    let heads: String = view.objects().iter().map(|object| head(view, object)).collect();
    let rows: String = view.rows().into_iter().map(|subject| row(view, subject)).collect();
    format!(
        "<div class=\"box\" role=\"region\" aria-labelledby=\"caption\" tabindex=\"0\">\n<table id=\"table\" class=\"{}\">\n\
         <caption id=\"caption\"><span>{}: a row for each subject, a column for each object</span></caption>\n\
         <thead>\n<tr><th scope=\"col\">Who</th>{heads}</tr>\n</thead>\n<tbody>\n{rows}</tbody>\n</table>\n</div>\n",
        classes.join(" "),
        title(view)
    )
}

/// What a hearer needs to know of a member's place in the hierarchy.
fn below(view: &View, sort: Sort, member: &Member) -> String {
    match view.parent(sort, member) {
        Some(parent) => format!("<span class=\"heard\">, below {parent}</span>"),
        None => String::new(),
    }
}

fn head(view: &View, object: &Member) -> String {
    format!("<th scope=\"col\" data-o=\"{0}\"><span>{0}{1}</span></th>", object.name, below(view, Sort::Object, object))
}

fn row(view: &View, subject: usize) -> String {
    let member = &view.subjects()[subject];
    let depth = view.depth(subject);
    let level = if depth > DEEPEST { format!("<small>level {depth}</small> ") } else { String::new() };
    let cells: Vec<Cell> = (0..view.objects().len()).map(|object| Cell::of(view, subject, object)).collect();
    let class = if cells.iter().all(Cell::has_nothing) { " class=\"nothing\"" } else { "" };
    format!(
        "<tr{class}><th scope=\"row\" data-s=\"{0}\" data-depth=\"{depth}\" style=\"--depth:{1}\">{level}{0}{2}</th>{3}</tr>\n",
        member.name,
        depth.min(DEEPEST),
        below(view, Sort::Subject, member),
        cells.iter().map(Cell::text).collect::<String>()
    )
}

/// A cell and what stands in it.
struct Cell<'a> {
    subject: &'a str,
    object: &'a str,
    answers: Vec<(&'a str, Answer)>,
}

impl<'a> Cell<'a> {
    fn of(view: &View<'a>, subject: usize, object: usize) -> Cell<'a> {
        Cell { subject: view.subjects()[subject].name, object: view.objects()[object].name, answers: view.cell(subject, object) }
    }

    /// Is every action that is shown denied?
    fn has_nothing(&self) -> bool {
        self.answers.iter().all(|(_, answer)| *answer == Answer::Deny)
    }

    fn text(&self) -> String {
        let class = if self.has_nothing() { " class=\"nothing\"" } else { "" };
        let only = self.answers.len() == 1;
        let answers: Vec<String> = self.answers.iter().map(|&(action, answer)| element(action, answer, only)).collect();
        format!("<td{class} data-s=\"{}\" data-o=\"{}\">{}</td>", self.subject, self.object, answers.join(" "))
    }
}

/// An action's element. Its text is words; the style shows a mark for `yes` and `undecided`, and keeps what is denied for
/// those who hear the page and for the filter.
fn element(action: &str, answer: Answer, only: bool) -> String {
    let (tag, words) = match (answer, only) {
        (Answer::Permit, true) => ("b", "<span>yes</span>".to_string()),
        (Answer::Permit, false) => ("b", action.to_string()),
        (Answer::Undecided, true) => ("i", "<span>undecided</span>".to_string()),
        (Answer::Undecided, false) => ("i", format!("{action}<span> undecided</span>")),
        (Answer::Deny, true) => ("span", "no".to_string()),
        (Answer::Deny, false) => ("span", format!("no {action}")),
    };
    format!("<{tag} data-a=\"{action}\" data-answer=\"{}\">{words}</{tag}>", answer.word())
}
