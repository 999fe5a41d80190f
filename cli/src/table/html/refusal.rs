//! The page of a refused policy: what happened, what to do, and the policy's text with the place marked.

use super::html;
use crate::calls::Refusal;
use crate::hints::cause;
use crate::shell::{escaped, Source, LONGEST_POLICY};

/// The plain words for every number.
const WORDS: &str = include_str!("../../../../docs/REFUSALS.md");

/// The numbers whose place is one in the expression.
const NO_EXPRESSION: usize = 12;
const NAME_NOT_DECLARED: usize = 13;

pub fn body(file: &str, source: &Source, refusal: Refusal) -> String {
    let (happened, to_do) = words(refusal.number);
    format!(
        "<h1>The policy is refused</h1>\n<p class=\"policy\">Policy <strong>{file}</strong></p>\n\
         <p class=\"lists fault\">Refusal <strong>{}</strong>{}. Nothing is permitted by a policy that is refused.</p>\n\
         <p>A second look says: {}</p>\n<h2>What happened</h2>\n<p>{happened}</p>\n<h2>What to do</h2>\n<p>{to_do}</p>\n<h2>The policy</h2>\n{}",
        refusal.number,
        position(refusal),
        html(&cause(source, refusal)),
        text(&source.bytes, refusal)
    )
}

/// What happened and what to do, from the row that docs/REFUSALS.md has for the number.
fn words(number: usize) -> (String, String) {
    let row = WORDS.lines().find_map(|line| line.strip_prefix(&format!("| {number} | ")));
    let mut cells = row.unwrap_or_default().split(" | ").map(code);
    (cells.next().unwrap_or_default(), cells.next().unwrap_or_default())
}

/// Markdown's backticks as HTML.
fn code(words: &str) -> String {
    let parts = words.split('`').enumerate();
    parts.map(|(i, part)| if i % 2 == 1 { format!("<code>{}</code>", html(part)) } else { html(part) }).collect()
}

fn position(refusal: Refusal) -> String {
    match (refusal.line, marks_place(refusal)) {
        (0, _) => ", of the file as a whole".into(),
        (line, false) => format!(", line <strong>{line}</strong>"),
        (line, true) => {
            format!(", line <strong>{line}</strong>, place <strong>{}</strong> of the expression, counted from 0", refusal.place)
        }
    }
}

fn marks_place(refusal: Refusal) -> bool {
    matches!(refusal.number, NO_EXPRESSION | NAME_NOT_DECLARED)
}

fn text(policy: &[u8], refusal: Refusal) -> String {
    if policy.is_empty() {
        return "<p>There is nothing in it.</p>\n".into();
    }
    let shown = &policy[..policy.len().min(LONGEST_POLICY)];
    let (closed, lines) = match shown.strip_suffix(b"\n") {
        Some(lines) => (true, lines),
        None => (false, shown),
    };
    let mut list = String::new();
    for (i, line) in lines.split(|&byte| byte == b'\n').enumerate() {
        list += &item(i + 1, line, refusal);
    }
    let end = if policy.len() > LONGEST_POLICY {
        format!("<p>The file goes on. The first {LONGEST_POLICY} bytes are shown; a policy may have no more.</p>\n")
    } else if !closed {
        "<p>The last line is not closed by a line feed.</p>\n".to_string()
    } else {
        String::new()
    };
    let jump = match refusal.line {
        0 => "<p>No line is marked: the fault is not in one line.</p>\n".to_string(),
        line => format!("<p class=\"jump\"><a href=\"#refused\">Line {line}</a> is marked.</p>\n"),
    };
    format!("{jump}<ol class=\"text\">\n{list}</ol>\n{end}")
}

fn item(number: usize, line: &[u8], refusal: Refusal) -> String {
    if number != refusal.line {
        return format!("<li>{}</li>\n", bytes(line));
    }
    let marked = if marks_place(refusal) { with_place(line, refusal) } else { bytes(line) };
    format!("<li id=\"refused\" class=\"fault\">{marked} <strong class=\"note\">refused {}</strong></li>\n", refusal.number)
}

/// The E line with its place marked: a name that is not declared whole, else the first byte that is not good.
fn with_place(line: &[u8], refusal: Refusal) -> String {
    let expression = line.splitn(3, |&byte| byte == b',').nth(2).unwrap_or_default();
    let from = line.len() - expression.len() + refusal.place.min(expression.len());
    let rest = &line[from..];
    let length = match refusal.number {
        NAME_NOT_DECLARED => rest.iter().take_while(|byte| byte.is_ascii_alphanumeric() || **byte == b'_').count(),
        _ => rest.len().min(1),
    };
    let fault = if length == 0 { "the line ends here".to_string() } else { bytes(&rest[..length]) };
    format!("{}<mark>{fault}</mark>{}", bytes(&line[..from]), bytes(&rest[length..]))
}

/// Bytes as they stand, those that cannot be printed as `\x..` in an element of their own.
fn bytes(line: &[u8]) -> String {
    let seen = |byte: &u8| (b' '..=b'~').contains(byte);
    line.chunk_by(|x, y| seen(x) == seen(y))
        .map(|run| if seen(&run[0]) { html(&escaped(run)) } else { format!("<i class=\"byte\">{}</i>", escaped(run)) })
        .collect()
}
