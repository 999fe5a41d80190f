//! The wrapper's words for the refusals are those of docs/REFUSALS.md.

mod common;

use common::{root, text};
use library::{Policy, Refusal, Refused};

/// The table's cells for a number: what happened and what to do.
struct Row {
    number: usize,
    happened: String,
    to_do: String,
}

/// A cell as a part of a sentence, in ASCII.
fn part(cell: &str) -> String {
    let cell = cell.replace('×', "times");
    let (first, rest) = cell.split_at(1);
    first.to_ascii_lowercase() + rest
}

fn table() -> Vec<Row> {
    let page = text("docs/REFUSALS.md");
    let rows = page.lines().filter_map(|line| {
        let cells: Vec<&str> = line.trim_matches('|').split('|').map(str::trim).collect();
        let [number, happened, to_do, _file] = cells[..] else { return None };
        Some(Row { number: number.parse().ok()?, happened: part(happened), to_do: part(to_do) })
    });
    rows.collect()
}

fn refused(number: usize, place: usize) -> Refused {
    Refusal { number, line: 0, place }.accepted().expect_err("a refusal")
}

/// The words begin the cell, up to a full stop or a colon.
fn begins(cell: &str, words: &str) -> bool {
    cell.strip_prefix(words).is_some_and(|rest| rest.starts_with(['.', ':']))
}

#[test]
fn the_words_are_those_of_the_table() {
    let rows = table();
    assert!(rows.iter().map(|row| row.number).eq(1..=16));
    for Row { number, happened, to_do } in rows {
        let said = refused(number, 0);
        let cell = happened.trim_start_matches("decide only: ");
        assert!(begins(cell, said.what_happened()), "{number}: {} is not {cell}", said.what_happened());
        assert_eq!(format!("{}.", said.what_to_do()), to_do, "{number}");
    }
}

#[test]
fn for_15_they_say_which_name() {
    let row = table().into_iter().find(|row| row.number == 15).expect("a row");
    for (place, sort) in [(1, "subject"), (2, "object"), (3, "action")] {
        assert!(row.happened.contains(&format!("{place} {sort}")), "{}", row.happened);
        let words = refused(15, 0).what_happened().replace("a name", &format!("the {sort}"));
        assert_eq!(refused(15, place).what_happened(), words);
    }
}

#[test]
fn the_smallest_files_give_their_words() {
    for number in (2..=16).filter(|number| *number != 15) {
        let file = std::fs::read(root().join(format!("examples/refusals/{number:02}.pol"))).expect("a file");
        let said = Policy::new(&file).expect_err("a refused file");
        let (line, words) = (said.line().map(|line| format!(" at line {line}")).unwrap_or_default(), refused(number, 0));
        let place = said.place().map(|place| format!(", place {place}")).unwrap_or_default();
        let expected = format!("refused {number}{line}{place}: {}; {}", words.what_happened(), words.what_to_do());
        assert_eq!(said.to_string(), expected);
    }
}
