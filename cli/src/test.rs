//! `snowdell test FILE EXPECTED`: does the policy answer as expected? EXPECTED has lines as the listing's, and `deny,..`; `*`
//! stands for any member.

use crate::calls::{first_line, refusal_line, Answer, Policy, Refusal};
use crate::hints;
use crate::outline::{Outline, SORTS};
use crate::shell::{escaped, exactly, Shell, Source, Status, Stop};
use std::ffi::OsString;

/// EXPECTED may have so many bytes: 16 MiB.
const LONGEST_EXPECTED: usize = 16 << 20;

/// Stands for any member.
const ANY: &str = "*";

/// A good line is shorter than this; of a longer one only the beginning is shown.
const SHOWN: usize = 100;

const BYTE_ORDER_MARK: &[u8] = b"\xef\xbb\xbf";

pub fn run(arguments: &[OsString], shell: &mut Shell) -> Result<Status, Stop> {
    let [file, expected] = exactly(arguments, "test FILE EXPECTED")?;
    let source = shell.policy(file)?;
    let expected = shell.read(expected, LONGEST_EXPECTED + 1)?;
    fits(&expected)?;
    let policy = Policy::of(&source.bytes);
    let (mut passed, mut failed) = (0, 0);
    for (number, line) in lines(&expected.bytes) {
        match meets(&policy, line) {
            Ok(()) => passed += 1,
            Err(found) => {
                failed += 1;
                shell.print(&format!("line {number}: {}: {found}", shown(line)))?;
            }
        }
    }
    shell.print(&format!("{passed} passed, {failed} failed"))?;
    shell.finish()?;
    match policy {
        _ if failed == 0 => Ok(Status::Good),
        Ok(_) => Ok(Status::Differs),
        Err(refusal) => {
            hints::explain(shell, &source, refusal);
            Ok(Status::Refused)
        }
    }
}

/// EXPECTED is not too long, and expects something.
fn fits(expected: &Source) -> Result<(), Stop> {
    let unfit = |why: &str| Err(Stop::Failed(format!("{}: {why}", escaped(expected.path.as_bytes()))));
    if expected.bytes.len() > LONGEST_EXPECTED {
        unfit("longer than 16 MiB")
    } else if lines(&expected.bytes).next().is_none() {
        unfit("expects nothing, so nothing is tested")
    } else {
        Ok(())
    }
}

/// The lines that expect something, with their numbers. They are no policy: they may come from any editor, with a byte order
/// mark and CR LF.
fn lines(expected: &[u8]) -> impl Iterator<Item = (usize, &[u8])> {
    let text = expected.strip_prefix(BYTE_ORDER_MARK).unwrap_or(expected);
    let lines = text.split(|&b| b == b'\n').map(|line| line.strip_suffix(b"\r").unwrap_or(line));
    (1..).zip(lines).filter(|(_, line)| !line.is_empty() && !line.starts_with(b"#"))
}

/// A line as it can be shown.
fn shown(line: &[u8]) -> String {
    if line.len() > SHOWN {
        format!("{}..", escaped(&line[..SHOWN]))
    } else {
        escaped(line)
    }
}

/// What a line expects.
enum Expectation<'a> {
    /// The listing's first line.
    Totals,
    Refusal,
    /// The answer to the accesses of these members; each may be `*`.
    Answer(Answer, [&'a str; 3]),
}

impl<'a> Expectation<'a> {
    /// What the line says, or why it cannot be read.
    fn of(line: &'a [u8]) -> Result<Expectation<'a>, String> {
        let text = std::str::from_utf8(line).map_err(|_| "cannot be read: it is no text".to_string())?;
        let (word, rest) = text.split_once(',').unwrap_or((text, ""));
        let answer = match word {
            "grants" if numbers(rest, 4) => return Ok(Expectation::Totals),
            "grants" => return Err(needs(word, "4 numbers")),
            "refused" if numbers(rest, 3) => return Ok(Expectation::Refusal),
            "refused" => return Err(needs(word, "3 numbers")),
            _ => [Answer::Deny, Answer::Undecided, Answer::Permit].into_iter().find(|answer| answer.word() == word),
        };
        let Some(answer) = answer else {
            let words = "permit, undecided, deny, grants or refused";
            return Err(format!("cannot be read: \"{}\" is not {words}", shown(word.as_bytes())));
        };
        let mut names = rest.split(',');
        match (names.next(), names.next(), names.next(), names.next()) {
            (Some(s), Some(o), Some(a), None) => Ok(Expectation::Answer(answer, [s, o, a])),
            _ => Err(needs(word, "a subject, an object and an action")),
        }
    }
}

fn needs(word: &str, what: &str) -> String {
    format!("cannot be read: {word} needs {what}")
}

/// Are these so many numbers?
fn numbers(fields: &str, count: usize) -> bool {
    let number = |field: &str| !field.is_empty() && field.bytes().all(|b| b.is_ascii_digit());
    fields.split(',').take(count + 1).count() == count && fields.split(',').all(number)
}

/// Is the policy as the line expects? If not, what was found.
fn meets(policy: &Result<Policy, Refusal>, line: &[u8]) -> Result<(), String> {
    let expectation = Expectation::of(line)?;
    match (policy, expectation) {
        (Err(refusal), _) => same(line, &refusal_line(*refusal)),
        (Ok(policy), Expectation::Totals) => same(line, &first_line(&policy.all)),
        (Ok(_), Expectation::Refusal) => Err("found accepted".into()),
        (Ok(policy), Expectation::Answer(answer, names)) => answers(policy, answer, names),
    }
}

/// Has every access of these members this answer? If not, the first that has not.
fn answers(policy: &Policy, expected: Answer, names: [&str; 3]) -> Result<(), String> {
    let [subjects, objects, actions] = members(&policy.outline, names)?;
    let mut first = None;
    let mut others = 0;
    for s in subjects {
        for &o in &objects {
            for &a in &actions {
                match policy.answer([s, o, a]) {
                    answer if answer == expected => {}
                    answer if first.is_none() => first = Some((answer, [s, o, a])),
                    _ => others += 1,
                }
            }
        }
    }
    let Some((answer, access)) = first else { return Ok(()) };
    let mut found = format!("found {}", answer.word());
    if names.contains(&ANY) {
        let access = SORTS.map(|sort| policy.outline.members[sort as usize][access[sort as usize]].name);
        found += &format!(" for {}", access.join(","));
    }
    if others > 0 {
        found += &format!(" and {others} more");
    }
    Err(found)
}

/// The members, by number, that each of three names stands for; or which of the names are not declared.
fn members(outline: &Outline, names: [&str; 3]) -> Result<[Vec<usize>; 3], String> {
    let members = SORTS.map(|sort| match names[sort as usize] {
        ANY => (0..outline.members[sort as usize].len()).collect(),
        name => Vec::from_iter(outline.member(sort, name)),
    });
    let unknown = SORTS.into_iter().filter(|&sort| members[sort as usize].is_empty());
    let unknown = unknown.map(|sort| format!("no {} \"{}\"", sort.word(), shown(names[sort as usize].as_bytes())));
    match unknown.collect::<Vec<_>>().join(", ") {
        unknown if unknown.is_empty() => Ok(members),
        unknown => Err(unknown),
    }
}

/// Is the line the one that the listing has there?
fn same(line: &[u8], found: &str) -> Result<(), String> {
    if line == found.as_bytes() {
        Ok(())
    } else {
        Err(format!("found {found}"))
    }
}
