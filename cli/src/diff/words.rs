//! What a comparison found, in plain words, for standard error.

use super::{word, Change, Difference, How, Moved};
use crate::calls::{Answer, Policy};
use crate::outline::Outline;
use crate::shell::Shell;

/// So many members are named in a line; of the others it says how many.
const NAMED: usize = 4;

/// What an access may be in a file, from the least.
const WORDS: [Option<Answer>; 4] = [None, Some(Answer::Deny), Some(Answer::Undecided), Some(Answer::Permit)];

pub fn explain(difference: &Difference, new: &Policy, gains_only: bool, shell: &mut Shell) {
    let gains: Vec<&Change> = difference.gains().collect();
    let losses: Vec<&Change> = if gains_only { Vec::new() } else { difference.losses().collect() };
    let members = if gains_only { None } else { members(difference) };
    match (gains.is_empty() && losses.is_empty() && members.is_none(), gains_only) {
        (true, true) => shell.explain("no gains: nobody may do more than before"),
        (true, false) => shell.explain("no difference: the same members, and the same answer to every access"),
        _ => {}
    }
    let lines = [
        kinds(&gains, "gain", "gains"),
        kinds(&losses, "loss", "losses"),
        members,
        undecided(gains.iter().chain(&losses).copied(), &new.outline),
        parents(&difference.moved),
    ];
    for line in lines.into_iter().flatten() {
        shell.explain(&line);
    }
}

/// `2 gains: 1 from deny to permit, 1 from absent to undecided`
fn kinds(changes: &[&Change], one: &str, many: &str) -> Option<String> {
    let mut kinds = Vec::new();
    for old in WORDS {
        for new in WORDS {
            match changes.iter().filter(|change| (change.old, change.new) == (old, new)).count() {
                0 => {}
                count => kinds.push(format!("{count} from {} to {}", word(old), word(new))),
            }
        }
    }
    (!kinds.is_empty()).then(|| format!("{}: {}", counted(changes.len(), one, many), kinds.join(", ")))
}

/// `1 member came, 2 members went`
fn members(difference: &Difference) -> Option<String> {
    let counts = [How::Came, How::Went].map(|how| (difference.members_that(how), how.word()));
    let parts = counts.iter().filter(|(count, _)| *count > 0);
    let parts: Vec<String> = parts.map(|(count, how)| format!("{} {how}", counted(*count, "member", "members"))).collect();
    (!parts.is_empty()).then(|| parts.join(", "))
}

/// How many answers became undecided, and what they wait for. Without an away list only a closure that its limit stops can
/// bring them.
fn undecided<'a>(changes: impl Iterator<Item = &'a Change<'a>>, new: &Outline) -> Option<String> {
    let count = changes.filter(|change| change.new == Some(Answer::Undecided)).count();
    if count == 0 {
        return None;
    }
    let became = format!("{} became undecided", counted(count, "answer", "answers"));
    let goal = new.goal.as_ref()?;
    let away: Vec<&str> = new.tables.iter().filter(|t| !t.here && goal.names(t.name)).map(|t| t.name).collect();
    Some(if away.is_empty() {
        let rounds = counted(goal.limit, "round", "rounds");
        format!("{became}: the new file waits for no list, but its limit of {rounds} stops a closure early")
    } else {
        format!("{became}; away in the new file: {}", away.join(", "))
    })
}

/// `1 member has another parent: subject ann (staff, now ward)`
fn parents(moved: &[Moved]) -> Option<String> {
    let parent = |name: Option<&str>| name.unwrap_or("none").to_string();
    let shown = moved.iter().take(NAMED);
    let shown = shown.map(|m| format!("{} {} ({}, now {})", m.sort.word(), m.name, parent(m.old), parent(m.new)));
    let shown = shown.collect::<Vec<_>>().join(", ");
    let more = if moved.len() > NAMED { format!(" and {} more", moved.len() - NAMED) } else { String::new() };
    let have = counted(moved.len(), "member has", "members have");
    (!moved.is_empty()).then(|| format!("{have} another parent: {shown}{more}"))
}

fn counted(count: usize, one: &str, many: &str) -> String {
    format!("{count} {}", if count == 1 { one } else { many })
}
