//! `snowdell diff OLD NEW [--gains]`: what changes for whom. Each file numbers its members in its own way, so all is matched
//! by names.

mod words;

use crate::calls::{refusal_line, Answer, Policy, Refusal};
use crate::hints;
use crate::outline::{Outline, Sort, SORTS};
use crate::shell::{escaped, exactly, Shell, Source, Status, Stop};
use std::ffi::OsString;

/// The option of the person who signs off: what rises, and nothing else.
const GAINS: &str = "--gains";

pub fn run(arguments: &[OsString], shell: &mut Shell) -> Result<Status, Stop> {
    let (gains_only, paths) = without_option(arguments)?;
    let [old, new] = exactly(&paths, "diff OLD NEW [--gains]")?;
    let (old, new) = (shell.policy(old)?, shell.policy(new)?);
    match (Policy::of(&old.bytes), Policy::of(&new.bytes)) {
        (Ok(before), Ok(after)) => report(&Difference::between(&before, &after), &after, gains_only, shell),
        (before, after) => refused([("old", &old, before.err()), ("new", &new, after.err())], shell),
    }
}

/// A line for each file that is refused, then what is to be said of them. There is nothing to count.
fn refused(sides: [(&str, &Source, Option<Refusal>); 2], shell: &mut Shell) -> Result<Status, Stop> {
    for (side, _, said) in sides {
        if let Some(refusal) = said {
            shell.print(&format!("{side},{}", refusal_line(refusal)))?;
        }
    }
    shell.finish()?;
    for (_, source, said) in sides {
        if let Some(refusal) = said {
            hints::explain(shell, source, refusal);
        }
    }
    Ok(Status::Refused)
}

/// Is `--gains` among the arguments, and what else is.
fn without_option(arguments: &[OsString]) -> Result<(bool, Vec<OsString>), Stop> {
    let (options, paths): (Vec<OsString>, Vec<OsString>) = arguments.iter().cloned().partition(|a| a == GAINS);
    match paths.iter().map(|path| path.as_encoded_bytes()).find(|path| path.starts_with(b"-") && path.len() > 1) {
        Some(other) => Err(Stop::Usage(format!("no option \"{0}\"; a file of that name is ./{0}", escaped(other)))),
        None => Ok((!options.is_empty(), paths)),
    }
}

/// The lines for scripts, then the words for people.
fn report(difference: &Difference, new: &Policy, gains_only: bool, shell: &mut Shell) -> Result<Status, Stop> {
    if !gains_only {
        for (how, sort, name) in &difference.members {
            shell.print(&format!("{},{},{name}", how.word(), sort.letter()))?;
        }
    }
    for change in difference.changes.iter().filter(|change| change.is_gain() || !gains_only) {
        shell.print(&change.line())?;
    }
    let (gains, losses) = (difference.gains().count(), difference.losses().count());
    let (came, went) = (difference.members_that(How::Came), difference.members_that(How::Went));
    shell.print(&format!("gains,{gains},losses,{losses},came,{came},went,{went}"))?;
    shell.finish()?;
    words::explain(difference, new, gains_only, shell);
    let found = if gains_only { gains } else { gains + losses + came + went };
    Ok(if found == 0 { Status::Good } else { Status::Differs })
}

/// What a file has that the other has not.
#[derive(Clone, Copy, PartialEq, Eq)]
enum How {
    Came,
    Went,
}

impl How {
    fn word(self) -> &'static str {
        match self {
            How::Came => "came",
            How::Went => "went",
        }
    }
}

/// An access whose answer rises or falls. An answer is `None` where the file lacks one of the three members.
struct Change<'a> {
    access: [&'a str; 3],
    old: Option<Answer>,
    new: Option<Answer>,
}

impl Change<'_> {
    fn is_gain(&self) -> bool {
        worth(self.new) > worth(self.old)
    }

    fn line(&self) -> String {
        format!("{}->{},{}", word(self.old), word(self.new), self.access.join(","))
    }
}

/// How much an answer lets its subject do: an access that a file does not know is denied there.
fn worth(answer: Option<Answer>) -> Answer {
    answer.unwrap_or(Answer::Deny)
}

fn word(answer: Option<Answer>) -> &'static str {
    answer.map_or("absent", Answer::word)
}

/// A member that has another parent: the names of both, if it has one.
struct Moved<'a> {
    sort: Sort,
    name: &'a str,
    old: Option<&'a str>,
    new: Option<&'a str>,
}

/// All that differs, in a stable order: the old file's, then what only the new one has in the new one's.
struct Difference<'a> {
    members: Vec<(How, Sort, &'a str)>,
    changes: Vec<Change<'a>>,
    moved: Vec<Moved<'a>>,
}

impl<'a> Difference<'a> {
    fn between(old: &Policy<'a>, new: &Policy<'a>) -> Difference<'a> {
        let pairs = SORTS.map(|sort| paired(sort, &old.outline, &new.outline));
        let mut members = Vec::new();
        let mut moved = Vec::new();
        for sort in SORTS {
            for pair in &pairs[sort as usize] {
                match (pair.old, pair.new) {
                    (Some(before), Some(after)) => {
                        let (old, new) = (parent(&old.outline, sort, before), parent(&new.outline, sort, after));
                        if old != new {
                            moved.push(Moved { sort, name: pair.name, old, new });
                        }
                    }
                    (None, _) => members.push((How::Came, sort, pair.name)),
                    (_, None) => members.push((How::Went, sort, pair.name)),
                }
            }
        }
        Difference { members, changes: changes(&pairs, old, new), moved }
    }

    fn gains(&self) -> impl Iterator<Item = &Change<'a>> {
        self.changes.iter().filter(|change| change.is_gain())
    }

    fn losses(&self) -> impl Iterator<Item = &Change<'a>> {
        self.changes.iter().filter(|change| !change.is_gain())
    }

    fn members_that(&self, how: How) -> usize {
        self.members.iter().filter(|member| member.0 == how).count()
    }
}

/// A member's name, with its number in each file that has it.
struct Pair<'a> {
    name: &'a str,
    old: Option<usize>,
    new: Option<usize>,
}

/// The members of a sort in both files: the old one's in its order, then those that came, in the new one's.
fn paired<'a>(sort: Sort, old: &Outline<'a>, new: &Outline<'a>) -> Vec<Pair<'a>> {
    let names = |outline: &Outline<'a>| outline.members[sort as usize].iter().map(|m| m.name).collect::<Vec<_>>();
    let came = names(new).into_iter().filter(|name| old.member(sort, name).is_none());
    let all = names(old).into_iter().chain(came);
    all.map(|name| Pair { name, old: old.member(sort, name), new: new.member(sort, name) }).collect()
}

fn parent<'a>(outline: &Outline<'a>, sort: Sort, member: usize) -> Option<&'a str> {
    let members = &outline.members[sort as usize];
    members[member].parent.map(|above| members[above].name)
}

/// The accesses whose answer is worth more or less than it was.
fn changes<'a>([subjects, objects, actions]: &[Vec<Pair<'a>>; 3], old: &Policy, new: &Policy) -> Vec<Change<'a>> {
    let mut changes = Vec::new();
    for s in subjects {
        for o in objects {
            for a in actions {
                let (before, after) = (answer(old, [s.old, o.old, a.old]), answer(new, [s.new, o.new, a.new]));
                if worth(before) != worth(after) {
                    changes.push(Change { access: [s.name, o.name, a.name], old: before, new: after });
                }
            }
        }
    }
    changes
}

/// The answer to an access, if the policy has its three members.
fn answer(policy: &Policy, access: [Option<usize>; 3]) -> Option<Answer> {
    let [Some(s), Some(o), Some(a)] = access else { return None };
    Some(policy.answer([s, o, a]))
}
