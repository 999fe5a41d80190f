//! `snowdell table FILE`: who may do what where. Rows by subject, each below its parent; columns by object, in file order.
//! A module has one format; what all of them show is a `View`.

mod csv;
mod html;
mod json;
mod text;

use crate::calls::{compose, Answer, Composition};
use crate::hints;
use crate::outline::{Member, Outline, Sort};
use crate::shell::{escaped, Shell, Source, Status, Stop};
use std::ffi::{OsStr, OsString};

const USAGE: &str = "usage: snowdell table FILE [--action A] [--format text|csv|json|html]";

pub fn run(arguments: &[OsString], shell: &mut Shell) -> Result<Status, Stop> {
    let asked = Asked::of(arguments)?;
    let source = shell.policy(asked.file)?;
    let all = match compose(&source.bytes) {
        Ok(all) => all,
        Err(refusal) if asked.format == Format::Html => {
            shell.print(&html::refused(&source, refusal))?;
            shell.finish()?;
            hints::explain(shell, &source, refusal);
            return Ok(Status::Refused);
        }
        Err(refusal) => return hints::refused(shell, &source, refusal),
    };
    let outline = Outline::of(&source.bytes);
    let view = View { file: file_name(&source), actions: actions(&outline, asked.action)?, outline: &outline, all: &all };
    shell.print(&match asked.format {
        Format::Text => text::table(&view),
        Format::Csv => csv::table(&view),
        Format::Json => json::table(&view),
        Format::Html => html::table(&view),
    })?;
    Ok(Status::Good)
}

#[derive(Clone, Copy, PartialEq, Eq)]
enum Format {
    Text,
    Csv,
    Json,
    Html,
}

impl Format {
    fn of(word: &OsStr) -> Result<Format, Stop> {
        match word.to_str() {
            Some("text") => Ok(Format::Text),
            Some("csv") => Ok(Format::Csv),
            Some("json") => Ok(Format::Json),
            Some("html") => Ok(Format::Html),
            _ => Err(Stop::Usage(format!("no format \"{}\"; the formats are text, csv, json and html", quoted(word)))),
        }
    }
}

/// The arguments: the file, and the options anywhere beside it.
struct Asked<'a> {
    file: &'a OsStr,
    action: Option<&'a OsStr>,
    format: Format,
}

impl<'a> Asked<'a> {
    fn of(arguments: &'a [OsString]) -> Result<Asked<'a>, Stop> {
        let (mut file, mut action, mut format) = (None, None, None);
        let mut rest = arguments.iter().map(OsString::as_os_str);
        while let Some(argument) = rest.next() {
            match argument.to_str() {
                Some("--action") => once(&mut action, rest.next())?,
                Some("--format") => once(&mut format, rest.next())?,
                Some(option) if option.starts_with("--") => {
                    return Err(Stop::Usage(format!("no option {}; {USAGE}", quoted(argument))));
                }
                _ => once(&mut file, Some(argument))?,
            }
        }
        let format = format.map_or(Ok(Format::Text), Format::of)?;
        Ok(Asked { file: file.ok_or_else(usage)?, action, format })
    }
}

/// An argument that must be there and may be given once.
fn once<'a>(place: &mut Option<&'a OsStr>, value: Option<&'a OsStr>) -> Result<(), Stop> {
    if place.is_some() || value.is_none() {
        return Err(usage());
    }
    *place = value;
    Ok(())
}

fn usage() -> Stop {
    Stop::Usage(USAGE.into())
}

fn quoted(argument: &OsStr) -> String {
    escaped(argument.as_encoded_bytes())
}

/// The actions to show, by number: all, or the one asked for.
fn actions(outline: &Outline, asked: Option<&OsStr>) -> Result<Vec<usize>, Stop> {
    let members = &outline.members[Sort::Action as usize];
    match asked {
        None => Ok((0..members.len()).collect()),
        Some(name) => match members.iter().position(|action| name == action.name) {
            Some(action) => Ok(vec![action]),
            None => Err(no_action(name, outline)),
        },
    }
}

/// What may be meant or, where nothing is near, what there is.
fn no_action(name: &OsStr, outline: &Outline) -> Stop {
    let words = hints::no_member(outline, Sort::Action, name.as_encoded_bytes());
    if words.ends_with('?') {
        return Stop::Failed(words);
    }
    let names: Vec<&str> = outline.members[Sort::Action as usize].iter().map(|action| action.name).collect();
    Stop::Failed(format!("{words}; the actions are {}", names.join(", ")))
}

/// The last part of the path: a heading needs no more.
fn file_name(source: &Source) -> String {
    source.path.rsplit('/').next().unwrap_or_default().to_string()
}

/// What every format shows of an accepted policy.
struct View<'a> {
    /// The file's name, as it came.
    file: String,
    outline: &'a Outline<'a>,
    all: &'a Composition,
    /// The numbers of the actions that are shown.
    actions: Vec<usize>,
}

impl<'a> View<'a> {
    fn members(&self, sort: Sort) -> &'a [Member<'a>] {
        &self.outline.members[sort as usize]
    }

    fn subjects(&self) -> &'a [Member<'a>] {
        self.members(Sort::Subject)
    }

    fn objects(&self) -> &'a [Member<'a>] {
        self.members(Sort::Object)
    }

    fn action(&self, action: usize) -> &'a str {
        self.members(Sort::Action)[action].name
    }

    fn parent(&self, sort: Sort, member: &Member) -> Option<&'a str> {
        member.parent.map(|parent| self.members(sort)[parent].name)
    }

    /// The numbers of the subjects, each right below its parent or the parent's other members, so that indenting shows the
    /// hierarchy.
    fn rows(&self) -> Vec<usize> {
        let mut rows = Vec::new();
        self.put_below(None, &mut rows);
        rows
    }

    fn put_below(&self, parent: Option<usize>, rows: &mut Vec<usize>) {
        for (number, subject) in self.subjects().iter().enumerate() {
            if subject.parent == parent {
                rows.push(number);
                self.put_below(Some(number), rows);
            }
        }
    }

    fn depth(&self, subject: usize) -> usize {
        self.outline.depth(Sort::Subject, subject)
    }

    fn answer(&self, subject: usize, object: usize, action: usize) -> Answer {
        self.all.answers[self.all.counts.access(subject, object, action)]
    }

    /// The actions that are shown, each with its answer for this subject and object.
    fn cell(&self, subject: usize, object: usize) -> Vec<(&'a str, Answer)> {
        self.actions.iter().map(|&action| (self.action(action), self.answer(subject, object, action))).collect()
    }

    /// Is only a part of the actions shown?
    fn restricted(&self) -> bool {
        self.actions.len() < self.all.counts.actions
    }

    /// How many accesses are shown.
    fn accesses(&self) -> usize {
        self.subjects().len() * self.objects().len() * self.actions.len()
    }

    /// How many of them have this answer.
    fn count(&self, answer: Answer) -> usize {
        let mut count = 0;
        for subject in 0..self.subjects().len() {
            for object in 0..self.objects().len() {
                count += self.cell(subject, object).iter().filter(|(_, found)| *found == answer).count();
            }
        }
        count
    }

    /// The lists that are away.
    fn away(&self) -> Vec<&'a str> {
        self.outline.tables.iter().filter(|table| !table.here).map(|table| table.name).collect()
    }

    /// The limit, where it alone leaves accesses undecided: no list is away, so only a closure that it stopped can do so.
    fn stopped_by_limit(&self) -> Option<usize> {
        let stopped = self.away().is_empty() && self.all.undecided > 0;
        self.outline.goal.as_ref().filter(|_| stopped).map(|goal| goal.limit)
    }
}
