//! Comparison with a corpus folder: `GROUP/NAME.pol` with the listing in
//! `GROUP/NAME.out`; `asks.tsv` with what Decide returns; `lookups.tsv` with
//! what the index of names gives; and the answers that `READINGS.md` shows for
//! the files of the group `readings`, or for those that have another letter for
//! a name that is none any more. Below `cr/` each folder is a corpus of its own,
//! that of a change request.

use std::fs;
use std::io;
use std::path::{Path, PathBuf};

use crate::lookups::sort_of;
use crate::policy::Sort;
use crate::{check, decide, list, lookup};

/// The outcome of a comparison: how many agreed, and a text for each that did
/// not.
#[derive(Default)]
pub struct Report {
    pub passed: usize,
    pub differences: Vec<String>,
}

impl Report {
    fn compare(&mut self, what: &str, stored: &str, computed: &str) {
        if stored == computed {
            self.passed += 1;
        } else {
            let difference = first_difference(stored, computed);
            self.differences.push(format!("{what}: {difference}"));
        }
    }

    fn fail(&mut self, what: &str, why: &str) {
        self.differences.push(format!("{what}: {why}"));
    }
}

fn first_difference(stored: &str, computed: &str) -> String {
    let mut pairs = stored.lines().zip(computed.lines()).enumerate();
    match pairs.find(|(_, (stored, computed))| stored != computed) {
        Some((line, (stored, computed))) => {
            format!(
                "line {}: stored {stored:?}, computed {computed:?}",
                line + 1
            )
        }
        None => format!(
            "stored {} bytes, computed {} bytes, equal as far as the shorter goes",
            stored.len(),
            computed.len()
        ),
    }
}

/// Check's answer as one line, without its LF.
pub fn check_line(file: &[u8]) -> String {
    match check(file) {
        Ok([s, o, a]) => format!("ok,{s},{o},{a}"),
        Err(refusal) => refusal.to_string(),
    }
}

/// Decide's answer as one line, without its LF.
pub fn decide_line(file: &[u8], names: [&[u8]; 3]) -> String {
    match decide(file, names[0], names[1], names[2]) {
        Ok(decision) => format!("{},{}", decision.answer, decision.rounds),
        Err(refusal) => refusal.to_string(),
    }
}

/// A lookup's answer as one line, without its LF.
pub fn lookup_line(file: &[u8], sort: Sort, name: &[u8]) -> String {
    match lookup(file, sort, name) {
        Ok(found) => found.to_string(),
        Err(refusal) => refusal.to_string(),
    }
}

/// The folder of the change requests' corpora.
const REQUESTS: &str = "cr";
/// Where readings that had `t` as a name stand with another letter.
const RENAMED_READINGS: &str = "cr/renamed/readings";

/// Compares a whole corpus. A folder that has nothing to compare is a failure.
pub fn compare(folder: &Path) -> io::Result<Report> {
    let mut report = Report::default();
    compare_folder(folder, &mut report)?;
    let requests = folder.join(REQUESTS);
    if requests.is_dir() {
        for request in entries(&requests)? {
            compare_folder(&request, &mut report)?;
        }
    }
    Ok(report)
}

fn compare_folder(folder: &Path, report: &mut Report) -> io::Result<()> {
    let before = report.passed;
    compare_listings(folder, report)?;
    compare_asks(folder, report)?;
    compare_lookups(folder, report)?;
    compare_readings(folder, report)?;
    if report.passed == before {
        report.fail(&folder.display().to_string(), "nothing agreed");
    }
    Ok(())
}

/// A folder's paths, by name.
pub fn entries(folder: &Path) -> io::Result<Vec<PathBuf>> {
    let entries: io::Result<Vec<_>> = fs::read_dir(folder)?.collect();
    let mut paths: Vec<_> = entries?.iter().map(|entry| entry.path()).collect();
    paths.sort();
    Ok(paths)
}

fn compare_listings(folder: &Path, report: &mut Report) -> io::Result<()> {
    let is_group = |path: &&PathBuf| path.is_dir() && !path.ends_with(REQUESTS);
    for group in entries(folder)?.iter().filter(is_group) {
        for path in entries(group)? {
            let what = path.display().to_string();
            match path.extension().and_then(|extension| extension.to_str()) {
                Some("pol") => match fs::read_to_string(path.with_extension("out")) {
                    Ok(stored) => report.compare(&what, &stored, &list(&fs::read(&path)?)),
                    Err(error) => report.fail(&what, &format!("no listing: {error}")),
                },
                Some("out") if path.with_extension("pol").exists() => {}
                _ => report.fail(&what, "neither a policy nor a policy's listing"),
            }
        }
    }
    Ok(())
}

/// Lines of file, subject, object, action and answer, parted by tabs.
fn compare_asks(folder: &Path, report: &mut Report) -> io::Result<()> {
    let path = folder.join("asks.tsv");
    if !path.exists() {
        return Ok(());
    }
    for (number, ask) in fs::read_to_string(path)?.lines().enumerate() {
        let what = format!("asks.tsv line {}", number + 1);
        let fields: Vec<&str> = ask.split('\t').collect();
        let [name, s, o, a, stored] = fields[..] else {
            report.fail(&what, "not five fields");
            continue;
        };
        match fs::read(folder.join(format!("{name}.pol"))) {
            Ok(file) => {
                let names = [s, o, a].map(str::as_bytes);
                report.compare(&what, stored, &decide_line(&file, names));
            }
            Err(error) => report.fail(&what, &format!("no policy: {error}")),
        }
    }
    Ok(())
}

/// A head line, then lines of file, sort, name and what is found, parted by
/// tabs.
fn compare_lookups(folder: &Path, report: &mut Report) -> io::Result<()> {
    let path = folder.join("lookups.tsv");
    if !path.exists() {
        return Ok(());
    }
    for (number, line) in fs::read_to_string(path)?.lines().enumerate().skip(1) {
        let what = format!("lookups.tsv line {}", number + 1);
        let fields: Vec<&str> = line.split('\t').collect();
        let ([file, _, name, stored], Some(sort)) =
            (&fields[..], fields.get(1).copied().and_then(sort_of))
        else {
            report.fail(&what, "not a file, a sort, a name and an answer");
            continue;
        };
        match fs::read(folder.join(format!("{file}.pol"))) {
            Ok(policy) => {
                let found = lookup_line(&policy, sort, name.as_bytes());
                report.compare(&what, stored, &found);
            }
            Err(error) => report.fail(&what, &format!("no policy: {error}")),
        }
    }
    Ok(())
}

/// Lines such as ``- 07f: .. -> `ok,1,1,1` ``. `(list)` before the arrow shows
/// the listing's first lines, `(decide s o a)` one decision, and neither of
/// them Check's answer. Every policy of the group must be shown.
fn compare_readings(folder: &Path, report: &mut Report) -> io::Result<()> {
    let group = folder.join("readings");
    let path = folder.join("READINGS.md");
    if !path.exists() {
        return Ok(());
    }
    let mut shown_names = Vec::new();
    for line in fs::read_to_string(path)?.lines() {
        let Some((name, call, shown)) = shown_answer(line) else {
            continue;
        };
        let what = format!("READINGS.md {name}");
        let renamed = folder.join(RENAMED_READINGS).join(format!("{name}.pol"));
        let path = match renamed.exists() {
            true => renamed,
            false => group.join(format!("{name}.pol")),
        };
        match fs::read(path) {
            Ok(file) => {
                let computed = called(&file, call, shown.len());
                report.compare(&what, &shown.join("\n"), &computed);
            }
            Err(error) => report.fail(&what, &format!("no policy: {error}")),
        }
        shown_names.push(name.to_string());
    }
    for path in entries(&group)? {
        let name = path.file_stem().unwrap_or_default().to_string_lossy();
        if !shown_names.iter().any(|shown| *shown == name) {
            report.fail(&path.display().to_string(), "not shown in READINGS.md");
        }
    }
    Ok(())
}

/// The file's name, the call (what stands in the last brackets before the
/// arrow) and the answer's lines.
fn shown_answer(line: &str) -> Option<(&str, &str, Vec<&str>)> {
    let (name, rest) = line.strip_prefix("- ")?.split_once(": ")?;
    let (given, answer) = rest.rsplit_once(" -> ")?;
    let bracketed = given
        .strip_suffix(')')
        .and_then(|text| text.rsplit_once('('));
    let call = bracketed.map_or("", |(_, call)| call);
    let shown = answer.split('`').skip(1).step_by(2).collect();
    Some((name, call, shown))
}

fn called(file: &[u8], call: &str, lines: usize) -> String {
    let words: Vec<&[u8]> = call.split(' ').map(str::as_bytes).collect();
    match words[..] {
        [b"list"] => {
            let listing = list(file);
            listing.lines().take(lines).collect::<Vec<_>>().join("\n")
        }
        [b"decide", s, o, a] => decide_line(file, [s, o, a]),
        _ => check_line(file),
    }
}
