//! Compares the engine's static library, and its listing program, with the separate evaluator.
//!
//!   compare check SEED COUNT            Check on generated files
//!   compare calls SEED COUNT            Check, Compose and Decide on generated files, with every buffer
//!   compare crowded SEED COUNT          the same on files whose members' names share slots of the index
//!   compare ruled SEED COUNT            the same on small files with many rules and closures
//!   compare worst SEED COUNT            the same on files whose closures cost much
//!   compare templates SEED COUNT        the same on files with templates
//!   compare edits FILE                  all three on FILE cut at every byte, and with every byte changed
//!   compare corpus DIR                  all three on every policy of a corpus, with asks.tsv
//!   compare folder DIR                  all three on every policy of a folder
//!   compare list PROGRAM SEED COUNT     the listing program on generated files
//!   compare listings PROGRAM DIR        the listing program on every policy of a folder
//!   compare lookups PROGRAM SEED COUNT  the program of lookups on the crowded files
//!
//! `run` does all of these. Generated files are counted, and how many of them have a template. The last line reads 'N passed, M failed';
//! a difference prints the seed and number that make the file again.

mod buffers;
mod calls;
mod edits;
mod lookups;

use evaluator::generate::{has_template, policy, Kind};
use std::io::Write;
use std::process::{Command, ExitCode, Stdio};

/// How many comparisons agreed and how many did not.
#[derive(Default)]
pub struct Tally {
    pub passed: u64,
    pub failed: u64,
}

impl Tally {
    /// Counts one comparison; the first differences are printed.
    pub fn count(&mut self, name: impl Fn() -> String, difference: Option<String>) {
        match difference {
            None => self.passed += 1,
            Some(said) => {
                self.failed += 1;
                if self.failed <= 20 {
                    println!("differs: {}: {said}", name());
                }
            }
        }
    }

    pub fn add(&mut self, other: Tally) {
        self.passed += other.passed;
        self.failed += other.failed;
    }
}

fn generated(kind: Kind, seed: u64, count: u64, mut compare: impl FnMut(&[u8]) -> Option<String>) -> Tally {
    let (mut tally, mut with_template) = (Tally::default(), 0);
    for number in 0..count {
        let file = policy(seed, number, kind);
        with_template += u64::from(has_template(&file));
        tally.count(|| format!("seed {seed} number {number} ({})", kind.word()), compare(&file));
    }
    println!("{with_template} of {count} files ({}) have a template", kind.word());
    tally
}

/// A comparison on every policy of a folder.
fn folder(path: &str, compare: impl Fn(&[u8]) -> Option<String>) -> Tally {
    let mut files: Vec<_> = std::fs::read_dir(path)
        .expect("a folder")
        .map(|entry| entry.expect("an entry").path())
        .filter(|path| path.extension().is_some_and(|e| e == "pol"))
        .collect();
    files.sort();
    assert!(!files.is_empty(), "no policy in {path}");
    let mut tally = Tally::default();
    for path in files {
        let file = std::fs::read(&path).expect("a policy");
        tally.count(|| path.display().to_string(), compare(&file));
    }
    tally
}

/// The groups of a corpus, each folder of its requests with its own.
const GROUPS: [(&str, &[&str]); 4] = [
    (".", &["worked", "readings", "valid", "broken", "big", "heavy"]),
    ("cr/01", &["readings", "valid", "broken", "big"]),
    ("cr/02", &["readings", "valid", "broken"]),
    ("cr/renamed", &["readings", "valid", "broken", "big"]),
];

fn corpus(path: &str) -> Tally {
    let mut tally = Tally::default();
    for (part, groups) in GROUPS {
        for group in groups {
            tally.add(folder(&format!("{path}/{part}/{group}"), calls::all));
        }
    }
    for part in [".", "cr/renamed"] {
        tally.add(asks(&format!("{path}/{part}")));
    }
    tally
}

/// Decide as the lines of asks.tsv have it.
fn asks(path: &str) -> Tally {
    let mut tally = Tally::default();
    for line in std::fs::read_to_string(format!("{path}/asks.tsv")).expect("asks.tsv").lines() {
        let fields: Vec<&str> = line.split('\t').collect();
        let file = std::fs::read(format!("{path}/{}.pol", fields[0])).expect("a policy");
        let said = calls::decision_text(&file, fields[1].as_bytes(), fields[2].as_bytes(), fields[3].as_bytes());
        let difference = (said != fields[4]).then(|| format!("{said}, not {}", fields[4]));
        tally.count(|| line.to_string(), difference);
    }
    tally
}

fn listed(program: &str, file: &[u8]) -> String {
    let mut child = Command::new(program)
        .stdin(Stdio::piped())
        .stdout(Stdio::piped())
        .spawn()
        .expect("the listing program");
    let mut input = child.stdin.take().expect("its input");
    // The program may stop reading an overlong file.
    let _ = input.write_all(file);
    drop(input);
    let output = child.wait_with_output().expect("its output");
    String::from_utf8_lossy(&output.stdout).into_owned()
}

fn listing(program: &str, file: &[u8]) -> Option<String> {
    let (said, expected) = (listed(program, file), evaluator::list(file));
    if said == expected {
        return None;
    }
    let (mut lines, mut others) = (said.lines(), expected.lines());
    let mut number = 1;
    loop {
        let (line, other) = (lines.next(), others.next());
        if line != other || line.is_none() {
            return Some(format!("line {number}: {line:?}, not {other:?}"));
        }
        number += 1;
    }
}

fn number(word: Option<&String>) -> u64 {
    word.and_then(|w| w.parse().ok()).expect("a number")
}

fn main() -> ExitCode {
    let words: Vec<String> = std::env::args().skip(1).collect();
    let tally = match words.first().map(String::as_str) {
        Some("check") => generated(Kind::Mixed, number(words.get(1)), number(words.get(2)), calls::check),
        Some("calls") => generated(Kind::Mixed, number(words.get(1)), number(words.get(2)), calls::all),
        Some("crowded") => generated(Kind::Crowded, number(words.get(1)), number(words.get(2)), calls::all),
        Some("ruled") => generated(Kind::Ruled, number(words.get(1)), number(words.get(2)), calls::all),
        Some("worst") => generated(Kind::Worst, number(words.get(1)), number(words.get(2)), calls::all),
        Some("templates") => generated(Kind::Templates, number(words.get(1)), number(words.get(2)), calls::all),
        Some("edits") => edits::all(&std::fs::read(&words[1]).expect("a policy")),
        Some("corpus") => corpus(&words[1]),
        Some("folder") => folder(&words[1], calls::all),
        Some("list") => generated(Kind::Mixed, number(words.get(2)), number(words.get(3)), |file| listing(&words[1], file)),
        Some("listings") => folder(&words[2], |file| listing(&words[1], file)),
        Some("lookups") => lookups::all(&words[1], number(words.get(2)), number(words.get(3))),
        _ => {
            eprintln!("compare check|calls|crowded|ruled|worst|templates SEED COUNT | edits FILE | corpus|folder DIR");
            eprintln!("compare list|lookups PROGRAM SEED COUNT | listings PROGRAM DIR");
            return ExitCode::FAILURE;
        }
    };
    println!("{} passed, {} failed", tally.passed, tally.failed);
    if tally.failed == 0 {
        ExitCode::SUCCESS
    } else {
        ExitCode::FAILURE
    }
}
