//! The proved program of lookups beside the evaluator's index: crowded files, many to a run of the program, with every member looked up
//! in every sort, and names that come close to members.

use crate::Tally;
use evaluator::generate::{policy, Kind};
use evaluator::lookups::{file_of, printed, Asked};
use evaluator::policy::Sort;
use evaluator::reader::read;
use std::path::PathBuf;
use std::process::Command;

/// How many files one run of the program reads.
const BATCH: u64 = 100;

/// Every member in every sort, each without its last byte and with one more, and texts that are no names.
fn asked(file: &[u8]) -> Vec<Asked> {
    let mut texts: Vec<Vec<u8>> = [&b""[..], b"s", b"Ann", b"?0", b"x,y", b"\xff\0", &[b'n'; 25]].map(<[u8]>::to_vec).to_vec();
    if let Ok(policy) = read(file) {
        for name in policy.members.iter().flat_map(|sort| &sort.names) {
            texts.extend([name.clone(), name[..name.len() - 1].to_vec(), [&name[..], b"_"].concat()]);
        }
    }
    texts.iter().flat_map(|text| Sort::ALL.map(|sort| (sort, text.clone()))).collect()
}

/// The lines that the program prints for a file, from all that it printed.
fn lines_of<'a>(said: &'a [u8], name: &str) -> &'a [u8] {
    let mark = format!("{name},");
    let mut end = 0;
    for line in said.split_inclusive(|byte| *byte == b'\n') {
        if !line.starts_with(mark.as_bytes()) {
            break;
        }
        end += line.len();
    }
    &said[..end]
}

fn difference(said: &[u8], expected: &[u8]) -> Option<String> {
    let mut pairs = said.split(|byte| *byte == b'\n').zip(expected.split(|byte| *byte == b'\n'));
    let other = pairs.find(|(said, expected)| said != expected);
    let shown = |line: &[u8]| String::from_utf8_lossy(line).into_owned();
    match other {
        Some((said, expected)) => Some(format!("{}, not {}", shown(said), shown(expected))),
        None => (said.len() != expected.len()).then(|| format!("{} bytes, not {}", said.len(), expected.len())),
    }
}

/// A folder that is removed when it is no longer used.
struct Folder(PathBuf);

impl Drop for Folder {
    fn drop(&mut self) {
        let _ = std::fs::remove_dir_all(&self.0);
    }
}

pub fn all(program: &str, seed: u64, count: u64) -> Tally {
    let program = std::fs::canonicalize(program).expect("the program");
    let folder = Folder(std::env::temp_dir().join(format!("lookups-{}", std::process::id())));
    std::fs::create_dir_all(&folder.0).expect("a folder");
    let mut tally = Tally::default();
    for first in (0..count).step_by(BATCH as usize) {
        let numbers = first..(first + BATCH).min(count);
        let mut command = Command::new(&program);
        command.current_dir(&folder.0);
        let mut files = Vec::new();
        for number in numbers {
            let name = format!("{number}.txt");
            let file = policy(seed, number, Kind::Crowded);
            let file = file_of(&file, &asked(&file));
            std::fs::write(folder.0.join(&name), &file).expect("written");
            command.arg(&name);
            files.push((name, file));
        }
        let output = command.output().expect("the program's output");
        let mut said = &output.stdout[..];
        for (name, file) in files {
            let lines = lines_of(said, &name);
            said = &said[lines.len()..];
            tally.count(|| format!("seed {seed} number {name} (crowded)"), difference(lines, &printed(&name, &file)));
        }
        tally.count(|| format!("seed {seed} from {first}"), (!said.is_empty()).then(|| "more lines".to_string()));
    }
    tally
}
