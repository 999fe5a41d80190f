//! Files for the calls on small stacks: those on disk, some of the generator, and the deepest and the largest that there are.

pub mod deep;
pub mod large;

use crate::stored::{policies, root};
use evaluator::generate::{policy, Kind};
use std::fs;
use std::path::Path;

pub const MOST_BYTES: usize = 32_768;

/// A file, and what is to be said of it: number, line and place, all 0 where it is accepted; the possible accesses, the permits, the
/// undecided ones and the rounds, all 0 where it is refused.
pub struct Case {
    pub name: String,
    pub file: Vec<u8>,
    pub refusal: [usize; 3],
    pub grants: [usize; 4],
}

/// What is known of a file beforehand.
#[derive(Clone, Copy)]
pub enum Known {
    Accepted,
    Refused(usize, usize, usize),
    Nothing,
}

/// A file with its listing, of which the first line counts.
fn listed(name: String, file: Vec<u8>, listing: &str) -> Case {
    let head = listing.lines().next().unwrap_or_default();
    let numbers: Vec<usize> = head.split(',').skip(1).map(|number| number.parse().expect("a number")).collect();
    let (refusal, grants) = match numbers[..] {
        [number, line, place] => ([number, line, place], [0; 4]),
        [accesses, permits, undecided, rounds] => ([0; 3], [accesses, permits, undecided, rounds]),
        _ => panic!("{name}: {head}"),
    };
    Case { name, file, refusal, grants }
}

/// A file with the evaluator's listing, which has to be as is known.
pub fn case(name: impl Into<String>, file: impl Into<Vec<u8>>, known: Known) -> Case {
    let file = file.into();
    let listing = evaluator::list(&file);
    let case = listed(name.into(), file, &listing);
    match known {
        Known::Accepted => assert_eq!(case.refusal, [0; 3], "{}", case.name),
        Known::Refused(number, line, place) => assert_eq!(case.refusal, [number, line, place], "{}", case.name),
        Known::Nothing => (),
    }
    case
}

pub fn all() -> Vec<Case> {
    let mut cases = on_disk();
    assert!(cases.len() > 1_200, "{} files on disk", cases.len());
    cases.extend(generated());
    cases.extend(deep::cases());
    cases.extend(large::cases());
    cases
}

/// The corpus with its listings, the files of the programs, the examples.
fn on_disk() -> Vec<Case> {
    let folders = ["evaluator/corpus", "crates/edges/data", "crates/larger/data", "crates/lookups/data", "examples"];
    policies(&folders).iter().map(|path| stored(path)).collect()
}

fn stored(path: &Path) -> Case {
    let name = path.strip_prefix(root()).expect("a file of the repository").display().to_string();
    let file = fs::read(path).expect("a policy");
    match fs::read_to_string(path.with_extension("out")) {
        Ok(listing) => listed(name, file, &listing),
        Err(_) => case(name, file, Known::Nothing),
    }
}

fn generated() -> Vec<Case> {
    let mut cases = Vec::new();
    for kind in Kind::ALL {
        let count = if kind == Kind::Worst { 4 } else { 60 };
        for number in 0..count {
            cases.push(case(format!("{} {number}", kind.word()), policy(7, number, kind), Known::Nothing));
        }
    }
    cases
}
