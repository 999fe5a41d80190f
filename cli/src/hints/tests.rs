//! The second look beside the engine, on many damaged files: whatever the engine refuses, a cause is found, and it stands
//! where the engine says.

use super::*;
use crate::calls::check;

const POLICIES: [&str; 2] = ["evaluator/corpus/worked/k01.pol", "examples/second_clinic.pol"];
/// Bytes that have a meaning somewhere, and some that have none.
const BYTES: [u8; 24] = *b"\0\t\n\r #()*+,-.09:?AE[^ax\xff";

fn policy(path: &str) -> Vec<u8> {
    let root = std::path::Path::new(env!("CARGO_MANIFEST_DIR")).parent().expect("a folder above");
    std::fs::read(root.join(path)).unwrap_or_else(|error| panic!("{path}: {error}"))
}

/// The number of the refusal, 0 where the file is accepted.
fn explained(file: &[u8]) -> usize {
    let Err(refusal) = check(file) else { return 0 };
    let shown = escaped(file);
    let Some(fault) = Fault::of(file, refusal.line) else {
        assert_ne!(of_file(file, refusal.number), plain(refusal.number), "{shown}");
        return refusal.number;
    };
    let hint = look(&fault, refusal).unwrap_or_else(|| panic!("{refusal:?}: nothing found in {shown}"));
    assert!(hint.at <= fault.line.len() && hint.words.is_ascii() && hint.words.len() < 200, "{refusal:?}: {shown}");
    if matches!(refusal.number, 12 | 13) {
        assert_eq!(hint.at, fault.fields()[2].at + refusal.place, "{shown}");
    }
    let [line, caret] = show::with_caret(fault.line, hint.at);
    assert!(line.len() <= 110 && caret.len() <= line.len() + 1, "{line}\n{caret}");
    refusal.number
}

/// How often each number was met.
fn tally(files: impl Iterator<Item = Vec<u8>>) -> [usize; 17] {
    let mut met = [0; 17];
    files.for_each(|file| met[explained(&file)] += 1);
    met
}

#[test]
fn every_byte_changed() {
    for path in POLICIES {
        let source = policy(path);
        let edits = (0..source.len()).flat_map(|at| BYTES.map(|byte| (at, byte)));
        let met = tally(edits.map(|(at, byte)| {
            let mut file = source.clone();
            file[at] = byte;
            file
        }));
        assert!([0, 2, 3, 4, 6, 11, 12, 13].iter().all(|&number| met[number] > 0), "{path}: {met:?}");
    }
}

#[test]
fn every_byte_put_in_taken_out_or_last() {
    for path in POLICIES {
        let source = policy(path);
        let put_in = (0..=source.len()).flat_map(|at| BYTES.map(|byte| (at, byte)));
        let met = tally(put_in.map(|(at, byte)| [&source[..at], &[byte], &source[at..]].concat()));
        assert!(met[12] > 0 && met[3] > 0, "{path}: {met:?}");
        let met = tally((0..source.len()).map(|at| [&source[..at], &source[at + 1..]].concat()));
        assert!(met[12] > 0 && met[3] > 0, "{path}: {met:?}");
        let met = tally((0..source.len()).map(|end| [&source[..end], b"\n"].concat()));
        assert!(met[9] > 0 && met[12] > 0, "{path}: {met:?}");
    }
}

#[test]
fn every_line_moved_doubled_or_taken_out() {
    for path in POLICIES {
        let source = policy(path);
        let all: Vec<Vec<u8>> = source.split_inclusive(|&b| b == b'\n').map(<[u8]>::to_vec).collect();
        let pairs = || (0..all.len()).flat_map(|from| (0..all.len()).map(move |to| (from, to)));
        let met = tally(pairs().map(|(from, to)| {
            let mut lines = all.clone();
            let line = lines.remove(from);
            lines.insert(to, line);
            lines.concat()
        }));
        assert!(met[4] > 0 && met[6] > 0, "{path}: {met:?}");
        let met = tally(pairs().map(|(from, to)| [&all[..to], &all[from..=from], &all[to..]].concat().concat()));
        assert!(met[4] > 0 && met[5] > 0, "{path}: {met:?}");
        let met = tally((0..all.len()).map(|i| [&all[..i], &all[i + 1..]].concat().concat()));
        assert!(met[9] > 0 && met[6] + met[13] > 0, "{path}: {met:?}");
    }
}
