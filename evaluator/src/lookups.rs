//! Lookups in the index of names, as the proved program `crates/lookups` reads
//! and prints them: a policy, and behind its E line a line for each lookup,
//! the sort's letter, a comma and the name.

use std::collections::BTreeMap;
use std::fs;
use std::io;
use std::path::Path;

use crate::index::Index;
use crate::policy::Sort;
use crate::reader;

/// A sort and a name to look up, of any bytes but LF.
pub type Asked = (Sort, Vec<u8>);

const LETTERS: [u8; 3] = *b"SOA";

pub fn sort_of(letter: &str) -> Option<Sort> {
    let place = LETTERS
        .iter()
        .position(|known| letter.as_bytes() == [*known])?;
    Some(Sort::ALL[place])
}

/// A policy with lookups behind it.
pub fn file_of(policy: &[u8], asked: &[Asked]) -> Vec<u8> {
    let mut file = policy.to_vec();
    for (sort, name) in asked {
        file.extend([LETTERS[sort.index()], b',']);
        file.extend(name);
        file.push(b'\n');
    }
    file
}

/// The policy of such a file, which ends with its E line, and the lookups' lines.
fn parts(file: &[u8]) -> (&[u8], &[u8]) {
    let mut end = 0;
    for line in file.split_inclusive(|&byte| byte == b'\n') {
        end += line.len();
        if line.starts_with(b"E") {
            break;
        }
    }
    file.split_at(end)
}

/// What the program prints for such a file: a line a lookup, or the refusal.
pub fn printed(name: &str, file: &[u8]) -> Vec<u8> {
    let (policy, lookups) = parts(file);
    let policy = match reader::read(policy) {
        Ok(policy) => policy,
        Err(refusal) => return format!("{name},{refusal}\n").into_bytes(),
    };
    let mut text = Vec::new();
    for line in lookups.split_inclusive(|&byte| byte == b'\n') {
        let line = line.strip_suffix(b"\n").unwrap_or(line);
        let Some(asked) = line.get(2..) else { continue };
        let sort = match line[0] {
            b'S' => Sort::Subject,
            b'O' => Sort::Object,
            _ => Sort::Action,
        };
        let found = Index::new(&policy.members_of(sort).names).search(asked);
        text.extend(format!("{name},").bytes());
        text.extend(line);
        text.extend(format!(",{found}\n").bytes());
    }
    text
}

/// The files of a corpus's `lookups.tsv`, by name, each with its lookups.
pub fn files(corpus: &Path) -> io::Result<Vec<(String, Vec<u8>)>> {
    let table = fs::read_to_string(corpus.join("lookups.tsv"))?;
    let mut asked: BTreeMap<&str, Vec<Asked>> = BTreeMap::new();
    for line in table.lines().skip(1) {
        let mut fields = line.split('\t');
        let file = fields.next().unwrap_or_default();
        let sort = fields.next().and_then(sort_of);
        let name = fields.next().unwrap_or_default();
        let sort = sort.ok_or(io::Error::other(format!("no sort: {line}")))?;
        asked.entry(file).or_default().push((sort, name.into()));
    }
    let mut files = Vec::new();
    for (file, asked) in asked {
        let policy = fs::read(corpus.join(format!("{file}.pol")))?;
        let name = format!("{}.txt", file.replace('/', "_"));
        files.push((name, file_of(&policy, &asked)));
    }
    Ok(files)
}
