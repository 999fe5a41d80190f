//! The command line of the evaluator.

use std::ffi::OsString;
use std::fs;
use std::io::{self, Read, Write};
use std::path::Path;
use std::process::ExitCode;

use evaluator::corpus;
use evaluator::edges;
use evaluator::generate::{self, Kind};
use evaluator::index::fnv1a;
use evaluator::larger;
use evaluator::lookups;
use evaluator::reader::MOST_FILE_BYTES;

const USAGE: &str = "usage:
  evaluator list < FILE
  evaluator check < FILE
  evaluator decide SUBJECT OBJECT ACTION < FILE
  evaluator lookup S|O|A NAME < FILE
  evaluator fnv TEXT
  evaluator generate SEED COUNT sound|damaged|large|mixed|crowded|ruled|worst|templates DIR
  evaluator corpus DIR
  evaluator check-folder|compose-folder|lookup-folder DIR
  evaluator edges|larger DIR
  evaluator lookups CORPUS DIR
";

fn main() -> ExitCode {
    let arguments: Vec<OsString> = std::env::args_os().skip(1).collect();
    match run(&arguments) {
        Ok(code) => code,
        Err(error) => {
            let _ = writeln!(io::stderr(), "evaluator: {error}");
            ExitCode::FAILURE
        }
    }
}

fn run(arguments: &[OsString]) -> io::Result<ExitCode> {
    let words: Vec<&[u8]> = arguments.iter().map(|a| a.as_encoded_bytes()).collect();
    match words[..] {
        [b"list"] => print(&evaluator::list(&input()?)),
        [b"check"] => print(&(corpus::check_line(&input()?) + "\n")),
        [b"decide", s, o, a] => print(&(corpus::decide_line(&input()?, [s, o, a]) + "\n")),
        [b"lookup", letter, name] => match lookups::sort_of(&String::from_utf8_lossy(letter)) {
            Some(sort) => print(&(corpus::lookup_line(&input()?, sort, name) + "\n")),
            None => usage(),
        },
        [b"fnv", text] => print(&format!("{:#010x}\n", fnv1a(text))),
        [b"generate", seed, count, kind, _] => {
            let kind = Kind::ALL.into_iter().find(|k| k.word().as_bytes() == kind);
            match (number(seed), number(count), kind) {
                (Some(seed), Some(count), Some(kind)) => {
                    write_policies(seed, count, kind, Path::new(&arguments[4]))
                }
                _ => usage(),
            }
        }
        [b"corpus", _] => compare(Path::new(&arguments[1])),
        [b"check-folder", _] => write(&said(Path::new(&arguments[1]), checked)?),
        [b"compose-folder", _] => write(&said(Path::new(&arguments[1]), composed)?),
        [b"lookup-folder", _] => write(&said(Path::new(&arguments[1]), lookups::printed)?),
        [b"edges", _] => {
            let files = edges::all().into_iter().map(|edge| (edge.name, edge.file));
            write_program(Path::new(&arguments[1]), files.collect(), checked)
        }
        [b"larger", _] => write_program(Path::new(&arguments[1]), larger::files(), composed),
        [b"lookups", _, _] => {
            let files = lookups::files(Path::new(&arguments[1]))?;
            write_program(Path::new(&arguments[2]), files, lookups::printed)
        }
        _ => usage(),
    }
}

/// Standard input, of which one byte too many is enough to refuse it.
fn input() -> io::Result<Vec<u8>> {
    let mut file = Vec::new();
    let most = MOST_FILE_BYTES as u64 + 1;
    io::stdin().lock().take(most).read_to_end(&mut file)?;
    Ok(file)
}

fn number(text: &[u8]) -> Option<u64> {
    std::str::from_utf8(text).ok()?.parse().ok()
}

fn print(text: &str) -> io::Result<ExitCode> {
    write(text.as_bytes())
}

fn write(text: &[u8]) -> io::Result<ExitCode> {
    io::stdout().write_all(text)?;
    Ok(ExitCode::SUCCESS)
}

fn usage() -> io::Result<ExitCode> {
    io::stderr().write_all(USAGE.as_bytes())?;
    Ok(ExitCode::from(2))
}

fn write_policies(seed: u64, count: u64, kind: Kind, folder: &Path) -> io::Result<ExitCode> {
    fs::create_dir_all(folder)?;
    for index in 0..count {
        let file = generate::policy(seed, index, kind);
        fs::write(folder.join(format!("{index:06}.pol")), file)?;
    }
    Ok(ExitCode::SUCCESS)
}

/// What a program prints for a file, given its name and bytes.
type Printed = fn(&str, &[u8]) -> Vec<u8>;

fn checked(name: &str, file: &[u8]) -> Vec<u8> {
    format!("{name},{}\n", edges::fields(file)).into_bytes()
}

fn composed(name: &str, file: &[u8]) -> Vec<u8> {
    format!("{name},{}\n", larger::fields(file)).into_bytes()
}

/// What a program prints for all files of a folder, by name.
fn said(folder: &Path, printed: Printed) -> io::Result<Vec<u8>> {
    let mut text = Vec::new();
    for path in corpus::entries(folder)? {
        let name = path.file_name().unwrap_or_default().to_string_lossy();
        text.extend(printed(&name, &fs::read(&path)?));
    }
    Ok(text)
}

/// A program's files: `data/`, their names in `args`, and what it has to print in `stdout`.
fn write_program(
    folder: &Path,
    files: Vec<(String, Vec<u8>)>,
    printed: Printed,
) -> io::Result<ExitCode> {
    let data = folder.join("data");
    fs::create_dir_all(&data)?;
    let mut names = String::new();
    for (name, file) in files {
        fs::write(data.join(&name), file)?;
        names += &format!("{name}\n");
    }
    fs::write(folder.join("args"), names)?;
    fs::write(folder.join("stdout"), said(&data, printed)?)?;
    Ok(ExitCode::SUCCESS)
}

fn compare(folder: &Path) -> io::Result<ExitCode> {
    let report = corpus::compare(folder)?;
    let failed = report.differences.len();
    let mut text = String::new();
    for difference in &report.differences {
        text += &format!("{difference}\n");
    }
    text += &format!("{} passed, {failed} failed\n", report.passed);
    print(&text)?;
    Ok(match failed {
        0 => ExitCode::SUCCESS,
        _ => ExitCode::FAILURE,
    })
}
