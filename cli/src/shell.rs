//! What a subcommand has to do with the world outside: arguments, files, the two outputs and the exit status.

use std::ffi::{OsStr, OsString};
use std::fs::File;
use std::io::{self, BufWriter, ErrorKind, Read, Stdout, Write};
use std::process::ExitCode;

/// A policy may have so many bytes; one byte more is read, so that a longer file is refused and not cut.
pub const LONGEST_POLICY: usize = 32_768;

/// The exit status, the same for every subcommand.
#[derive(Clone, Copy, Debug, PartialEq, Eq)]
pub enum Status {
    /// Good, or permit.
    Good,
    /// Deny, or a difference found.
    Differs,
    /// Usage, or input and output.
    Trouble,
    /// The engine refuses the file.
    Refused,
    /// Undecided.
    Undecided,
}

impl From<Status> for ExitCode {
    fn from(status: Status) -> ExitCode {
        ExitCode::from(match status {
            Status::Good => 0,
            Status::Differs => 1,
            Status::Trouble => 2,
            Status::Refused => 3,
            Status::Undecided => 4,
        })
    }
}

/// Why a subcommand could not do its work. Each ends with status 2.
#[derive(Debug)]
pub enum Stop {
    /// The arguments are not as they should be.
    Usage(String),
    /// A file could not be read or written, in one line.
    Failed(String),
    /// Whoever read standard output has gone; nothing is left to be said.
    Gone,
}

/// A file's bytes and the name that messages give it.
pub struct Source {
    pub path: String,
    pub bytes: Vec<u8>,
}

pub struct Shell {
    out: BufWriter<Stdout>,
    input_taken: bool,
}

impl Shell {
    pub fn new() -> Shell {
        Shell { out: BufWriter::new(io::stdout()), input_taken: false }
    }

    /// One line on standard output.
    pub fn print(&mut self, line: &str) -> Result<(), Stop> {
        self.out.write_all(line.as_bytes()).and_then(|()| self.out.write_all(b"\n")).map_err(unwritten)
    }

    /// One line for people, on standard error. Nobody is left to tell where that fails.
    pub fn explain(&mut self, line: &str) {
        let _ = writeln!(io::stderr(), "{line}");
    }

    /// All that was printed is out, or it is said that it is not. Before words for people: they come after what they explain.
    pub fn finish(&mut self) -> Result<(), Stop> {
        self.out.flush().map_err(unwritten)
    }

    pub fn say_why(&mut self, stop: &Stop) {
        match stop {
            Stop::Usage(what) => self.explain(&format!("snowdell: {what}; snowdell --help says more")),
            Stop::Failed(what) => self.explain(&format!("snowdell: {what}")),
            Stop::Gone => {}
        }
    }

    /// A policy: a path, or `-` for standard input, which can be read once.
    pub fn policy(&mut self, path: &OsStr) -> Result<Source, Stop> {
        self.read(path, LONGEST_POLICY + 1)
    }

    /// At most so many bytes of a file.
    pub fn read(&mut self, path: &OsStr, most: usize) -> Result<Source, Stop> {
        let name = if path == "-" { "standard input".into() } else { path.to_string_lossy().into_owned() };
        let mut bytes = Vec::new();
        let read = if path == "-" {
            if self.input_taken {
                return Err(Stop::Usage("standard input can be read only once".into()));
            }
            self.input_taken = true;
            io::stdin().lock().take(most as u64).read_to_end(&mut bytes)
        } else {
            File::open(path).and_then(|file| file.take(most as u64).read_to_end(&mut bytes))
        };
        match read {
            Ok(_) => Ok(Source { path: name, bytes }),
            Err(error) => Err(Stop::Failed(format!("{}: cannot be read: {}", escaped(name.as_bytes()), reason(&error)))),
        }
    }
}

fn unwritten(error: io::Error) -> Stop {
    match error.kind() {
        ErrorKind::BrokenPipe => Stop::Gone,
        _ => Stop::Failed(format!("the output cannot be written: {}", reason(&error))),
    }
}

/// The system's words for an error, without its number.
pub fn reason(error: &io::Error) -> String {
    let words = error.to_string();
    words.split(" (os error").next().unwrap_or_default().to_string()
}

/// A text as it can be shown at any terminal: bytes that are not printable ASCII as `\x..`.
pub fn escaped(text: &[u8]) -> String {
    text.iter().map(|&b| if (b' '..=b'~').contains(&b) { (b as char).to_string() } else { format!("\\x{b:02x}") }).collect()
}

/// `a`, `a and b`, or `a, b and c`.
pub fn joined(words: &[&str]) -> String {
    match words {
        [before @ .., last] if !before.is_empty() => format!("{} and {last}", before.join(", ")),
        _ => words.concat(),
    }
}

/// The arguments, if they are so many; else the usage is said.
pub fn exactly<'a, const N: usize>(arguments: &'a [OsString], usage: &str) -> Result<&'a [OsString; N], Stop> {
    arguments.try_into().map_err(|_| Stop::Usage(format!("usage: snowdell {usage}")))
}
