//! Runs the program as a user would, and says what came back.
#![allow(dead_code)]

use std::io::Write;
use std::path::{Path, PathBuf};
use std::process::{Command, Stdio};

/// The exit status and both outputs of one run.
#[derive(Debug, PartialEq, Eq)]
pub struct Ran {
    pub status: i32,
    pub out: String,
    pub err: String,
}

/// The program with these arguments, from the repository's root, with nothing on standard input.
pub fn snowdell(arguments: &[&str]) -> Ran {
    snowdell_with(arguments, b"")
}

/// The same, with these bytes on standard input.
pub fn snowdell_with(arguments: &[&str], input: &[u8]) -> Ran {
    let mut child = Command::new(program())
        .args(arguments)
        .current_dir(root())
        .stdin(Stdio::piped())
        .stdout(Stdio::piped())
        .stderr(Stdio::piped())
        .spawn()
        .expect("the program starts");
    let mut pipe = child.stdin.take().expect("a pipe");
    // Beside the reading of what it prints, so that neither waits for the other. A program that does not read all of its input
    // closes the pipe; that is no failure of the test.
    let ended = std::thread::scope(|scope| {
        scope.spawn(move || pipe.write_all(input));
        child.wait_with_output().expect("the program ends")
    });
    Ran {
        status: ended.status.code().expect("the program is not killed"),
        out: String::from_utf8(ended.stdout).expect("text on standard output"),
        err: String::from_utf8(ended.stderr).expect("text on standard error"),
    }
}

pub fn program() -> &'static str {
    env!("CARGO_BIN_EXE_snowdell")
}

pub fn root() -> PathBuf {
    Path::new(env!("CARGO_MANIFEST_DIR")).parent().expect("a folder above").to_path_buf()
}

/// A file of the repository.
pub fn text(path: &str) -> String {
    std::fs::read_to_string(root().join(path)).unwrap_or_else(|error| panic!("{path}: {error}"))
}

/// A file of its own for a test, gone when the value is.
pub struct Scratch(PathBuf);

impl Scratch {
    pub fn new(name: &str, bytes: &[u8]) -> Scratch {
        let path = std::env::temp_dir().join(format!("snowdell-{}-{name}", std::process::id()));
        std::fs::write(&path, bytes).expect("a scratch file is written");
        Scratch(path)
    }

    pub fn path(&self) -> &str {
        self.0.to_str().expect("a path of text")
    }
}

impl Drop for Scratch {
    fn drop(&mut self) {
        let _ = std::fs::remove_file(&self.0);
    }
}
