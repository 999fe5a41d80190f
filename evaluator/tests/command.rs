//! The command line.

mod common;

use std::ffi::OsStr;
use std::fs;
use std::io::Write;
use std::os::unix::ffi::OsStrExt;
use std::path::{Path, PathBuf};
use std::process::{Command, Output, Stdio};

use common::{file, M, W};

fn run(arguments: &[&[u8]], input: &[u8]) -> Output {
    let mut child = Command::new(env!("CARGO_BIN_EXE_evaluator"))
        .args(arguments.iter().map(|argument| OsStr::from_bytes(argument)))
        .stdin(Stdio::piped())
        .stdout(Stdio::piped())
        .stderr(Stdio::piped())
        .spawn()
        .expect("the program starts");
    // A program that stops reading early is no fault here.
    let _ = child.stdin.take().expect("its input").write_all(input);
    child.wait_with_output().expect("the program ends")
}

fn printed(arguments: &[&[u8]], input: &[u8]) -> String {
    let output = run(arguments, input);
    assert!(output.status.success());
    String::from_utf8(output.stdout).expect("ASCII")
}

/// An empty folder of this test's own.
fn folder(name: &str) -> PathBuf {
    let folder = PathBuf::from(env!("CARGO_TARGET_TMPDIR")).join(name);
    let _ = fs::remove_dir_all(&folder);
    fs::create_dir_all(&folder).expect("a folder");
    folder
}

#[test]
fn list_check_and_decide() {
    let policy = file(&format!("{W} E,4096,forms*down^[o<=week]"));
    let listing = "grants,4,2,0,1\npermit,staff,week,read\npermit,ann,week,read\n";
    assert_eq!(printed(&[b"list"], &policy), listing);
    assert_eq!(printed(&[b"check"], &policy), "ok,2,2,1\n");
    let decide = |s: &[u8], o: &[u8], a: &[u8]| printed(&[b"decide", s, o, a], &policy);
    assert_eq!(decide(b"ann", b"week", b"read"), "2,1\n");
    assert_eq!(decide(b"ann", b"mon", b"read"), "0,1\n");
    assert_eq!(decide(b"\xff", b"mon", b"read"), "refused,15,0,1\n");
    assert_eq!(decide(b"ann", b"", b"nobody"), "refused,15,0,2\n");
}

#[test]
fn refusals_are_printed_by_all_modes() {
    let unfinished = file(W);
    assert_eq!(printed(&[b"list"], &unfinished), "refused,9,0,0\n");
    assert_eq!(printed(&[b"check"], &unfinished), "refused,9,0,0\n");
    let decided = printed(&[b"decide", b"x", b"x", b"x"], &unfinished);
    assert_eq!(decided, "refused,9,0,0\n");
    assert_eq!(
        printed(&[b"list"], &vec![b'\n'; 1_000_000]),
        "refused,2,0,0\n"
    );
    assert_eq!(printed(&[b"list"], b""), "refused,2,0,0\n");
}

#[test]
fn unknown_modes_are_not_run() {
    let odd: [&[&[u8]]; 4] = [
        &[],
        &[b"lists"],
        &[b"decide", b"x"],
        &[b"generate", b"1", b"1", b"odd", b"nowhere"],
    ];
    for arguments in odd {
        assert_eq!(run(arguments, b"").status.code(), Some(2));
    }
}

#[test]
fn generate_writes_the_files() {
    let folder = folder("generated");
    let path = folder.as_os_str().as_bytes();
    printed(&[b"generate", b"5", b"3", b"damaged", path], b"");
    for number in 0..3 {
        let written = fs::read(folder.join(format!("{number:06}.pol"))).expect("a file");
        let kind = evaluator::generate::Kind::Damaged;
        assert!(written == evaluator::generate::policy(5, number, kind));
    }
    assert_eq!(fs::read_dir(&folder).expect("a folder").count(), 3);
}

/// Whether a corpus agrees, and the last line of the report.
fn corpus_report(folder: &Path) -> (bool, String) {
    let output = run(&[b"corpus", folder.as_os_str().as_bytes()], b"");
    let text = String::from_utf8(output.stdout).expect("ASCII");
    let last = text.lines().last().unwrap_or_default().to_string();
    (output.status.success(), last)
}

#[test]
fn corpus_finds_each_kind_of_difference() {
    let folder = folder("corpus");
    fs::create_dir_all(folder.join("readings")).expect("a folder");
    let write = |name: &str, text: &[u8]| fs::write(folder.join(name), text).expect("written");
    let report = || corpus_report(&folder);
    assert_eq!(report(), (false, "0 passed, 1 failed".to_string()));
    let policy = file(&format!("{W} E,0,forms"));
    let listing = b"grants,4,1,0,0\npermit,staff,week,read\n";
    write("readings/01a.pol", &policy);
    write("readings/01a.out", listing);
    assert_eq!(report(), (true, "1 passed, 0 failed".to_string()));
    write("asks.tsv", b"readings/01a\tann\tweek\tread\t0,0\n");
    write("READINGS.md", b"- 01a: W / `E,0,forms` -> `ok,2,2,1`\n");
    assert_eq!(report(), (true, "3 passed, 0 failed".to_string()));
    write("asks.tsv", b"readings/01a\tann\tweek\tread\t2,0\n");
    assert_eq!(report(), (false, "2 passed, 1 failed".to_string()));
    write(
        "READINGS.md",
        b"- 01a: W / `E,0,forms` (list) -> `grants,4,2,0,0`\n",
    );
    assert_eq!(report(), (false, "1 passed, 2 failed".to_string()));
    write("readings/01a.out", &listing[..listing.len() - 1]);
    assert_eq!(report(), (false, "0 passed, 4 failed".to_string()));
    write("readings/01a.out", listing);
    write("asks.tsv", b"");
    write("READINGS.md", b"- 01a: W (decide ann week read) -> `0,0`\n");
    assert_eq!(report(), (true, "2 passed, 0 failed".to_string()));
    // A policy that no reading shows, and one without a listing.
    write("readings/01b.pol", &policy);
    assert_eq!(report(), (false, "2 passed, 2 failed".to_string()));
}

#[test]
fn a_reading_with_another_letter_is_the_one_shown() {
    let folder = folder("renamed");
    fs::create_dir_all(folder.join("readings")).expect("a folder");
    fs::create_dir_all(folder.join("cr/renamed/readings")).expect("a folder");
    let write = |name: &str, text: &[u8]| fs::write(folder.join(name), text).expect("written");
    write("readings/01a.pol", &file(&format!("{M} T,t,here E,0,t")));
    write("readings/01a.out", b"refused,3,4,0\n");
    write(
        "READINGS.md",
        b"- 01a: M / `T,t,here` / `E,0,t` -> `ok,1,1,1`\n",
    );
    write(
        "cr/renamed/readings/01a.pol",
        &file(&format!("{M} T,w,here E,0,w")),
    );
    write("cr/renamed/readings/01a.out", b"grants,1,0,0,0\n");
    let passed = (true, "3 passed, 0 failed".to_string());
    assert_eq!(corpus_report(&folder), passed);
    write(
        "cr/renamed/readings/01a.pol",
        &file(&format!("{M} T,w,away E,0,w+")),
    );
    let failed = (false, "1 passed, 3 failed".to_string());
    assert_eq!(corpus_report(&folder), failed);
}
