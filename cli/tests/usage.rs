//! What every subcommand does with wrong arguments, files that cannot be read and an output that cannot be written.

mod common;
use common::{program, root, snowdell, snowdell_with, text, Ran, Scratch};
use std::fs::File;
use std::process::{Command, Stdio};

const GOOD: &str = "examples/closed_weeks.pol";

/// A policy whose listing has 4,097 lines and more bytes than a pipe holds.
fn with_long_listing(name: &str) -> Scratch {
    let member = |kind: &str, i: usize| format!("{kind},a_name_of_some_length_{i},-\n");
    let subjects: String = (0..64).map(|i| member("S", i)).collect();
    let objects: String = (0..64).map(|i| member("O", i)).collect();
    let policy = format!("{subjects}{objects}A,read,-\nT,x,here\nR,all,?0,?1,?2\nE,1,x*all\n");
    Scratch::new(name, policy.as_bytes())
}

/// Nothing on standard output, this on standard error, and status 2.
fn trouble(words: &str) -> Ran {
    Ran { status: 2, out: String::new(), err: format!("snowdell: {words}\n") }
}

#[test]
fn wrong_arguments() {
    let cases: [(&[&str], &str); 12] = [
        (&[], "no subcommand"),
        (&["lsit", GOOD], "no subcommand \"lsit\""),
        (&[""], "no subcommand \"\""),
        (&["list"], "usage: snowdell list FILE"),
        (&["list", GOOD, GOOD], "usage: snowdell list FILE"),
        (&["check"], "usage: snowdell check FILE.."),
        (&["check", "-", GOOD, "-"], "standard input can be read only once"),
        (&["decide"], "usage: snowdell decide FILE S O A"),
        (&["decide", GOOD], "usage: snowdell decide FILE S O A"),
        (&["decide", GOOD, "nurse", "wk3"], "usage: snowdell decide FILE S O A"),
        (&["decide", GOOD, "nurse", "wk3", "write", "read"], "usage: snowdell decide FILE S O A"),
        (&["decide", "no-such-file", "nurse", "wk3", "write", "read"], "usage: snowdell decide FILE S O A"),
    ];
    for (arguments, words) in cases {
        assert_eq!(snowdell(arguments), trouble(&format!("{words}; snowdell --help says more")), "{arguments:?}");
    }
}

#[test]
fn help_and_version() {
    let help = snowdell(&["--help"]);
    assert_eq!((help.status, help.err.as_str()), (0, ""));
    assert!(help.out.starts_with("usage: snowdell SUBCOMMAND ..\n"), "{}", help.out);
    for name in ["list", "check", "decide", "why", "diff", "test", "table"] {
        assert!(help.out.lines().any(|line| line.starts_with(&format!("  {name} "))), "{name}");
        assert_eq!(snowdell(&[name, "--help"]), help);
    }
    assert_eq!(snowdell(&["-h"]), help);
    assert_eq!(snowdell(&["help"]), help);
    let version = snowdell(&["--version"]);
    assert_eq!(version.out, format!("snowdell {}\n", env!("CARGO_PKG_VERSION")));
}

/// Each subcommand but `check` and `diff` with this FILE.
fn with_file(path: &str) -> [Vec<&str>; 5] {
    [
        vec!["list", path],
        vec!["decide", path, "nurse", "wk3", "write"],
        vec!["why", path, "nurse", "wk3", "write"],
        vec!["table", path],
        vec!["test", path, "examples/closed_weeks.out"],
    ]
}

/// Standard output for a refused file: `test` says it of each expectation.
fn refused_by(subcommand: &str, refusal: &str) -> String {
    if subcommand != "test" {
        return format!("{refusal}\n");
    }
    let expected = text("examples/closed_weeks.out");
    let failed: String = (1..).zip(expected.lines()).map(|(i, line)| format!("line {i}: {line}: found {refusal}\n")).collect();
    format!("{failed}0 passed, {} failed\n", expected.lines().count())
}

#[test]
fn files_that_cannot_be_read() {
    let cases = [
        ("no-such-file", "no-such-file: cannot be read: No such file or directory"),
        ("", ": cannot be read: No such file or directory"),
        ("examples", "examples: cannot be read: Is a directory"),
        ("examples/closed_weeks.pol/x", "examples/closed_weeks.pol/x: cannot be read: Not a directory"),
        ("no\u{1b}[31m\n\u{e9}", "no\\x1b[31m\\x0a\\xc3\\xa9: cannot be read: No such file or directory"),
    ];
    for (path, words) in cases {
        for arguments in with_file(path) {
            assert_eq!(snowdell(&arguments), trouble(words), "{arguments:?}");
        }
        assert_eq!(snowdell(&["check", path]), Ran { out: "unread\n".into(), ..trouble(words) });
    }
}

#[test]
fn a_file_without_the_right_to_read_it() {
    use std::os::unix::fs::PermissionsExt;
    let secret = Scratch::new("secret.pol", text(GOOD).as_bytes());
    std::fs::set_permissions(secret.path(), std::fs::Permissions::from_mode(0o000)).expect("the mode is set");
    if File::open(secret.path()).is_ok() {
        eprintln!("not tried: this user may read every file");
        return;
    }
    let words = format!("{}: cannot be read: Permission denied", secret.path());
    for arguments in with_file(secret.path()) {
        assert_eq!(snowdell(&arguments), trouble(&words));
    }
    assert_eq!(snowdell(&["check", secret.path()]), Ran { out: "unread\n".into(), ..trouble(&words) });
}

#[test]
fn a_folder_as_standard_input() {
    let folder = File::open(root()).expect("a folder opens");
    let ended = Command::new(program()).args(["list", "-"]).stdin(folder).output().expect("the program runs");
    assert_eq!(ended.status.code(), Some(2));
    assert_eq!(String::from_utf8_lossy(&ended.stderr), "snowdell: standard input: cannot be read: Is a directory\n");
}

#[test]
fn names_of_files_are_escaped() {
    let odd = Scratch::new("odd\u{1b}[31m\u{e9}.pol", b"S,x,y\n");
    let shown = odd.path().replace('\u{1b}', "\\x1b").replace('\u{e9}', "\\xc3\\xa9");
    let ran = snowdell(&["check", odd.path()]);
    assert_eq!(ran.err, format!("{shown}:1:5: refused 6: no subject \"y\"\n  S,x,y\n      ^\n"));
}

#[test]
fn huge_input() {
    let huge = Scratch::new("huge.pol", &vec![b'\n'; 10_000_000]);
    for path in [huge.path(), "/dev/zero"] {
        for arguments in with_file(path) {
            let ran = snowdell(&arguments);
            let words = format!("{path}: refused 2: the file has more than 32,768 bytes\n");
            let out = refused_by(arguments[0], "refused,2,0,0");
            assert_eq!(ran, Ran { status: 3, out, err: words }, "{arguments:?}");
        }
        let ran = snowdell(&["diff", GOOD, path]);
        assert_eq!((ran.status, ran.out.as_str()), (3, "new,refused,2,0,0\n"));
    }
    let ran = snowdell_with(&["list", "-"], &vec![b'S'; 10_000_000]);
    assert_eq!((ran.status, ran.out.as_str()), (3, "refused,2,0,0\n"));
}

#[test]
fn empty_and_damaged_input() {
    let empty = Scratch::new("empty.pol", b"");
    let damaged = Scratch::new("damaged.pol", &text(GOOD).replace("S,nurse,staff", "S,n\0rse,staff").into_bytes());
    for (file, refusal) in [(&empty, "refused,2,0,0"), (&damaged, "refused,3,2,0")] {
        for arguments in with_file(file.path()) {
            let ran = snowdell(&arguments);
            assert_eq!((ran.status, ran.out), (3, refused_by(arguments[0], refusal)), "{arguments:?}");
            assert!(ran.err.starts_with(file.path()) && ran.err.contains(": refused "), "{}", ran.err);
        }
        let ran = snowdell(&["diff", file.path(), GOOD]);
        assert_eq!((ran.status, ran.out), (3, format!("old,{refusal}\n")));
    }
}

/// Every subcommand writes; the first more than a pipe holds.
fn writers(long: &Scratch) -> Vec<Vec<&str>> {
    let mut writers = vec![vec!["list", long.path()], vec!["check", GOOD], vec!["diff", GOOD, long.path()], vec!["--help"]];
    writers.extend(with_file(GOOD));
    writers.extend(with_file("examples/refusals/03.pol"));
    writers
}

/// Status and standard error with this as standard output.
fn writing_to(arguments: &[&str], output: impl Into<Stdio>) -> (Option<i32>, String) {
    let ended = Command::new(program()).args(arguments).current_dir(root()).stdout(output).output().expect("the program runs");
    (ended.status.code(), String::from_utf8(ended.stderr).expect("text"))
}

#[test]
fn a_closed_pipe() {
    let long = with_long_listing("pipe.pol");
    for arguments in writers(&long) {
        let (reader, writer) = std::io::pipe().expect("a pipe");
        drop(reader);
        assert_eq!(writing_to(&arguments, writer), (Some(2), String::new()), "{arguments:?}");
    }
}

#[test]
fn a_reader_who_leaves_after_one_line() {
    use std::io::{BufRead, BufReader};
    let long = with_long_listing("reader.pol");
    let mut child = Command::new(program())
        .args(["list", long.path()])
        .stdout(Stdio::piped())
        .stderr(Stdio::piped())
        .spawn()
        .expect("the program starts");
    let mut line = String::new();
    let mut reader = BufReader::with_capacity(64, child.stdout.take().expect("a pipe"));
    reader.read_line(&mut line).expect("a line");
    assert!(line.starts_with("grants,"), "{line}");
    drop(reader);
    let ended = child.wait_with_output().expect("the program ends");
    assert_eq!((ended.status.code(), ended.stderr.len()), (Some(2), 0));
}

#[test]
fn a_full_disk() {
    let long = with_long_listing("disk.pol");
    for arguments in writers(&long) {
        let full = File::options().write(true).open("/dev/full").expect("/dev/full opens");
        let words = "snowdell: the output cannot be written: No space left on device\n";
        assert_eq!(writing_to(&arguments, full), (Some(2), words.to_string()), "{arguments:?}");
    }
}
