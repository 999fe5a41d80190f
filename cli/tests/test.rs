mod common;
use common::{program, root, snowdell, snowdell_with, text, Ran, Scratch};
use std::fs::File;
use std::process::{Command, Stdio};

const CLOSED: &str = "examples/closed_weeks.pol";
const REFUSED: &str = "evaluator/corpus/worked/k11.pol";

/// EXPECTED may have so many bytes.
const LONGEST: usize = 16 * 1024 * 1024;

fn ran(status: i32, out: &str, err: &str) -> Ran {
    Ran { status, out: out.into(), err: err.into() }
}

/// `test FILE -`, with what is expected on standard input.
fn test(file: &str, expected: &str) -> Ran {
    snowdell_with(&["test", file, "-"], expected.as_bytes())
}

/// The policies of the two folders that have their listing beside them.
fn listed() -> Vec<String> {
    let mut paths = Vec::new();
    for folder in ["examples", "evaluator/corpus/worked"] {
        for entry in std::fs::read_dir(root().join(folder)).expect("a folder") {
            let name = entry.expect("an entry").file_name().into_string().expect("a name of text");
            paths.extend(name.ends_with(".pol").then(|| format!("{folder}/{name}")));
        }
    }
    assert_eq!(paths.len(), 7 + 14);
    paths
}

#[test]
fn every_listing_is_met_by_its_policy() {
    for path in listed() {
        let listing = path.replace(".pol", ".out");
        let passed = format!("{} passed, 0 failed\n", text(&listing).lines().count());
        assert_eq!(snowdell(&["test", &path, &listing]), ran(0, &passed, ""), "{path}");
    }
}

/// Another line in place of one of a listing's, and what has to be found instead of it.
fn changed(line: &str) -> (String, String) {
    let (word, rest) = line.split_once(',').expect("fields");
    match word {
        "permit" => (format!("deny,{rest}"), "found permit".into()),
        "undecided" => (format!("permit,{rest}"), "found undecided".into()),
        "grants" | "refused" => (format!("{line}0"), format!("found {line}")),
        _ => panic!("{line}"),
    }
}

#[test]
fn every_line_of_every_listing_changed() {
    for path in listed() {
        let listing = text(&path.replace(".pol", ".out"));
        let lines: Vec<&str> = listing.lines().collect();
        for (i, line) in lines.iter().enumerate() {
            let (wrong, found) = changed(line);
            let mut expected = lines.clone();
            expected[i] = &wrong;
            let ran = test(&path, &expected.join("\n"));
            let out = format!("line {}: {wrong}: {found}\n{} passed, 1 failed\n", i + 1, lines.len() - 1);
            let status = if line.starts_with("refused") { 3 } else { 1 };
            assert_eq!((ran.status, ran.out), (status, out), "{path}");
        }
    }
}

/// A line less in the listing is seen as well, by its first line.
#[test]
fn a_permit_that_nobody_expects() {
    let expected = "grants,24,4,0,0\npermit,staff,wk1,read\n";
    let found = ran(1, "line 1: grants,24,4,0,0: found grants,24,5,0,0\n1 passed, 1 failed\n", "");
    assert_eq!(test(CLOSED, expected), found);
}

#[test]
fn what_was_found() {
    let expected = "permit,nurse,wk4,write\ndeny,nurse,wk4,read\npermit,nurse,wk1,write\nundecided,nurse,wk3,write\n";
    let out = "line 3: permit,nurse,wk1,write: found deny\nline 4: undecided,nurse,wk3,write: found permit\n2 passed, 2 failed\n";
    assert_eq!(test(CLOSED, expected), ran(1, out, ""));
    let out = "line 2: deny,temp,wk3,write: found undecided\n1 passed, 1 failed\n";
    assert_eq!(test("examples/away_list.pol", "undecided,cook,wk3,write\ndeny,temp,wk3,write\n"), ran(1, out, ""));
}

#[test]
fn a_star_stands_for_any_member() {
    let expected = "deny,*,wk1,write\ndeny,staff,*,write\ndeny,nurse,wk2,*\ndeny,*,wk2,*\npermit,*,*,*\n\
        deny,*,wk3,write\ndeny,staff,wk1,*\npermit,dietitian,*,write\nundecided,nurse,wk4,*\n";
    let out = "line 5: permit,*,*,*: found deny for staff,wk4,read and 18 more\n\
        line 6: deny,*,wk3,write: found permit for nurse,wk3,write and 1 more\n\
        line 7: deny,staff,wk1,*: found permit for staff,wk1,read\n\
        line 8: permit,dietitian,*,write: found deny for dietitian,wk2,write and 1 more\n\
        line 9: undecided,nurse,wk4,*: found deny for nurse,wk4,read and 1 more\n4 passed, 5 failed\n";
    assert_eq!(test(CLOSED, expected), ran(1, out, ""));
}

/// A star over a sort of one member is still answered with the access's names.
#[test]
fn a_star_over_one_member() {
    let out = "line 1: permit,nurse,*,*: found deny for nurse,wk3,write\n0 passed, 1 failed\n";
    assert_eq!(test("examples/away_list.pol", "permit,nurse,*,*\n"), ran(1, out, ""));
}

#[test]
fn names_that_are_not_declared() {
    let expected =
        "deny,nurs,wk1,write\ndeny,nurse,staff,write\ndeny,nurse,wk1,x\ndeny,,wk9,*\ndeny, nurse,wk1,read\ndeny,**,wk1,read\n";
    let out = "line 1: deny,nurs,wk1,write: no subject \"nurs\"\n\
        line 2: deny,nurse,staff,write: no object \"staff\"\n\
        line 3: deny,nurse,wk1,x: no action \"x\"\n\
        line 4: deny,,wk9,*: no subject \"\", no object \"wk9\"\n\
        line 5: deny, nurse,wk1,read: no subject \" nurse\"\n\
        line 6: deny,**,wk1,read: no subject \"**\"\n0 passed, 6 failed\n";
    assert_eq!(test(CLOSED, expected), ran(1, out, ""));
}

#[test]
fn lines_that_cannot_be_read() {
    let expected = "permit\ndeny,nurse,wk1\ndeny,nurse,wk1,read,\nDeny,nurse,wk1,read\n deny,nurse,wk1,read\ngrants,24,5,0\n\
        grants,24,5,0,*\ngrants,24,5,0,0,0\nrefused,2,,0\nrefused,-1,0,0\n*,nurse,wk1,read\n \n";
    let three = "needs a subject, an object and an action";
    let words = "permit, undecided, deny, grants or refused";
    let out = format!(
        "line 1: permit: cannot be read: permit {three}\n\
        line 2: deny,nurse,wk1: cannot be read: deny {three}\n\
        line 3: deny,nurse,wk1,read,: cannot be read: deny {three}\n\
        line 4: Deny,nurse,wk1,read: cannot be read: \"Deny\" is not {words}\n\
        line 5:  deny,nurse,wk1,read: cannot be read: \" deny\" is not {words}\n\
        line 6: grants,24,5,0: cannot be read: grants needs 4 numbers\n\
        line 7: grants,24,5,0,*: cannot be read: grants needs 4 numbers\n\
        line 8: grants,24,5,0,0,0: cannot be read: grants needs 4 numbers\n\
        line 9: refused,2,,0: cannot be read: refused needs 3 numbers\n\
        line 10: refused,-1,0,0: cannot be read: refused needs 3 numbers\n\
        line 11: *,nurse,wk1,read: cannot be read: \"*\" is not {words}\n\
        line 12:  : cannot be read: \" \" is not {words}\n0 passed, 12 failed\n"
    );
    assert_eq!(test(CLOSED, expected), ran(1, &out, ""));
}

/// Nothing of the file reaches a terminal as it is, and a line without end is cut.
#[test]
fn bytes_that_are_no_text_for_a_terminal() {
    let expected = b"permit,m\xc3\xbcller,wk1,read\n\x1b[2J\npermit,\xff,wk1,read\n";
    let out = "line 1: permit,m\\xc3\\xbcller,wk1,read: no subject \"m\\xc3\\xbcller\"\n\
        line 2: \\x1b[2J: cannot be read: \"\\x1b[2J\" is not permit, undecided, deny, grants or refused\n\
        line 3: permit,\\xff,wk1,read: cannot be read: it is no text\n0 passed, 3 failed\n";
    assert_eq!(snowdell_with(&["test", CLOSED, "-"], expected), ran(1, out, ""));
    let begin = "x".repeat(100);
    for (line, shown) in [(begin.clone(), begin.clone()), (format!("{begin}y"), format!("{begin}.."))] {
        let why = format!("cannot be read: \"{shown}\" is not permit, undecided, deny, grants or refused");
        assert_eq!(test(CLOSED, &line), ran(1, &format!("line 1: {shown}: {why}\n0 passed, 1 failed\n"), ""));
    }
}

#[test]
fn comments_empty_lines_and_foreign_line_ends() {
    let expected = "\u{feff}# who may write\r\n\r\ngrants,24,5,0,0\r\n#deny,nurse,wk4,write\r\npermit,nurse,wk4,write\r\n\
        \ndeny,*,wk1,write\npermit,staff,wk1,read";
    assert_eq!(test(CLOSED, expected), ran(0, "4 passed, 0 failed\n", ""));
    // The numbers are those of the file, comments and empty lines counted; a CR within a line is no line end.
    let out = "line 3: deny,*,wk3,write: found permit for nurse,wk3,write and 1 more\n\
        line 4: deny,nurse,wk1,read\\x0d: no action \"read\\x0d\"\n0 passed, 2 failed\n";
    assert_eq!(test(CLOSED, "# one\r\n\r\ndeny,*,wk3,write\r\ndeny,nurse,wk1,read\r\r\n"), ran(1, out, ""));
    let listing = text("examples/closed_weeks.out").replace('\n', "\r\n");
    assert_eq!(test(CLOSED, &listing), ran(0, "6 passed, 0 failed\n", ""));
}

#[test]
fn a_test_that_expects_nothing() {
    let nothing = ran(2, "", "snowdell: standard input: expects nothing, so nothing is tested\n");
    for expected in ["", "\n\n", "# deny,*,*,*\n", "\u{feff}", "\r\n#\r\n"] {
        assert_eq!(test(CLOSED, expected), nothing, "{expected:?}");
        assert_eq!(test(REFUSED, expected), nothing, "{expected:?}");
    }
}

#[test]
fn a_refusal_that_is_expected() {
    let expected = "# not closed\nrefused,12,11,6\nrefused,12,11,6\n";
    assert_eq!(test(REFUSED, expected), ran(0, "2 passed, 0 failed\n", ""));
    assert_eq!(test("examples/refusals/02.pol", "refused,2,0,0\n"), ran(0, "1 passed, 0 failed\n", ""));
}

#[test]
fn a_refusal_that_is_not_expected() {
    let expected = "refused,12,11,6\nrefused,12,11,5\ngrants,4,2,0,1\ndeny,*,week,read\ndeny,nobody,week,read\nnonsense\n";
    let out = "line 2: refused,12,11,5: found refused,12,11,6\n\
        line 3: grants,4,2,0,1: found refused,12,11,6\n\
        line 4: deny,*,week,read: found refused,12,11,6\n\
        line 5: deny,nobody,week,read: found refused,12,11,6\n\
        line 6: nonsense: cannot be read: \"nonsense\" is not permit, undecided, deny, grants or refused\n1 passed, 5 failed\n";
    let ran = test(REFUSED, expected);
    assert_eq!((ran.status, ran.out.as_str()), (3, out));
    assert!(ran.err.contains(REFUSED) && ran.err.contains("refused 12"), "{}", ran.err);
}

#[test]
fn an_accepted_file_that_should_be_refused() {
    let out = "line 1: refused,12,11,6: found accepted\n0 passed, 1 failed\n";
    assert_eq!(test(CLOSED, "refused,12,11,6\n"), ran(1, out, ""));
}

#[test]
fn damaged_and_huge_policies() {
    let cut = text(CLOSED).trim_end().to_string();
    let listing = "examples/closed_weeks.out";
    let damaged = snowdell_with(&["test", "-", listing], cut.as_bytes());
    assert_eq!((damaged.status, damaged.out.lines().last()), (3, Some("0 passed, 6 failed")));
    assert!(damaged.out.starts_with("line 1: grants,24,5,0,0: found refused,2,0,0\n"), "{}", damaged.out);
    let endless = snowdell_with(&["test", "/dev/zero", "-"], b"refused,2,0,0\n");
    assert_eq!(endless, ran(0, "1 passed, 0 failed\n", ""));
    let big = "evaluator/corpus/big/g007";
    let (policy, listing) = (format!("{big}.pol"), format!("{big}.out"));
    assert_eq!(snowdell(&["test", &policy, &listing]), ran(0, "3970 passed, 0 failed\n", ""));
    let out = "line 1: permit,*,*,*: found deny for aa,bm,aa and 126 more\n0 passed, 1 failed\n";
    assert_eq!(test(&policy, "permit,*,*,*\n"), ran(1, out, ""));
}

#[test]
fn the_longest_expected() {
    let line = "deny,*,wk1,write\n";
    let full = format!("{line}#{}\n", "x".repeat(LONGEST - line.len() - 2));
    assert_eq!(full.len(), LONGEST);
    assert_eq!(test(CLOSED, &full), ran(0, "1 passed, 0 failed\n", ""));
    let over = ran(2, "", "snowdell: standard input: longer than 16 MiB\n");
    assert_eq!(test(CLOSED, &format!("{full}\n")), over);
    assert_eq!(snowdell(&["test", CLOSED, "/dev/zero"]), ran(2, "", "snowdell: /dev/zero: longer than 16 MiB\n"));
}

#[test]
fn standard_input_is_one_of_the_two() {
    let file = text(CLOSED);
    let passed = ran(0, "6 passed, 0 failed\n", "");
    assert_eq!(snowdell_with(&["test", "-", "examples/closed_weeks.out"], file.as_bytes()), passed);
    assert_eq!(snowdell_with(&["test", CLOSED, "-"], text("examples/closed_weeks.out").as_bytes()), passed);
    let once = "snowdell: standard input can be read only once; snowdell --help says more\n";
    assert_eq!(snowdell(&["test", "-", "-"]), ran(2, "", once));
}

#[test]
fn arguments_and_paths() {
    let usage = "snowdell: usage: snowdell test FILE EXPECTED; snowdell --help says more\n";
    for few_or_many in [&["test"][..], &["test", CLOSED], &["test", CLOSED, CLOSED, CLOSED]] {
        assert_eq!(snowdell(few_or_many), ran(2, "", usage));
    }
    let missing = "snowdell: no_such.out: cannot be read: No such file or directory\n";
    assert_eq!(snowdell(&["test", CLOSED, "no_such.out"]), ran(2, "", missing));
    assert_eq!(snowdell(&["test", "no_such.out", CLOSED]), ran(2, "", missing));
    assert_eq!(snowdell(&["test", CLOSED, "examples"]), ran(2, "", "snowdell: examples: cannot be read: Is a directory\n"));
}

/// The program with its output where nothing can be written: its status and what it says of that.
fn without_output(arguments: &[&str], output: impl Into<Stdio>) -> (Option<i32>, String) {
    let ended = Command::new(program())
        .args(arguments)
        .current_dir(root())
        .stdin(Stdio::null())
        .stdout(output)
        .output()
        .expect("the program runs");
    (ended.status.code(), String::from_utf8(ended.stderr).expect("text on standard error"))
}

/// `diff` and `test`, each with little and with much to print, and with a refused file.
#[test]
fn a_full_disk_and_a_closed_pipe() {
    let all_fail = Scratch::new("test-all-fail", "nonsense\n".repeat(5_000).as_bytes());
    let (first, second) = ("evaluator/corpus/big/g000.pol", "evaluator/corpus/big/g007.pol");
    for arguments in [
        &["diff", CLOSED, CLOSED][..],
        &["diff", CLOSED, REFUSED],
        &["diff", first, second, "--gains"],
        &["test", CLOSED, "examples/closed_weeks.out"],
        &["test", REFUSED, "examples/closed_weeks.out"],
        &["test", CLOSED, all_fail.path()],
    ] {
        let full = File::options().write(true).open("/dev/full").expect("a full disk");
        let words = "snowdell: the output cannot be written: No space left on device\n";
        assert_eq!(without_output(arguments, full), (Some(2), words.into()), "{arguments:?}");
        let (reader, writer) = std::io::pipe().expect("a pipe");
        drop(reader);
        assert_eq!(without_output(arguments, writer), (Some(2), String::new()), "{arguments:?}");
    }
}
