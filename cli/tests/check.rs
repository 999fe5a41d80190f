//! `check`: the line for each file, and the words for each refusal.

mod common;
use common::{snowdell, snowdell_with, text, Ran, Scratch};
use std::path::{Path, PathBuf};
use std::process::Command;

/// The members that the small files begin with.
const MEMBERS: &str = "S,ann,-\nO,wk3,-\nA,read,-\n";

/// The words on standard error for a file that has to be refused, after `standard input`.
fn words(file: impl AsRef<[u8]>) -> String {
    let ran = snowdell_with(&["check", "-"], file.as_ref());
    assert_eq!(ran.status, 3, "{ran:?}");
    let first = ran.err.lines().next().unwrap_or_default();
    first.strip_prefix("standard input").unwrap_or_else(|| panic!("{ran:?}")).to_string()
}

/// The words for an expression over one table, one rule set and one predicate; the E line is line 8.
fn of_expression(expression: &str) -> String {
    words(format!("{MEMBERS}P,S,leave,ann\nT,forms,here\nR,down,?0,?1,?2\nB,grant,?0,?1,?2\nE,10,{expression}\n"))
}

fn numbered(from: usize, count: usize, line: impl Fn(usize) -> String) -> String {
    (from..from + count).map(line).collect()
}

#[test]
fn accepted_files() {
    let ran = snowdell(&["check", "evaluator/corpus/worked/k01.pol", "examples/closed_weeks.pol"]);
    assert_eq!(ran, Ran { status: 0, out: "ok,2,2,1\nok,3,4,2\n".into(), err: String::new() });
}

#[test]
fn line_k_speaks_of_file_k() {
    let ran = snowdell_with(
        &["check", "no-such-file", "examples/refusals/13.pol", "-", "examples", "examples/closed_weeks.pol"],
        text("examples/refusals/05.pol").as_bytes(),
    );
    assert_eq!(ran.out, "unread\nrefused,13,4,0\nrefused,5,2,0\nunread\nok,3,4,2\n");
    assert_eq!(
        ran.err,
        "snowdell: no-such-file: cannot be read: No such file or directory\n\
         examples/refusals/13.pol:4:5: refused 13: \"x\" is a subject, not a table\n  E,0,x\n      ^\n\
         standard input:2:3: refused 5: subject \"x\" is declared already, on line 1\n  S,x,-\n    ^\n\
         snowdell: examples: cannot be read: Is a directory\n"
    );
    assert_eq!(ran.status, 2);
    assert_eq!(snowdell(&["check", "examples/closed_weeks.pol", "examples/refusals/13.pol"]).status, 3);
}

#[test]
fn every_subcommand_explains_a_refusal() {
    let ran = snowdell(&["list", "examples/refusals/06.pol"]);
    assert_eq!((ran.status, ran.out.as_str()), (3, "refused,6,1,0\n"));
    assert_eq!(ran.err, "examples/refusals/06.pol:1:5: refused 6: no subject \"y\"\n  S,x,y\n      ^\n");
}

#[test]
fn the_file_as_a_whole() {
    let cases: [(&[u8], &str); 6] = [
        (b"", ": refused 2: the file is empty"),
        (&[b'S'; 32_769], ": refused 2: the file has more than 32,768 bytes"),
        (b"S,x,-\nO,x", ": refused 2: line 2, the last, is not closed by a line feed; is the file cut off?"),
        (b"S,x,-\r", ": refused 2: line 1, the last, ends with CR and not with LF; close each line with LF alone"),
        (b"\xff\xfeS\0\n\0", ": refused 2: the file looks like UTF-16; save it as plain ASCII, closed by a line feed"),
        (b"S,x,-\n", ": refused 9: there is no E line, so nothing says how the tables are joined; is the file cut off?"),
    ];
    for (file, expected) in cases {
        assert_eq!(words(file), expected);
    }
    let cut_off = snowdell_with(&["check", "-"], b"S,x,-\nO,x");
    assert_eq!(cut_off.err.lines().skip(1).collect::<Vec<_>>(), ["  O,x", "     ^"], "points behind the last line");
}

#[test]
fn bytes_from_editors_and_spreadsheets() {
    let names = "names have a to z, 0 to 9 and _";
    let windows = "the line ends with CR LF, as files from Windows do; close it with LF alone";
    let cases: [(&[u8], String); 22] = [
        (b"S,x,-\r\nO,x,-\r\n", format!("1:6: refused 3: {windows}")),
        (b"\r\n", format!("1:1: refused 3: {windows}")),
        (b"\xef\xbb\xbfS,x,-\n", "1:1: refused 3: the file begins with a UTF-8 byte order mark; save it without one".into()),
        (
            b"\xef\xbb\xbfS,x,-\r\n",
            "1:1: refused 3: the file begins with a UTF-8 byte order mark; save it without one, and its lines with LF alone, not CR LF"
                .into(),
        ),
        (b"\xfe\xff\0S\0\n", "1:1: refused 3: the file begins with a UTF-16 byte order mark; save it as plain ASCII".into()),
        (b"S,x,-\nS,y, -\n", "2:5: refused 3: a blank; lines have none".into()),
        (b"S,x\t,-\n", "1:4: refused 3: a tab; lines have none".into()),
        (b" S,x,-\n", "1:1: refused 3: a blank; lines have none".into()),
        (b"T,x,here \n", "1:9: refused 3: a blank; lines have none".into()),
        (b"E, 1,x\n", "1:3: refused 3: a blank; lines have none".into()),
        (b"S,Ann,-\n", format!("1:3: refused 3: \"Ann\" has a capital letter; {names}")),
        (b"S,anN,-\n", format!("1:5: refused 3: \"anN\" has a capital letter; {names}")),
        ("S,müller,-\n".as_bytes(), format!("1:4: refused 3: \"m\\xc3\\xbcller\" has a byte over 127; {names}")),
        (b"S,dr-who,-\n", format!("1:5: refused 3: \"dr-who\" is no name; {names}")),
        (b"S,a\x07b,-\n", format!("1:4: refused 3: \"a\\x07b\" has a control byte; {names}")),
        (b"S,a\0b,-\n", "1:4: refused 3: a byte 0; if the file is UTF-16, save it as plain ASCII".into()),
        (b"S,x,-\rS,y,-\n", "1:6: refused 3: a CR within the line; lines are closed by LF alone".into()),
        (b"S,x,\ry\n", "1:5: refused 3: a CR within the line; lines are closed by LF alone".into()),
        (b"\"S\",\"x\",\"-\"\n", "1:1: refused 3: a quotation mark; fields are not quoted".into()),
        (b"S;x;-\n", "1:2: refused 3: the fields of a line are parted by commas, without blanks".into()),
        (b"S,x,-,,\n", "1:6: refused 3: commas at the end; S lines have 3 fields: S,name,parent with - for no parent".into()),
        (b"S,x,-\n\n", "2:1: refused 3: an empty line".into()),
    ];
    for (file, expected) in cases {
        assert_eq!(words(file), format!(":{expected}"));
    }
}

#[test]
fn comments() {
    for file in ["# people\n", "// people\n", "/* people */\n", "; people\n", "% people\n", "-- people, all\n"] {
        assert_eq!(words(file), ":1:1: refused 3: the language has no comments");
    }
    assert_eq!(words("S,x,- # head, of all\n"), ":1:7: refused 3: the language has no comments");
    assert_eq!(of_expression("forms // all"), ":8:11: refused 12: the language has no comments");
    assert_eq!(of_expression("forms# all"), ":8:11: refused 12: the language has no comments");
}

#[test]
fn kinds_and_fields() {
    let cases = [
        ("X,x,-\n", "1:1: refused 3: unknown kind \"X\"; a line begins with S, O, A, P, T, G, R, B or E and a comma"),
        ("subject,x,-\n", "1:1: refused 3: unknown kind \"subject\"; a line begins with S, O, A, P, T, G, R, B or E and a comma"),
        ("s,x,-\n", "1:1: refused 3: the kind is a capital letter: S"),
        (",x,-\n", "1:1: refused 3: an empty field; the kind of the line is missing"),
        ("S\n", "1:2: refused 3: 1 field; S lines have 3 fields: S,name,parent with - for no parent"),
        ("O,x\n", "1:4: refused 3: 2 fields; O lines have 3 fields: O,name,parent with - for no parent"),
        ("A,x,-,y\n", "1:6: refused 3: 4 fields; A lines have 3 fields: A,name,parent with - for no parent"),
        ("P,x,y\n", "1:6: refused 3: 3 fields; P lines have 4 fields: P,sort,predicate,member"),
        ("T,x\n", "1:4: refused 3: 2 fields; T lines have 3 fields: T,table,here or T,table,away"),
        ("G,x,y,z\n", "1:8: refused 3: 4 fields; G lines have 5 fields: G,table,subject,object,action"),
        ("R,x,?0,?1\n", "1:10: refused 3: 4 fields; R lines have 5 fields: R,ruleset,subject,object,action"),
        ("B,grant,?0\n", "1:11: refused 3: 3 fields; B lines have 5 fields: B,grant,subject,object,action"),
        ("B,le,S,?0\n", "1:10: refused 3: 4 fields; B lines have 5 fields: B,op,sort,x,y"),
        ("B,has,S\n", "1:8: refused 3: 3 fields; B lines have 5 fields: B,has,sort,predicate,x"),
        ("B,not\n", "1:6: refused 3: 2 fields; B lines have 5 fields: B,grant,s,o,a or B,op,sort,x,y or B,has,sort,predicate,x"),
        ("E,forms\n", "1:8: refused 3: 2 fields; E lines have 3 fields: E,limit,expression"),
        ("S,,-\n", "1:3: refused 3: an empty field"),
        ("S,x,\n", "1:5: refused 3: an empty field"),
        ("E,,x\n", "1:3: refused 3: an empty field"),
        ("E,1,\n", "1:5: refused 3: the expression is empty"),
    ];
    for (file, expected) in cases {
        assert_eq!(words(file), format!(":{expected}"));
    }
}

#[test]
fn names_words_and_numbers() {
    let cases = [
        ("S,1st,-\n", "1:3: refused 3: \"1st\" does not begin with a letter, as names do"),
        ("S,_x,-\n", "1:3: refused 3: \"_x\" does not begin with a letter, as names do"),
        (
            "S,abcdefghijklmnopqrstuvwx,-\nS,o,-\n",
            "2:3: refused 3: \"o\" alone is no name; s, o, a and t have meanings of their own",
        ),
        ("G,t,x,x,x\n", "1:3: refused 3: \"t\" alone is no name; s, o, a and t have meanings of their own"),
        ("S,abcdefghijklmnopqrstuvwxy,-\n", "1:27: refused 3: \"abcdefghijklmnopqrstuvwxy\" has 25 bytes; names have at most 24"),
        ("S,-,-\n", "1:3: refused 3: \"-\" may stand only for a parent, in S, O and A lines"),
        ("S,x,-y\n", "1:6: refused 3: \"-y\" is no name; names have a to z, 0 to 9 and _"),
        ("G,x,?0,x,x\n", "1:5: refused 3: \"?0\" is no name; variables may stand only in rules"),
        ("P,s,x,x\n", "1:3: refused 3: \"s\" is no sort; the sorts are S, O and A, in capitals"),
        ("P,ann,x,x\n", "1:3: refused 3: \"ann\" is no sort; the sorts are S, O and A, in capitals"),
        ("T,x,there\n", "1:5: refused 3: \"there\" is neither here nor away"),
        ("T,x,Here\n", "1:5: refused 3: \"Here\" has a capital letter; write here"),
        ("B,grants,x,x,x\n", "1:3: refused 3: \"grants\" is none of grant, has, le, ge, lt, gt and eq"),
        ("B,LE,S,x,x\n", "1:3: refused 3: \"LE\" has a capital letter; write le"),
        ("B,has,X,x,x\n", "1:7: refused 3: \"X\" is no sort; the sorts are S, O and A, in capitals"),
        ("R,x,?4,x,x\n", "1:5: refused 3: \"?4\" is no variable; there are ?0, ?1, ?2 and ?3"),
        ("R,x,x,x,?\n", "1:9: refused 3: \"?\" is no variable; there are ?0, ?1, ?2 and ?3"),
        ("E,007,x\n", "1:3: refused 3: \"007\" is no limit; it is a number from 0 to 4096 without a leading zero"),
        ("E,10000,x\n", "1:7: refused 3: \"10000\" is no limit; it is a number from 0 to 4096 without a leading zero"),
        ("E,4k,x\n", "1:4: refused 3: \"4k\" is no limit; it is a number from 0 to 4096 without a leading zero"),
    ];
    for (file, expected) in cases {
        assert_eq!(words(file), format!(":{expected}"));
    }
}

#[test]
fn order_of_lines() {
    let order = "the order is S, O, A, P, T, G, R with B, E";
    let cases = [
        (
            "O,x,-\nS,x,-\n".to_string(),
            format!("2:1: refused 4: S lines stand before O lines, and line 1 begins with O; {order}"),
        ),
        (
            format!("{MEMBERS}T,x,here\nG,x,ann,wk3,read\nG,x,ann,wk3,read\nT,y,here\n"),
            format!("7:1: refused 4: T lines stand before G lines, and line 5 begins with G; {order}"),
        ),
        (
            format!("{MEMBERS}R,x,?0,?1,?2\nB,eq,S,?0,?0\nP,S,x,ann\n"),
            format!("6:1: refused 4: P lines stand before R lines, and line 4 begins with R; {order}"),
        ),
        ("B,eq,S,x,x\n".into(), "1:1: refused 4: a B line needs an R line above it".into()),
        (format!("{MEMBERS}T,x,here\nE,0,x\nS,x,-\n"), "6:1: refused 4: nothing may stand after the E line".into()),
    ];
    for (file, expected) in cases {
        assert_eq!(words(file), format!(":{expected}"));
    }
}

#[test]
fn declared_twice_or_not_at_all() {
    let rule = format!("{MEMBERS}P,S,leave,ann\nT,forms,here\nR,x,ann,?1,?2\n");
    let cases = [
        (format!("{MEMBERS}A,wk3,-\nA,read,wk3\n"), "5:3: refused 5: action \"read\" is declared already, on line 3"),
        (format!("{MEMBERS}T,x,away\nT,x,here\n"), "5:3: refused 5: table \"x\" is declared already, on line 4"),
        ("S,rob,-\nS,ann,bob\n".into(), "2:7: refused 6: no subject \"bob\"; did you mean \"rob\"?"),
        ("S,staff,-\nS,ann,nobody\n".into(), "2:7: refused 6: no subject \"nobody\""),
        ("S,ann,ann\n".into(), "1:7: refused 6: \"ann\" cannot be its own parent"),
        ("S,ann,staff\nS,bob,-\nS,staff,-\n".into(), "1:7: refused 6: \"staff\" is declared on line 3; a parent stands above"),
        (format!("{MEMBERS}P,O,x,ann\n"), "4:7: refused 6: \"ann\" is a subject, not an object"),
        (format!("{MEMBERS}T,forms,here\nG,form,ann,wk3,read\n"), "5:3: refused 6: no table \"form\"; did you mean \"forms\"?"),
        (format!("{MEMBERS}T,x,here\nG,x,wk3,ann,read\n"), "5:5: refused 6: \"wk3\" is an object, not a subject"),
        (format!("{MEMBERS}T,x,here\nG,x,ann,wk,red\n"), "5:9: refused 6: no object \"wk\"; did you mean \"wk3\"?"),
        (format!("{MEMBERS}R,x,?0,?1,raed\n"), "4:11: refused 6: no action \"raed\""),
        (format!("{rule}B,grant,ann,forms,?2\n"), "7:13: refused 6: \"forms\" is a table, not an object"),
        (format!("{rule}B,le,A,?2,reads\n"), "7:11: refused 6: no action \"reads\"; did you mean \"read\"?"),
        (format!("{rule}B,has,S,leaves,?0\n"), "7:9: refused 6: no predicate \"leaves\" of subjects; did you mean \"leave\"?"),
        (format!("{rule}B,has,O,leave,?1\n"), "7:9: refused 6: \"leave\" is a predicate of subjects, not a predicate of objects"),
        (format!("{rule}B,has,S,leave,x\n"), "7:15: refused 6: \"x\" is a rule set, not a subject"),
    ];
    for (file, expected) in cases {
        assert_eq!(words(file), format!(":{expected}"));
    }
}

#[test]
fn the_nearest_name() {
    let people = |names: &str| names.split(' ').map(|name| format!("S,{name},-\n")).collect::<String>();
    let cases = [
        ("baker baler", "bauer", "; did you mean \"baker\"?"),
        ("baxxr baker", "bauer", "; did you mean \"baker\"?"),
        ("bauxx", "bauer", "; did you mean \"bauxx\"?"),
        ("baxxx", "bauer", ""),
        ("abcd", "abxx", ""),
        ("ab", "abc", "; did you mean \"ab\"?"),
        ("x", "y", ""),
    ];
    for (known, asked, expected) in cases {
        let line = known.split(' ').count() + 1;
        let found = words(format!("{}S,new,{asked}\n", people(known)));
        assert_eq!(found, format!(":{line}:7: refused 6: no subject \"{asked}\"{expected}"));
    }
}

#[test]
fn one_too_many() {
    let predicates = numbered(0, 17, |i| format!("P,S,p{i},ann\n"));
    let tables = numbered(0, 17, |i| format!("T,f{i},here\n"));
    let sets = numbered(0, 17, |i| format!("R,r{i},?0,?1,?2\n"));
    let body = "B,eq,S,?0,?0\n".repeat(5);
    let cases = [
        (numbered(0, 65, |i| format!("S,x{i},-\n")), "65:3: refused 7: there may be at most 64 subjects"),
        (numbered(0, 65, |i| format!("O,x{i},-\n")), "65:3: refused 7: there may be at most 64 objects"),
        (numbered(0, 17, |i| format!("A,x{i},-\n")), "17:3: refused 7: there may be at most 16 actions"),
        (format!("{MEMBERS}{predicates}"), "20:5: refused 7: there may be at most 16 predicates, over all sorts"),
        (format!("{MEMBERS}{tables}"), "20:3: refused 7: there may be at most 16 tables"),
        (format!("{MEMBERS}{sets}"), "20:3: refused 7: there may be at most 16 rule sets"),
        (format!("{MEMBERS}{}", "R,x,?0,?1,?2\n".repeat(65)), "68:1: refused 7: there may be at most 64 rules"),
        (format!("{MEMBERS}R,x,?0,?1,?2\n{body}"), "9:1: refused 7: a rule's body may have at most 4 lines"),
        (format!("{MEMBERS}E,4097,x\n"), "4:3: refused 7: the limit \"4097\" is over 4096"),
    ];
    for (file, expected) in cases {
        assert_eq!(words(file), format!(":{expected}"));
    }
}

#[test]
fn sizes_away_grants_and_variables() {
    let crowd = numbered(0, 64, |i| format!("S,x{i},-\n")) + &numbered(0, 64, |i| format!("O,x{i},-\n")) + "A,x,-\nA,y,-\n";
    let cases = [
        (
            "T,x,here\n".to_string(),
            "1:1: refused 8: there is no subject and no object and no action; members come before all else",
        ),
        ("S,x,-\nA,x,-\nT,x,here\n".into(), "3:1: refused 8: there is no object; members come before all else"),
        (
            format!("{crowd}T,x,here\n"),
            "131:1: refused 8: 64 subjects x 64 objects x 2 actions are 8192 accesses; there may be at most 4096",
        ),
        (
            format!("{MEMBERS}T,y,here\nT,x,away\nG,x,ann,wk3,read\n"),
            "6:3: refused 10: table \"x\" is away (line 5); write here in that line, or drop the grant",
        ),
        (
            format!("{MEMBERS}R,x,?0,?0,read\n"),
            "4:8: refused 11: \"?0\" stands for an object here but for a subject on line 4; use two variables",
        ),
        (
            format!("{MEMBERS}R,x,ann,?1,?2\nB,eq,O,?1,?1\nB,le,S,?3,?2\n"),
            "6:11: refused 11: \"?2\" stands for a subject here but for an action on line 4; use two variables",
        ),
        (
            format!("{MEMBERS}P,A,calm,read\nR,y,?3,wk3,read\nR,x,ann,?1,?2\nB,grant,?3,?1,?2\nB,has,A,calm,?3\n"),
            "8:14: refused 11: \"?3\" stands for an action here but for a subject on line 7; use two variables",
        ),
    ];
    for (file, expected) in cases {
        assert_eq!(words(file), format!(":{expected}"));
    }
}

#[test]
fn expressions_that_are_none() {
    let names = "names have a to z, 0 to 9 and _";
    let primary = "a table, \"(\" or \"o(\"";
    let after = "one of + & - ^ * or";
    let deep = format!("{}forms{}", "(".repeat(33), ")".repeat(33));
    let cases = [
        ("forms-", format!("6: the expression ends too early; expected {primary}")),
        ("(forms", format!("6: the expression ends too early, with 1 bracket open; expected {after} \")\"")),
        ("o((forms", format!("8: the expression ends too early, with 2 brackets open; expected {after} \")\"")),
        ("o(forms", format!("7: the expression ends too early, with 1 bracket open; expected {after} \",\"")),
        ("forms)", "5: \")\" closes no bracket".into()),
        ("(forms]", format!("6: \"]\" cannot stand here; expected {after} \")\"")),
        ("forms,forms", format!("5: \",\" cannot stand here; expected {after} the end")),
        ("+forms", format!("0: \"+\" cannot stand here; expected {primary}")),
        ("forms&&forms", format!("6: \"&\" cannot stand here; expected {primary}")),
        ("forms|forms", "5: \"|\" is no operator; write + for \"or\"".into()),
        ("!forms", "0: \"!\" is no operator; write - for \"but not\"".into()),
        ("forms + forms", "5: a blank; expressions have none".into()),
        ("forms\t", "5: a tab; expressions have none".into()),
        ("forms\r", "5: the line ends with CR LF, as files from Windows do; close it with LF alone".into()),
        ("Forms", format!("0: a capital letter; {names}")),
        ("formsAll", format!("5: a capital letter; {names}")),
        ("für", format!("1: a byte over 127; {names}")),
        ("2nd", format!("0: names begin with a letter; expected {primary}")),
        ("s+forms", "1: \"s\" alone is no name; s, o, a and t have meanings of their own".into()),
        ("(t)", "2: \"t\" alone is no name; s, o, a and t have meanings of their own".into()),
        ("abcdefghijklmnopqrstuvwxy", "24: \"abcdefghijklmnopqrstuvwxy\" has 25 bytes; names have at most 24".into()),
        (&deep, "32: a bracket too many; at most 32 may be open at once".into()),
        ("forms[o<wk3]", "5: \"[\" without ^; a scope is written ^[..]".into()),
        ("forms^", "6: the expression ends too early; expected \"[\"".into()),
        ("forms^(o", "6: \"(\" cannot stand here; expected \"[\"".into()),
        ("forms^[<", "7: \"<\" cannot stand here; expected s, o, a or a predicate".into()),
        ("forms^[o=<wk3]", "9: write <= for =<".into()),
        ("forms^[o=>wk3]", "9: write >= for =>".into()),
        ("forms^[o==wk3]", "9: \"=\" cannot stand here; expected an object".into()),
        ("forms^[o:wk3]", "8: \":\" cannot stand here; expected one of <= >= < > =".into()),
        ("forms^[o<wk3)", "12: \")\" cannot stand here; expected \"]\"".into()),
        ("forms^[leave]", "12: \"]\" cannot stand here; expected \"(\"".into()),
        ("forms^[leave(t)]", "13: \"t\" cannot stand here; expected s, o or a".into()),
        ("forms^[leave(s]", "14: \"]\" cannot stand here; expected \")\"".into()),
        ("forms*", "6: the expression ends too early; expected a rule set".into()),
        ("(t:", "3: the expression ends too early, with 1 bracket open; expected a name".into()),
        ("(t:x)", "4: \")\" cannot stand here; expected \".\"".into()),
        ("(t:x.x)+forms", "7: \"+\" cannot stand here; expected \"(\"".into()),
    ];
    const BEFORE_THE_EXPRESSION: usize = "E,10,".len();
    for (expression, expected) in cases {
        let (place, said) = expected.split_once(": ").expect("a place");
        let column = place.parse::<usize>().expect("a number") + BEFORE_THE_EXPRESSION + 1;
        assert_eq!(of_expression(expression), format!(":8:{column}: refused 12: {said}"), "{expression}");
    }
}

#[test]
fn names_in_expressions() {
    let cases = [
        ("form", "6: refused 13: no table \"form\"; did you mean \"forms\"?"),
        ("down", "6: refused 13: \"down\" is a rule set, not a table"),
        ("forms+wk3", "12: refused 13: \"wk3\" is an object, not a table"),
        ("forms*dow", "12: refused 13: no rule set \"dow\"; did you mean \"down\"?"),
        ("forms*forms", "12: refused 13: \"forms\" is a table, not a rule set"),
        ("forms^[o<wk]", "15: refused 13: no object \"wk\"; did you mean \"wk3\"?"),
        ("forms^[s=wk3]", "15: refused 13: \"wk3\" is an object, not a subject"),
        ("forms^[laeve(s)]", "13: refused 13: no predicate \"laeve\" of subjects; did you mean \"leave\"?"),
        ("forms^[leave(o)]", "13: refused 13: \"leave\" is a predicate of subjects, not a predicate of objects"),
        ("(t:ours.our)(forms)", "14: refused 13: no table \"our\"; did you mean \"ours\"?"),
        ("(t:ours.ours)(our)", "20: refused 13: no table \"our\""),
        ("(t:x.x)(forms)+x", "21: refused 13: no table \"x\"; a template's name stands only within its first brackets"),
    ];
    for (expression, expected) in cases {
        assert_eq!(of_expression(expression), format!(":8:{expected}"), "{expression}");
    }
}

#[test]
fn expressions_that_are_too_large() {
    let operators = format!("forms{}", "+forms".repeat(66));
    let right = format!("{}forms{}", "forms&(".repeat(15), ")".repeat(15));
    let override_ = format!("{}forms{}", "o(forms,forms,".repeat(7), ")".repeat(7));
    let templates = format!("{}forms{}", "(t:x.".repeat(5), ")(forms)".repeat(5));
    let filled = format!("{}forms{}", "(t:x.x)(".repeat(15), ")".repeat(15));
    let sets = "there may be at most 14; nest less to the right";
    assert_eq!(of_expression(&operators), ":8:395: refused 14: 66 operators; there may be at most 64");
    assert_eq!(of_expression(&right), format!(":8:104: refused 14: 16 sets would be held at once; {sets}"));
    assert_eq!(of_expression(&override_), format!(":8:104: refused 14: 15 sets would be held at once; {sets}"));
    assert_eq!(of_expression(&templates), ":8:26: refused 16: 5 templates stand one within the other; there may be at most 4");
    let one_before = format!("(t:x.x)(forms)+{templates}");
    assert_eq!(of_expression(&one_before), ":8:41: refused 16: 5 templates stand one within the other; there may be at most 4");
    // Templates in second brackets do not add up.
    let good = format!("{MEMBERS}T,forms,here\nE,10,{filled}\n");
    assert_eq!(snowdell_with(&["check", "-"], good.as_bytes()).out, "ok,1,1,1\n");
}

#[test]
fn the_caret_stands_under_escaped_bytes() {
    let ran = snowdell_with(&["check", "-"], "S,müller,-\n".as_bytes());
    assert_eq!(ran.err.lines().skip(1).collect::<Vec<_>>(), ["  S,m\\xc3\\xbcller,-", "     ^"]);
    let ran = snowdell_with(&["check", "-"], b"S,\x1b[31mred\x1b[0m,-\n");
    assert_eq!(ran.err.lines().skip(1).collect::<Vec<_>>(), ["  S,\\x1b[31mred\\x1b[0m,-", "    ^"]);
    let ran = snowdell_with(&["check", "-"], b"\xef\xbb\xbfS,x,-\r\n");
    assert_eq!(ran.err.lines().skip(1).collect::<Vec<_>>(), ["  \\xef\\xbb\\xbfS,x,-\\x0d", "  ^"]);
    let ran = snowdell_with(&["check", "-"], b"S,x,-\nO,\xff,y,-\r\n");
    assert_eq!(ran.err.lines().skip(1).collect::<Vec<_>>(), ["  O,\\xff,y,-\\x0d", "            ^"]);
}

#[test]
fn a_long_line_is_shown_as_an_excerpt() {
    let line = |expression: &str| format!("S,x,-\nO,x,-\nA,x,-\nT,forms,here\nE,10,{expression}\n");
    let shown = |expression: &str| {
        let ran = snowdell_with(&["check", "-"], line(expression).as_bytes());
        ran.err.lines().skip(1).map(String::from).collect::<Vec<_>>()
    };
    let long = "forms+".repeat(2_500);
    assert_eq!(
        shown(&format!("{long}!{long}forms")),
        [
            "  ..forms+forms+forms+forms+forms+forms+forms+forms+forms+forms+!forms+forms+forms+forms+forms..".to_string(),
            format!("  {}^", " ".repeat(62)),
        ]
    );
    assert_eq!(shown(&format!("!{long}")), ["  E,10,!forms+forms+forms+forms+forms..", "       ^"]);
    assert_eq!(
        shown(&long),
        ["  ..forms+forms+forms+forms+forms+forms+forms+forms+forms+forms+".to_string(), format!("  {}^", " ".repeat(62)),]
    );
    let name = "x".repeat(32_000);
    let ran = snowdell_with(&["check", "-"], format!("S,{name},-\n").as_bytes());
    let quoted = "\"xxxxxxxxxxxxxxxxxxxxxxxxxxxxxxxx\"..";
    assert_eq!(
        ran.err,
        format!(
            "standard input:1:27: refused 3: {quoted} has 32000 bytes; names have at most 24\n  S,{}..\n  {}^\n",
            "x".repeat(54),
            " ".repeat(26)
        )
    );
}

/// The line that the engine itself gives for a file.
fn engine(file: &[u8]) -> String {
    let said = library::check(file);
    match said.refusal.number {
        0 => format!("ok,{},{},{}", said.subjects, said.objects, said.actions),
        number => format!("refused,{number},{},{}", said.refusal.line, said.refusal.place),
    }
}

/// Words that are said only where the second look finds nothing.
const NOTHING_FOUND: [&str; 12] = [
    "the line cannot be read",
    "the line stands in the wrong place",
    "declared a second time",
    "a name that no earlier line declares",
    "one too many",
    "a sort has no member, or",
    "a grant for a list that is away",
    "a variable stands for",
    "not an expression",
    "a name that is not declared as",
    "the expression is too large",
    "too many templates stand",
];

/// Runs `check` once over all files: each line is the engine's, and each refusal has a hint that fits its line.
fn judged_as_by_the_engine(folder: &Path, names: &[String]) {
    let ran = Command::new(common::program()).arg("check").args(names).current_dir(folder).output().expect("the program runs");
    let out = String::from_utf8(ran.stdout).expect("text");
    let err = String::from_utf8(ran.stderr).expect("text");
    assert_eq!(out.lines().count(), names.len());
    let mut explained = err.lines();
    for (name, line) in names.iter().zip(out.lines()) {
        let file = std::fs::read(folder.join(name)).expect("a file");
        assert_eq!(line, engine(&file), "{name}");
        if let Some(refused) = line.strip_prefix("refused,") {
            let numbers: Vec<usize> = refused.split(',').map(|n| n.parse().expect("a number")).collect();
            explains(name, &file, numbers[0], numbers[1], numbers[2], &mut explained);
        }
    }
    assert_eq!(explained.next(), None);
}

fn explains<'a>(
    name: &str,
    file: &[u8],
    number: usize,
    line: usize,
    place: usize,
    explained: &mut impl Iterator<Item = &'a str>,
) {
    let first = explained.next().expect("an explanation");
    let rest = first.strip_prefix(name).unwrap_or_else(|| panic!("{name}: {first}"));
    assert!(!NOTHING_FOUND.iter().any(|words| rest.contains(&format!("refused {number}: {words}"))), "{first}");
    if line == 0 {
        assert!(rest.starts_with(&format!(": refused {number}: ")), "{first}");
        let closed = number != 2 || file.is_empty() || file.len() > 32_768;
        explained.take(if closed { 0 } else { 2 }).for_each(drop);
        return;
    }
    let fields: Vec<&str> = rest.splitn(4, ':').collect();
    let column: usize = fields[2].parse().expect("a column");
    assert_eq!((fields[0], fields[1]), ("", line.to_string().as_str()), "{first}");
    assert!(fields[3].starts_with(&format!(" refused {number}: ")), "{first}");
    let source = file.split(|&b| b == b'\n').nth(line - 1).expect("that line");
    assert!(column >= 1 && column <= source.len() + 1, "{first}");
    if number == 12 || number == 13 {
        let start = source.iter().enumerate().filter(|(_, &b)| b == b',').nth(1).expect("two commas").0 + 1;
        assert_eq!(column, start + place + 1, "{first}");
    }
    let (shown, caret) = (explained.next().expect("the line"), explained.next().expect("a caret"));
    let at = caret.len() - 1;
    assert!(caret[..at].trim().is_empty() && caret.ends_with('^') && at <= shown.len(), "{first}\n{shown}\n{caret}");
    let under = shown.as_bytes().get(at);
    match source.get(column - 1) {
        Some(byte @ b' '..=b'~') => assert_eq!(under, Some(byte), "{first}\n{shown}\n{caret}"),
        Some(_) => assert_eq!(under, Some(&b'\\'), "{first}\n{shown}\n{caret}"),
        None => assert_eq!(under, None, "{first}\n{shown}\n{caret}"),
    }
}

/// The policies of a folder, by name.
fn policies(folder: &Path) -> Vec<String> {
    let entries = std::fs::read_dir(folder).unwrap_or_else(|error| panic!("{}: {error}", folder.display()));
    let names = entries.map(|entry| entry.expect("an entry").file_name().into_string().expect("a name of text"));
    let mut names: Vec<String> = names.filter(|name| name.ends_with(".pol")).collect();
    names.sort();
    assert!(!names.is_empty(), "{}", folder.display());
    names
}

#[test]
fn the_corpus_is_judged_as_by_the_engine() {
    let corpus = ["broken", "readings", "cr/01/broken", "cr/01/readings", "cr/01/valid", "cr/01/big"];
    let folders = corpus.iter().map(|group| format!("evaluator/corpus/{group}"));
    for folder in folders.chain(["examples".into(), "examples/refusals".into()]) {
        let folder = common::root().join(folder);
        judged_as_by_the_engine(&folder, &policies(&folder));
    }
}

#[test]
fn single_byte_edits_are_judged_as_by_the_engine() {
    let folder = Folder::new("edits");
    let source = text("evaluator/corpus/worked/k01.pol").into_bytes();
    let mut names = Vec::new();
    for at in 0..source.len() {
        for &byte in b"\n,A\xff".iter().filter(|&&byte| byte != source[at]) {
            let mut edited = source.clone();
            edited[at] = byte;
            names.push(folder.write(&format!("{at}.{byte}"), &edited));
        }
    }
    judged_as_by_the_engine(&folder.0, &names);
}

/// A folder of its own for a test, gone with all its files when the value is.
struct Folder(PathBuf);

impl Folder {
    fn new(name: &str) -> Folder {
        let path = std::env::temp_dir().join(format!("snowdell-{}-{name}", std::process::id()));
        std::fs::create_dir(&path).expect("a scratch folder is made");
        Folder(path)
    }

    fn write(&self, name: &str, bytes: &[u8]) -> String {
        std::fs::write(self.0.join(name), bytes).expect("a scratch file is written");
        name.into()
    }
}

impl Drop for Folder {
    fn drop(&mut self) {
        let _ = std::fs::remove_dir_all(&self.0);
    }
}

#[test]
fn huge_and_strange_files_are_refused_soon() {
    let huge = Scratch::new("huge.pol", &vec![b'S'; 10_000_000]);
    let ran = snowdell(&["check", huge.path(), "/dev/zero"]);
    assert_eq!((ran.status, ran.out.as_str()), (3, "refused,2,0,0\nrefused,2,0,0\n"));
}
