//! `decide`: the answer, and what would decide one that is undecided.

mod common;
use common::{root, snowdell, snowdell_with, text, Ran};

const ACCESS: [&str; 3] = ["ann", "wk3", "read"];
const MEMBERS: &str = "S,staff,-\nS,ann,staff\nO,wk3,-\nA,read,-\n";
/// The rule passes a grant of the staff on to Ann, in one round.
const DOWN: &str = "R,down,?0,?1,?2\nB,grant,?3,?1,?2\nB,le,S,?0,?3\n";

/// What is asked of a file on standard input.
fn ask(file: &str) -> Ran {
    let [subject, object, action] = ACCESS;
    snowdell_with(&["decide", "-", subject, object, action], file.as_bytes())
}

/// The lines after the first, of an access that has to be undecided.
fn what_decides(file: &str) -> Vec<String> {
    let ran = ask(file);
    assert_eq!((ran.status, ran.out.split(',').next()), (4, Some("1")), "{ran:?}");
    let mut lines = ran.err.lines().map(String::from);
    assert_eq!(lines.next().as_deref(), Some("undecided: it is open whether ann may read wk3"));
    lines.collect()
}

/// A policy in which these lists are away and the list `staff` grants the staff what is asked.
fn away(lists: &str, limit: usize, expression: &str) -> String {
    let lists: String = lists.split(' ').filter(|list| !list.is_empty()).map(|list| format!("T,{list},away\n")).collect();
    format!("{MEMBERS}T,staff,here\n{lists}G,staff,staff,wk3,read\n{DOWN}E,{limit},{expression}\n")
}

#[test]
fn the_three_answers() {
    let ran = snowdell(&["decide", "examples/closed_weeks.pol", "nurse", "wk3", "write"]);
    assert_eq!(ran, Ran { status: 0, out: "2,0\n".into(), err: "permit: nurse may write wk3\n".into() });
    let ran = snowdell(&["decide", "examples/closed_weeks.pol", "nurse", "wk1", "write"]);
    assert_eq!(ran, Ran { status: 1, out: "0,0\n".into(), err: "deny: nurse may not write wk1\n".into() });
    let ran = snowdell(&["decide", "examples/away_list.pol", "cook", "wk3", "write"]);
    let words = "undecided: it is open whether cook may write wk3\n\
                 suspended: deny if it brings every access; permit if it brings none\n";
    assert_eq!(ran, Ran { status: 4, out: "1,0\n".into(), err: words.into() });
}

#[test]
fn rounds_are_those_of_the_engine() {
    let ran = snowdell(&["decide", "evaluator/corpus/worked/k14.pol", "ann", "mon", "read"]);
    assert_eq!((ran.status, ran.out.as_str()), (0, "2,2\n"));
}

#[test]
fn names_that_are_not_declared() {
    let path = "examples/closed_weeks.pol";
    let cases = [
        (["nurs", "wk3", "write"], "refused,15,0,1\n", "no subject \"nurs\"; did you mean \"nurse\"?"),
        (["wk3", "nurse", "write"], "refused,15,0,1\n", "\"wk3\" is an object, not a subject"),
        (["nurse", "week", "write"], "refused,15,0,2\n", "no object \"week\""),
        (["nurse", "wk3", "writes"], "refused,15,0,3\n", "no action \"writes\"; did you mean \"write\"?"),
        (["", "wk3", "write"], "refused,15,0,1\n", "no subject \"\""),
        (["m\u{fc}ller\u{7}", "wk3", "write"], "refused,15,0,1\n", "no subject \"m\\xc3\\xbcller\\x07\""),
    ];
    for ([subject, object, action], out, words) in cases {
        let ran = snowdell(&["decide", path, subject, object, action]);
        assert_eq!(ran, Ran { status: 3, out: out.into(), err: format!("{path}: refused 15: {words}\n") });
    }
    let long = "x".repeat(100_000);
    let ran = snowdell(&["decide", path, &long, "wk3", "write"]);
    assert_eq!(ran.err, format!("{path}: refused 15: no subject \"{}\"..\n", "x".repeat(32)));
}

#[test]
fn a_refused_file_is_explained() {
    let ran = snowdell(&["decide", "examples/refusals/13.pol", "x", "x", "x"]);
    assert_eq!((ran.status, ran.out.as_str()), (3, "refused,13,4,0\n"));
    assert_eq!(ran.err, "examples/refusals/13.pol:4:5: refused 13: \"x\" is a subject, not a table\n  E,0,x\n      ^\n");
}

#[test]
fn lists_that_matter_alone() {
    let cases = [
        ("ward", "ward", vec!["ward: permit if it brings every access; deny if it brings none"]),
        ("ward idle", "ward", vec!["ward: permit if it brings every access; deny if it brings none"]),
        ("ward", "ward-ward", vec!["ward: deny if it brings every access; deny if it brings none"]),
        (
            "ward kitchen",
            "ward+kitchen",
            vec![
                "ward: permit if it brings every access; still undecided if it brings none",
                "kitchen: permit if it brings every access; still undecided if it brings none",
            ],
        ),
        (
            "ward kitchen",
            "ward-kitchen",
            vec![
                "ward: still undecided if it brings every access; deny if it brings none",
                "kitchen: deny if it brings every access; still undecided if it brings none",
            ],
        ),
        ("ward idle", "(t:idle.ward+idle-idle)(staff)", vec!["ward: permit if it brings every access; deny if it brings none"]),
    ];
    for (lists, expression, expected) in cases {
        assert_eq!(what_decides(&away(lists, 4096, expression)), expected, "{expression}");
    }
}

#[test]
fn lists_that_matter_only_together() {
    let expected = ["bb and dd together: permit if they bring every access", "cc and dd together: deny if they bring none"];
    for limit in [0, 4096] {
        assert_eq!(what_decides(&away("aa bb cc dd", limit, "(aa+bb)&(cc+dd)")), expected);
    }
    let three = away("aa bb cc", 4096, "(aa&bb)+(bb&cc)+(aa&cc)-(aa&bb&cc)");
    assert_eq!(
        what_decides(&three),
        ["aa, bb and cc together: deny if they bring every access", "bb and cc together: deny if they bring none"]
    );
}

#[test]
fn a_limit_that_is_too_low() {
    assert_eq!(what_decides(&away("", 0, "staff*down")), ["a limit of 1 would decide it: permit"]);
    let both = what_decides(&away("ward", 0, "staff*down&(staff+ward)*down"));
    assert_eq!(both, ["a limit of 1 would decide it: permit"]);
    let chain = "S,m0,-\nS,m1,m0\nS,m2,m1\nS,m3,m2\nS,m4,m3\nS,m5,m4\nS,m6,m5\nS,m7,m6\nS,ann,m7\nS,x,-\nO,wk3,-\nA,read,-\n";
    let rule: String = (1..9)
        .map(|i| {
            let (above, below) = (format!("m{}", i - 1), if i == 8 { "ann".into() } else { format!("m{i}") });
            format!("R,down,{below},?1,?2\nB,grant,{above},?1,?2\n")
        })
        .collect();
    let policy = |limit: usize| format!("{chain}T,staff,here\nG,staff,m0,wk3,read\n{rule}E,{limit},staff*down\n");
    assert_eq!(what_decides(&policy(3)), ["a limit of 8 would decide it: permit"]);
    assert_eq!(ask(&policy(8)).out, "2,8\n");
    assert_eq!(ask(&policy(7)).out, "1,7\n");
}

#[test]
fn a_list_and_the_limit_together() {
    let lines = what_decides(&away("ward", 0, "(staff*down&ward)+(staff*down-ward)"));
    assert_eq!(
        lines,
        [
            "ward: permit if it brings every access and the limit is at least 1",
            "ward: permit if it brings none and the limit is at least 1",
        ]
    );
}

/// 64 subjects and 64 objects: a full list has 4,096 grants, too many for a file.
fn crowd(tables: &str, rules: &str, goal: &str) -> String {
    let subjects: String = (0..63).map(|i| format!("S,m{i},-\n")).collect();
    let objects: String = (0..63).map(|i| format!("O,m{i},-\n")).collect();
    format!("{subjects}S,ann,-\n{objects}O,wk3,-\nA,read,-\n{tables}{rules}E,{goal}\n")
}

#[test]
fn a_full_list_that_is_too_long_for_a_file() {
    let ward = "T,ward,away\n";
    let either = ["ward: permit if it brings every access; deny if it brings none"];
    assert_eq!(what_decides(&crowd(ward, "", "1,ward")), either);
    let taken = "R,all0,ann,wk3,read\nB,grant,m0,m0,read\n";
    let tables = "T,nobody,here\nT,ward,away\n";
    assert_eq!(what_decides(&crowd(tables, taken, "4096,ward-nobody*all0")), either, "a fresh name for the rule");
    assert_eq!(what_decides(&crowd(ward, "", "1,(t:x.x)(ward)")), either);
    assert_eq!(what_decides(&crowd(ward, "", "1,(t:ward.ward)(ward)")), either);
    let two = "T,ward,away\nT,kitchen,away\n";
    assert_eq!(
        what_decides(&crowd(two, "", "1,(ward&kitchen)-(ward&kitchen)")),
        [
            "ward: still undecided if it brings every access; deny if it brings none",
            "kitchen: still undecided if it brings every access; deny if it brings none",
        ]
    );
}

#[test]
fn a_full_list_that_cannot_be_tried() {
    let not_tried = "a list with every access could not be tried";
    let ward = "T,ward,away\n";
    let sets: String = (0..16).map(|i| format!("R,r{i},?0,?1,?2\n")).collect();
    let rules = "R,down,?0,?1,?2\nB,grant,?0,?1,?2\n".repeat(64);
    let deep = format!("4096,{}ward{}", "(t:x.".repeat(4), ")(ward)".repeat(4));
    let brackets = format!("4096,{}ward{}", "(".repeat(32), ")".repeat(32));
    for (rules, goal) in [("", "0,ward"), (&sets, "1,ward"), (&rules, "1,ward"), ("", &deep), ("", &brackets)] {
        assert_eq!(what_decides(&crowd(ward, rules, goal)), [format!("ward: {not_tried}; deny if it brings none")]);
    }
    let two = "T,ward,away\nT,kitchen,away\n";
    assert_eq!(
        what_decides(&crowd(two, "", "0,ward+kitchen")),
        [
            format!("ward: {not_tried}; still undecided if it brings none"),
            format!("kitchen: {not_tried}; still undecided if it brings none"),
            format!("ward and kitchen together: {not_tried}"),
            "ward and kitchen together: deny if they bring none".into(),
        ]
    );
    let five = "T,staff,here\nT,b1,away\nT,b2,away\nT,b3,away\nT,b4,away\nT,b5,away\nG,staff,m0,m0,read\n";
    let rules = "R,down,ann,wk3,read\nB,grant,m1,m1,read\nR,down,m1,m1,read\nB,grant,m0,m0,read\n";
    let both = "(staff*down&(b1+b2)&(b3+b4+b5))+(staff*down-(b1+b2))";
    assert_eq!(
        what_decides(&crowd(five, rules, &format!("1,{both}"))),
        [
            "b1, b2, b3, b4 and b5 together: a list with every access could not be tried",
            "b1 and b2 together: permit if they bring none and the limit is at least 2",
        ]
    );
}

#[test]
fn a_file_without_room_for_a_higher_limit() {
    const LONGEST: usize = 32_768;
    let policy = away("", 0, "staff*down");
    let grant = "G,staff,staff,wk3,read\n";
    let full = policy.replace(grant, &grant.repeat((LONGEST - policy.len()) / grant.len() + 1));
    let (name, room) = ("S,staff,-\n", LONGEST - full.len());
    let full = full.replacen(name, &format!("{name}S,x{},-\n", "x".repeat(room.saturating_sub("S,x,-\n".len()))), 1);
    assert!(room >= "S,x,-\n".len() && full.len() == LONGEST, "{room}");
    assert_eq!(what_decides(&full), ["what would decide it could not be tried: the file has no room for it"]);
}

/// The engine's answer, in a word.
fn engine(file: &str, access: &[&str]) -> &'static str {
    let mut memory = vec![0; library::MEMORY];
    let [s, o, a] = [access[0], access[1], access[2]].map(str::as_bytes);
    let said = library::decide(file.as_bytes(), s, o, a, &mut memory);
    assert_eq!(said.refusal.number, 0, "{file}");
    ["deny", "undecided", "permit"][said.answer]
}

/// The names of the members of a sort.
fn members<'a>(file: &'a str, kind: &str) -> Vec<&'a str> {
    file.lines().filter(|line| line.starts_with(kind)).map(|line| line.split(',').nth(1).expect("a name")).collect()
}

/// The file with a list here, and all its grants joined to the G group or none.
fn supplied(file: &str, list: &str, full: bool) -> String {
    let here = file.replace(&format!("\nT,{list},away\n"), &format!("\nT,{list},here\n"));
    assert_ne!(here, file, "{list} is away");
    let mut grants = String::new();
    for s in members(file, "S,") {
        for o in members(file, "O,") {
            for a in members(file, "A,") {
                grants += &format!("G,{list},{s},{o},{a}\n");
            }
        }
    }
    let rules = here.find("\nR,").or(here.find("\nE,")).expect("an E line") + 1;
    format!("{}{}{}", &here[..rules], if full { &grants } else { "" }, &here[rules..])
}

fn with_limit(file: &str, limit: usize) -> String {
    let (before, goal) = file.rsplit_once("\nE,").expect("an E line");
    format!("{before}\nE,{limit},{}", goal.split_once(',').expect("a limit").1)
}

/// What has to be said of each list alone, found by another way of making the files.
fn alone(file: &str, access: &[&str]) -> Vec<String> {
    let mut lines = Vec::new();
    for list in members(file, "T,").into_iter().filter(|list| file.contains(&format!("\nT,{list},away\n"))) {
        let [full, none] = [true, false].map(|full| engine(&supplied(file, list, full), access));
        if full != "undecided" || none != "undecided" {
            let [full, none] = [full, none].map(|word| word.replace("undecided", "still undecided"));
            lines.push(format!("{list}: {full} if it brings every access; {none} if it brings none"));
        }
    }
    lines
}

#[test]
fn undecided_accesses_of_the_corpus() {
    let mut met = [0; 3];
    for folder in ["examples", "evaluator/corpus/valid", "evaluator/corpus/cr/01/valid", "evaluator/corpus/cr/renamed/valid"] {
        let entries = std::fs::read_dir(root().join(folder)).expect("a folder").map(|entry| entry.expect("an entry").file_name());
        for name in entries.map(|name| name.into_string().expect("text")).filter(|name| name.ends_with(".out")) {
            let listing = text(&format!("{folder}/{name}"));
            let Some(line) = listing.lines().find(|line| line.starts_with("undecided,")) else { continue };
            let access: Vec<&str> = line.split(',').skip(1).collect();
            let path = format!("{folder}/{}", name.replace(".out", ".pol"));
            let ran = snowdell(&["decide", &path, access[0], access[1], access[2]]);
            assert_eq!(ran.status, 4, "{path}: {ran:?}");
            let said: Vec<&str> = ran.err.lines().skip(1).collect();
            let (lists, rest): (Vec<&str>, Vec<&str>) = said.iter().partition(|line| line.contains("; "));
            let file = text(&path);
            assert_eq!(lists, alone(&file, &access), "{path}");
            assert!(!said.is_empty(), "{path}");
            met[0] += lists.len();
            for line in rest {
                let Some(limit) = line.strip_prefix("a limit of ") else {
                    assert!(line.contains(" together: ") && lists.is_empty(), "{path}: {line}");
                    met[2] += 1;
                    continue;
                };
                let (limit, answer) = limit.split_once(" would decide it: ").expect("an answer");
                let limit: usize = limit.parse().expect("a number");
                assert_eq!(engine(&with_limit(&file, limit), &access), answer, "{path}");
                assert_eq!(engine(&with_limit(&file, limit - 1), &access), "undecided", "{path}");
                met[1] += 1;
            }
        }
    }
    assert!(met[0] > 20 && met[1] > 10, "{met:?}");
}
