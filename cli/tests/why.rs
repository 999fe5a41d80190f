mod common;
use common::{snowdell, snowdell_with, text, Ran};

/// `why` of one access, given as `s,o,a`, in a file of the repository.
fn why(path: &str, access: &str) -> Ran {
    let names: Vec<&str> = access.split(',').collect();
    snowdell(&["why", path, names[0], names[1], names[2]])
}

/// The same of a file that the test has made.
fn why_of(file: &str, access: &str) -> Ran {
    let names: Vec<&str> = access.split(',').collect();
    snowdell_with(&["why", "-", names[0], names[1], names[2]], file.as_bytes())
}

/// The lines with this word, without it.
fn behind<'r>(ran: &'r Ran, word: &str) -> Vec<&'r str> {
    ran.out.lines().filter_map(|line| line.strip_prefix(word)?.strip_prefix(',')).collect()
}

/// Ann stands below the staff, Monday below the week; the lists are `a1`, `b1`, `c1`, and `far`, which is away. `down` goes down
/// the subjects, `days` down the objects.
fn small(grants: &str, goal: &str) -> String {
    let members = "S,staff,-\nS,ann,staff\nO,week,-\nO,mon,week\nA,read,-\nT,a1,here\nT,b1,here\nT,c1,here\nT,far,away\n";
    let rules =
        "R,down,?0,?1,?2\nB,grant,?3,?1,?2\nB,le,S,?0,?3\nR,days,?0,?1,?2\nB,grant,?0,?3,?2\nB,le,O,?1,?3\nR,all,?0,?1,?2\n";
    format!("{members}{grants}{rules}R,one,ann,mon,read\nE,{goal}\n")
}

#[test]
fn the_worked_file() {
    let ran = why("evaluator/corpus/worked/k01.pol", "ann,week,read");
    let lines = "\
answer,2,1
part,0,2,forms*down^[o<=week]
part,1,2,forms*down
part,2,0,forms
limit,1
grant,7,0,forms,staff,week,read
ways,one
closure,2,forms*down
given,staff,week,read
step,1,8,ann,week,read,?0=ann;?1=week;?2=read;?3=staff
";
    let words = "\
evaluator/corpus/worked/k01.pol: permit for ann to read week, rounds: 1
The parts of the expression, each with its answer:
  permit: forms*down^[o<=week] (inside the scope)
    permit: forms*down (derived by the rules down)
      deny: forms (not granted in this list)
The least limit that gives this answer is 1; the file has 4096.
Without line 7 (forms,staff,week,read) it is deny.
How forms*down comes to its permit, each step confirmed by the engine:
  staff,week,read is permitted before any rule
  ann,week,read in round 1 by the rule down on line 8: ?0=ann;?1=week;?2=read;?3=staff
";
    assert_eq!(ran, Ran { status: 0, out: lines.into(), err: words.into() });
}

#[test]
fn all_worked_files() {
    for (number, answer, limit, status) in [
        ("01", "2,1", "1", 0),
        ("02", "0,1", "0", 1),
        ("03", "2,1", "1", 0),
        ("04", "1,0", "0", 4),
        ("05", "0,0", "0", 1),
        ("06", "1,0", "0", 4),
        ("07", "1,0", "0", 4),
        ("08", "0,0", "0", 1),
        ("09", "0,0", "0", 1),
        ("10", "2,2", "1", 0),
        ("13", "2,1", "1", 0),
        ("14", "2,2", "1", 0),
    ] {
        let ran = why(&format!("evaluator/corpus/worked/k{number}.pol"), "ann,week,read");
        assert_eq!((behind(&ran, "answer"), behind(&ran, "limit"), ran.status), (vec![answer], vec![limit], status), "K{number}");
    }
    for (number, refusal) in [("11", "refused,12,11,6\n"), ("12", "refused,13,11,9\n")] {
        let ran = why(&format!("evaluator/corpus/worked/k{number}.pol"), "ann,week,read");
        assert_eq!((ran.out.as_str(), ran.status), (refusal, 3), "K{number}");
    }
}

#[test]
fn a_deny_by_a_minus() {
    let ran = why("examples/closed_weeks.pol", "nurse,wk2,write");
    let lines = "\
answer,0,0
part,0,0,ward-ward^[o<wk3]^[a=write]
part,1,2,ward
part,1,2,ward^[o<wk3]^[a=write]
part,2,2,ward^[o<wk3]
part,3,2,ward
limit,0
ways,none
";
    let words = "\
examples/closed_weeks.pol: deny for nurse to write wk2, rounds: 0
The parts of the expression, each with its answer:
  deny: ward-ward^[o<wk3]^[a=write] (the right is taken out of the left)
    permit: ward (granted on line 13)
    permit: ward^[o<wk3]^[a=write] (inside the scope)
      permit: ward^[o<wk3] (inside the scope)
        permit: ward (granted on line 13)
The least limit that gives this answer is 0; the file has 0.
No grant was found that changes it.
";
    assert_eq!(ran, Ran { status: 1, out: lines.into(), err: words.into() });
}

#[test]
fn an_undecided_access() {
    let ran = why("examples/away_list.pol", "cook,wk3,write");
    let lines = "\
answer,1,0
part,0,1,kitchen-suspended
part,1,2,kitchen
part,1,1,suspended
limit,0
grant,8,0,kitchen,cook,wk3,write
ways,one
";
    let words = "\
examples/away_list.pol: undecided for cook to write wk3, rounds: 0
The parts of the expression, each with its answer:
  undecided: kitchen-suspended (the right is taken out of the left)
    permit: kitchen (granted on line 8)
    undecided: suspended (this list is away)
At every lower limit it is undecided too.
Without line 8 (kitchen,cook,wk3,write) it is deny.
";
    assert_eq!(ran, Ran { status: 4, out: lines.into(), err: words.into() });
}

#[test]
fn a_template() {
    let ran = why("examples/second_clinic.pol", "ann,wk3,write");
    let lines = "\
answer,2,1
part,0,2,(t:ours.(ours-ours^[leave(s)])^[o=wk3]+second)(ward*people)
part,1,2,(ours-ours^[leave(s)])^[o=wk3]+second
part,2,2,(ours-ours^[leave(s)])^[o=wk3]
part,3,2,ours-ours^[leave(s)]
part,4,2,ours
part,4,0,ours^[leave(s)]
part,5,2,ours
part,2,0,second
part,1,2,ward*people
part,2,0,ward
limit,1
grant,13,0,ward,staff,wk3,write
ways,one
closure,9,ward*people
given,staff,wk3,write
step,1,16,ann,wk3,write,?0=ann;?1=wk3;?2=write;?3=staff
";
    assert_eq!((ran.out.as_str(), ran.status), (lines, 0));
}

#[test]
fn the_other_examples() {
    let propagation = why("examples/propagation.pol", "helper,mon,read");
    let steps =
        ["1,14,kitchen,mon,read,?0=kitchen;?1=mon;?2=read;?3=wk3", "2,11,helper,mon,read,?0=helper;?1=mon;?2=read;?3=kitchen"];
    assert_eq!((behind(&propagation, "step"), propagation.status), (steps.to_vec(), 0));

    // The cook is on leave: the deny rests on a permit of the closure in the right of a minus.
    let lists = why("examples/three_lists.pol", "cook,wk3,write");
    assert_eq!((behind(&lists, "closure"), lists.status), (vec!["12,kitchen*people"], 1));
    assert_eq!(behind(&lists, "step"), ["1,28,cook,wk3,write,?0=cook;?1=wk3;?2=write;?3=kitchen"]);

    let hospital = why("examples/hospital.pol", "jane_doe,lab_tests,read");
    let grants = ["29,0,p_rad,jane_doe,lab_tests,read", "40,0,forms,jane_doe,lab_tests,read"];
    assert_eq!((behind(&hospital, "grant"), behind(&hospital, "part").len(), hospital.status), (grants.to_vec(), 50, 0));

    let laboratory = why("examples/laboratory.pol", "eve_jones,machine1,login");
    assert_eq!((behind(&laboratory, "answer"), laboratory.status), (vec!["0,4"], 1));
    assert_eq!(behind(&laboratory, "closure"), ["10,dept*h"]);
}

#[test]
fn the_parts_are_those_of_a_chain_that_binds_to_the_left() {
    let ran = why_of(&small("G,a1,ann,mon,read\n", "0,(a1+(b1))-c1&(o(a1,b1,(far)))"), "ann,mon,read");
    let parts = [
        "0,1,(a1+(b1))-c1&(o(a1,b1,(far)))",
        "1,2,(a1+(b1))-c1",
        "2,2,a1+(b1)",
        "3,2,a1",
        "3,0,b1",
        "2,0,c1",
        "1,1,o(a1,b1,(far))",
        "2,2,a1",
        "2,0,b1",
        "2,1,far",
    ];
    assert_eq!((behind(&ran, "part"), ran.status), (parts.to_vec(), 4));
}

#[test]
fn grants_that_matter_alone() {
    // A grant that is said twice counts once.
    let twice = why_of(&small("G,a1,ann,mon,read\nG,a1,staff,mon,read\nG,a1,ann,mon,read\n", "0,a1"), "ann,mon,read");
    assert_eq!((behind(&twice, "grant"), behind(&twice, "ways")), (vec!["10,0,a1,ann,mon,read"], vec!["one"]));
    assert!(twice.err.contains("Without lines 10, 12 (a1,ann,mon,read) it is deny.\n"), "{}", twice.err);

    let minus = why_of(&small("G,a1,ann,mon,read\nG,b1,ann,mon,read\n", "0,a1-b1"), "ann,mon,read");
    assert_eq!((behind(&minus, "grant"), behind(&minus, "ways"), minus.status), (vec!["11,2,b1,ann,mon,read"], vec!["one"], 1));
}

#[test]
fn grants_that_matter_only_together() {
    let two = "G,a1,ann,mon,read\nG,b1,ann,mon,read\n";
    let permit = why_of(&small(two, "0,a1+b1"), "ann,mon,read");
    assert_eq!((behind(&permit, "grant"), behind(&permit, "ways"), permit.status), (vec![], vec!["several"], 0));
    assert!(permit.err.ends_with("No grant alone changes it, but several at once do: there are several ways to it.\n"));

    let deny = why_of(&small(&format!("{two}G,c1,ann,mon,read\n"), "0,c1-(a1+b1)"), "ann,mon,read");
    assert_eq!((behind(&deny, "grant"), behind(&deny, "ways"), deny.status), (vec![], vec!["several"], 1));
}

#[test]
fn no_grant_matters() {
    let grants = "G,a1,ann,mon,read\nG,b1,ann,mon,read\n";
    // A rule without a body needs no grant; a list whose template name is not used is not drawn on.
    for goal in ["1,c1*all", "1,(t:x.c1*one)(a1)", "0,c1^[s=ann]", "0,far-b1^[s=staff]"] {
        let ran = why_of(&small(grants, goal), "ann,mon,read");
        assert_eq!((behind(&ran, "grant"), behind(&ran, "ways")), (vec![], vec!["none"]), "{goal}");
    }
}

#[test]
fn a_rule_without_variables_or_without_a_body() {
    let one = why_of(&small("", "1,a1*one"), "ann,mon,read");
    assert_eq!(behind(&one, "step"), ["1,17,ann,mon,read,-"]);
    let all = why_of(&small("", "1,a1*all"), "staff,mon,read");
    assert_eq!(behind(&all, "step"), ["1,16,staff,mon,read,?0=staff;?1=mon;?2=read"]);
}

#[test]
fn closures_within_closures() {
    let ran = why_of(&small("G,a1,staff,week,read\n", "4096,a1*down*days-a1*down"), "ann,mon,read");
    let lines = "\
answer,2,3
part,0,2,a1*down*days-a1*down
part,1,2,a1*down*days
part,2,0,a1*down
part,3,0,a1
part,1,0,a1*down
part,2,0,a1
limit,1
grant,10,0,a1,staff,week,read
ways,one
closure,5,a1*down
given,staff,week,read
step,1,11,ann,week,read,?0=ann;?1=week;?2=read;?3=staff
closure,2,a1*down*days
given,ann,week,read
step,1,14,ann,mon,read,?0=ann;?1=mon;?2=read;?3=week
";
    assert_eq!((ran.out.as_str(), ran.status), (lines, 0));
}

#[test]
fn a_bound_name_leads_to_its_filling() {
    let ran = why_of(&small("G,a1,staff,week,read\n", "4096,(t:x.(t:x.x*days)(x*down))(a1)"), "ann,mon,read");
    assert_eq!(behind(&ran, "closure"), ["5,x*down", "3,x*days"]);
    assert_eq!(behind(&ran, "given"), ["staff,week,read", "ann,week,read"]);
    assert_eq!(behind(&ran, "grant"), ["10,0,a1,staff,week,read"]);
}

#[test]
fn names_that_the_file_does_not_have() {
    for (access, place) in [("nobody,mon,read", 1), ("ann,,read", 2), ("ann,mon,\x1b", 3)] {
        let ran = why("evaluator/corpus/worked/k01.pol", access);
        assert_eq!((ran.out, ran.status), (format!("refused,15,0,{place}\n"), 3), "{access}");
    }
}

#[test]
fn files_that_are_refused() {
    let good = text("evaluator/corpus/worked/k01.pol");
    for (file, line) in [
        (String::new(), "refused,2,0,0\n"),
        (good.trim_end().into(), "refused,2,0,0\n"),
        (good.repeat(300), "refused,2,0,0\n"),
        (good.replace("G,", "G;"), "refused,3,7,0\n"),
        ("\u{feff}".to_string() + &good, "refused,3,1,0\n"),
    ] {
        let ran = why_of(&file, "ann,week,read");
        assert_eq!((ran.out.as_str(), ran.status), (line, 3), "{} bytes", file.len());
    }
}

#[test]
fn what_cannot_be_asked() {
    for arguments in [&["why"][..], &["why", "examples/away_list.pol", "cook", "wk3"], &["why", "-", "a", "b", "c", "d"]] {
        let ran = snowdell(arguments);
        let words = "snowdell: usage: snowdell why FILE S O A; snowdell --help says more\n";
        assert_eq!(ran, Ran { status: 2, out: String::new(), err: words.into() }, "{arguments:?}");
    }
    for path in ["examples/none.pol", "examples"] {
        let ran = why(path, "ann,week,read");
        assert_eq!((ran.out.as_str(), ran.status), ("", 2), "{path}");
        assert!(ran.err.starts_with(&format!("snowdell: {path}: cannot be read: ")), "{}", ran.err);
    }
}

#[test]
fn a_closure_of_four_thousand_rounds() {
    let ran = why("evaluator/corpus/heavy/rounds4000.pol", "s63,o63,a0");
    let steps = behind(&ran, "step");
    assert_eq!(
        (behind(&ran, "limit"), behind(&ran, "given"), steps.len(), ran.status),
        (vec!["4095"], vec!["s0,o0,a0"], 4095, 0)
    );
    assert_eq!(steps[4094], "4095,290,s63,o63,a0,?0=s62;?1=s63;?2=o63;?3=a0");
    assert!(ran.err.ends_with("  and 4076 more, on standard output\n"), "{}", ran.err);
}

/// 64 subjects and 64 objects, each a tree, and as many grants as fit beside them.
#[test]
fn a_full_file() {
    let parent = |letter: char, i: usize| if i == 0 { "-".to_string() } else { format!("{letter}{}", (i - 1) / 2) };
    let members =
        |kind: char, letter: char| (0..64).map(|i| format!("{kind},{letter}{i},{}\n", parent(letter, i))).collect::<String>();
    let grants: String = (0..4096).filter(|i| i % 9 == 4).map(|i| format!("G,b,s{},o{},w\n", i / 64, i % 64)).collect();
    let rules = "R,d,?0,?1,?2\nB,grant,?3,?1,?2\nB,le,S,?0,?3\nR,d,?0,?1,?2\nB,grant,?0,?3,?2\nB,le,O,?1,?3\n";
    let file = format!("{}{}A,w,-\nT,b,here\n{grants}{rules}E,4096,b*d\n", members('S', 's'), members('O', 'o'));
    let ran = why_of(&file, "s63,o63,w");
    assert_eq!((behind(&ran, "answer"), behind(&ran, "ways"), ran.status), (vec!["2,2"], vec!["several"], 0));
    assert_eq!(behind(&ran, "closure"), ["1,b*d"]);
}
