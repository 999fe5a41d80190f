mod common;
use common::{root, snowdell, snowdell_with, text, Ran, Scratch};
use std::collections::HashMap;

/// Every way an access can stand in a file, from the least; the first two are worth the same.
const WORDS: [&str; 4] = ["absent", "deny", "undecided", "permit"];

const SAME: &str = "no difference: the same members, and the same answer to every access\n";

fn ran(status: i32, out: &str, err: &str) -> Ran {
    Ran { status, out: out.into(), err: err.into() }
}

/// A file's text with one part changed, which must be there.
fn with(file: &str, part: &str, by: &str) -> String {
    assert_eq!(file.matches(part).count(), 1, "{part:?}");
    file.replace(part, by)
}

/// `diff OLD NEW` and the options, with the new text on standard input.
fn diff(name: &str, old: &str, new: &str, options: &[&str]) -> Ran {
    let old = Scratch::new(&format!("diff-{name}"), old.as_bytes());
    snowdell_with(&[&["diff", old.path(), "-"], options].concat(), new.as_bytes())
}

const CLOSED: &str = "examples/closed_weeks.pol";

#[test]
fn equal_files() {
    let zero = "gains,0,losses,0,came,0,went,0\n";
    assert_eq!(snowdell(&["diff", CLOSED, CLOSED]), ran(0, zero, SAME));
    let gains = ran(0, zero, "no gains: nobody may do more than before\n");
    assert_eq!(snowdell(&["diff", CLOSED, CLOSED, "--gains"]), gains);
}

#[test]
fn a_grant_more_and_a_grant_less() {
    let file = text(CLOSED);
    let new = with(&file, "G,ward,nurse,wk4,write\n", "G,ward,dietitian,wk2,read\n");
    let lines = "permit->deny,nurse,wk4,write\ndeny->permit,dietitian,wk2,read\ngains,1,losses,1,came,0,went,0\n";
    let words = "1 gain: 1 from deny to permit\n1 loss: 1 from permit to deny\n";
    assert_eq!(diff("more-less", &file, &new, &[]), ran(1, lines, words));
}

#[test]
fn the_gains_alone_wherever_the_option_stands() {
    let file = text(CLOSED);
    let new = with(&file, "G,ward,nurse,wk4,write\n", "G,ward,dietitian,wk2,read\n");
    let new = with(&new, "S,dietitian,staff\n", "S,dietitian,staff\nS,bob,-\n");
    let (old, new) = (Scratch::new("diff-gains-old", file.as_bytes()), Scratch::new("diff-gains-new", new.as_bytes()));
    let lines = "deny->permit,dietitian,wk2,read\ngains,1,losses,1,came,1,went,0\n";
    let expected = ran(1, lines, "1 gain: 1 from deny to permit\n");
    let (old, new) = (old.path(), new.path());
    assert_eq!(snowdell(&["diff", "--gains", old, new]), expected);
    assert_eq!(snowdell(&["diff", old, "--gains", new]), expected);
    assert_eq!(snowdell(&["diff", old, new, "--gains"]), expected);
}

#[test]
fn a_loss_alone_is_no_gain() {
    let file = text(CLOSED);
    let new = with(&file, "G,ward,nurse,wk4,write\n", "");
    let none = ran(0, "gains,0,losses,1,came,0,went,0\n", "no gains: nobody may do more than before\n");
    assert_eq!(diff("loss", &file, &new, &["--gains"]), none);
    assert_eq!(diff("loss-all", &file, &new, &[]).status, 1);
}

#[test]
fn members_in_another_order_are_no_difference() {
    let file = text(CLOSED);
    let new = with(&file, "S,nurse,staff\nS,dietitian,staff\n", "S,dietitian,staff\nS,nurse,staff\n");
    let new = with(&new, "A,read,-\nA,write,-\n", "A,write,-\nA,read,-\n");
    let same = ran(0, "gains,0,losses,0,came,0,went,0\n", SAME);
    assert_eq!(diff("order", &file, &new, &[]), same);
    assert_eq!(diff("order-back", &new, &file, &[]), same);
}

/// The old file's order, then the new one's for what only that has: zoe, who stands first there, comes after cook.
#[test]
fn members_that_came_and_went() {
    let old = "S,ann,-\nS,cook,-\nO,wk1,-\nO,wk3,-\nA,read,-\nT,list,here\nG,list,cook,wk3,read\nG,list,ann,wk1,read\nE,0,list\n";
    let new = "S,zoe,-\nS,cook,-\nS,bob,-\nO,wk3,-\nA,write,-\nA,read,-\nT,list,here\nG,list,bob,wk3,read\nG,list,cook,wk3,write\nE,0,list\n";
    let lines = "went,S,ann\ncame,S,zoe\ncame,S,bob\nwent,O,wk1\ncame,A,write\npermit->absent,ann,wk1,read\n\
        permit->deny,cook,wk3,read\nabsent->permit,cook,wk3,write\nabsent->permit,bob,wk3,read\ngains,2,losses,2,came,3,went,2\n";
    let words = "2 gains: 2 from absent to permit\n2 losses: 1 from permit to absent, 1 from permit to deny\n\
        3 members came, 2 members went\n";
    assert_eq!(diff("came", old, new, &[]), ran(1, lines, words));
}

/// A member without any right is a difference, and no gain.
#[test]
fn a_member_alone() {
    let file = text(CLOSED);
    let new = with(&file, "S,dietitian,staff\n", "S,dietitian,staff\nS,bob,-\n");
    let came = ran(1, "came,S,bob\ngains,0,losses,0,came,1,went,0\n", "1 member came\n");
    assert_eq!(diff("alone", &file, &new, &[]), came);
    let went = ran(1, "went,S,bob\ngains,0,losses,0,came,0,went,1\n", "1 member went\n");
    assert_eq!(diff("alone-back", &new, &file, &[]), went);
    assert_eq!(diff("alone-gains", &file, &new, &["--gains"]).status, 0);
}

/// Sorts may share names: each is matched in its own.
#[test]
fn one_name_in_two_sorts() {
    let old = "S,x,-\nO,y,-\nA,x,-\nT,list,here\nG,list,x,y,x\nE,0,list\n";
    let new = "S,y,-\nO,y,-\nA,x,-\nT,list,here\nG,list,y,y,x\nE,0,list\n";
    let lines = "went,S,x\ncame,S,y\npermit->absent,x,y,x\nabsent->permit,y,y,x\ngains,1,losses,1,came,1,went,1\n";
    let words = "1 gain: 1 from absent to permit\n1 loss: 1 from permit to absent\n1 member came, 1 member went\n";
    assert_eq!(diff("sorts", old, new, &[]), ran(1, lines, words));
}

#[test]
fn undecided_moves_both_ways() {
    let away = text("examples/away_list.pol");
    let here = with(&away, "T,suspended,away\n", "T,suspended,here\nG,suspended,temp,wk3,write\n");
    let lines = "permit->undecided,cook,wk3,write\ndeny->undecided,temp,wk3,write\ngains,1,losses,1,came,0,went,0\n";
    let words = "1 gain: 1 from deny to undecided\n1 loss: 1 from permit to undecided\n\
        2 answers became undecided; away in the new file: suspended\n";
    assert_eq!(diff("undecided", &here, &away, &[]), ran(1, lines, words));
    let lines = "undecided->permit,cook,wk3,write\nundecided->deny,temp,wk3,write\ngains,1,losses,1,came,0,went,0\n";
    let words = "1 gain: 1 from undecided to permit\n1 loss: 1 from undecided to deny\n";
    assert_eq!(diff("decided", &away, &here, &[]), ran(1, lines, words));
}

#[test]
fn undecided_where_a_file_lacks_the_member() {
    let with_temp = text("examples/away_list.pol");
    let without = with(&with(&with_temp, "S,temp,-\n", ""), "G,kitchen,temp,wk3,write\n", "");
    let lines = "came,S,temp\nabsent->undecided,temp,wk3,write\ngains,1,losses,0,came,1,went,0\n";
    let words = "1 gain: 1 from absent to undecided\n1 member came\n1 answer became undecided; away in the new file: suspended\n";
    assert_eq!(diff("temp-came", &without, &with_temp, &[]), ran(1, lines, words));
    let lines = "went,S,temp\nundecided->absent,temp,wk3,write\ngains,0,losses,1,came,0,went,1\n";
    let words = "1 loss: 1 from undecided to absent\n1 member went\n";
    assert_eq!(diff("temp-went", &with_temp, &without, &[]), ran(1, lines, words));
}

/// A limit that is too low leaves accesses open as well, though every list that the expression names is here.
#[test]
fn undecided_for_want_of_rounds() {
    let old = with(&text("evaluator/corpus/worked/k01.pol"), "T,forms,here\n", "T,form,away\nT,forms,here\n");
    let new = with(&old, "E,4096,", "E,0,");
    let lines = "deny->undecided,staff,mon,read\npermit->undecided,ann,week,read\ndeny->undecided,ann,mon,read\n\
        gains,2,losses,1,came,0,went,0\n";
    let rounds = "the new file waits for no list, but its limit of 0 rounds stops a closure early\n";
    let words =
        format!("2 gains: 2 from deny to undecided\n1 loss: 1 from permit to undecided\n3 answers became undecided: {rounds}");
    assert_eq!(diff("rounds", &old, &new, &[]), ran(1, lines, &words));
    let words = format!("2 gains: 2 from deny to undecided\n2 answers became undecided: {rounds}");
    let lines = "deny->undecided,staff,mon,read\ndeny->undecided,ann,mon,read\ngains,2,losses,1,came,0,went,0\n";
    assert_eq!(diff("rounds-gains", &old, &new, &["--gains"]), ran(1, lines, &words));
}

/// Another parent is no line of its own; its effect is.
#[test]
fn another_parent() {
    let old = text("evaluator/corpus/worked/k01.pol");
    let new = with(&old, "S,ann,staff\n", "S,ann,-\n");
    let lines = "permit->deny,ann,week,read\ngains,0,losses,1,came,0,went,0\n";
    let words = "1 loss: 1 from permit to deny\n1 member has another parent: subject ann (staff, now none)\n";
    assert_eq!(diff("parent", &old, &new, &[]), ran(1, lines, words));
}

#[test]
fn other_parents_without_effect() {
    let file = text(CLOSED);
    let chain = "O,wk4,-\nO,wk3,wk4\nO,wk2,wk3\nO,wk1,wk2\n";
    let new = with(&file, chain, "O,wk1,-\nO,wk2,wk1\nO,wk3,wk2\nO,wk4,wk3\n");
    let (old, new) = (with(&file, "[o<wk3]", "[o=wk3]"), with(&new, "[o<wk3]", "[o=wk3]"));
    let old = with(&old, "S,nurse,staff\n", "S,nurse,-\n");
    let parents = "5 members have another parent: subject nurse (none, now staff), object wk4 (none, now wk3), \
        object wk3 (wk4, now wk2), object wk2 (wk3, now wk1) and 1 more\n";
    let same = ran(0, "gains,0,losses,0,came,0,went,0\n", &format!("{SAME}{parents}"));
    assert_eq!(diff("parents", &old, &new, &[]), same);
}

#[test]
fn refused_files() {
    let (good, bad, empty) = (CLOSED, "evaluator/corpus/worked/k11.pol", "examples/refusals/02.pol");
    for (old, new, lines) in [
        (bad, good, "old,refused,12,11,6\n"),
        (good, bad, "new,refused,12,11,6\n"),
        (empty, bad, "old,refused,2,0,0\nnew,refused,12,11,6\n"),
        (bad, bad, "old,refused,12,11,6\nnew,refused,12,11,6\n"),
    ] {
        for options in [&[][..], &["--gains"][..]] {
            let ran = snowdell(&[&["diff", old, new], options].concat());
            assert_eq!((ran.status, ran.out.as_str()), (3, lines));
            for path in [old, new].iter().filter(|path| **path != good) {
                assert!(ran.err.contains(path), "{}", ran.err);
            }
            assert!(!ran.err.contains(good), "{}", ran.err);
        }
    }
}

#[test]
fn damaged_and_huge_files() {
    let file = text(CLOSED);
    let cut = diff("cut", &file, file.trim_end(), &[]);
    assert_eq!((cut.status, cut.out.as_str()), (3, "new,refused,2,0,0\n"));
    let carriage = diff("carriage", &file.replace('\n', "\r\n"), &file, &[]);
    assert_eq!((carriage.status, carriage.out.as_str()), (3, "old,refused,3,1,0\n"));
    let endless = snowdell(&["diff", "/dev/zero", CLOSED]);
    assert_eq!((endless.status, endless.out.as_str()), (3, "old,refused,2,0,0\n"));
    let long = diff("long", &file, &"S,ann,-\n".repeat(5_000), &[]);
    assert_eq!((long.status, long.out.as_str()), (3, "new,refused,2,0,0\n"));
}

/// Thousands of lines, of files with as many accesses as there can be.
#[test]
fn the_largest_files() {
    let (first, second) = ("evaluator/corpus/big/g000.pol", "evaluator/corpus/big/g007.pol");
    assert_eq!(snowdell(&["diff", first, second]).out, comparison(&known(first), &known(second)));
}

#[test]
fn arguments_and_paths() {
    let usage = "snowdell: usage: snowdell diff OLD NEW [--gains]; snowdell --help says more\n";
    for few_or_many in [&["diff"][..], &["diff", CLOSED], &["diff", "--gains"], &["diff", CLOSED, CLOSED, CLOSED]] {
        assert_eq!(snowdell(few_or_many), ran(2, "", usage));
    }
    let option = "snowdell: no option \"--gain\"; a file of that name is ./--gain; snowdell --help says more\n";
    assert_eq!(snowdell(&["diff", CLOSED, CLOSED, "--gain"]), ran(2, "", option));
    let once = "snowdell: standard input can be read only once; snowdell --help says more\n";
    assert_eq!(snowdell(&["diff", "-", "-"]), ran(2, "", once));
    let missing = "snowdell: no_such.pol: cannot be read: No such file or directory\n";
    assert_eq!(snowdell(&["diff", CLOSED, "no_such.pol"]), ran(2, "", missing));
    assert_eq!(snowdell(&["diff", "no_such.pol", "examples/refusals/02.pol"]), ran(2, "", missing));
    let folder = "snowdell: examples: cannot be read: Is a directory\n";
    assert_eq!(snowdell(&["diff", "examples", CLOSED]), ran(2, "", folder));
}

#[test]
fn the_old_file_on_standard_input() {
    let file = text(CLOSED);
    let old = with(&file, "G,ward,nurse,wk4,write\n", "");
    let gain = ran(1, "deny->permit,nurse,wk4,write\ngains,1,losses,0,came,0,went,0\n", "1 gain: 1 from deny to permit\n");
    assert_eq!(snowdell_with(&["diff", "-", CLOSED], old.as_bytes()), gain);
}

/// What a file's lines and the listing beside it say, without the program: its members by sort, and the answer of each access
/// that is not denied.
struct Known {
    members: [Vec<String>; 3],
    answers: HashMap<String, String>,
}

fn known(path: &str) -> Known {
    let mut members = [vec![], vec![], vec![]];
    for line in text(path).lines() {
        let fields: Vec<&str> = line.split(',').collect();
        if let Some(sort) = ["S", "O", "A"].iter().position(|letter| *letter == fields[0]) {
            members[sort].push(fields[1].to_string());
        }
    }
    let listing = text(&path.replace(".pol", ".out"));
    let lines = listing.lines().skip(1).map(|line| line.split_once(',').expect("an answer and its access"));
    Known { members, answers: lines.map(|(word, access)| (access.to_string(), word.to_string())).collect() }
}

impl Known {
    fn word(&self, access: [&String; 3]) -> &str {
        if (0..3).any(|sort| !self.members[sort].contains(access[sort])) {
            return "absent";
        }
        self.answers.get(&access.map(String::as_str).join(",")).map_or("deny", String::as_str)
    }
}

fn worth(word: &str) -> usize {
    WORDS.iter().position(|w| *w == word).expect("a word").max(1)
}

/// What `diff` has to print of two files, from their listings alone.
fn comparison(old: &Known, new: &Known) -> String {
    let (mut lines, mut all) = (Vec::new(), Vec::new());
    let [mut came, mut went, mut gains, mut losses] = [0; 4];
    for sort in 0..3 {
        let gone: Vec<&String> = old.members[sort].iter().filter(|m| !new.members[sort].contains(m)).collect();
        let more: Vec<&String> = new.members[sort].iter().filter(|m| !old.members[sort].contains(m)).collect();
        let letter = ["S", "O", "A"][sort];
        lines.extend(gone.iter().map(|name| format!("went,{letter},{name}")));
        lines.extend(more.iter().map(|name| format!("came,{letter},{name}")));
        (came, went) = (came + more.len(), went + gone.len());
        all.push(old.members[sort].iter().chain(more).collect::<Vec<_>>());
    }
    for s in &all[0] {
        for o in &all[1] {
            for a in &all[2] {
                let (before, after) = (old.word([s, o, a]), new.word([s, o, a]));
                match worth(before).cmp(&worth(after)) {
                    std::cmp::Ordering::Less => gains += 1,
                    std::cmp::Ordering::Greater => losses += 1,
                    std::cmp::Ordering::Equal => continue,
                }
                lines.push(format!("{before}->{after},{s},{o},{a}"));
            }
        }
    }
    lines.push(format!("gains,{gains},losses,{losses},came,{came},went,{went}\n"));
    lines.join("\n")
}

/// The accepted files of a folder.
fn accepted(folder: &str) -> Vec<String> {
    let entries = std::fs::read_dir(root().join(folder)).expect("a folder");
    let names = entries.map(|entry| entry.expect("an entry").file_name().into_string().expect("a name of text"));
    let mut paths: Vec<String> = names.filter(|n| n.ends_with(".pol")).map(|n| format!("{folder}/{n}")).collect();
    paths.retain(|path| !text(&path.replace(".pol", ".out")).starts_with("refused"));
    paths.sort();
    paths
}

/// A line of a comparison as it stands when the files change places.
fn mirrored(line: &str) -> String {
    let (first, rest) = line.split_once(',').expect("fields");
    match (first, first.split_once("->")) {
        ("came", _) => format!("went,{rest}"),
        ("went", _) => format!("came,{rest}"),
        ("gains", _) => {
            let n: Vec<&str> = rest.split(',').collect();
            format!("gains,{},losses,{},came,{},went,{}", n[2], n[0], n[6], n[4])
        }
        (_, Some((before, after))) => format!("{after}->{before},{rest}"),
        _ => panic!("{line}"),
    }
}

/// Every file beside every other: what the listings say, the mirror of the files in the other order, and nothing for a file
/// beside itself.
#[test]
fn every_pair_of_files() {
    let paths = [accepted("examples"), accepted("evaluator/corpus/worked")].concat();
    assert_eq!(paths.len(), 7 + 12);
    let files: Vec<Known> = paths.iter().map(|path| known(path)).collect();
    let mut printed = HashMap::new();
    for (i, old) in paths.iter().enumerate() {
        for (j, new) in paths.iter().enumerate() {
            let ran = snowdell(&["diff", old, new]);
            assert_eq!(ran.out, comparison(&files[i], &files[j]), "{old} {new}");
            assert_eq!(ran.status, i32::from(ran.out.lines().count() > 1), "{old} {new}");
            printed.insert((i, j), ran.out);
        }
    }
    for ((i, j), out) in &printed {
        let mut lines: Vec<String> = out.lines().map(mirrored).collect();
        let mut back: Vec<String> = printed[&(*j, *i)].lines().map(String::from).collect();
        lines.sort();
        back.sort();
        assert_eq!(lines, back, "{} {}", paths[*i], paths[*j]);
        assert!(i != j || out == "gains,0,losses,0,came,0,went,0\n", "{}", paths[*i]);
    }
}
