//! Files made for the benchmark: as many G lines as fit in 32,768 bytes, as many rules and names as there may be, and templates.

use evaluator::index::slot;
use evaluator::reader::MOST_FILE_BYTES;

/// A file of these members, with one action, one table and G lines for the pairs in turn.
fn grants(subjects: &[String], objects: &[String]) -> Vec<u8> {
    let mut file = Vec::new();
    for (kind, names) in [("S", subjects), ("O", objects)] {
        for name in names {
            file.extend(format!("{kind},{name},-\n").bytes());
        }
    }
    file.extend(b"A,r,-\nT,b,here\n");
    let end = b"E,0,b\n";
    let mut turn = 0;
    loop {
        let (subject, object) = (turn / objects.len() % subjects.len(), turn % objects.len());
        let line = format!("G,b,{},{},r\n", subjects[subject], objects[object]);
        if file.len() + line.len() + end.len() > MOST_FILE_BYTES {
            break;
        }
        file.extend(line.bytes());
        turn += 1;
    }
    file.extend(end);
    file
}

fn numbered(count: usize, name: impl Fn(usize) -> String) -> Vec<String> {
    (0..count).map(name).collect()
}

/// Full sorts of names that all begin at the last slot of the index.
fn of_last_slot(start: &str) -> Vec<String> {
    let bytes: Vec<char> = ('a'..='z').chain('0'..='9').chain(['_']).collect();
    let mut names = Vec::new();
    for first in &bytes {
        for second in &bytes {
            for third in &bytes {
                let name = format!("{start}{first}{second}{third}");
                if slot(name.as_bytes()) == 255 && names.len() < 64 {
                    names.push(name);
                }
            }
        }
    }
    assert_eq!(names.len(), 64);
    names
}

/// One member of each sort, the lines of a pattern with `#` for their number, and an expression.
fn small(patterns: &[(usize, &str)]) -> Vec<u8> {
    let mut file = "S,x,-\nO,y,-\nA,z,-\n".to_string();
    for (count, pattern) in patterns {
        for number in 0..*count {
            file += &pattern.replace('#', &number.to_string());
        }
    }
    (file + "E,0,t0\n").into_bytes()
}

/// 64 subjects, 64 objects and one action; the table `b` has all of `u0`, and the rules of `next` pass a subject's accesses to the
/// one after it, in 63 rounds.
fn in_line(expression: &str) -> Vec<u8> {
    let lines = |count: usize, line: &dyn Fn(usize) -> String| (0..count).map(line).collect::<String>();
    let mut file = lines(64, &|n| format!("S,u{n},-\n"));
    file += &lines(64, &|n| format!("O,v{n},-\n"));
    file += "A,z,-\nT,b,here\nT,w,away\n";
    file += &lines(64, &|n| format!("G,b,u0,v{n},z\n"));
    file += &lines(63, &|n| format!("R,next,u{},?0,z\nB,grant,u{n},?0,z\n", n + 1));
    let file = (file + &format!("E,4096,{expression}\n")).into_bytes();
    assert_eq!(evaluator::check(&file), Ok([64, 64, 1]), "{expression}");
    file
}

/// The same members and grants; one rule passes accesses to all below, beside 63 rules of other sets that no closure here goes by.
fn among_other_sets(expression: &str) -> Vec<u8> {
    let below = |kind: &str, letter: &str| -> String {
        (0..64).map(|n| format!("{kind},{letter}{n},{}\n", if n == 0 { "-".to_string() } else { format!("{letter}{}", n - 1) })).collect()
    };
    let mut file = below("S", "u") + &below("O", "v") + "A,z,-\nT,b,here\n";
    file += &(0..64).map(|n| format!("G,b,u0,v{n},z\n")).collect::<String>();
    file += "R,next,?0,?1,?2\nB,grant,?3,?1,?2\nB,le,S,?0,?3\n";
    file += &(0..63).map(|n| format!("R,other{},?0,?1,?2\nB,grant,?0,?1,?2\n", n % 15)).collect::<String>();
    let file = (file + &format!("E,4096,{expression}\n")).into_bytes();
    assert_eq!(evaluator::check(&file), Ok([64, 64, 1]), "{expression}");
    file
}

/// A text so many times, with joins between.
fn joined(text: &str, times: usize) -> String {
    let more = |n: usize| ["+", "&", "-"][n % 3].to_string() + text;
    text.to_string() + &(1..times).map(more).collect::<String>()
}

/// Four bindings in force, each used fourteen times and in the next one's F: 61 operators.
fn four_bindings() -> String {
    let uses: String = (0..13).map(|n| format!("{0}x0{0}x1{0}x2{0}x3", ["+", "&", "-"][n % 3])).collect();
    format!("(t:x0.(t:x1.(t:x2.(t:x3.x0+x1&x2-x3{uses})(x2))(x1-w))(x0&b))(b)")
}

/// The rows' names and files.
pub fn made() -> Vec<(String, Vec<u8>)> {
    let few = |letter: &str| numbered(16, |n| format!("{letter}{n}"));
    let short = |letter: &str| numbered(64, |n| format!("{letter}{n}"));
    let late = |letter: &str| numbered(64, |n| format!("{letter}{}{n:02}", "x".repeat(21)));
    let early = |letter: &str| numbered(64, |n| format!("{letter}{n:02}{}", "x".repeat(21)));
    let crowd = |letter: &str| of_last_slot(letter);
    let late_crowd = |letter: &str| of_last_slot(&format!("{letter}{}", "x".repeat(20)));
    let full = |name: &str, of: &dyn Fn(&str) -> Vec<String>| (name.to_string(), grants(&of("u"), &of("v")));
    let one = |name: &str, patterns: &[(usize, &str)]| (name.to_string(), small(patterns));
    let (table, head) = ((1, "T,t#,here\n"), "R,r,?0,?1,?2\n");
    let rule = format!("{head}B,grant,?0,?1,?2\nB,eq,S,x,x\nB,le,O,?1,y\nB,grant,x,y,z\n");
    vec![
        full("as many G lines as fit", &few),
        full("64 × 64, short names", &short),
        full("64 × 64, 24 bytes, the last differ", &late),
        full("64 × 64, 24 bytes, the first differ", &early),
        full("64 × 64, short names of one slot", &crowd),
        full("64 × 64, 24 bytes of one slot, the last differ", &late_crowd),
        one("64 rules of four lines", &[table, (64, &rule)]),
        one("64 rules without a body", &[table, (64, head)]),
        one("16 predicates, tables and rule sets", &[(16, "P,S,p#,x\n"), (16, "T,t#,here\n"), (16, "R,r#,?0,?1,?2\n")]),
        ("64 × 64, four bindings, each used 14 times".to_string(), in_line(&four_bindings())),
        ("64 × 64, a closure in a template, used 30 times".to_string(), in_line(&format!("(t:x.{})(b*next)", joined("x", 30)))),
        ("64 × 64, the same written out".to_string(), in_line(&joined("b*next", 30))),
        ("64 × 64, a closure of one rule, 63 rules of other sets, 32 times".to_string(), among_other_sets(&joined("b*next", 32))),
    ]
}
