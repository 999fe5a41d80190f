//! Files with as many lines of each kind as there may be, and with one more; and files that are no policies.

use super::{case, Case, Known, MOST_BYTES};
use evaluator::generate::random::Random;

/// One member of each sort, and one table.
const ONE: &str = "S,x,-\nO,y,-\nA,z,-\n";
const TABLE: &str = "T,t000,here\n";
const END: &str = "E,4096,t000\n";

/// A pattern, `#` standing for its number in three digits and `~` for the number before.
fn numbered(pattern: &str, number: usize) -> String {
    pattern.replace('#', &format!("{number:03}")).replace('~', &format!("{:03}", number.saturating_sub(1)))
}

fn lines(count: usize, pattern: &str) -> String {
    (0..count).map(|number| numbered(pattern, number)).collect()
}

/// As many lines of a pattern as fit between a start and an end, their numbers below 64.
fn filled(start: &str, pattern: &str, end: &str) -> String {
    let (room, line, turn) = (MOST_BYTES - start.len() - end.len(), numbered(pattern, 0).len(), lines(64, pattern));
    let many = turn.repeat(room / turn.len() + 1);
    format!("{start}{}{end}", &many[..room / line * line])
}

/// A name of 24 bytes, of which the last three are its number.
fn long(letter: char) -> String {
    format!("{letter}{}#", "x".repeat(20))
}

/// A sort of so many members, each below the one before.
fn chain(count: usize, kind: char, letter: char) -> String {
    let (name, parent) = (long(letter), long(letter).replace('#', "~"));
    let below = |number| numbered(&format!("{kind},{name},{parent}\n"), number);
    let top = |number| numbered(&format!("{kind},{name},-\n"), number);
    (0..count).map(|number| if number == 0 { top(number) } else { below(number) }).collect()
}

fn members(subjects: usize, objects: usize, actions: usize) -> String {
    chain(subjects, 'S', 'u') + &chain(objects, 'O', 'v') + &chain(actions, 'A', 'z')
}

/// As many members, predicates, tables, rule sets and rules as there may be, with names of 24 bytes; an expression of 64 operators
/// that names every table, predicate and set; and grants for the rest.
fn full_house(atoms: &str, limit: usize) -> String {
    let (predicate, table, set) = (long('p'), long('t'), long('r'));
    let mut start = members(64, 64, 1);
    start += &lines(16, &format!("P,S,{predicate},{}\n", numbered(&long('u'), 1)));
    start += &lines(16, &format!("T,{table},here\n"));
    let rule = |number: usize| numbered(&format!("R,{set},?0,?1,?2\n{atoms}"), number % 16);
    let rules: String = (0..64).map(rule).collect();
    let mut expression = numbered(&format!("{table}*{set}"), 0);
    for number in 1..16 {
        let level = numbered(&format!(",{table},{table}*{set})^[{predicate}(s)]"), number);
        expression = format!("o({expression}{level}");
    }
    expression += &numbered(&format!("*{set}"), 0).repeat(18);
    let grant = format!("G,{},{},{},{}\n", numbered(&table, 0), long('u'), long('v'), numbered(&long('z'), 0));
    filled(&start, &grant, &format!("{rules}E,{limit},{expression}\n"))
}

fn full_houses() -> Vec<Case> {
    let grants = "B,grant,?3,?1,?2\nB,grant,?0,?1,?2\nB,grant,?3,?1,?2\nB,le,S,?0,?3\n".to_string();
    let orders = "B,le,S,?0,?3\nB,ge,O,?1,?1\nB,gt,S,?3,?0\nB,lt,S,?0,?3\n".to_string();
    let marks = format!("B,has,S,{0},?0\nB,has,S,{0},?3\nB,grant,?3,?1,?2\nB,eq,S,?3,?3\n", long('p'));
    let mut cases = Vec::new();
    for (name, atoms) in [("grants", grants), ("orders", orders), ("marks", marks)] {
        for limit in [0, 3, 4096] {
            let name = format!("a full house, rules of {name}, at most {limit} rounds");
            cases.push(case(name, full_house(&atoms, limit), Known::Accepted));
        }
    }
    cases
}

fn accepted(name: &str, parts: &[&str]) -> Case {
    case(name, parts.concat(), Known::Accepted)
}

/// The last line is the one that is refused.
fn refused(name: &str, number: usize, parts: &[&str]) -> Case {
    let text = parts.concat();
    let line = text.lines().count();
    case(name, text, Known::Refused(number, line, 0))
}

fn one_group() -> Vec<Case> {
    let head = "R,r,?0,?1,?2\n";
    let rule = format!("{head}B,grant,?0,?1,?2\nB,eq,S,x,?0\nB,le,O,?1,y\nB,lt,A,?2,z\n");
    let closed = "E,4096,t000*r\n";
    let full = members(64, 64, 1) + TABLE;
    let one = ONE.to_string() + TABLE;
    let grant = format!("G,t000,{},{},{}\n", long('u'), long('v'), numbered(&long('z'), 0));
    let marked = lines(64, "S,u#,-\n") + "O,y,-\nA,z,-\n";
    let many_grants = filled(&one, "G,t000,x,y,z\n", END);
    let long_grants = filled(&full, &grant, END);
    let many_marks = filled(&marked, "P,S,p,u#\n", &format!("{TABLE}{END}"));
    let no_end = filled(&one, "G,t000,x,y,z\n", "");
    vec![
        accepted("64 x 64 x 1", &[&full, END]),
        accepted("64 x 4 x 16", &[&members(64, 4, 16), TABLE, END]),
        accepted("16 x 16 x 16", &[&members(16, 16, 16), TABLE, END]),
        accepted("grants", &[&many_grants]),
        accepted("grants of 64 x 64 x 1", &[&long_grants]),
        accepted("marks", &[&many_marks]),
        accepted("16 predicates", &[ONE, &lines(16, "P,S,p#,x\n"), TABLE, END]),
        accepted("16 tables", &[ONE, &lines(16, "T,t#,here\n"), END]),
        accepted("16 rule sets", &[&one, &lines(16, "R,r#,?0,?1,?2\n"), END]),
        accepted("64 rules of four atoms", &[&one, &rule.repeat(64), closed]),
        accepted("64 rules without a body", &[&one, &head.repeat(64), closed]),
        refused("65 subjects", 7, &[&members(65, 0, 0)]),
        refused("65 objects", 7, &[&members(1, 65, 0)]),
        refused("17 actions", 7, &[&members(1, 1, 17)]),
        refused("64 x 64 x 2", 8, &[&members(64, 64, 2), TABLE]),
        refused("no action", 8, &[&members(64, 64, 0), TABLE]),
        refused("17 predicates", 7, &[ONE, &lines(17, "P,S,p#,x\n")]),
        refused("17 tables", 7, &[ONE, &lines(17, "T,t#,here\n")]),
        refused("17 rule sets", 7, &[&one, &lines(17, "R,r#,?0,?1,?2\n")]),
        refused("65 rules", 7, &[&one, &head.repeat(65)]),
        refused("a fifth atom", 7, &[&one, &rule, "B,eq,S,x,?0\n"]),
        refused("a variable at two sorts", 11, &[&one, head, "B,grant,?0,?1,?2\n", "B,eq,S,x,?1\n"]),
        case("no expression", no_end, Known::Refused(9, 0, 0)),
    ]
}

fn senseless() -> Vec<Case> {
    let mut cases = vec![
        case("an empty file", "", Known::Refused(2, 0, 0)),
        case("a byte too many", vec![b'\n'; MOST_BYTES + 1], Known::Refused(2, 0, 0)),
        case("a million bytes", vec![b'\n'; 1_000_000], Known::Refused(2, 0, 0)),
        case("not closed", vec![b'S'; MOST_BYTES], Known::Refused(2, 0, 0)),
    ];
    for byte in 0..=255 {
        let file = [vec![byte; MOST_BYTES - 1], vec![b'\n']].concat();
        cases.push(case(format!("byte {byte} over and over"), file, Known::Refused(3, 1, 0)));
    }
    let bytes: Vec<u8> = (0..=255).collect();
    for (name, alphabet) in [("bytes", &bytes[..]), ("signs", b"SOAPTGRBE,-?0123^[]<=>+&*o(t:.),abx_\n")] {
        for number in 0..20 {
            let random = &mut Random::new(7, 0, number);
            let mut file: Vec<u8> = (1..MOST_BYTES).map(|_| random.choose(alphabet)).collect();
            file.push(b'\n');
            cases.push(case(format!("senseless {name} {number}"), file, Known::Nothing));
        }
    }
    cases
}

pub fn cases() -> Vec<Case> {
    let mut cases = full_houses();
    cases.extend(one_group());
    cases.extend(senseless());
    cases
}
