//! Damaged files: sound ones with one to three faults.

// All faults of a file have one type, whether or not they change its length.
#![allow(clippy::ptr_arg)]

use super::random::Random;
use super::sound::{self, Draft, ORDER_WORDS, SORT_WORDS};
use crate::policy::*;
use crate::reader::{is_name_byte, MOST_FILE_BYTES};

/// Lines without their LF, and the sound file they come from.
struct Damage<'a> {
    random: &'a mut Random,
    draft: Draft,
    lines: Vec<Vec<u8>>,
}

type LineFault = fn(&mut Damage);
type FileFault = fn(&mut Random, &mut Vec<u8>);

enum Fault {
    Lines(LineFault),
    File(FileFault),
}

use Fault::{File, Lines};

const FAULTS: [Fault; 59] = [
    Lines(swap_lines),
    Lines(duplicate_line),
    Lines(delete_line),
    Lines(move_line),
    Lines(odd_field),
    Lines(drop_field),
    Lines(add_field),
    Lines(change_kind),
    Lines(change_word),
    Lines(undeclared_name),
    Lines(undeclared_name),
    Lines(too_many_members),
    Lines(too_many_predicates),
    Lines(too_many_tables),
    Lines(too_many_rule_sets),
    Lines(too_many_rules),
    Lines(too_many_atoms),
    Lines(too_many_accesses),
    Lines(empty_sort),
    Lines(declared_twice),
    Lines(declared_twice),
    Lines(grant_for_away),
    Lines(grant_for_away),
    Lines(variable_at_two_sorts),
    Lines(variable_at_two_sorts),
    Lines(odd_limit),
    Lines(expression_byte),
    Lines(expression_cut),
    Lines(deep_brackets),
    Lines(long_name_in_expression),
    Lines(undeclared_in_expression),
    Lines(undeclared_in_expression),
    Lines(other_name_in_expression),
    Lines(too_many_sets),
    Lines(too_many_sets),
    Lines(too_many_operators),
    Lines(too_many_operators),
    Lines(odd_template),
    Lines(odd_template),
    Lines(odd_template),
    Lines(t_in_expression),
    Lines(t_as_a_name),
    Lines(unbound_name),
    Lines(too_many_bindings),
    Lines(too_many_bindings),
    Lines(too_many_bindings),
    Lines(empty_expression),
    Lines(no_expression),
    Lines(no_expression),
    Lines(line_after_expression),
    Lines(carriage_return),
    Lines(not_ascii),
    File(flip_bit),
    File(replace_byte),
    File(delete_byte),
    File(insert_byte),
    File(cut_off),
    File(too_long),
    File(not_closed),
];

/// The first fault goes round with the file's number, so that all occur.
pub fn policy(random: &mut Random, number: u64) -> Vec<u8> {
    let draft = sound::policy(random);
    let mut chosen = vec![(number % FAULTS.len() as u64) as usize];
    for _ in 0..random.choose(&[0, 0, 0, 1, 1, 2]) {
        chosen.push(random.below(FAULTS.len()));
    }
    let lines = draft.lines.iter().map(|line| line.clone().into_bytes());
    let mut damage = Damage {
        lines: lines.collect(),
        random,
        draft,
    };
    for &fault in &chosen {
        if let Lines(fault) = FAULTS[fault] {
            fault(&mut damage);
        }
    }
    let mut file = Vec::new();
    for line in &damage.lines {
        file.extend(line);
        file.push(b'\n');
    }
    for &fault in &chosen {
        if let File(fault) = FAULTS[fault] {
            fault(damage.random, &mut file);
        }
    }
    file
}

fn rank(line: &[u8]) -> usize {
    let kind = line.first().copied().unwrap_or(b'S');
    b"SOAPTGRE"
        .iter()
        .position(|&known| known == kind)
        .unwrap_or(6)
}

impl Damage<'_> {
    fn any_line(&mut self) -> usize {
        self.random.below(self.lines.len())
    }

    /// The number of a line of one of these kinds.
    fn line_of(&mut self, kinds: &[u8]) -> Option<usize> {
        let of_kind = |line: &Vec<u8>| line.first().is_some_and(|kind| kinds.contains(kind));
        let numbers = (0..self.lines.len()).filter(|&n| of_kind(&self.lines[n]));
        let numbers: Vec<usize> = numbers.collect();
        (!numbers.is_empty()).then(|| self.random.choose(&numbers))
    }

    /// Puts a line at the end of its group.
    fn insert(&mut self, line: String) {
        let line = line.into_bytes();
        let later = |other: &Vec<u8>| rank(other) > rank(&line);
        let at = self.lines.iter().position(later);
        self.lines.insert(at.unwrap_or(self.lines.len()), line);
    }

    fn count(&self, kind: &str) -> usize {
        let of_kind = |line: &&Vec<u8>| line.starts_with(kind.as_bytes());
        self.lines.iter().filter(of_kind).count()
    }

    fn fields(&self, line: usize) -> Vec<Vec<u8>> {
        let fields = self.lines[line].split(|&byte| byte == b',');
        fields.map(<[u8]>::to_vec).collect()
    }

    fn set_fields(&mut self, line: usize, fields: &[Vec<u8>]) {
        self.lines[line] = fields.join(&b',');
    }

    fn member(&mut self, sort: usize) -> String {
        let member: &str = self.random.pick(&self.draft.members[sort]);
        member.to_string()
    }

    fn table(&mut self) -> String {
        let table = self.random.below(self.draft.tables.len());
        self.draft.tables[table].0.clone()
    }

    /// The number of an R line, which is made if there is none.
    fn rule(&mut self) -> usize {
        if self.count("R,") == 0 {
            self.insert("R,extra,?0,?1,?2".to_string());
        }
        self.line_of(b"R").unwrap_or(0)
    }

    /// The E line's number, limit and expression.
    fn expression(&self) -> Option<(usize, Vec<u8>, Vec<u8>)> {
        let line = self
            .lines
            .iter()
            .rposition(|line| line.starts_with(b"E,"))?;
        let mut fields = self.lines[line].splitn(3, |&byte| byte == b',').skip(1);
        let (limit, expression) = (fields.next()?, fields.next()?);
        Some((line, limit.to_vec(), expression.to_vec()))
    }

    fn set_expression(&mut self, expression: &[u8]) {
        if let Some((line, limit, _)) = self.expression() {
            self.lines[line] = [b"E", &limit[..], expression].join(&b',');
        }
    }

    /// Puts another text in the place of a name of the expression.
    fn replace_name(&mut self, text: &str) {
        let Some((_, _, old)) = self.expression() else {
            return;
        };
        let starts: Vec<usize> = (0..old.len())
            .filter(|&at| is_name_byte(old[at]) && (at == 0 || !is_name_byte(old[at - 1])))
            .collect();
        if starts.is_empty() {
            return;
        }
        let start = self.random.choose(&starts);
        let rest = &old[start..];
        let end = rest.iter().position(|&byte| !is_name_byte(byte));
        let after = &rest[end.unwrap_or(rest.len())..];
        let new = [&old[..start], text.as_bytes(), after].concat();
        self.set_expression(&new);
    }
}

fn swap_lines(damage: &mut Damage) {
    let (one, other) = (damage.any_line(), damage.any_line());
    damage.lines.swap(one, other);
}

fn duplicate_line(damage: &mut Damage) {
    let (from, to) = (damage.any_line(), damage.any_line());
    let to = if damage.random.percent(50) { from } else { to };
    let line = damage.lines[from].clone();
    damage.lines.insert(to, line);
}

fn delete_line(damage: &mut Damage) {
    let line = damage.any_line();
    if damage.lines.len() > 1 {
        damage.lines.remove(line);
    }
}

fn move_line(damage: &mut Damage) {
    let (from, to) = (damage.any_line(), damage.any_line());
    let line = damage.lines.remove(from);
    damage.lines.insert(to, line);
}

const ODD_FIELDS: [&str; 21] = [
    "",
    "-",
    "s",
    "o",
    "a",
    "t",
    "S",
    "?0",
    "?3",
    "?4",
    "??",
    "?",
    "A1",
    "_a",
    "9a",
    "a b",
    " a",
    "abcdefghijklmnopqrstuvwxy",
    "nobody",
    "here",
    "le",
];

fn odd_field(damage: &mut Damage) {
    let line = damage.any_line();
    let mut fields = damage.fields(line);
    let at = damage.random.below(fields.len());
    fields[at] = damage.random.choose(&ODD_FIELDS).as_bytes().to_vec();
    damage.set_fields(line, &fields);
}

fn drop_field(damage: &mut Damage) {
    let line = damage.any_line();
    let mut fields = damage.fields(line);
    let at = damage.random.below(fields.len());
    fields.remove(at);
    damage.set_fields(line, &fields);
}

fn add_field(damage: &mut Damage) {
    let line = damage.any_line();
    let mut fields = damage.fields(line);
    let at = damage.random.between(0, fields.len());
    let field = damage.random.choose(&ODD_FIELDS);
    fields.insert(at, field.as_bytes().to_vec());
    damage.set_fields(line, &fields);
}

fn change_kind(damage: &mut Damage) {
    let line = damage.any_line();
    let kind = damage.random.choose(b"SOAPTGRBEHsoX -");
    if let Some(first) = damage.lines[line].first_mut() {
        *first = kind;
    }
}

/// Puts another good word in the place of a T, P or B line's.
fn change_word(damage: &mut Damage) {
    let Some(line) = damage.line_of(b"TPB") else {
        return;
    };
    let mut fields = damage.fields(line);
    let (at, word) = match (damage.lines[line][0], damage.random.percent(50)) {
        (b'T', _) => (2, damage.random.choose(&["here", "away"])),
        (b'P', _) => (1, damage.random.choose(&SORT_WORDS)),
        (_, true) => (2, damage.random.choose(&SORT_WORDS)),
        (_, false) => (1, damage.random.choose(&ORDER_WORDS)),
    };
    if at < fields.len() {
        fields[at] = word.as_bytes().to_vec();
    }
    damage.set_fields(line, &fields);
}

fn undeclared_name(damage: &mut Damage) {
    let Some(line) = damage.line_of(b"SOAPGRB") else {
        return;
    };
    let mut fields = damage.fields(line);
    let last = fields.len() - 1;
    let at = last - damage.random.below(last.min(3));
    fields[at] = b"nobody".to_vec();
    damage.set_fields(line, &fields);
}

fn add_members(damage: &mut Damage, sort: usize, count: usize) {
    let word = SORT_WORDS[sort];
    for number in damage.count(&format!("{word},"))..count {
        damage.insert(format!("{word},extra_{number},-"));
    }
}

fn too_many_members(damage: &mut Damage) {
    let sort = damage.random.below(3);
    let more = damage.random.between(1, 3);
    add_members(damage, sort, Sort::ALL[sort].most_members() + more);
}

fn too_many_accesses(damage: &mut Damage) {
    let counts = damage.random.choose(&[
        [64, 64, 2],
        [64, 22, 3],
        [20, 13, 16],
        [17, 61, 4],
        [64, 64, 16],
    ]);
    for (sort, count) in counts.into_iter().enumerate() {
        add_members(damage, sort, count);
    }
}

fn empty_sort(damage: &mut Damage) {
    let word = damage.random.choose(b"SOA");
    damage.lines.retain(|line| line.first() != Some(&word));
    if damage.lines.is_empty() {
        damage.lines.push(b"E,0,b".to_vec());
    }
}

fn too_many_predicates(damage: &mut Damage) {
    for number in 0..MOST_PREDICATES + 1 {
        let sort = damage.random.below(3);
        let member = damage.member(sort);
        damage.insert(format!("P,{},extra_{number},{member}", SORT_WORDS[sort]));
    }
}

fn too_many_tables(damage: &mut Damage) {
    for number in damage.count("T,")..MOST_TABLES + 1 {
        damage.insert(format!("T,extra_{number},here"));
    }
}

fn too_many_rule_sets(damage: &mut Damage) {
    for number in 0..MOST_RULE_SETS + 1 {
        damage.insert(format!("R,extra_{number},?0,?1,?2"));
    }
}

fn too_many_rules(damage: &mut Damage) {
    for _ in damage.count("R,")..MOST_RULES + 1 {
        damage.insert("R,extra,?0,?1,?2".to_string());
    }
}

fn too_many_atoms(damage: &mut Damage) {
    let rule = damage.rule();
    for _ in 0..MOST_BODY_ATOMS + 1 {
        let sort = damage.random.below(3);
        let (word, member) = (SORT_WORDS[sort], damage.member(sort));
        let line = format!("B,eq,{word},{member},{member}");
        damage.lines.insert(rule + 1, line.into_bytes());
    }
}

/// A member or table again, with its own parent or word or another.
fn declared_twice(damage: &mut Damage) {
    let Some(line) = damage.line_of(b"SOAT") else {
        return;
    };
    let mut fields = damage.fields(line);
    if fields.len() == 3 && damage.random.percent(40) {
        let table = fields[0] == b"T";
        let other: &[u8] = if table { b"away" } else { b"-" };
        fields[2] = other.to_vec();
    }
    let line = fields.join(&b',');
    damage.insert(String::from_utf8_lossy(&line).into_owned());
}

fn grant_for_away(damage: &mut Damage) {
    let granted = damage.line_of(b"G");
    let table = match granted {
        Some(line) if damage.random.percent(50) => damage.fields(line).get(1).cloned(),
        _ => None,
    };
    if let Some(table) = table {
        let here = [b"T", &table[..], b"here"].join(&b',');
        let away = [b"T", &table[..], b"away"].join(&b',');
        for line in &mut damage.lines {
            if *line == here {
                *line = away.clone();
            }
        }
        return;
    }
    let [s, o, a] = [0, 1, 2].map(|sort| damage.member(sort));
    damage.insert("T,far,away".to_string());
    damage.insert(format!("G,far,{s},{o},{a}"));
}

/// In the head, in one atom, or in two atoms of one rule.
fn variable_at_two_sorts(damage: &mut Damage) {
    let rule = damage.rule();
    let mut fields = damage.fields(rule);
    let variable = damage.random.below(4);
    match damage.random.below(3) {
        0 if fields.len() == 5 => {
            let kept = damage.random.between(2, 4);
            for at in (2..5).filter(|&at| at != kept) {
                fields[at] = format!("?{variable}").into_bytes();
            }
            damage.set_fields(rule, &fields);
        }
        1 => {
            let action = damage.member(2);
            let line = format!("B,grant,?{variable},?{variable},{action}");
            damage.lines.insert(rule + 1, line.into_bytes());
        }
        _ => {
            for word in ["S", "O"] {
                let line = format!("B,eq,{word},?{variable},?{variable}");
                damage.lines.insert(rule + 1, line.into_bytes());
            }
        }
    }
}

fn odd_limit(damage: &mut Damage) {
    let limits = [
        "00",
        "01",
        "0999",
        "04096",
        "4097",
        "4098",
        "5000",
        "9999",
        "10000",
        "99999999999",
        "",
        "-1",
        "+1",
        "x",
        "1 ",
        "4096",
    ];
    if let Some((line, _, expression)) = damage.expression() {
        let limit = damage.random.choose(&limits);
        damage.lines[line] = [b"E", limit.as_bytes(), &expression].join(&b',');
    }
}

const EXPRESSION_BYTES: &[u8] = b"abostz09_(),[]^*+&-<>=?:. \r";

fn expression_byte(damage: &mut Damage) {
    let Some((_, _, mut expression)) = damage.expression() else {
        return;
    };
    for _ in 0..damage.random.between(1, 2) {
        let byte = damage.random.choose(EXPRESSION_BYTES);
        let at = damage.random.below(expression.len());
        match damage.random.below(3) {
            0 if at < expression.len() => expression[at] = byte,
            1 if expression.len() > 1 => {
                expression.remove(at);
            }
            _ => expression.insert(at, byte),
        }
    }
    damage.set_expression(&expression);
}

fn expression_cut(damage: &mut Damage) {
    if let Some((_, _, expression)) = damage.expression() {
        let cut = damage.random.below(expression.len());
        damage.set_expression(&expression[..cut]);
    }
}

fn deep_brackets(damage: &mut Damage) {
    let Some((_, _, mut expression)) = damage.expression() else {
        return;
    };
    for _ in 0..damage.random.between(30, 34) {
        let table = damage.table();
        let around = match damage.random.below(20) {
            0 | 1 => (format!("o({table},{table},"), ")"),
            2 => ("(t:x.x)(".to_string(), ")"),
            _ => ("(".to_string(), ")"),
        };
        expression = [around.0.as_bytes(), &expression, around.1.as_bytes()].concat();
    }
    damage.set_expression(&expression);
}

fn long_name_in_expression(damage: &mut Damage) {
    let bytes = damage.random.choose(&[24, 25, 26, 60]);
    damage.replace_name(&"n".repeat(bytes));
}

fn undeclared_in_expression(damage: &mut Damage) {
    damage.replace_name("nobody");
}

/// A name that is declared, but perhaps as another kind, or a letter that is
/// none alone.
fn other_name_in_expression(damage: &mut Damage) {
    let draft = &damage.draft;
    let mut names: Vec<String> = draft.members.concat();
    names.extend(draft.rule_sets.iter().cloned());
    names.extend(draft.tables.iter().map(|table| table.0.clone()));
    names.extend(draft.predicates.iter().map(|predicate| predicate.1.clone()));
    names.extend(["s", "o", "a", "t"].map(str::to_string));
    let name: &str = damage.random.pick(&names);
    damage.replace_name(name);
}

fn too_many_sets(damage: &mut Damage) {
    let table = damage.table();
    let depth = damage.random.between(13, 17);
    let opened = format!("{table}{}(", damage.random.choose(&["+", "&", "-"]));
    let expression = opened.repeat(depth) + &table + &")".repeat(depth);
    damage.set_expression(expression.as_bytes());
}

fn too_many_operators(damage: &mut Damage) {
    let table = damage.table();
    let (sort, more) = (
        damage.random.below(3),
        damage.random.choose(&[64, 65, 66, 500]),
    );
    let member = damage.member(sort);
    let operator = match damage.random.percent(50) {
        true => format!("+{table}"),
        false => format!("^[{}<={member}]", ["s", "o", "a"][sort]),
    };
    let expression = table + &operator.repeat(more);
    damage.set_expression(expression.as_bytes());
}

/// Templates with a byte too few, too many or wrong, `b` standing for a table.
const ODD_TEMPLATES: [&str; 40] = [
    "(t",
    "(t:",
    "(t:x",
    "(t:x.",
    "(t:x.x",
    "(t:x.x)",
    "(t:x.x)(",
    "(t:x.x)(b",
    "(t)",
    "(t)(b)",
    "(tx.x)(b)",
    "(t:x)(b)",
    "(t:xx)(b)",
    "(t:x,x)(b)",
    "(t:x:x)(b)",
    "(t.x:x)(b)",
    "(t:.x)(b)",
    "(t:x.)(b)",
    "(t:x..x)(b)",
    "(t:x.x)()",
    "(t:x.x)b",
    "(t:x.x)+(b)",
    "(t:x.x)^[s=x](b)",
    "((t:x.x))(b)",
    "(t:x.x)((b)",
    "(t:x.x)(b))",
    "(t:x.x)(b)(b)",
    "(t:x.x)(t:x.x)(b)",
    "(t:x.t:y.x)(b)",
    "(t:x.x,b)(b)",
    "(t:x.x)(b,b)",
    "(T:x.x)(b)",
    "(t:X.b)(b)",
    "(t:1.b)(b)",
    "(t:s.b)(b)",
    "(t:t.b)(b)",
    "(t:nnnnnnnnnnnnnnnnnnnnnnnnn.b)(b)",
    "t:x.x",
    "o(t:x.x)(b)",
    "x.x)(b)",
];

/// Such a template before, behind or around the expression, or alone.
fn odd_template(damage: &mut Damage) {
    let Some((_, _, old)) = damage.expression() else {
        return;
    };
    let table = damage.table();
    let odd = damage.random.choose(&ODD_TEMPLATES).replace('b', &table);
    let (odd, join) = (odd.as_bytes(), damage.random.choose(b"+&-"));
    let new = match damage.random.below(4) {
        0 => odd.to_vec(),
        1 => [odd, &[join], &old[..]].concat(),
        2 => [&old[..], &[join], odd].concat(),
        _ => [b"(t:x.", &old[..], &[join], odd, b")(", table.as_bytes(), b")"].concat(),
    };
    damage.set_expression(&new);
}

fn t_in_expression(damage: &mut Damage) {
    damage.replace_name("t");
}

/// A member, table, predicate or rule set is `t`, on every line that names it.
fn t_as_a_name(damage: &mut Damage) {
    let Some(line) = damage.line_of(b"SOAPTR") else {
        return;
    };
    let at = if damage.lines[line][0] == b'P' { 2 } else { 1 };
    let Some(name) = damage.fields(line).get(at).cloned() else {
        return;
    };
    for line in 0..damage.lines.len() {
        let mut fields = damage.fields(line);
        for field in fields.iter_mut().skip(1).filter(|field| **field == name) {
            *field = b"t".to_vec();
        }
        damage.set_fields(line, &fields);
    }
}

/// Names that a template does not declare where they stand, `b` standing for a
/// table and `nobody` for no name of the file.
const UNBOUND: [&str; 9] = [
    "(t:nobody.nobody)(nobody)",
    "(t:nobody.nobody)(b)+nobody",
    "nobody-(t:nobody.nobody)(b)",
    "(t:x.nobody)(nobody2)",
    "(t:x.b)(nobody)",
    "(t:x.(t:nobody.nobody)(nobody))(b)",
    "(t:nobody.nobody*nobody)(b)",
    "(t:nobody.b^[s=nobody])(b)",
    "(t:nobody.b^[nobody(s)])(b)",
];

fn unbound_name(damage: &mut Damage) {
    let table = damage.table();
    // The table's name is put in last, as it may have any letters.
    let parts: Vec<&str> = damage.random.choose(&UNBOUND).split("nobody").collect();
    let parts: Vec<String> = parts.iter().map(|part| part.replace('b', &table)).collect();
    damage.set_expression(parts.join("nobody").as_bytes());
}

/// Five to fourteen templates, each in the E of the one before, around a table
/// or the expression.
fn too_many_bindings(damage: &mut Damage) {
    let Some((_, _, old)) = damage.expression() else {
        return;
    };
    let mut text = match damage.random.percent(30) {
        true => String::from_utf8_lossy(&old).into_owned(),
        false => damage.table(),
    };
    for _ in 0..damage.random.choose(&[5, 5, 5, 6, 8, 12, 13, 14]) {
        let (name, table) = (damage.random.choose(&["x", "y", "z1"]), damage.table());
        text = format!("(t:{name}.{text})({table})");
    }
    damage.set_expression(text.as_bytes());
}

fn empty_expression(damage: &mut Damage) {
    damage.set_expression(b"");
}

fn no_expression(damage: &mut Damage) {
    if damage.lines.len() > 1 {
        damage.lines.retain(|line| !line.starts_with(b"E,"));
    }
}

fn line_after_expression(damage: &mut Damage) {
    let line = match damage.random.percent(80) {
        true => {
            let line = damage.any_line();
            damage.lines[line].clone()
        }
        false => Vec::new(),
    };
    damage.lines.push(line);
}

fn carriage_return(damage: &mut Damage) {
    if damage.random.percent(30) {
        damage.lines.iter_mut().for_each(|line| line.push(b'\r'));
    } else {
        let line = damage.any_line();
        damage.lines[line].push(b'\r');
    }
}

fn not_ascii(damage: &mut Damage) {
    let line = damage.any_line();
    let at = damage.random.between(0, damage.lines[line].len());
    let byte = damage.random.between(0x80, 0xff) as u8;
    damage.lines[line].insert(at, byte);
}

const FILE_BYTES: &[u8] = b"\n\n,,-?SOAPTGRBEabostz059_()[]^*+&<>=:. \t\r\0\x7f\x80\xc3\xff";

fn flip_bit(random: &mut Random, file: &mut Vec<u8>) {
    let at = random.below(file.len());
    if let Some(byte) = file.get_mut(at) {
        *byte ^= 1 << random.below(8);
    }
}

fn replace_byte(random: &mut Random, file: &mut Vec<u8>) {
    let at = random.below(file.len());
    if let Some(byte) = file.get_mut(at) {
        *byte = random.choose(FILE_BYTES);
    }
}

fn delete_byte(random: &mut Random, file: &mut Vec<u8>) {
    let at = random.below(file.len());
    if at < file.len() {
        file.remove(at);
    }
}

fn insert_byte(random: &mut Random, file: &mut Vec<u8>) {
    let at = random.between(0, file.len());
    file.insert(at, random.choose(FILE_BYTES));
}

/// Cut at any byte, the very first included; half of these closed again.
fn cut_off(random: &mut Random, file: &mut Vec<u8>) {
    let at = match random.percent(10) {
        true => 0,
        false => random.below(file.len()),
    };
    file.truncate(at);
    if random.percent(50) {
        file.push(b'\n');
    }
}

/// Longer than a file may be, be it by one byte.
fn too_long(random: &mut Random, file: &mut Vec<u8>) {
    let more = random.choose(&[1, 2, 100, 32_768, 65_536]);
    let first = file.iter().position(|&byte| byte == b'\n').unwrap_or(0);
    let line = file[..first].to_vec();
    while file.len() < MOST_FILE_BYTES + more {
        file.extend(&line);
        file.push(b'\n');
    }
    file.truncate(MOST_FILE_BYTES + more);
    if let Some(last) = file.last_mut() {
        *last = b'\n';
    }
}

fn not_closed(_: &mut Random, file: &mut Vec<u8>) {
    while file.last() == Some(&b'\n') {
        file.pop();
    }
}
