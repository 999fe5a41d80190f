//! Number 3: why a line cannot be read by itself.

use super::fields::{quoted, Field};
use super::{Fault, Hint};

pub const LONGEST_NAME: usize = 24;
pub const NAMES_HAVE: &str = "names have a to z, 0 to 9 and _";
/// The kinds in the order of their groups; R and B are one group.
pub const KINDS: &[u8] = b"SOAPTGRBE";
const BODY_WORDS: &[&str] = &["grant", "has", "le", "ge", "lt", "gt", "eq"];
pub const WINDOWS_END: &str = "the line ends with CR LF, as files from Windows do; close it with LF alone";
pub const NO_COMMENTS: &str = "the language has no comments";

/// What a field has to be.
#[derive(Clone, Copy)]
enum Role {
    Name,
    /// A name or `-`.
    Parent,
    Sort,
    State,
    /// The second field of a B line.
    Word,
    /// A name or a variable.
    Term,
    Limit,
    Expression,
}

/// How lines of a kind are written, and the fields after the kind.
struct Form {
    written: &'static str,
    roles: &'static [Role],
}

impl Form {
    fn of(fields: &[Field]) -> Option<Form> {
        use Role::*;
        let (written, roles): (_, &[Role]) = match fields[0].text {
            b"S" => ("S,name,parent with - for no parent", &[Name, Parent]),
            b"O" => ("O,name,parent with - for no parent", &[Name, Parent]),
            b"A" => ("A,name,parent with - for no parent", &[Name, Parent]),
            b"P" => ("P,sort,predicate,member", &[Sort, Name, Name]),
            b"T" => ("T,table,here or T,table,away", &[Name, State]),
            b"G" => ("G,table,subject,object,action", &[Name, Name, Name, Name]),
            b"R" => ("R,ruleset,subject,object,action", &[Name, Term, Term, Term]),
            b"B" => return Some(Form::of_body(fields.get(1).map(|word| word.text))),
            b"E" => ("E,limit,expression", &[Limit, Expression]),
            _ => return None,
        };
        Some(Form { written, roles })
    }

    fn of_body(word: Option<&[u8]>) -> Form {
        use Role::*;
        let (written, roles): (_, &[Role]) = match word {
            Some(b"grant") => ("B,grant,subject,object,action", &[Word, Term, Term, Term]),
            Some(b"has") => ("B,has,sort,predicate,x", &[Word, Sort, Name, Term]),
            Some(b"le" | b"ge" | b"lt" | b"gt" | b"eq") => ("B,op,sort,x,y", &[Word, Sort, Term, Term]),
            _ => ("B,grant,s,o,a or B,op,sort,x,y or B,has,sort,predicate,x", &[Word, Term, Term, Term]),
        };
        Form { written, roles }
    }
}

/// Whole-file causes first, then the kind, the count of fields, and each field from the left.
pub fn hint(fault: &Fault) -> Option<Hint> {
    let fields = fault.fields();
    byte_order_mark(fault)
        .or_else(|| end_of_line(fault.line))
        .or_else(|| comment(fault.line))
        .or_else(|| strange_kind(fields[0].text))
        .or_else(|| field_count(fault.line, &fields))
        .or_else(|| first_bad_field(&fields))
}

/// Does the file begin as UTF-16 files do?
pub fn is_utf16(file: &[u8]) -> bool {
    file.starts_with(b"\xff\xfe") || file.starts_with(b"\xfe\xff")
}

fn byte_order_mark(fault: &Fault) -> Option<Hint> {
    if fault.number != 1 {
        return None;
    }
    if is_utf16(fault.file) {
        return Some(Hint::new(0, "the file begins with a UTF-16 byte order mark; save it as plain ASCII"));
    }
    if !fault.file.starts_with(b"\xef\xbb\xbf") {
        return None;
    }
    let too = if fault.line.ends_with(b"\r") { ", and its lines with LF alone, not CR LF" } else { "" };
    Some(Hint::new(0, format!("the file begins with a UTF-8 byte order mark; save it without one{too}")))
}

fn end_of_line(line: &[u8]) -> Option<Hint> {
    if line.is_empty() {
        return Some(Hint::new(0, "an empty line"));
    }
    let at = line.iter().position(|&b| b == b'\r')?;
    let last = at + 1 == line.len();
    Some(Hint::new(at, if last { WINDOWS_END } else { "a CR within the line; lines are closed by LF alone" }))
}

/// A comment at the beginning of a line, or behind a blank or a comma. E lines are left to their expression.
fn comment(line: &[u8]) -> Option<Hint> {
    if [&b";"[..], b"%", b"--"].iter().any(|sign| line.starts_with(sign)) {
        return Some(Hint::new(0, NO_COMMENTS));
    }
    let parted = |at: usize| at == 0 || matches!(line[at - 1], b' ' | b'\t' | b',');
    let at = (0..line.len()).find(|&at| parted(at) && is_comment(&line[at..]))?;
    (!line.starts_with(b"E,")).then(|| Hint::new(at, NO_COMMENTS))
}

pub fn is_comment(text: &[u8]) -> bool {
    [&b"#"[..], b"//", b"/*"].iter().any(|sign| text.starts_with(sign))
}

fn strange_kind(text: &[u8]) -> Option<Hint> {
    let unknown = || format!("unknown kind {}; a line begins with S, O, A, P, T, G, R, B or E and a comma", quoted(text));
    match text {
        [] => Some(Hint::new(0, "an empty field; the kind of the line is missing")),
        [kind] if KINDS.contains(kind) => None,
        [kind] if KINDS.contains(&kind.to_ascii_uppercase()) => {
            Some(Hint::new(0, format!("the kind is a capital letter: {}", kind.to_ascii_uppercase() as char)))
        }
        [kind, b' ' | b'\t' | b';' | b'|' | b':', ..] if KINDS.contains(kind) => {
            Some(Hint::new(1, "the fields of a line are parted by commas, without blanks"))
        }
        _ => Some(first_strange(text).unwrap_or_else(|| Hint::new(0, unknown()))),
    }
}

fn field_count(line: &[u8], fields: &[Field]) -> Option<Hint> {
    let form = Form::of(fields)?;
    let due = form.roles.len() + 1;
    if fields.len() == due {
        return None;
    }
    let at = fields.get(due).map_or(line.len(), |surplus| surplus.at - 1);
    let kind = fields[0].text[0] as char;
    let said = if fields.iter().skip(due).any(|field| !field.text.is_empty()) || fields.len() < due {
        format!("{} field{}", fields.len(), if fields.len() == 1 { "" } else { "s" })
    } else {
        "commas at the end".into()
    };
    Some(Hint::new(at, format!("{said}; {kind} lines have {due} fields: {}", form.written)))
}

fn first_bad_field(fields: &[Field]) -> Option<Hint> {
    let form = Form::of(fields)?;
    let bad = |(field, &role): (&Field, &Role)| bad_field(field.text, role).map(|hint| hint.from(field.at));
    fields[1..].iter().zip(form.roles).find_map(bad)
}

/// What is wrong with a field.
fn bad_field(text: &[u8], role: Role) -> Option<Hint> {
    if text.is_empty() {
        let words = if matches!(role, Role::Expression) { "the expression is empty" } else { "an empty field" };
        return Some(Hint::new(0, words));
    }
    match role {
        Role::Name => bad_name(text),
        Role::Parent if text == b"-" => None,
        Role::Parent if text[0] == b'-' => Some(bad_byte(1, text)),
        Role::Parent => bad_name(text),
        Role::Sort => bad_word(text, &["S", "O", "A"], "no sort; the sorts are S, O and A, in capitals"),
        Role::State => bad_word(text, &["here", "away"], "neither here nor away"),
        Role::Word => bad_word(text, BODY_WORDS, "none of grant, has, le, ge, lt, gt and eq"),
        Role::Term if text[0] == b'?' => bad_word(text, &["?0", "?1", "?2", "?3"], "no variable; there are ?0, ?1, ?2 and ?3"),
        Role::Term => bad_name(text),
        Role::Limit => bad_limit(text),
        Role::Expression => None,
    }
}

fn bad_word(text: &[u8], words: &[&str], is: &str) -> Option<Hint> {
    if words.iter().any(|word| word.as_bytes() == text) {
        return None;
    }
    let small = words.iter().find(|word| word.as_bytes() == text.to_ascii_lowercase());
    let plain = || match small {
        Some(word) => Hint::new(0, format!("{} has a capital letter; write {word}", quoted(text))),
        None => Hint::new(0, format!("{} is {is}", quoted(text))),
    };
    Some(first_strange(text).unwrap_or_else(plain))
}

fn bad_name(text: &[u8]) -> Option<Hint> {
    if text == b"-" {
        return Some(Hint::new(0, "\"-\" may stand only for a parent, in S, O and A lines"));
    }
    if text[0] == b'?' {
        return Some(Hint::new(0, format!("{} is no name; variables may stand only in rules", quoted(text))));
    }
    if text[0].is_ascii_digit() || text[0] == b'_' {
        return Some(Hint::new(0, format!("{} does not begin with a letter, as names do", quoted(text))));
    }
    match text.iter().position(|&b| !is_name_byte(b)) {
        Some(at) if at < LONGEST_NAME => Some(bad_byte(at, text)),
        _ if text.len() > LONGEST_NAME => Some(Hint::new(LONGEST_NAME, long_name(text))),
        _ => is_lone_letter(text).then(|| Hint::new(0, lone_letter(text))),
    }
}

pub fn is_name_byte(byte: u8) -> bool {
    matches!(byte, b'a'..=b'z' | b'0'..=b'9' | b'_')
}

/// The letters that stand for sorts and templates in the expression.
pub fn is_lone_letter(text: &[u8]) -> bool {
    matches!(text, b"s" | b"o" | b"a" | b"t")
}

pub fn lone_letter(text: &[u8]) -> String {
    format!("{} alone is no name; s, o, a and t have meanings of their own", quoted(text))
}

pub fn long_name(text: &[u8]) -> String {
    format!("{} has {} bytes; names have at most {LONGEST_NAME}", quoted(text), text.len())
}

/// A byte of the text that stands in no name.
fn bad_byte(at: usize, text: &[u8]) -> Hint {
    if let Some(words) = strange(text[at]) {
        return Hint::new(at, words);
    }
    let what = match text[at] {
        b'A'..=b'Z' => "has a capital letter",
        128.. => "has a byte over 127",
        0..=31 | 127 => "has a control byte",
        _ => "is no name",
    };
    Hint::new(at, format!("{} {what}; {NAMES_HAVE}", quoted(text)))
}

/// The first byte of the text that no field has, whatever it is.
fn first_strange(text: &[u8]) -> Option<Hint> {
    text.iter().zip(0..).find_map(|(&byte, at)| Some(Hint::new(at, strange(byte)?)))
}

/// Words for a byte that no field has, whatever it is.
fn strange(byte: u8) -> Option<&'static str> {
    match byte {
        b' ' => Some("a blank; lines have none"),
        b'\t' => Some("a tab; lines have none"),
        b'"' | b'\'' => Some("a quotation mark; fields are not quoted"),
        0 => Some("a byte 0; if the file is UTF-16, save it as plain ASCII"),
        _ => None,
    }
}

fn bad_limit(text: &[u8]) -> Option<Hint> {
    const MOST_DIGITS: usize = 4;
    let at = match text.iter().position(|b| !b.is_ascii_digit()) {
        Some(at) => at,
        None if text.len() > 1 && text[0] == b'0' => 0,
        None if text.len() > MOST_DIGITS => MOST_DIGITS,
        None => return None,
    };
    let plain = || Hint::new(at, format!("{} is no limit; it is a number from 0 to 4096 without a leading zero", quoted(text)));
    Some(first_strange(text).unwrap_or_else(plain))
}
