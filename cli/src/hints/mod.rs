//! A second look at a file that the engine has refused: where the fault stands and what may be meant. It never changes the
//! verdict. The lines before the one at fault are good, for the engine has passed them.

mod declarations;
mod expression;
mod fields;
mod form;
mod names;
mod show;
#[cfg(test)]
mod tests;
mod walk;

use crate::calls::{refusal_line, Refusal};
use crate::outline::{Outline, Sort, SORTS};
use crate::shell::{escaped, Shell, Source, Status, Stop, LONGEST_POLICY};
use fields::Field;
use names::{unknown, Need};

/// What the second look found: the byte that shows the fault, from 0 in its line, and the words.
struct Hint {
    at: usize,
    words: String,
}

impl Hint {
    fn new(at: usize, words: impl Into<String>) -> Hint {
        Hint { at, words: words.into() }
    }

    /// The same, of a text that begins at this byte of the line.
    fn from(self, start: usize) -> Hint {
        Hint { at: start + self.at, ..self }
    }
}

/// The line at which the engine refused the file.
struct Fault<'a> {
    file: &'a [u8],
    /// Its number, from 1.
    number: usize,
    line: &'a [u8],
}

impl<'a> Fault<'a> {
    fn of(file: &'a [u8], number: usize) -> Option<Fault<'a>> {
        Some(Fault { file, number, line: lines(file).nth(number.checked_sub(1)?)? })
    }

    /// What the lines before it declare.
    fn before(&self) -> Outline<'a> {
        let length: usize = lines(self.file).take(self.number - 1).map(|line| line.len() + 1).sum();
        Outline::of(&self.file[..length])
    }

    fn fields(&self) -> Vec<Field<'a>> {
        fields::of(self.line)
    }
}

/// A file's lines, without their line feeds.
fn lines(file: &[u8]) -> impl Iterator<Item = &[u8]> {
    file.strip_suffix(b"\n").unwrap_or(file).split(|&b| b == b'\n')
}

/// The refusal's line on standard output, and what is to be said of it on standard error.
pub fn refused(shell: &mut Shell, source: &Source, refusal: Refusal) -> Result<Status, Stop> {
    shell.print(&refusal_line(refusal))?;
    shell.finish()?;
    explain(shell, source, refusal);
    Ok(Status::Refused)
}

/// The same where three names were asked for: number 15 is about one of them and not about the file.
pub fn refused_ask(shell: &mut Shell, source: &Source, refusal: Refusal, names: [&[u8]; 3]) -> Result<Status, Stop> {
    const NOT_DECLARED: usize = 15;
    if refusal.number != NOT_DECLARED {
        return refused(shell, source, refusal);
    }
    shell.print(&refusal_line(refusal))?;
    shell.finish()?;
    let which = refusal.place - 1;
    let words = no_member(&Outline::of(&source.bytes), SORTS[which], names[which]);
    shell.explain(&format!("{}: refused {NOT_DECLARED}: {words}", escaped(source.path.as_bytes())));
    Ok(Status::Refused)
}

/// Where the fault stands and what may be meant, on standard error.
pub fn explain(shell: &mut Shell, source: &Source, refusal: Refusal) {
    for line in explanation(source, refusal) {
        shell.explain(&line);
    }
}

/// A line with path, place, number and words; then the source line and a caret under the fault, where there is one.
fn explanation(source: &Source, refusal: Refusal) -> Vec<String> {
    let (file, number) = (&source.bytes[..], refusal.number);
    let path = escaped(source.path.as_bytes());
    let Some(fault) = Fault::of(file, refusal.line) else {
        let mut lines = vec![format!("{path}: refused {number}: {}", of_file(file, number))];
        lines.extend(cut_off(file, number).into_iter().flat_map(|last| show::with_caret(last, last.len())));
        return lines;
    };
    let hint = found(&fault, refusal);
    let mut lines = vec![format!("{path}:{}:{}: refused {number}: {}", fault.number, hint.at + 1, hint.words)];
    lines.extend(show::with_caret(fault.line, hint.at));
    lines
}

/// The words alone, for a page that shows the line itself.
pub fn cause(source: &Source, refusal: Refusal) -> String {
    match Fault::of(&source.bytes, refusal.line) {
        Some(fault) => found(&fault, refusal).words,
        None => of_file(&source.bytes, refusal.number),
    }
}

/// A member that is asked for and not declared: `no action "wirte"; did you mean "write"?`
pub fn no_member(outline: &Outline, sort: Sort, name: &[u8]) -> String {
    unknown(outline, Need::Member(sort), name, &[])
}

/// The cause of a refusal at a line, or else what its number says.
fn found(fault: &Fault, refusal: Refusal) -> Hint {
    look(fault, refusal).unwrap_or_else(|| Hint::new(0, plain(refusal.number)))
}

/// The cause of a refusal at a line, if the second look finds it.
fn look(fault: &Fault, refusal: Refusal) -> Option<Hint> {
    match refusal.number {
        3 => form::hint(fault),
        4 => declarations::out_of_order(fault),
        5 => declarations::repeated(fault),
        6 => declarations::missing(fault),
        7 => declarations::too_many(fault),
        8 => declarations::sizes(fault),
        10 => declarations::away(fault),
        11 => declarations::two_sorts(fault),
        12 => expression::ungrammatical(fault, refusal.place),
        13 => expression::undeclared(fault, refusal.place),
        14 => expression::too_large(fault),
        16 => expression::too_deep(fault),
        _ => None,
    }
}

/// The plain words for a number, where nothing more is found.
fn plain(number: usize) -> &'static str {
    match number {
        3 => "the line cannot be read",
        4 => "the line stands in the wrong place",
        5 => "declared a second time",
        6 => "a name that no earlier line declares",
        7 => "one too many",
        8 => "a sort has no member, or there are too many accesses",
        10 => "a grant for a list that is away",
        11 => "a variable stands for members of two sorts",
        12 => "not an expression",
        13 => "a name that is not declared as what it stands for here",
        14 => "the expression is too large",
        16 => "too many templates stand one within the other",
        _ => "the engine refuses the file",
    }
}

/// The words for a refusal of the file as a whole.
fn of_file(file: &[u8], number: usize) -> String {
    match (number, file.last()) {
        (2, None) => "the file is empty".into(),
        (2, _) if file.len() > LONGEST_POLICY => "the file has more than 32,768 bytes".into(),
        (2, Some(&last)) => not_closed(file, last),
        (9, _) => "there is no E line, so nothing says how the tables are joined; is the file cut off?".into(),
        _ => plain(number).into(),
    }
}

fn not_closed(file: &[u8], last: u8) -> String {
    let line = lines(file).count();
    if form::is_utf16(file) || last == 0 {
        "the file looks like UTF-16; save it as plain ASCII, closed by a line feed".into()
    } else if last == b'\r' {
        format!("line {line}, the last, ends with CR and not with LF; close each line with LF alone")
    } else {
        format!("line {line}, the last, is not closed by a line feed; is the file cut off?")
    }
}

/// The last line of a file that is refused because it is not closed.
fn cut_off(file: &[u8], number: usize) -> Option<&[u8]> {
    let not_closed = number == 2 && !file.is_empty() && file.len() <= LONGEST_POLICY;
    lines(file).last().filter(|_| not_closed)
}
