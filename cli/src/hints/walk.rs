//! A walk along an expression by the rules of its grammar: its first wrong byte and what may stand there, or its names, its
//! operators and how much is held at each.

use super::form::{is_lone_letter, is_name_byte, LONGEST_NAME};
use super::names::Need;
use crate::outline::Sort;

pub const MOST_BRACKETS: usize = 32;
const TEMPLATE: &[u8] = b"t:";

/// A name, what it has to be, and the names that templates bind around it.
pub struct Use<'a> {
    pub at: usize,
    pub text: &'a [u8],
    pub need: Need,
    pub bound: Vec<&'a [u8]>,
    /// For a table: how many sets are held with it.
    pub held: usize,
}

/// A template's first bracket, and how many bindings are in force within it.
pub struct Binding<'a> {
    pub at: usize,
    pub name: &'a [u8],
    pub depth: usize,
}

/// Why the walk stopped before the end.
pub enum Wrong {
    /// A name is due, or what may stand for it.
    Name(String),
    /// Behind an operand: an operator is due, or this byte, or the end of the text.
    Operator(Option<u8>),
    /// One of these marks is due.
    Mark(String),
    LongName,
    LoneLetter,
    /// One bracket too many is open.
    Bracket,
}

#[derive(Default)]
pub struct Walk<'a> {
    text: &'a [u8],
    /// How far it went.
    pub at: usize,
    /// The brackets that are open there, without a predicate's.
    pub open: usize,
    bound: Vec<&'a [u8]>,
    pub uses: Vec<Use<'a>>,
    /// Where each operator stands.
    pub operators: Vec<usize>,
    pub bindings: Vec<Binding<'a>>,
}

type Went = Result<(), Wrong>;

impl<'a> Walk<'a> {
    /// Along the whole expression, and what stopped it.
    pub fn along(text: &'a [u8]) -> (Walk<'a>, Option<Wrong>) {
        let mut walk = Walk { text, ..Walk::default() };
        let wrong = walk.expression(0, None).err();
        (walk, wrong)
    }

    fn next(&self) -> Option<u8> {
        self.text.get(self.at).copied()
    }

    fn next_is(&self, bytes: &[u8]) -> bool {
        self.text[self.at..].starts_with(bytes)
    }

    /// Passes the bytes, if they are next.
    fn pass(&mut self, bytes: &[u8]) -> bool {
        let next = self.next_is(bytes);
        self.at += if next { bytes.len() } else { 0 };
        next
    }

    fn expect(&mut self, byte: u8) -> Went {
        if self.pass(&[byte]) {
            Ok(())
        } else {
            Err(Wrong::Mark(format!("\"{}\"", byte as char)))
        }
    }

    /// Factors and what joins them; `held` sets are held before it, and `end` follows it.
    fn expression(&mut self, held: usize, end: Option<u8>) -> Went {
        self.factor(held)?;
        while matches!(self.next(), Some(b'+' | b'&' | b'-')) {
            self.operator();
            self.factor(held + 1)?;
        }
        if self.next() == end {
            Ok(())
        } else {
            Err(Wrong::Operator(end))
        }
    }

    /// Passes the operator that is next.
    fn operator(&mut self) {
        self.operators.push(self.at);
        self.at += 1;
    }

    fn factor(&mut self, held: usize) -> Went {
        self.primary(held)?;
        loop {
            match self.next() {
                Some(b'^') => {
                    self.operator();
                    self.scope()?;
                }
                Some(b'*') => {
                    self.operator();
                    self.name(Need::RuleSet, &Need::RuleSet.one(), 0)?;
                }
                _ => return Ok(()),
            }
        }
    }

    fn primary(&mut self, held: usize) -> Went {
        let start = self.at;
        if self.next() == Some(b'(') {
            self.open()?;
            if self.pass(TEMPLATE) {
                return self.template(start, held);
            }
            self.expression(held, Some(b')'))?;
            return self.close();
        }
        if self.next_is(b"o(") {
            self.operator();
            self.open()?;
            self.expression(held, Some(b','))?;
            self.expect(b',')?;
            self.expression(held + 1, Some(b','))?;
            self.expect(b',')?;
            self.expression(held + 2, Some(b')'))?;
            return self.close();
        }
        self.name(Need::Table, "a table, \"(\" or \"o(\"", held + 1)
    }

    /// The rest of `(t:x.E)(F)` behind `(t:`.
    fn template(&mut self, start: usize, held: usize) -> Went {
        self.operators.push(start);
        let name = self.name_here("a name")?;
        self.expect(b'.')?;
        self.bound.push(name);
        self.bindings.push(Binding { at: start, name, depth: self.bound.len() });
        self.expression(held + 1, Some(b')'))?;
        self.close()?;
        self.bound.pop();
        self.open()?;
        self.expression(held, Some(b')'))?;
        self.close()
    }

    fn open(&mut self) -> Went {
        if self.open == MOST_BRACKETS {
            return Err(Wrong::Bracket);
        }
        self.expect(b'(')?;
        self.open += 1;
        Ok(())
    }

    fn close(&mut self) -> Went {
        self.expect(b')')?;
        self.open -= 1;
        Ok(())
    }

    /// What follows `^`.
    fn scope(&mut self) -> Went {
        self.expect(b'[')?;
        match self.name_bytes() {
            b"s" | b"o" | b"a" => self.comparison()?,
            _ => self.predicate()?,
        }
        self.expect(b']')
    }

    fn comparison(&mut self) -> Went {
        let sort = self.sort_letter()?;
        if !(self.pass(b"<=") || self.pass(b">=") || self.pass(b"<") || self.pass(b">") || self.pass(b"=")) {
            return Err(Wrong::Mark("one of <= >= < > =".into()));
        }
        self.name(Need::Member(sort), &Need::Member(sort).one(), 0)
    }

    /// Its sort stands behind it, in brackets that are not counted.
    fn predicate(&mut self) -> Went {
        let at = self.at;
        let text = self.name_here("s, o, a or a predicate")?;
        self.expect(b'(')?;
        let sort = self.sort_letter()?;
        self.uses.push(Use { at, text, need: Need::Predicate(sort), bound: Vec::new(), held: 0 });
        self.expect(b')')
    }

    fn sort_letter(&mut self) -> Result<Sort, Wrong> {
        let letter = self.next().map(|byte| (byte as char).to_string()).unwrap_or_default();
        let sort = if matches!(letter.as_str(), "s" | "o" | "a") { Sort::of(&letter) } else { None };
        self.at += usize::from(sort.is_some());
        sort.ok_or_else(|| Wrong::Mark("s, o or a".into()))
    }

    fn name_bytes(&self) -> &'a [u8] {
        let rest = &self.text[self.at..];
        let end = rest.iter().position(|&byte| !is_name_byte(byte));
        &rest[..end.unwrap_or(rest.len())]
    }

    fn name(&mut self, need: Need, what: &str, held: usize) -> Went {
        let at = self.at;
        let text = self.name_here(what)?;
        self.uses.push(Use { at, text, need, bound: self.bound.clone(), held });
        Ok(())
    }

    /// Passes a name; a letter that alone is none may begin one, as may the first bytes of one that is too long.
    fn name_here(&mut self, what: &str) -> Result<&'a [u8], Wrong> {
        if !self.next().is_some_and(|byte| byte.is_ascii_lowercase()) {
            return Err(Wrong::Name(what.into()));
        }
        let text = self.name_bytes();
        if text.len() > LONGEST_NAME {
            self.at += LONGEST_NAME;
            return Err(Wrong::LongName);
        }
        self.at += text.len();
        if is_lone_letter(text) {
            return Err(Wrong::LoneLetter);
        }
        Ok(text)
    }
}
