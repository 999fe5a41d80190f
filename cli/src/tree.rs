//! An accepted expression as a tree, each part with its bytes in the text. It judges nothing: the engine has read the same
//! text and found it good.

use crate::outline::{Comparison, Outline, Sort};
use std::ops::Range;

/// The parts from the root down: a part comes before the parts it is made of, and these stand in the order of the text.
pub struct Tree<'a> {
    text: &'a str,
    pub parts: Vec<Part<'a>>,
}

/// The number of the whole expression.
pub const ROOT: usize = 0;

pub struct Part<'a> {
    /// Its bytes in the expression, without brackets that only group.
    span: Range<usize>,
    pub form: Form<'a>,
    /// The parts that it is made of, in the order of the text.
    pub made_of: Vec<usize>,
    /// How many parts stand around it.
    pub depth: usize,
    /// The innermost template whose first brackets hold this part.
    pub within: Option<usize>,
}

#[derive(Clone, Copy, Debug, PartialEq, Eq)]
pub enum Form<'a> {
    /// A table, or a name that a template binds.
    Name(&'a str),
    /// Made of left and right.
    Join(Sign),
    /// Made of three.
    Override,
    /// Made of its operand.
    Scope(Scope<'a>),
    /// By the rules of this set; made of its operand.
    Closure(&'a str),
    /// Binds this name; made of what stands in the first and in the second brackets.
    Template(&'a str),
}

#[derive(Clone, Copy, Debug, PartialEq, Eq)]
pub enum Sign {
    Plus,
    And,
    Minus,
}

#[derive(Clone, Copy, Debug, PartialEq, Eq)]
pub struct Scope<'a> {
    pub sort: Sort,
    pub test: Test<'a>,
}

#[derive(Clone, Copy, Debug, PartialEq, Eq)]
pub enum Test<'a> {
    /// Against this member.
    Order(Comparison, &'a str),
    /// By this predicate.
    Has(&'a str),
}

impl<'a> Tree<'a> {
    /// Of an expression that the engine accepts; none where the text cannot be followed.
    pub fn of(text: &'a str) -> Option<Tree<'a>> {
        let mut reader = Reader { text, at: 0, parts: Vec::new() };
        let root = reader.expression()?;
        if reader.at != text.len() {
            return None;
        }
        Some(Tree { text, parts: from_the_root(reader.parts, root) })
    }

    pub fn text(&self, part: usize) -> &'a str {
        &self.text[self.parts[part].span.clone()]
    }

    /// The part as an expression of its own, under the bindings in force where it stands: `(t:x.PART)(F)`. F stands outside
    /// the binding of x, under those around it. What is left out of the whole is left out of every count too, so the engine
    /// accepts this wherever it accepts the whole.
    pub fn alone(&self, part: usize) -> String {
        let mut expression = self.text(part).to_string();
        for template in self.around(part) {
            if let Form::Template(name) = self.parts[template].form {
                expression = format!("(t:{name}.{expression})({})", self.text(self.filling(template)));
            }
        }
        expression
    }

    /// What a bound name stands for: the second brackets of its template. None for a table, and for what is no name.
    pub fn bound_to(&self, part: usize) -> Option<usize> {
        let Form::Name(name) = self.parts[part].form else { return None };
        let template = self.around(part).find(|&t| self.parts[t].form == Form::Template(name))?;
        Some(self.filling(template))
    }

    /// The parts whose answers make this part's answer: for a bound name its filling, for a template what stands in the first
    /// brackets, where the filling counts by the name alone.
    pub fn answers_from(&self, part: usize) -> Vec<usize> {
        match self.parts[part].form {
            Form::Name(_) => self.bound_to(part).into_iter().collect(),
            Form::Template(_) => self.parts[part].made_of[..1].to_vec(),
            _ => self.parts[part].made_of.clone(),
        }
    }

    /// The templates whose first brackets hold the part, the innermost first.
    fn around(&self, part: usize) -> impl Iterator<Item = usize> + '_ {
        std::iter::successors(self.parts[part].within, |&template| self.parts[template].within)
    }

    fn filling(&self, template: usize) -> usize {
        self.parts[template].made_of[1]
    }
}

impl Scope<'_> {
    /// Is an access, given by the numbers of its members, inside? None where a name is not declared.
    pub fn holds(&self, outline: &Outline, access: [usize; 3]) -> Option<bool> {
        let member = access[self.sort as usize];
        Some(match self.test {
            Test::Order(comparison, name) => outline.compares(self.sort, comparison, member, outline.member(self.sort, name)?),
            Test::Has(name) => outline.predicates[outline.predicate(self.sort, name)?].members.contains(&member),
        })
    }
}

/// The parts numbered anew, from the root down.
fn from_the_root(mut parts: Vec<Part>, root: usize) -> Vec<Part> {
    let mut order = Vec::new();
    let mut number = vec![0; parts.len()];
    let mut ahead = vec![(root, 0, None)];
    while let Some((old, depth, within)) = ahead.pop() {
        number[old] = order.len();
        order.push(old);
        (parts[old].depth, parts[old].within) = (depth, within);
        for (i, &below) in parts[old].made_of.iter().enumerate().rev() {
            let binds = i == 0 && matches!(parts[old].form, Form::Template(_));
            ahead.push((below, depth + 1, if binds { Some(number[old]) } else { within }));
        }
    }
    for part in &mut parts {
        part.made_of.iter_mut().for_each(|below| *below = number[*below]);
    }
    let mut numbered: Vec<(usize, Part)> = number.into_iter().zip(parts).collect();
    numbered.sort_by_key(|&(new, _)| new);
    numbered.into_iter().map(|(_, part)| part).collect()
}

/// Reads a good expression from left to right. Its depth is that of the open brackets, of which there are at most 32.
struct Reader<'a> {
    text: &'a str,
    at: usize,
    parts: Vec<Part<'a>>,
}

impl<'a> Reader<'a> {
    fn expression(&mut self) -> Option<usize> {
        let start = self.at;
        let mut left = self.factor()?;
        while let Some(sign) = self.sign() {
            let right = self.factor()?;
            left = self.put(start, Form::Join(sign), vec![left, right]);
        }
        Some(left)
    }

    fn sign(&mut self) -> Option<Sign> {
        let sign = match self.text.as_bytes().get(self.at)? {
            b'+' => Sign::Plus,
            b'&' => Sign::And,
            b'-' => Sign::Minus,
            _ => return None,
        };
        self.at += 1;
        Some(sign)
    }

    fn factor(&mut self) -> Option<usize> {
        let start = self.at;
        let mut operand = self.primary()?;
        loop {
            let form = if self.skip("^[").is_some() {
                Form::Scope(self.scope()?)
            } else if self.skip("*").is_some() {
                Form::Closure(self.name()?)
            } else {
                return Some(operand);
            };
            operand = self.put(start, form, vec![operand]);
        }
    }

    fn primary(&mut self) -> Option<usize> {
        let start = self.at;
        if self.skip("(t:").is_some() {
            let name = self.name()?;
            self.skip(".")?;
            let body = self.expression()?;
            self.skip(")(")?;
            let filling = self.expression()?;
            self.skip(")")?;
            Some(self.put(start, Form::Template(name), vec![body, filling]))
        } else if self.skip("o(").is_some() {
            let first = self.expression()?;
            self.skip(",")?;
            let second = self.expression()?;
            self.skip(",")?;
            let third = self.expression()?;
            self.skip(")")?;
            Some(self.put(start, Form::Override, vec![first, second, third]))
        } else if self.skip("(").is_some() {
            let grouped = self.expression()?;
            self.skip(")")?;
            Some(grouped)
        } else {
            let name = self.name()?;
            Some(self.put(start, Form::Name(name), Vec::new()))
        }
    }

    /// What stands behind `^[`, with the bracket that closes it.
    fn scope(&mut self) -> Option<Scope<'a>> {
        let (inside, _) = self.text[self.at..].split_once(']')?;
        self.at += inside.len() + 1;
        if let Some((predicate, sort)) = inside.split_once('(') {
            return Some(Scope { sort: Sort::of(sort.strip_suffix(')')?)?, test: Test::Has(predicate) });
        }
        let (sort, rest) = inside.split_at_checked(1)?;
        let (sign, member) = rest.split_at(rest.find(|c: char| c.is_ascii_lowercase())?);
        Some(Scope { sort: Sort::of(sort)?, test: Test::Order(Comparison::of(sign)?, member) })
    }

    fn name(&mut self) -> Option<&'a str> {
        let rest = &self.text[self.at..];
        let length = rest.find(|c: char| !c.is_ascii_lowercase() && !c.is_ascii_digit() && c != '_').unwrap_or(rest.len());
        self.at += length;
        if length == 0 {
            None
        } else {
            Some(&rest[..length])
        }
    }

    fn skip(&mut self, word: &str) -> Option<()> {
        self.text[self.at..].strip_prefix(word)?;
        self.at += word.len();
        Some(())
    }

    /// A part that ends where the reader stands.
    fn put(&mut self, start: usize, form: Form<'a>, made_of: Vec<usize>) -> usize {
        self.parts.push(Part { span: start..self.at, form, made_of, depth: 0, within: None });
        self.parts.len() - 1
    }
}
