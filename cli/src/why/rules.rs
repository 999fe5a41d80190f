//! The rules of a policy by numbers, and their instances.

use crate::calls::Counts;
use crate::outline::{self, Comparison, Outline, Sort, SORTS};

/// A rule has the variables `?0` to `?3`.
const VARIABLES: usize = 4;

/// The value of each variable, as a member's number.
pub type Values = [Option<usize>; VARIABLES];

pub struct Rule<'a> {
    pub set: &'a str,
    /// The line of its head.
    pub line: usize,
    pub head: [Term; 3],
    pub body: Vec<Atom>,
    /// The sorts of the variables that the rule has.
    pub sorts: [Option<Sort>; VARIABLES],
}

#[derive(Clone, Copy)]
pub enum Term {
    Member(usize),
    Variable(usize),
}

pub enum Atom {
    Grant([Term; 3]),
    Order(Sort, Comparison, Term, Term),
    /// A predicate by its number.
    Has(Sort, usize, Term),
}

impl<'a> Rule<'a> {
    /// None where a line cannot be followed.
    pub fn of(rule: &outline::Rule<'a>, outline: &Outline) -> Option<Rule<'a>> {
        let mut read =
            Rule { set: rule.set, line: rule.line, head: [Term::Member(0); 3], body: Vec::new(), sorts: [None; VARIABLES] };
        read.head = read.access_terms(outline, rule.head)?;
        for fields in &rule.body {
            let atom = read.atom(outline, fields)?;
            read.body.push(atom);
        }
        Some(read)
    }

    fn atom(&mut self, outline: &Outline, fields: &[&str]) -> Option<Atom> {
        Some(match *fields {
            ["grant", s, o, a] => Atom::Grant(self.access_terms(outline, [s, o, a])?),
            ["has", sort, predicate, x] => {
                let sort = Sort::of(sort)?;
                Atom::Has(sort, outline.predicate(sort, predicate)?, self.term(outline, sort, x)?)
            }
            [comparison, sort, x, y] => {
                let sort = Sort::of(sort)?;
                let (x, y) = (self.term(outline, sort, x)?, self.term(outline, sort, y)?);
                Atom::Order(sort, Comparison::of(comparison)?, x, y)
            }
            _ => return None,
        })
    }

    fn access_terms(&mut self, outline: &Outline, fields: [&str; 3]) -> Option<[Term; 3]> {
        let mut terms = [Term::Member(0); 3];
        for sort in SORTS {
            terms[sort as usize] = self.term(outline, sort, fields[sort as usize])?;
        }
        Some(terms)
    }

    fn term(&mut self, outline: &Outline, sort: Sort, field: &str) -> Option<Term> {
        let Some(variable) = field.strip_prefix('?') else { return Some(Term::Member(outline.member(sort, field)?)) };
        let variable: usize = variable.parse().ok()?;
        *self.sorts.get_mut(variable)? = Some(sort);
        Some(Term::Variable(variable))
    }

    pub fn grants(&self) -> impl Iterator<Item = &[Term; 3]> {
        self.body.iter().filter_map(|atom| if let Atom::Grant(terms) = atom { Some(terms) } else { None })
    }

    /// The variables that have no value yet.
    pub fn open<'v>(&'v self, values: &'v Values) -> impl Iterator<Item = usize> + 'v {
        (0..VARIABLES).filter(|&v| self.sorts[v].is_some() && values[v].is_none())
    }
}

impl Term {
    pub fn value(self, values: &Values) -> Option<usize> {
        match self {
            Term::Member(member) => Some(member),
            Term::Variable(variable) => values[variable],
        }
    }
}

/// The number of the access that three terms name, once they all have values.
pub fn access(counts: &Counts, terms: &[Term; 3], values: &Values) -> Option<usize> {
    let [s, o, a] = terms;
    Some(counts.access(s.value(values)?, o.value(values)?, a.value(values)?))
}

/// The values with which three terms name this access, if there are any.
pub fn matched(terms: &[Term; 3], members: [usize; 3]) -> Option<Values> {
    let mut values = [None; VARIABLES];
    for (term, member) in terms.iter().zip(members) {
        if let Term::Variable(variable) = term {
            values[*variable].get_or_insert(member);
        }
        if term.value(&values) != Some(member) {
            return None;
        }
    }
    Some(values)
}
