//! The reader of policy files. Every line is tested in the order of document
//! 01's table, from 3 down to 14, and then for document 02's 16, before the
//! next line is looked at.

use crate::expression;
use crate::policy::*;
use crate::refusal::Refusal;

pub const MOST_FILE_BYTES: usize = 32_768;

/// Reads a file into a policy, or refuses it.
pub fn read(file: &[u8]) -> Result<Policy, Refusal> {
    if file.len() > MOST_FILE_BYTES {
        return Err(Refusal::of_file(2));
    }
    // An empty file has no last byte, so it is refused here too.
    let Some((b'\n', lines)) = file.split_last() else {
        return Err(Refusal::of_file(2));
    };
    let mut reader = Reader::default();
    for line in lines.split(|&byte| byte == b'\n') {
        reader.line_number += 1;
        reader.take(line)?;
    }
    if reader.group != Group::Expression {
        return Err(Refusal::of_file(9));
    }
    Ok(reader.policy)
}

/// 1 to 24 bytes of a–z, 0–9 and `_`, a letter first, and none of `s`, `o`, `a`
/// and `t` alone.
pub fn is_name(text: &[u8]) -> bool {
    text.first().is_some_and(u8::is_ascii_lowercase)
        && text.len() <= MOST_NAME_BYTES
        && text.iter().all(|&byte| is_name_byte(byte))
        && !is_lone_letter(text)
}

pub fn is_name_byte(byte: u8) -> bool {
    matches!(byte, b'a'..=b'z' | b'0'..=b'9' | b'_')
}

/// A letter that alone is no name: a sort's, or that of templates.
pub fn is_lone_letter(text: &[u8]) -> bool {
    is_sort_letter(text) || text == b"t"
}

pub fn is_sort_letter(text: &[u8]) -> bool {
    matches!(text, b"s" | b"o" | b"a")
}

/// A line of good form (row 3), its names not looked up yet.
enum Line<'a> {
    Member(Sort, &'a [u8], Option<&'a [u8]>),
    Predicate(Sort, &'a [u8], &'a [u8]),
    Table(&'a [u8], bool),
    Grant(&'a [u8], [&'a [u8]; 3]),
    Head(&'a [u8], [TermText<'a>; 3]),
    Body(AtomText<'a>),
    Expression(usize, &'a [u8]),
}

#[derive(Clone, Copy)]
enum TermText<'a> {
    Name(&'a [u8]),
    Variable(usize),
}

enum AtomText<'a> {
    Grant([TermText<'a>; 3]),
    Order(Sort, Order, TermText<'a>, TermText<'a>),
    Has(Sort, &'a [u8], TermText<'a>),
}

fn line_of(line: &[u8]) -> Option<Line<'_>> {
    if line.starts_with(b"E,") {
        return expression_line(line);
    }
    let fields: Vec<&[u8]> = line.split(|&byte| byte == b',').collect();
    match fields[..] {
        [b"S", member, parent] => member_line(Sort::Subject, member, parent),
        [b"O", member, parent] => member_line(Sort::Object, member, parent),
        [b"A", member, parent] => member_line(Sort::Action, member, parent),
        [b"P", sort, predicate, member] => {
            let sort = sort_word(sort)?;
            Some(Line::Predicate(sort, name(predicate)?, name(member)?))
        }
        [b"T", table, b"here"] => Some(Line::Table(name(table)?, true)),
        [b"T", table, b"away"] => Some(Line::Table(name(table)?, false)),
        [b"G", table, s, o, a] => {
            let access = [name(s)?, name(o)?, name(a)?];
            Some(Line::Grant(name(table)?, access))
        }
        [b"R", rule_set, s, o, a] => {
            let head = [term(s)?, term(o)?, term(a)?];
            Some(Line::Head(name(rule_set)?, head))
        }
        [b"B", word, x, y, z] => Some(Line::Body(atom(word, x, y, z)?)),
        _ => None,
    }
}

fn member_line<'a>(sort: Sort, member: &'a [u8], parent: &'a [u8]) -> Option<Line<'a>> {
    let parent = match parent {
        b"-" => None,
        _ => Some(name(parent)?),
    };
    Some(Line::Member(sort, name(member)?, parent))
}

fn atom<'a>(word: &[u8], x: &'a [u8], y: &'a [u8], z: &'a [u8]) -> Option<AtomText<'a>> {
    let order = match word {
        b"grant" => return Some(AtomText::Grant([term(x)?, term(y)?, term(z)?])),
        b"has" => return Some(AtomText::Has(sort_word(x)?, name(y)?, term(z)?)),
        b"le" => Order::Le,
        b"ge" => Order::Ge,
        b"lt" => Order::Lt,
        b"gt" => Order::Gt,
        b"eq" => Order::Eq,
        _ => return None,
    };
    Some(AtomText::Order(sort_word(x)?, order, term(y)?, term(z)?))
}

/// The expression is all that follows the second comma.
fn expression_line(line: &[u8]) -> Option<Line<'_>> {
    let mut fields = line.splitn(3, |&byte| byte == b',').skip(1);
    let limit = limit(fields.next()?)?;
    let expression = fields.next()?;
    (!expression.is_empty()).then_some(Line::Expression(limit, expression))
}

/// One to four digits without a leading zero.
fn limit(text: &[u8]) -> Option<usize> {
    let leading_zero = text.len() > 1 && text[0] == b'0';
    if text.is_empty() || text.len() > 4 || leading_zero {
        return None;
    }
    let digit = |byte: &u8| byte.is_ascii_digit().then(|| usize::from(byte - b'0'));
    text.iter()
        .try_fold(0, |value, byte| Some(value * 10 + digit(byte)?))
}

fn name(text: &[u8]) -> Option<&[u8]> {
    is_name(text).then_some(text)
}

fn term(text: &[u8]) -> Option<TermText<'_>> {
    match text {
        [b'?', digit @ b'0'..=b'3'] => Some(TermText::Variable(usize::from(digit - b'0'))),
        _ => Some(TermText::Name(name(text)?)),
    }
}

fn sort_word(text: &[u8]) -> Option<Sort> {
    match text {
        b"S" => Some(Sort::Subject),
        b"O" => Some(Sort::Object),
        b"A" => Some(Sort::Action),
        _ => None,
    }
}

/// The groups of lines in their order. B lines belong to the rules' group.
#[derive(Clone, Copy, Default, PartialEq, Eq, PartialOrd, Ord)]
enum Group {
    #[default]
    Subjects,
    Objects,
    Actions,
    Predicates,
    Tables,
    Grants,
    Rules,
    Expression,
}

impl Line<'_> {
    fn group(&self) -> Group {
        match self {
            Line::Member(Sort::Subject, ..) => Group::Subjects,
            Line::Member(Sort::Object, ..) => Group::Objects,
            Line::Member(Sort::Action, ..) => Group::Actions,
            Line::Predicate(..) => Group::Predicates,
            Line::Table(..) => Group::Tables,
            Line::Grant(..) => Group::Grants,
            Line::Head(..) | Line::Body(..) => Group::Rules,
            Line::Expression(..) => Group::Expression,
        }
    }
}

#[derive(Default)]
struct Reader {
    policy: Policy,
    /// The number of the line being read, from 1.
    line_number: usize,
    /// The group of the line before.
    group: Group,
}

impl Reader {
    fn refuse(&self, number: u32) -> Refusal {
        self.refuse_at(number, 0)
    }

    fn refuse_at(&self, number: u32, place: usize) -> Refusal {
        let line = self.line_number;
        Refusal {
            number,
            line,
            place,
        }
    }

    fn refuse_if(&self, met: bool, number: u32) -> Result<(), Refusal> {
        match met {
            true => Err(self.refuse(number)),
            false => Ok(()),
        }
    }

    fn take(&mut self, line: &[u8]) -> Result<(), Refusal> {
        let line = line_of(line).ok_or(self.refuse(3))?;
        self.test_order(&line)?;
        self.test_sorts(&line)?;
        self.group = line.group();
        match line {
            Line::Member(sort, name, parent) => self.take_member(sort, name, parent),
            Line::Predicate(sort, predicate, member) => {
                self.take_predicate(sort, predicate, member)
            }
            Line::Table(name, here) => self.take_table(name, here),
            Line::Grant(table, names) => self.take_grant(table, names),
            Line::Head(rule_set, head) => self.take_head(rule_set, head),
            Line::Body(atom) => self.take_atom(atom),
            Line::Expression(limit, text) => self.take_expression(limit, text),
        }
    }

    /// Row 4: groups in order, no B without a rule, nothing after E.
    fn test_order(&self, line: &Line) -> Result<(), Refusal> {
        let out_of_order = line.group() < self.group;
        let after_expression = self.group == Group::Expression;
        let without_rule = matches!(line, Line::Body(..)) && self.policy.rules.is_empty();
        self.refuse_if(out_of_order || after_expression || without_rule, 4)
    }

    /// Row 8, at the first line that is not S, O or A.
    fn test_sorts(&self, line: &Line) -> Result<(), Refusal> {
        let first = self.group <= Group::Actions && line.group() > Group::Actions;
        let accesses = self.policy.accesses();
        self.refuse_if(first && (accesses == 0 || accesses > MOST_ACCESSES), 8)
    }

    fn take_member(
        &mut self,
        sort: Sort,
        name: &[u8],
        parent: Option<&[u8]>,
    ) -> Result<(), Refusal> {
        let members = self.policy.members_of(sort);
        self.refuse_if(members.count() == sort.most_members(), 7)?;
        self.refuse_if(members.number(name).is_some(), 5)?;
        let parent = match parent {
            Some(parent) => Some(self.member(sort, parent)?),
            None => None,
        };
        self.policy.members[sort.index()].declare(name, parent);
        Ok(())
    }

    /// The first line with a predicate's name at a sort declares it.
    fn take_predicate(&mut self, sort: Sort, name: &[u8], member: &[u8]) -> Result<(), Refusal> {
        let known = self.policy.predicate(sort, name);
        let predicates = self.policy.predicates.len();
        self.refuse_if(known.is_none() && predicates == MOST_PREDICATES, 7)?;
        let member = self.member(sort, member)?;
        if known.is_none() {
            let name = name.to_vec();
            let holds = 0;
            self.policy.predicates.push(Predicate { sort, name, holds });
        }
        self.policy.predicates[known.unwrap_or(predicates)].holds |= 1 << member;
        Ok(())
    }

    fn take_table(&mut self, name: &[u8], here: bool) -> Result<(), Refusal> {
        self.refuse_if(self.policy.tables.len() == MOST_TABLES, 7)?;
        self.refuse_if(self.policy.table(name).is_some(), 5)?;
        let name = name.to_vec();
        let grants = vec![false; self.policy.accesses()];
        self.policy.tables.push(Table { name, here, grants });
        Ok(())
    }

    fn take_grant(&mut self, table: &[u8], [s, o, a]: [&[u8]; 3]) -> Result<(), Refusal> {
        let table = self.policy.table(table).ok_or(self.refuse(6))?;
        let access = [
            self.member(Sort::Subject, s)?,
            self.member(Sort::Object, o)?,
            self.member(Sort::Action, a)?,
        ];
        self.refuse_if(!self.policy.tables[table].here, 10)?;
        let number = self.policy.access_number(access);
        self.policy.tables[table].grants[number] = true;
        Ok(())
    }

    /// The first R line with a set's name declares it.
    fn take_head(&mut self, name: &[u8], head: [TermText; 3]) -> Result<(), Refusal> {
        let known = self.policy.rule_set(name);
        let sets = self.policy.rule_sets.len();
        let set_too_many = known.is_none() && sets == MOST_RULE_SETS;
        self.refuse_if(self.policy.rules.len() == MOST_RULES || set_too_many, 7)?;
        let head = self.grant_terms(head)?;
        let mut variables = [None; 4];
        self.note_grant_variables(&mut variables, head)?;
        if known.is_none() {
            self.policy.rule_sets.push(name.to_vec());
        }
        self.policy.rules.push(Rule {
            rule_set: known.unwrap_or(sets),
            head,
            body: Vec::new(),
            variables,
        });
        Ok(())
    }

    /// A B line joins the last rule.
    fn take_atom(&mut self, atom: AtomText) -> Result<(), Refusal> {
        let Some(rule) = self.policy.rules.last() else {
            return Err(self.refuse(4));
        };
        let mut variables = rule.variables;
        self.refuse_if(rule.body.len() == MOST_BODY_ATOMS, 7)?;
        let atom = match atom {
            AtomText::Grant(terms) => {
                let terms = self.grant_terms(terms)?;
                self.note_grant_variables(&mut variables, terms)?;
                Atom::Grant(terms)
            }
            AtomText::Order(sort, order, x, y) => {
                let (x, y) = (self.term(sort, x)?, self.term(sort, y)?);
                self.note_variable(&mut variables, sort, x)?;
                self.note_variable(&mut variables, sort, y)?;
                Atom::Order(sort, order, x, y)
            }
            AtomText::Has(sort, predicate, x) => {
                let predicate = self.policy.predicate(sort, predicate);
                let predicate = predicate.ok_or(self.refuse(6))?;
                let x = self.term(sort, x)?;
                self.note_variable(&mut variables, sort, x)?;
                Atom::Has(sort, predicate, x)
            }
        };
        if let Some(rule) = self.policy.rules.last_mut() {
            rule.variables = variables;
            rule.body.push(atom);
        }
        Ok(())
    }

    /// Rows 12, 13, 14 and 16 each read the whole expression before the next.
    fn take_expression(&mut self, limit: usize, text: &[u8]) -> Result<(), Refusal> {
        self.refuse_if(limit > MOST_LIMIT, 7)?;
        let parts = expression::parts(text).map_err(|place| self.refuse_at(12, place))?;
        let steps = expression::steps(&self.policy, &parts);
        let steps = steps.map_err(|place| self.refuse_at(13, place))?;
        self.refuse_if(expression::too_large(&steps), 14)?;
        self.refuse_if(expression::too_many_bindings(&steps), 16)?;
        self.policy.limit = limit;
        self.policy.expression = steps;
        Ok(())
    }

    fn member(&self, sort: Sort, name: &[u8]) -> Result<usize, Refusal> {
        let number = self.policy.members_of(sort).number(name);
        number.ok_or(self.refuse(6))
    }

    fn term(&self, sort: Sort, text: TermText) -> Result<Term, Refusal> {
        match text {
            TermText::Name(name) => Ok(Term::Member(self.member(sort, name)?)),
            TermText::Variable(variable) => Ok(Term::Variable(variable)),
        }
    }

    fn grant_terms(&self, [s, o, a]: [TermText; 3]) -> Result<[Term; 3], Refusal> {
        Ok([
            self.term(Sort::Subject, s)?,
            self.term(Sort::Object, o)?,
            self.term(Sort::Action, a)?,
        ])
    }

    /// Row 11: a variable keeps the sort at which its rule shows it first.
    fn note_variable(
        &self,
        variables: &mut [Option<Sort>; 4],
        sort: Sort,
        term: Term,
    ) -> Result<(), Refusal> {
        if let Term::Variable(variable) = term {
            let noted = variables[variable].get_or_insert(sort);
            self.refuse_if(*noted != sort, 11)?;
        }
        Ok(())
    }

    fn note_grant_variables(
        &self,
        variables: &mut [Option<Sort>; 4],
        terms: [Term; 3],
    ) -> Result<(), Refusal> {
        for (sort, term) in Sort::ALL.into_iter().zip(terms) {
            self.note_variable(variables, sort, term)?;
        }
        Ok(())
    }
}
