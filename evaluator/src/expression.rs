//! Expressions. The grammar (row 12) is read into a flat list of parts in the
//! order in which they are composed: operands first, then what joins them, and
//! of a template `(t:x.E)(F)` F before E. A flat list keeps long expressions,
//! which are only refused at row 14, from nesting deeply.

use crate::policy::{MemberSet, Order, Policy, Sort, MOST_NAME_BYTES};
use crate::reader::{is_lone_letter, is_name_byte, is_sort_letter};

pub const MOST_OPEN_BRACKETS: usize = 32;
pub const MOST_SETS_HELD: usize = 14;
pub const MOST_OPERATORS: usize = 64;
/// Bindings in force at once, hidden ones counted.
pub const MOST_BINDINGS: usize = 4;

/// What stands behind the bracket of a template and of no other.
const TEMPLATE: &[u8] = b"t:";

#[derive(Clone, Copy, Debug, PartialEq, Eq)]
pub enum Join {
    Plus,
    And,
    Minus,
}

/// A name in the expression and the place of its first byte.
#[derive(Clone, Copy, Debug)]
pub struct Name<'a> {
    pub text: &'a [u8],
    pub place: usize,
}

/// One part of an expression of the grammar, names not looked up yet.
#[derive(Debug)]
pub enum Part<'a> {
    /// A table, or the x of a template around it.
    Table(Name<'a>),
    Closure(Name<'a>),
    Compared(Sort, Order, Name<'a>),
    Marked(Name<'a>, Sort),
    Join(Join),
    Override,
    /// Stands between F and E: the name is bound to F.
    Bind(Name<'a>),
    /// Stands behind E: the last binding ends.
    Unbind,
}

/// One step of composing: a part with its names looked up.
#[derive(Clone, Copy, Debug, PartialEq, Eq)]
pub enum Step {
    /// The table's number.
    Table(usize),
    /// An x: the number of its binding among those in force, the outermost 0.
    Bound(usize),
    /// The rule set's number.
    Closure(usize),
    /// Keeps the accesses whose member of the sort is in the set.
    Scope(Sort, MemberSet),
    Join(Join),
    Override,
    /// The last operand's answers are those of a new binding.
    Bind,
    /// The last binding ends.
    Unbind,
}

/// Reads an expression. On a fault: the length of the longest beginning of the
/// text that some well-formed expression has.
pub fn parts(text: &[u8]) -> Result<Vec<Part<'_>>, usize> {
    let mut reader = Reader {
        text,
        place: 0,
        open: 0,
        parts: Vec::new(),
    };
    reader.expression()?;
    match reader.place == text.len() {
        true => Ok(reader.parts),
        false => Err(reader.place),
    }
}

/// Every byte passed can begin a well-formed expression together with those
/// before it, so the place of a fault is always the byte that cannot follow.
struct Reader<'a> {
    text: &'a [u8],
    place: usize,
    /// Round brackets open, a predicate's not counted.
    open: usize,
    parts: Vec<Part<'a>>,
}

impl<'a> Reader<'a> {
    fn peek(&self) -> Option<u8> {
        self.text.get(self.place).copied()
    }

    /// Passes the byte if it is the next one.
    fn pass(&mut self, byte: u8) -> bool {
        let next = self.peek() == Some(byte);
        self.place += usize::from(next);
        next
    }

    fn next_is(&self, bytes: &[u8]) -> bool {
        self.text[self.place..].starts_with(bytes)
    }

    fn expect(&mut self, byte: u8) -> Result<(), usize> {
        match self.pass(byte) {
            true => Ok(()),
            false => Err(self.place),
        }
    }

    /// Factors joined by `+`, `&` and `-`, all to the left.
    fn expression(&mut self) -> Result<(), usize> {
        self.factor()?;
        while let Some(join) = self.join() {
            self.place += 1;
            self.factor()?;
            self.parts.push(Part::Join(join));
        }
        Ok(())
    }

    fn join(&self) -> Option<Join> {
        match self.peek()? {
            b'+' => Some(Join::Plus),
            b'&' => Some(Join::And),
            b'-' => Some(Join::Minus),
            _ => None,
        }
    }

    /// A primary with its scopes and closures.
    fn factor(&mut self) -> Result<(), usize> {
        self.primary()?;
        loop {
            if self.pass(b'^') {
                self.scope()?;
            } else if self.pass(b'*') {
                let rule_set = self.name()?;
                self.parts.push(Part::Closure(rule_set));
            } else {
                return Ok(());
            }
        }
    }

    fn primary(&mut self) -> Result<(), usize> {
        if self.peek() == Some(b'(') {
            self.open_bracket()?;
            if self.next_is(TEMPLATE) {
                return self.template();
            }
            self.expression()?;
            return self.close_bracket();
        }
        if self.next_is(b"o(") {
            self.place += 1;
            self.open_bracket()?;
            self.expression()?;
            self.expect(b',')?;
            self.expression()?;
            self.expect(b',')?;
            self.expression()?;
            self.parts.push(Part::Override);
            return self.close_bracket();
        }
        let table = self.name()?;
        self.parts.push(Part::Table(table));
        Ok(())
    }

    /// The rest of `(t:x.E)(F)` behind its first bracket, which is closed before
    /// F's own is opened. F's parts move before those of E.
    fn template(&mut self) -> Result<(), usize> {
        self.place += TEMPLATE.len();
        let bound = self.name()?;
        self.expect(b'.')?;
        let start = self.parts.len();
        self.parts.push(Part::Bind(bound));
        self.expression()?;
        self.parts.push(Part::Unbind);
        self.close_bracket()?;
        let end = self.parts.len();
        self.open_bracket()?;
        self.expression()?;
        self.parts[start..].rotate_left(end - start);
        self.close_bracket()
    }

    fn open_bracket(&mut self) -> Result<(), usize> {
        if self.open == MOST_OPEN_BRACKETS {
            return Err(self.place);
        }
        self.open += 1;
        self.expect(b'(')
    }

    fn close_bracket(&mut self) -> Result<(), usize> {
        self.expect(b')')?;
        self.open -= 1;
        Ok(())
    }

    /// What follows `^`: a comparison after a sort's letter standing alone, or
    /// else a predicate.
    fn scope(&mut self) -> Result<(), usize> {
        self.expect(b'[')?;
        let part = match is_sort_letter(self.name_bytes()) {
            true => self.comparison()?,
            false => self.mark()?,
        };
        self.expect(b']')?;
        self.parts.push(part);
        Ok(())
    }

    fn comparison(&mut self) -> Result<Part<'a>, usize> {
        let sort = self.sort_letter()?;
        let order = if self.pass(b'<') {
            match self.pass(b'=') {
                true => Order::Le,
                false => Order::Lt,
            }
        } else if self.pass(b'>') {
            match self.pass(b'=') {
                true => Order::Ge,
                false => Order::Gt,
            }
        } else {
            self.expect(b'=')?;
            Order::Eq
        };
        Ok(Part::Compared(sort, order, self.name()?))
    }

    fn mark(&mut self) -> Result<Part<'a>, usize> {
        let predicate = self.name()?;
        self.expect(b'(')?;
        let sort = self.sort_letter()?;
        self.expect(b')')?;
        Ok(Part::Marked(predicate, sort))
    }

    fn sort_letter(&mut self) -> Result<Sort, usize> {
        let sort = match self.peek() {
            Some(b's') => Sort::Subject,
            Some(b'o') => Sort::Object,
            Some(b'a') => Sort::Action,
            _ => return Err(self.place),
        };
        self.place += 1;
        Ok(sort)
    }

    /// The name bytes that stand next.
    fn name_bytes(&self) -> &'a [u8] {
        let rest = &self.text[self.place..];
        let end = rest.iter().position(|&byte| !is_name_byte(byte));
        &rest[..end.unwrap_or(rest.len())]
    }

    /// A letter that is no name alone may still begin a longer name, so the
    /// fault is after it; so are the first 24 bytes of a name that is too long
    /// good.
    fn name(&mut self) -> Result<Name<'a>, usize> {
        let place = self.place;
        if !self.peek().is_some_and(|byte| byte.is_ascii_lowercase()) {
            return Err(place);
        }
        let text = self.name_bytes();
        if text.len() > MOST_NAME_BYTES {
            return Err(place + MOST_NAME_BYTES);
        }
        self.place += text.len();
        match is_lone_letter(text) {
            true => Err(self.place),
            false => Ok(Name { text, place }),
        }
    }
}

/// Looks all names up. On a fault: the place of the leftmost name that is not
/// declared as the kind and sort its place needs.
pub fn steps(policy: &Policy, parts: &[Part]) -> Result<Vec<Step>, usize> {
    let mut bound = Vec::new();
    let steps = parts.iter().map(|part| step(policy, &mut bound, part));
    let steps: Vec<Result<Step, usize>> = steps.collect();
    // E's names stand to the left of F's, though F's parts come first.
    match steps.iter().filter_map(|step| step.err()).min() {
        Some(leftmost) => Err(leftmost),
        None => Ok(steps.into_iter().flatten().collect()),
    }
}

/// A part with its name looked up. The names bound so far are those in force
/// there, the innermost last.
fn step<'a>(
    policy: &Policy,
    bound: &mut Vec<&'a [u8]>,
    part: &Part<'a>,
) -> Result<Step, usize> {
    match *part {
        Part::Table(name) => table_or_bound(policy, bound, name).ok_or(name.place),
        Part::Closure(name) => {
            let rule_set = policy.rule_set(name.text);
            Ok(Step::Closure(rule_set.ok_or(name.place)?))
        }
        Part::Compared(sort, order, name) => {
            let members = policy.members_of(sort);
            let member = members.number(name.text).ok_or(name.place)?;
            // All x with `x order member`.
            let inside = members.related(order.reversed(), member);
            Ok(Step::Scope(sort, inside))
        }
        Part::Marked(name, sort) => {
            let predicate = policy.predicate(sort, name.text).ok_or(name.place)?;
            Ok(Step::Scope(sort, policy.predicates[predicate].holds))
        }
        Part::Join(join) => Ok(Step::Join(join)),
        Part::Override => Ok(Step::Override),
        Part::Bind(name) => {
            bound.push(name.text);
            Ok(Step::Bind)
        }
        Part::Unbind => {
            bound.pop();
            Ok(Step::Unbind)
        }
    }
}

/// A bound name hides a table and the outer bindings of that name.
fn table_or_bound(policy: &Policy, bound: &[&[u8]], name: Name) -> Option<Step> {
    match bound.iter().rposition(|&known| known == name.text) {
        Some(binding) => Some(Step::Bound(binding)),
        None => policy.table(name.text).map(Step::Table),
    }
}

/// Row 14: more than 14 sets held or 64 operators.
pub fn too_large(steps: &[Step]) -> bool {
    sets_held(steps) > MOST_SETS_HELD || operators(steps) > MOST_OPERATORS
}

/// A template is one, counted where its binding begins.
pub fn operators(steps: &[Step]) -> usize {
    let operator = |step: &&Step| !matches!(step, Step::Table(_) | Step::Bound(_) | Step::Unbind);
    steps.iter().filter(operator).count()
}

pub fn sets_held(steps: &[Step]) -> usize {
    let mut held: Vec<usize> = Vec::new();
    for step in steps {
        let sets = match step {
            Step::Table(_) | Step::Bound(_) => 1,
            // As their operand; F's stay there until E is done.
            Step::Closure(_) | Step::Scope(..) | Step::Bind => pop(&mut held),
            Step::Join(_) => {
                let (right, left) = (pop(&mut held), pop(&mut held));
                left.max(1 + right)
            }
            Step::Override => {
                let third = pop(&mut held);
                let (second, first) = (pop(&mut held), pop(&mut held));
                first.max(1 + second).max(2 + third)
            }
            Step::Unbind => {
                let (e, f) = (pop(&mut held), pop(&mut held));
                f.max(1 + e)
            }
        };
        held.push(sets);
    }
    pop(&mut held)
}

/// Row 16: more than 4 bindings in force at once.
pub fn too_many_bindings(steps: &[Step]) -> bool {
    bindings(steps) > MOST_BINDINGS
}

/// The most bindings that are in force at once: for a template the larger of
/// F's and 1 + E's.
pub fn bindings(steps: &[Step]) -> usize {
    let (mut now, mut most) = (0, 0);
    for step in steps {
        match step {
            Step::Bind => now += 1,
            Step::Unbind => now -= 1,
            _ => {}
        }
        most = most.max(now);
    }
    most
}

/// The last operand. The grammar puts one there for each that a step takes.
pub fn pop<T: Default>(operands: &mut Vec<T>) -> T {
    operands.pop().unwrap_or_default()
}
