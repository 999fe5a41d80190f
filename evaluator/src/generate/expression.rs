//! Random expressions within bounds.

use super::random::Random;
use super::sound::{self, Draft};

pub struct Bounds {
    pub operators: usize,
    pub sets: usize,
    pub brackets: usize,
    /// Bindings in force at once; with none there is no template.
    pub bindings: usize,
    /// The first primary is a template, if the others leave room for one.
    pub template_first: bool,
}

const SORT_LETTERS: [&str; 3] = ["s", "o", "a"];
/// Comparisons that keep more stand twice.
const COMPARISONS: [&str; 7] = ["<=", "<=", ">=", ">=", "<", ">", "="];
pub const JOINS: [&str; 3] = ["+", "&", "-"];

/// An expression over what the draft declares, with no more operators, sets
/// held, open brackets and bindings than the bounds say.
pub fn write(random: &mut Random, draft: &Draft, bounds: &Bounds) -> String {
    let mut writer = Writer {
        random,
        draft,
        operators: bounds.operators,
        bindings: bounds.bindings,
        bound: Vec::new(),
        template_first: bounds.template_first,
    };
    writer.expression(bounds.sets, bounds.brackets)
}

/// A scope or, if there are rule sets, a closure.
pub fn postfix(random: &mut Random, draft: &Draft) -> String {
    let sort = random.below(3);
    let letter = SORT_LETTERS[sort];
    let form = random.below(10);
    if form < 6 && !draft.rule_sets.is_empty() {
        let rule_set: &str = random.pick(&draft.rule_sets);
        return format!("*{rule_set}");
    }
    if form < 8 && !draft.predicates.is_empty() {
        let number = random.below(draft.predicates.len());
        let (sort, predicate) = &draft.predicates[number];
        return format!("^[{predicate}({})]", SORT_LETTERS[*sort]);
    }
    let comparison = random.choose(&COMPARISONS);
    let member: &str = random.pick(&draft.members[sort]);
    format!("^[{letter}{comparison}{member}]")
}

struct Writer<'a> {
    random: &'a mut Random,
    draft: &'a Draft,
    /// Operators still to be used.
    operators: usize,
    bindings: usize,
    /// The names bound where the next text stands, the innermost last.
    bound: Vec<String>,
    template_first: bool,
}

impl Writer<'_> {
    /// With this chance an operator, if one is left.
    fn operator(&mut self, percent: usize) -> bool {
        let used = self.operators > 0 && self.random.percent(percent);
        self.operators -= usize::from(used);
        used
    }

    /// A right operand is composed while the left is held, so it has one set
    /// less.
    fn expression(&mut self, sets: usize, brackets: usize) -> String {
        let mut text = self.factor(sets, brackets);
        while sets > 1 && self.operator(55) {
            text += self.random.choose(&JOINS);
            text += &self.factor(sets - 1, brackets);
        }
        text
    }

    fn factor(&mut self, sets: usize, brackets: usize) -> String {
        let mut text = self.primary(sets, brackets);
        while self.operator(60) {
            text += &postfix(self.random, self.draft);
        }
        text
    }

    fn primary(&mut self, sets: usize, brackets: usize) -> String {
        if brackets > 0 && sets > 1 && self.bound.len() < self.bindings {
            // More of them in one another than beside each other.
            let percent = match (self.template_first, self.bound.is_empty()) {
                (true, _) => 100,
                (false, true) => 25,
                (false, false) => 40,
            };
            self.template_first = false;
            if self.operator(percent) {
                return self.template(sets, brackets);
            }
        }
        if brackets > 0 && sets > 2 && self.operator(15) {
            let first = self.expression(sets, brackets - 1);
            let second = self.expression(sets - 1, brackets - 1);
            let third = self.expression(sets - 2, brackets - 1);
            return format!("o({first},{second},{third})");
        }
        if brackets > 0 && self.random.percent(25) {
            return format!("({})", self.expression(sets, brackets - 1));
        }
        self.leaf()
    }

    /// F's answers are held while E is composed, so E has one set less.
    fn template(&mut self, sets: usize, brackets: usize) -> String {
        let f = self.expression(sets, brackets - 1);
        let name = self.name_to_bind();
        self.bound.push(name.clone());
        let e = self.expression(sets - 1, brackets - 1);
        self.bound.pop();
        format!("(t:{name}.{e})({f})")
    }

    /// A name of its own, or one that means something else: a table or another
    /// binding, which it hides, or a member, rule set or predicate.
    fn name_to_bind(&mut self) -> String {
        let draft = self.draft;
        let predicates: Vec<&str> = draft.predicates.iter().map(|(_, name)| &name[..]).collect();
        let taken: &str = match self.random.below(12) {
            0..=2 => return self.table(),
            3 | 4 if !self.bound.is_empty() => self.random.pick(&self.bound),
            5 => {
                let sort = self.random.below(3);
                self.random.pick(&draft.members[sort])
            }
            6 if !draft.rule_sets.is_empty() => self.random.pick(&draft.rule_sets),
            7 if !predicates.is_empty() => self.random.pick(&predicates),
            _ => return sound::name(self.random, &[], false),
        };
        taken.to_string()
    }

    /// A bound name, if there is one, more often than a table.
    fn leaf(&mut self) -> String {
        match !self.bound.is_empty() && self.random.percent(65) {
            true => self.random.pick::<str, _>(&self.bound).to_string(),
            false => self.table(),
        }
    }

    fn table(&mut self) -> String {
        let table = self.random.below(self.draft.tables.len());
        self.draft.tables[table].0.clone()
    }
}
