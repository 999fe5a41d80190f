//! Files with templates: sound ones that have at least one, and expressions at
//! the limits that templates share in, or just past one.

use super::expression::{Bounds, JOINS};
use super::large;
use super::random::Random;
use super::sound::{self, Draft};
use crate::expression::{MOST_BINDINGS, MOST_OPEN_BRACKETS, MOST_OPERATORS, MOST_SETS_HELD};

/// One in four at the limits.
pub fn policy(random: &mut Random, number: u64) -> Draft {
    match number % 4 {
        3 => edge(random),
        _ => sound(random),
    }
}

fn sound(random: &mut Random) -> Draft {
    let mut plan = sound::plan(random);
    plan.bounds = Bounds {
        operators: random.choose(&[1, 3, 5, 8, 12, 20, 40, MOST_OPERATORS]),
        sets: random.choose(&[2, 3, 4, 5, 8, MOST_SETS_HELD]),
        brackets: random.choose(&[1, 2, 3, 5, 8, MOST_OPEN_BRACKETS]),
        bindings: random.choose(&[1, 2, 3, MOST_BINDINGS]),
        template_first: true,
    };
    let limit = sound::limit(random);
    sound::build(random, &plan, limit)
}

/// A small file whose expression is at a limit or one past it.
pub fn edge(random: &mut Random) -> Draft {
    let mut draft = large::small(random);
    draft.lines.pop();
    let past = random.below(2);
    let expression = Edge {
        random,
        tables: draft.tables.iter().map(|table| table.0.clone()).collect(),
    }
    .write(past);
    let limit = sound::limit(random);
    draft.finish(limit, &expression);
    draft
}

struct Edge<'a> {
    random: &'a mut Random,
    tables: Vec<String>,
}

impl Edge<'_> {
    fn write(&mut self, past: usize) -> String {
        match self.random.below(6) {
            0 => self.bindings(MOST_BINDINGS + past),
            1 => self.sets(past),
            2 => self.operators(past),
            3 => self.brackets(MOST_OPEN_BRACKETS + past),
            4 => self.through_f(MOST_OPEN_BRACKETS + past),
            // So many bindings hold 14 sets or 15: 16, or 14 before it.
            _ => self.bindings(MOST_SETS_HELD - 1 + past),
        }
    }

    fn table(&mut self) -> String {
        self.random.pick::<str, _>(&self.tables).to_string()
    }

    fn join(&mut self) -> &'static str {
        self.random.choose(&JOINS)
    }

    /// A name to bind, often bound before or a table's.
    fn name(&mut self) -> String {
        let table = self.table();
        let names = ["x", "x", "y", "x1", "tt", &table];
        self.random.choose(&names).to_string()
    }

    /// So many templates, each in the E of the one before.
    fn bindings(&mut self, count: usize) -> String {
        let names: Vec<String> = (0..count).map(|_| self.name()).collect();
        let mut text = match names.is_empty() {
            true => self.table(),
            false => self.random.pick::<str, _>(&names).to_string(),
        };
        for (depth, name) in names.iter().enumerate().rev() {
            let outer = match depth > 0 && self.random.percent(60) {
                true => self.random.pick::<str, _>(&names[..depth]).to_string(),
                false => self.table(),
            };
            text = format!("(t:{name}.{text})({outer})");
        }
        text
    }

    /// 14 sets held, or one more: in E or in F.
    fn sets(&mut self, past: usize) -> String {
        let table = self.table();
        let nested = |opened: &str, depth: usize| {
            opened.repeat(depth) + &table + &")".repeat(depth)
        };
        let opened = format!("{table}{}(", self.join());
        let depth = MOST_SETS_HELD - 1 + past;
        if self.random.percent(50) {
            return format!("(t:x.x)({})", nested(&opened, depth));
        }
        let bindings = self.random.between(1, MOST_BINDINGS);
        let inside = nested(&opened, depth - bindings);
        "(t:x.".repeat(bindings) + &inside + &format!(")({table})").repeat(bindings)
    }

    /// 64 operators or one more, in E, in F and behind.
    fn operators(&mut self, past: usize) -> String {
        let (mut e, mut f) = ("x".to_string(), self.table());
        let mut behind = String::new();
        for _ in 1..MOST_OPERATORS + past {
            match self.random.below(3) {
                0 => e += &format!("{}x", self.join()),
                1 => f += &format!("{}{}", self.join(), self.table()),
                _ => behind += &format!("{}{}", self.join(), self.table()),
            }
        }
        format!("(t:x.{e})({f}){behind}")
    }

    /// So many brackets, plain ones, overrides' and templates', of which the
    /// innermost is one; no more around E than bindings may be in force.
    fn brackets(&mut self, count: usize) -> String {
        let mut text = format!("(t:x.x)({})", self.table());
        let mut bindings = 0;
        for _ in 1..count {
            let table = self.table();
            text = match self.random.below(4) {
                0 if bindings + 1 < MOST_BINDINGS => {
                    bindings += 1;
                    format!("(t:x.{text})({table})")
                }
                1 => format!("(t:x.x)({text})"),
                2 => format!("o({text},{table},{table})"),
                _ => format!("({text})"),
            };
        }
        text
    }

    /// So many templates, each in the F of the one before.
    fn through_f(&mut self, count: usize) -> String {
        let mut text = self.table();
        for _ in 0..count {
            let name = self.name();
            text = match self.random.percent(80) {
                true => format!("(t:{name}.{name})({text})"),
                false => format!("(t:{name}.{})({text})", self.table()),
            };
        }
        text
    }
}
