//! Sound files: accepted, with every construct.

use super::expression::{self, Bounds};
use super::random::Random;
use crate::expression::MOST_BINDINGS;
use crate::policy::{MOST_LIMIT, MOST_NAME_BYTES};
use crate::reader::{is_name, MOST_FILE_BYTES};

/// How large a file is to be.
pub struct Plan {
    pub counts: [usize; 3],
    pub predicates: usize,
    pub tables: usize,
    pub rule_sets: usize,
    pub rules: usize,
    pub grants: usize,
    /// Most instances that one rule may have.
    pub instances: usize,
    /// How many atoms the body of a rule of any shape has: one of these.
    pub atoms: &'static [usize],
    pub short_names: bool,
    /// Where the members' names begin in the index; anywhere if there is none.
    pub crowd: Option<Crowd>,
    pub bounds: Bounds,
}

/// So many slots of the index from the first on, round past the end.
#[derive(Clone, Copy)]
pub struct Crowd {
    pub first: usize,
    pub slots: usize,
}

/// A file's lines without their LF, the E line last, and what they declare.
#[derive(Default)]
pub struct Draft {
    pub members: [Vec<String>; 3],
    /// Sort number and name.
    pub predicates: Vec<(usize, String)>,
    /// Name and whether it is here.
    pub tables: Vec<(String, bool)>,
    pub rule_sets: Vec<String>,
    pub lines: Vec<String>,
}

pub const ATOMS: [usize; 11] = [0, 1, 1, 1, 2, 2, 2, 3, 3, 4, 4];
pub const SORT_WORDS: [&str; 3] = ["S", "O", "A"];
pub const ORDER_WORDS: [&str; 5] = ["le", "ge", "lt", "gt", "eq"];

/// Names that mean something elsewhere in a file, or come close to it.
const WORDS: [&str; 16] = [
    "here", "away", "grant", "has", "le", "ge", "lt", "gt", "eq", "tt", "ss", "oo", "aa", "o1",
    "a_", "s0",
];

impl Draft {
    pub fn file(&self) -> Vec<u8> {
        self.lines
            .join("\n")
            .into_bytes()
            .into_iter()
            .chain([b'\n'])
            .collect()
    }

    pub fn bytes(&self) -> usize {
        self.lines.iter().map(|line| line.len() + 1).sum()
    }

    /// Drops G lines, then B lines, until the file is not too long. A sound
    /// file stays sound without them.
    pub fn fit(&mut self) {
        for kind in ["G,", "B,"] {
            while self.bytes() > MOST_FILE_BYTES {
                let last = self.lines.iter().rposition(|line| line.starts_with(kind));
                let Some(last) = last else { break };
                self.lines.remove(last);
            }
        }
    }

    /// Puts the expression in, as the last line.
    pub fn finish(&mut self, limit: usize, expression: &str) {
        self.lines.push(format!("E,{limit},{expression}"));
    }
}

pub fn policy(random: &mut Random) -> Draft {
    let plan = plan(random);
    let limit = limit(random);
    build(random, &plan, limit)
}

pub fn plan(random: &mut Random) -> Plan {
    let counts = counts(random);
    let rules = random.choose(&[0, 1, 2, 3, 4, 6, 8, 10, 14, 20]);
    Plan {
        counts,
        predicates: random.choose(&[0, 1, 2, 3, 5, 8]),
        tables: random.choose(&[1, 1, 2, 3, 4, 6]),
        rule_sets: random.choose(&[1, 1, 2, 3, 4]).min(rules),
        rules,
        grants: random.choose(&[0, 4, 8, 12, 20, 30]),
        instances: 5_000,
        atoms: &ATOMS,
        short_names: false,
        crowd: None,
        bounds: Bounds {
            operators: random.choose(&[0, 2, 4, 6, 8, 10, 12, 20, 40, 64]),
            sets: random.choose(&[1, 2, 3, 4, 5, 8, 14]),
            brackets: random.choose(&[0, 1, 2, 3, 5, 8, 32]),
            bindings: MOST_BINDINGS,
            template_first: random.percent(60),
        },
    }
}

fn counts(random: &mut Random) -> [usize; 3] {
    match random.below(20) {
        0..=13 => [
            random.between(1, 6),
            random.between(1, 5),
            random.between(1, 3),
        ],
        14..=16 => [
            random.between(1, 16),
            random.between(1, 16),
            random.between(1, 8),
        ],
        17 => [random.between(32, 64), 1, 1],
        18 => [1, random.between(32, 64), random.between(1, 2)],
        _ => [1, random.between(1, 2), 16],
    }
}

pub fn limit(random: &mut Random) -> usize {
    match random.below(10) {
        0..=3 => MOST_LIMIT,
        4..=7 => random.below(6),
        8 => random.choose(&[9, 10, 99, 100, 999, 1_000, 4_095]),
        _ => random.between(0, MOST_LIMIT),
    }
}

/// Builds a sound file to a plan.
pub fn build(random: &mut Random, plan: &Plan, limit: usize) -> Draft {
    let mut draft = Draft::default();
    add_members(random, plan, &mut draft);
    add_predicates(random, plan, &mut draft);
    add_tables(random, plan, &mut draft);
    add_grants(random, plan, &mut draft);
    add_rules(random, plan, &mut draft);
    let expression = expression::write(random, &draft, &plan.bounds);
    draft.finish(limit, &expression);
    draft.fit();
    draft
}

/// A name that is not taken yet.
pub fn name(random: &mut Random, taken: &[String], short: bool) -> String {
    loop {
        let bytes = match random.below(10) {
            _ if short => 2,
            0 | 1 => MOST_NAME_BYTES,
            2 => 1,
            3 => random.between(1, MOST_NAME_BYTES),
            4 | 5 => 0,
            _ => random.between(2, 7),
        };
        let name = match bytes {
            0 => random.choose(&WORDS).to_string(),
            _ => letters(random, bytes),
        };
        if is_name(name.as_bytes()) && !taken.contains(&name) {
            return name;
        }
    }
}

/// The bytes of names, those that may begin one first.
pub const NAME_BYTES: &[u8] = b"abcdefghijklmnopqrstuvwxyz0123456789_";
const LETTERS: usize = 26;

fn letters(random: &mut Random, bytes: usize) -> String {
    let choices = |at| if at == 0 { LETTERS } else { NAME_BYTES.len() };
    (0..bytes)
        .map(|at| char::from(NAME_BYTES[random.below(choices(at))]))
        .collect()
}

fn names(random: &mut Random, count: usize, short: bool) -> Vec<String> {
    let mut names = Vec::new();
    for _ in 0..count {
        let name = name(random, &names, short);
        names.push(name);
    }
    names
}

fn crowded_names(random: &mut Random, count: usize, crowd: Crowd) -> Vec<String> {
    let mut names = Vec::new();
    for _ in 0..count {
        let name = crowd.name(random, &names);
        names.push(name);
    }
    names
}

/// Forests of different shapes: flat, chains, trees.
fn add_members(random: &mut Random, plan: &Plan, draft: &mut Draft) {
    for (sort, word) in SORT_WORDS.iter().enumerate() {
        let names = match plan.crowd {
            Some(crowd) => crowded_names(random, plan.counts[sort], crowd),
            None => names(random, plan.counts[sort], plan.short_names),
        };
        let (roots, chained) = (random.choose(&[5, 30, 70]), random.choose(&[10, 50, 90]));
        for (number, name) in names.iter().enumerate() {
            let parent = if number == 0 || random.percent(roots) {
                "-"
            } else if random.percent(chained) {
                &names[number - 1]
            } else {
                &names[random.below(number)]
            };
            draft.lines.push(format!("{word},{name},{parent}"));
        }
        draft.members[sort] = names;
    }
}

/// Each predicate with some members of its sort, some lines twice, in any
/// order.
fn add_predicates(random: &mut Random, plan: &Plan, draft: &mut Draft) {
    let mut lines = Vec::new();
    let pool = names(random, plan.predicates.max(1), plan.short_names);
    while draft.predicates.len() < plan.predicates {
        let sort = random.below(3);
        let predicate = (sort, random.pick::<str, _>(&pool).to_string());
        if draft.predicates.contains(&predicate) {
            continue;
        }
        for _ in 0..random.between(1, 4) {
            let member: &str = random.pick(&draft.members[sort]);
            lines.push(format!("P,{},{},{member}", SORT_WORDS[sort], predicate.1));
        }
        draft.predicates.push(predicate);
    }
    repeat_some(random, &mut lines);
    random.shuffle(&mut lines);
    draft.lines.append(&mut lines);
}

fn add_tables(random: &mut Random, plan: &Plan, draft: &mut Draft) {
    for name in names(random, plan.tables, plan.short_names) {
        let here = random.percent(if draft.tables.is_empty() { 90 } else { 65 });
        let word = if here { "here" } else { "away" };
        draft.lines.push(format!("T,{name},{word}"));
        draft.tables.push((name, here));
    }
}

fn add_grants(random: &mut Random, plan: &Plan, draft: &mut Draft) {
    let here = draft.tables.iter().filter(|table| table.1);
    let here: Vec<String> = here.map(|table| table.0.clone()).collect();
    if here.is_empty() {
        return;
    }
    let mut lines = Vec::new();
    for _ in 0..plan.grants {
        let table: &str = random.pick(&here);
        let [s, o, a] = [0, 1, 2].map(|sort| random.pick::<str, _>(&draft.members[sort]));
        lines.push(format!("G,{table},{s},{o},{a}"));
    }
    repeat_some(random, &mut lines);
    draft.lines.append(&mut lines);
}

fn repeat_some(random: &mut Random, lines: &mut Vec<String>) {
    for _ in 0..lines.len() / 4 {
        if random.percent(40) {
            let line = random.pick::<str, _>(lines).to_string();
            lines.push(line);
        }
    }
}

/// Rules, each with its body; those of one set need not stand together. Some
/// files have a set that passes grants on along whole sorts, for more rounds.
fn add_rules(random: &mut Random, plan: &Plan, draft: &mut Draft) {
    if plan.rules == 0 {
        return;
    }
    let sets = names(random, plan.rule_sets, plan.short_names);
    let relay_set = random.below(sets.len());
    let mut relay = match random.percent(50) {
        true => relay_steps(random, plan),
        false => Vec::new(),
    };
    let mut rules = Vec::new();
    for number in 0..plan.rules {
        let step = match number < sets.len() {
            true => None,
            false => relay.pop(),
        };
        let set = match step {
            _ if number < sets.len() => number,
            Some(_) => relay_set,
            None => random.below(sets.len()),
        };
        let rule = rule(random, plan, draft, &sets[set], step);
        rules.push(rule);
    }
    random.shuffle(&mut rules);
    for mut lines in rules {
        draft.lines.append(&mut lines);
    }
    draft.rule_sets = sets;
}

/// Sort and member of each step to a member from the one before it, the sorts
/// in any order.
fn relay_steps(random: &mut Random, plan: &Plan) -> Vec<(usize, usize)> {
    let mut sorts = [0, 1, 2];
    random.shuffle(&mut sorts);
    let steps = |sort| (1..plan.counts[sort]).map(move |to| (sort, to));
    sorts.into_iter().flat_map(steps).rev().collect()
}

fn rule(
    random: &mut Random,
    plan: &Plan,
    draft: &Draft,
    set: &str,
    step: Option<(usize, usize)>,
) -> Vec<String> {
    let form = random.below(10);
    let mut writer = RuleWriter {
        random,
        draft,
        sorts: [None; 4],
        instances: 1,
        most: plan.instances,
        atoms: plan.atoms,
        constants: if form < 6 { 8 } else { 25 },
    };
    match (step, form) {
        (Some((sort, to)), _) => {
            writer.constants = 1;
            writer.passing_on(set, sort, to)
        }
        (None, 0..=3) => writer.propagation(set),
        (None, 4 | 5) => writer.passing_on_once(set),
        (None, _) => writer.any(set),
    }
}

struct RuleWriter<'a> {
    random: &'a mut Random,
    draft: &'a Draft,
    /// The sort of each variable in use.
    sorts: [Option<usize>; 4],
    instances: usize,
    most: usize,
    atoms: &'static [usize],
    /// The percentage of members among the terms.
    constants: usize,
}

impl RuleWriter<'_> {
    fn member(&mut self, sort: usize) -> String {
        let member: &str = self.random.pick(&self.draft.members[sort]);
        member.to_string()
    }

    /// A variable of the sort that is in use, or else a new one.
    fn variable(&mut self, sort: usize, new: bool) -> Option<String> {
        let more = self.instances * self.draft.members[sort].len();
        let fits = |known: Option<usize>| match known {
            Some(known) => known == sort && !new,
            None => more <= self.most,
        };
        let free: Vec<usize> = (0..4).filter(|&v| fits(self.sorts[v])).collect();
        if free.is_empty() {
            return None;
        }
        let variable = self.random.choose(&free);
        if self.sorts[variable].is_none() {
            self.sorts[variable] = Some(sort);
            self.instances = more;
        }
        Some(format!("?{variable}"))
    }

    fn term(&mut self, sort: usize) -> String {
        let constant = self.random.percent(self.constants);
        match constant {
            true => self.member(sort),
            false => self
                .variable(sort, false)
                .unwrap_or_else(|| self.member(sort)),
        }
    }

    fn terms(&mut self) -> [String; 3] {
        [0, 1, 2].map(|sort| self.term(sort))
    }

    fn order_word(&mut self) -> &'static str {
        self.random.choose(&ORDER_WORDS)
    }

    /// A grant passes along the hierarchy of one sort.
    fn propagation(&mut self, set: &str) -> Vec<String> {
        let along = self.random.below(3);
        let mut from = self.terms();
        let variable = self.variable(along, true);
        let to = variable.unwrap_or_else(|| self.member(along));
        let order = self.order_word();
        let word = SORT_WORDS[along];
        let mut lines = vec![format!("R,{set},{}", from.join(","))];
        lines.push(format!("B,{order},{word},{},{to}", from[along]));
        from[along] = to;
        lines.push(format!("B,grant,{}", from.join(",")));
        if self.random.percent(30) {
            lines.push(self.atom());
        }
        // Body lines in any order.
        self.random.shuffle(&mut lines[1..]);
        lines
    }

    /// A grant passes to a member from the one before it in the file.
    fn passing_on(&mut self, set: &str, along: usize, to: usize) -> Vec<String> {
        let members = &self.draft.members[along];
        let mut terms = self.terms();
        terms[along] = members[to].clone();
        let head = format!("R,{set},{}", terms.join(","));
        terms[along] = members[to.saturating_sub(1)].clone();
        vec![head, format!("B,grant,{}", terms.join(","))]
    }

    fn passing_on_once(&mut self, set: &str) -> Vec<String> {
        let along = self.random.below(3);
        let to = self.random.below(self.draft.members[along].len());
        self.passing_on(set, along, to)
    }

    fn any(&mut self, set: &str) -> Vec<String> {
        let mut lines = vec![format!("R,{set},{}", self.terms().join(","))];
        for _ in 0..self.random.choose(self.atoms) {
            lines.push(self.atom());
        }
        lines
    }

    fn atom(&mut self) -> String {
        let form = self.random.below(20);
        if form < 11 {
            return format!("B,grant,{}", self.terms().join(","));
        }
        if form < 15 && !self.draft.predicates.is_empty() {
            let number = self.random.below(self.draft.predicates.len());
            let (sort, predicate) = &self.draft.predicates[number];
            let x = self.term(*sort);
            return format!("B,has,{},{predicate},{x}", SORT_WORDS[*sort]);
        }
        let sort = self.random.below(3);
        let (order, x, y) = (self.order_word(), self.term(sort), self.term(sort));
        format!("B,{order},{},{x},{y}", SORT_WORDS[sort])
    }
}
