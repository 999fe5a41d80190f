//! Worst-shaped files: accepted, with closures that cost as much as they can.
//! A ground says which accesses are granted in the end, and in how many rounds
//! they come. The other rules are barren (`barren.rs`). There are as many rules
//! as there may be.

use std::ops::Range;

use super::barren;
use super::large::zigzag_rules;
use super::random::Random;
use super::sound::{Draft, SORT_WORDS};
use crate::expression::MOST_OPERATORS;
use crate::policy::{MOST_LIMIT, MOST_RULES, MOST_RULE_SETS};

/// A file on its way: its lines before the rules, and the rules that make the
/// ground.
pub struct Ground {
    draft: Draft,
    rules: Vec<Vec<String>>,
    parts: [Parts; 3],
    /// The longest sort first.
    pub sorts: [usize; 3],
    /// Whether the grants come in few rounds, each sort's all at once.
    pub few_rounds: bool,
}

/// A sort's members in file order: the main part, among which the ground
/// grants accesses; the isle, which is granted to itself alone; and the bare
/// ones, to which nothing is granted.
#[derive(Clone, Copy, Default)]
pub struct Parts {
    pub main: usize,
    pub isle: usize,
    pub bare: usize,
}

/// The ground goes round with the file's number, so that all occur.
pub fn policy(random: &mut Random, number: u64) -> Vec<u8> {
    let mut ground = match number % 7 {
        0 => zigzag(random),
        1 => waves(random),
        2 => path(random),
        3 => filled(random),
        4 => stripes(random),
        5 => passed_down(random),
        _ => scattered(random),
    };
    let sets = rule_sets(random);
    let rules = barren::rules(random, &ground, &sets, MOST_RULES - ground.rules.len());
    ground.rules.extend(rules);
    random.shuffle(&mut ground.rules);
    let (mut draft, few_rounds) = (ground.draft, ground.few_rounds);
    draft.lines.extend(ground.rules.into_iter().flatten());
    let limit = random.choose(&[MOST_LIMIT, MOST_LIMIT, MOST_LIMIT, MOST_LIMIT - 1, 1_000]);
    draft.finish(limit, &expression(random, &sets, few_rounds));
    draft.fit();
    draft.file()
}

/// The dearest counts stand more than once.
const COUNTS: [[usize; 3]; 10] = [
    [64, 64, 1],
    [64, 64, 1],
    [64, 64, 1],
    [64, 64, 1],
    [64, 64, 1],
    [64, 32, 2],
    [16, 16, 16],
    [64, 8, 8],
    [64, 4, 16],
    [4, 64, 16],
];

const LETTERS: [&str; 3] = ["u", "v", "w"];
/// The rule set of the ground.
const STEP: &str = "step";

pub fn member(sort: usize, number: usize) -> String {
    format!("{}{number}", LETTERS[sort])
}

impl Parts {
    fn count(self) -> usize {
        self.main + self.isle + self.bare
    }

    pub fn of_isle(self) -> Range<usize> {
        self.main..self.main + self.isle
    }

    pub fn of_bare(self) -> Range<usize> {
        self.main + self.isle..self.count()
    }
}

impl Ground {
    /// Members in chains of this length, none of which runs from one part into
    /// the next. Sorts of more than four members are parted.
    fn new(random: &mut Random, counts: [usize; 3], chain: usize) -> Ground {
        let (share, bare) = (random.choose(&[0, 5, 30, 50, 50]), random.between(1, 2));
        let parts = counts.map(|count| {
            let (share, bare) = if count > 4 { (share, bare) } else { (0, 0) };
            let isle = (count - bare) * share / 100;
            let main = count - bare - isle;
            Parts { main, isle, bare }
        });
        let mut sorts = [0, 1, 2];
        sorts.sort_by_key(|&sort| std::cmp::Reverse(counts[sort]));
        let mut draft = Draft::default();
        for (sort, of) in parts.iter().enumerate() {
            for part in [0..of.main, of.of_isle(), of.of_bare()] {
                for number in part.clone() {
                    let parent = match (number - part.start) % chain {
                        0 => "-".to_string(),
                        _ => member(sort, number - 1),
                    };
                    let (word, name) = (SORT_WORDS[sort], member(sort, number));
                    draft.lines.push(format!("{word},{name},{parent}"));
                    draft.members[sort].push(name);
                }
            }
        }
        Ground {
            draft,
            rules: Vec::new(),
            parts,
            sorts,
            few_rounds: false,
        }
    }

    pub fn parts(&self, sort: usize) -> Parts {
        self.parts[sort]
    }

    /// The predicates of a sort. No member has two of them.
    pub fn marks(&self, sort: usize) -> Vec<&str> {
        let of_sort = self.draft.predicates.iter().filter(|mark| mark.0 == sort);
        of_sort.map(|mark| &mark.1[..]).collect()
    }

    fn add(&mut self, line: String) {
        self.draft.lines.push(line);
    }

    fn mark(&mut self, sort: usize, predicate: &str, members: Range<usize>) {
        let mark = (sort, predicate.to_string());
        if !members.is_empty() && !self.draft.predicates.contains(&mark) {
            self.draft.predicates.push(mark);
        }
        for number in members {
            let (word, name) = (SORT_WORDS[sort], member(sort, number));
            self.add(format!("P,{word},{predicate},{name}"));
        }
    }

    /// The table, with the first access.
    fn start(&mut self) {
        self.add("T,b,here".to_string());
        self.grant([0, 0, 0]);
    }

    fn grant(&mut self, access: [usize; 3]) {
        let [s, o, a] = [0, 1, 2].map(|sort| member(sort, access[sort]));
        self.add(format!("G,b,{s},{o},{a}"));
    }

    /// The isle's members of the two longest sorts.
    fn grant_isle(&mut self) {
        let [first, second, _] = self.sorts;
        let mut access = [0; 3];
        for one in self.parts[first].of_isle() {
            for other in self.parts[second].of_isle() {
                access[first] = one;
                access[second] = other;
                self.grant(access);
            }
        }
    }

    fn rule(&mut self, head: &str, body: &[String]) {
        let mut lines = vec![format!("R,{STEP},{head}")];
        lines.extend(body.iter().map(|atom| format!("B,{atom}")));
        self.rules.push(lines);
    }
}

/// Chains of 8, whose steps eight predicates tell in sorts of over 16 members.
fn in_classes(random: &mut Random) -> Ground {
    let counts = random.choose(&COUNTS);
    let mut ground = Ground::new(random, counts, 8);
    for sort in 0..3 {
        let main = ground.parts[sort].main;
        for number in (0..main).filter(|_| main > 16) {
            ground.mark(sort, &format!("class{}", number % 8), number..number + 1);
        }
    }
    ground.start();
    ground.grant_isle();
    ground
}

/// One access in a round: the first sort of an order runs fastest.
fn zigzag(random: &mut Random) -> Ground {
    let mut ground = in_classes(random);
    let members = main_members(&ground);
    let mut order = [0, 1, 2];
    random.shuffle(&mut order);
    for place in 0..3 {
        zigzag_rules(&members, &order[..=place], &mut ground.rules);
    }
    ground
}

/// Every sort runs by itself, so that a round has many accesses.
fn waves(random: &mut Random) -> Ground {
    let mut ground = in_classes(random);
    let members = main_members(&ground);
    for sort in 0..3 {
        zigzag_rules(&members, &[sort], &mut ground.rules);
    }
    ground
}

fn main_members(ground: &Ground) -> [Vec<String>; 3] {
    [0, 1, 2].map(|sort| ground.draft.members[sort][..ground.parts[sort].main].to_vec())
}

/// The steps from an object to the next, and from a subject, are told by the
/// grants of the second action: a path goes to and fro between both sorts. Two
/// rules make a zigzag or waves of the first action's accesses.
fn path(random: &mut Random) -> Ground {
    let counts = random.choose(&[[45, 45, 2], [64, 32, 2], [32, 32, 4], [20, 20, 8]]);
    let chain = random.choose(&[1, 8, 64]);
    let mut ground = Ground::new(random, counts, chain);
    ground.start();
    ground.grant_isle();
    let length = ground.parts[0].main.min(ground.parts[1].main);
    for number in 0..length {
        ground.grant([number, number, 1]);
        if number + 1 < length {
            ground.grant([number, number + 1, 1]);
        }
    }
    let [at_end, at_start] = match random.percent(60) {
        true => [member(1, length - 1), member(1, 0)],
        false => ["?3", "?3"].map(str::to_string),
    };
    let along = ["?0,?1,w0", "?2,?1,w1", "?2,?3,w1"].map(|terms| format!("grant,{terms}"));
    ground.rule("?0,?3,w0", &along);
    let down = [&format!("?0,{at_end},w0"), "?0,?2,w1", "?1,?2,w1"];
    let down = down.map(|terms| format!("grant,{terms}"));
    ground.rule(&format!("?1,{at_start},w0"), &down);
    ground
}

/// Two blocks of grants, main and isle, in the first round.
fn filled(random: &mut Random) -> Ground {
    in_blocks(random, 1)
}

/// The same with one of the main block's sorts in stripes, one in a round.
fn stripes(random: &mut Random) -> Ground {
    let most = random.choose(&[5, 8, 12]);
    in_blocks(random, most)
}

fn in_blocks(random: &mut Random, most: usize) -> Ground {
    let (counts, chain) = (random.choose(&COUNTS), random.choose(&[1, 2, 8, 64]));
    let mut ground = Ground::new(random, counts, chain);
    let [first, second, _] = ground.sorts;
    let (striped, other) = (ground.parts[first], ground.parts[second]);
    let width = striped.main.div_ceil(most);
    let starts: Vec<usize> = (0..striped.main).step_by(width).collect();
    for &start in &starts {
        let end = (start + width).min(striped.main);
        ground.mark(first, &format!("main{start}"), start..end);
    }
    ground.mark(first, "isle", striped.of_isle());
    ground.mark(second, "main", 0..other.main);
    ground.mark(second, "isle", other.of_isle());
    ground.start();
    let variable = random.percent(30);
    for &start in &starts {
        let before = start.saturating_sub(width);
        block_rule(
            &mut ground,
            &format!("main{start}"),
            "main",
            variable,
            before,
        );
    }
    if striped.isle > 0 && other.isle > 0 {
        block_rule(&mut ground, "isle", "isle", variable, 0);
    }
    ground.few_rounds = true;
    ground
}

/// Marked members of the two longest sorts, with the first of the third or with
/// all of it, once the access of this member and the first others is granted.
fn block_rule(ground: &mut Ground, one: &str, other: &str, variable: bool, after: usize) {
    let [first, second, third] = ground.sorts;
    let mut head = [0, 1, 2].map(|sort| format!("?{sort}"));
    if !variable {
        head[third] = member(third, 0);
    }
    let mut granted = [0, 1, 2].map(|sort| member(sort, 0));
    granted[first] = member(first, after);
    let body = [
        format!("has,{},{one},?{first}", SORT_WORDS[first]),
        format!("has,{},{other},?{second}", SORT_WORDS[second]),
        format!("grant,{}", granted.join(",")),
    ];
    ground.rule(&head.join(","), &body);
}

/// Grants to the first of each chain, passed down in every sort.
fn passed_down(random: &mut Random) -> Ground {
    let (counts, chain) = (random.choose(&COUNTS), random.choose(&[8, 16, 64]));
    let mut ground = Ground::new(random, counts, chain);
    ground.start();
    ground.grant_isle();
    let firsts = ground.parts.map(|of| (0..of.main).step_by(chain));
    for s in firsts[0].clone() {
        for o in firsts[1].clone() {
            ground.grant([s, o, 0]);
        }
    }
    for sort in 0..3 {
        pass_down(random, &mut ground, sort);
    }
    ground.few_rounds = true;
    ground
}

fn pass_down(random: &mut Random, ground: &mut Ground, sort: usize) {
    let mut from = ["?0", "?1", "?2"];
    from[sort] = "?3";
    let order = random.choose(&["le", "lt"]);
    let body = [
        format!("grant,{}", from.join(",")),
        format!("{order},{},?{sort},?3", SORT_WORDS[sort]),
    ];
    ground.rule("?0,?1,?2", &body);
}

/// Grants anywhere in the main part, many or few.
fn scattered(random: &mut Random) -> Ground {
    let (counts, chain) = (random.choose(&COUNTS), random.choose(&[1, 2, 8, 64]));
    let mut ground = Ground::new(random, counts, chain);
    ground.start();
    for _ in 0..random.choose(&[60, 300, 900, 1_500]) {
        let access = ground.parts.map(|of| random.below(of.main));
        ground.grant(access);
    }
    ground.grant_isle();
    let sort = random.below(3);
    pass_down(random, &mut ground, sort);
    ground.few_rounds = true;
    ground
}

/// The rule sets of the barren rules: the ground's, another, or as many others
/// as there may be.
fn rule_sets(random: &mut Random) -> Vec<String> {
    match random.below(8) {
        0..=5 => vec![STEP.to_string()],
        6 => vec!["r".to_string()],
        _ => (1..MOST_RULE_SETS).map(|set| format!("r{set}")).collect(),
    }
}

/// Closures by the ground's set and then by another, these in turn: one after
/// another, or as many as there can be that each start from the table, or from
/// the few accesses that a scope leaves; sometimes only one. One after
/// another, most have no round.
fn expression(random: &mut Random, sets: &[String], few_rounds: bool) -> String {
    let closed = |turn: usize| match &sets[turn % sets.len()] {
        set if set == STEP => format!("*{STEP}"),
        set => format!("*{STEP}*{set}"),
    };
    let each = closed(0).matches('*').count();
    let mut text = format!("b{}", closed(0));
    match random.below(10) {
        0 => {}
        1 => {
            for turn in 1..MOST_OPERATORS / (each + 1) {
                text += &format!("^[s=u0]{}", closed(turn));
            }
        }
        form if form == 2 || form < 6 && few_rounds => {
            for turn in each..MOST_OPERATORS {
                text += &format!("*{}", sets[turn % sets.len()]);
            }
        }
        _ => {
            for turn in 1..=(MOST_OPERATORS - each) / (2 * each + 1) {
                text = format!("o({text},b{},b{})", closed(2 * turn), closed(2 * turn + 1));
            }
        }
    }
    text
}
