//! Large files: near the limits, at them, and just past one.

use super::expression::{postfix, Bounds};
use super::random::Random;
use super::sound::{self, Draft, Plan, SORT_WORDS};
use super::templates;
use crate::expression::{MOST_BINDINGS, MOST_OPEN_BRACKETS, MOST_OPERATORS, MOST_SETS_HELD};
use crate::policy::*;
use crate::reader::MOST_FILE_BYTES;

/// The shape goes round with the file's number, so that all occur.
pub fn policy(random: &mut Random, number: u64) -> Vec<u8> {
    match number % 8 {
        0 => full_house(random).file(),
        1 => exact_length(random, (number / 8) as usize),
        2 => zigzag(random, number / 8).file(),
        3 => expression_edge(random).file(),
        4 => long_expression(random).file(),
        5 => many_closures(random).file(),
        6 => hierarchies(random).file(),
        _ => dense_rules(random).file(),
    }
}

/// Sort counts with a product N of 4,096 or a little less, sometimes more.
fn large_counts(random: &mut Random) -> [usize; 3] {
    random.choose(&[
        [64, 64, 1],
        [64, 32, 2],
        [64, 4, 16],
        [16, 16, 16],
        [4, 64, 16],
        [37, 55, 2],
        [63, 13, 5],
        [63, 65, 1],
        [64, 64, 2],
    ])
}

/// All counts at their limits at once. Rules have few instances, so that a
/// program that tries all of them in every round ends soon too.
fn full_house(random: &mut Random) -> Draft {
    let plan = Plan {
        counts: large_counts(random),
        predicates: MOST_PREDICATES,
        tables: MOST_TABLES,
        rule_sets: MOST_RULE_SETS,
        rules: MOST_RULES,
        grants: random.choose(&[0, 40, 200, 800]),
        instances: 20_000,
        atoms: &sound::ATOMS,
        short_names: random.percent(80),
        crowd: None,
        bounds: Bounds {
            operators: MOST_OPERATORS,
            sets: MOST_SETS_HELD,
            brackets: MOST_OPEN_BRACKETS,
            bindings: MOST_BINDINGS,
            template_first: random.percent(50),
        },
    };
    let limit = sound::limit(random);
    sound::build(random, &plan, limit)
}

/// A small file with every kind of line.
pub fn small(random: &mut Random) -> Draft {
    let plan = Plan {
        counts: [
            random.between(2, 8),
            random.between(2, 6),
            random.between(1, 4),
        ],
        predicates: 3,
        tables: random.between(1, 4),
        rule_sets: 2,
        rules: 5,
        grants: 12,
        instances: 5_000,
        atoms: &sound::ATOMS,
        short_names: true,
        crowd: None,
        bounds: Bounds {
            operators: 10,
            sets: 5,
            brackets: 3,
            bindings: 2,
            template_first: random.percent(50),
        },
    };
    let limit = sound::limit(random);
    sound::build(random, &plan, limit)
}

/// 32,768 bytes, one more or one less: the first member's P line again and
/// again, and a table whose name makes up the rest.
fn exact_length(random: &mut Random, turn: usize) -> Vec<u8> {
    let wanted = MOST_FILE_BYTES + [0, 1, 0][turn % 3] - [0, 0, 1][turn % 3];
    let mut draft = small(random);
    let line = format!("P,S,pad,{}", draft.members[0][0]);
    let at = draft.lines.iter().position(|line| {
        let kind = &line[..1];
        !SORT_WORDS.contains(&kind) && kind != "P"
    });
    let at = at.unwrap_or(0);
    // The table's line is at least as long as `T,x_,here` and its LF.
    let room = wanted - draft.bytes() - 10;
    let lines = room / (line.len() + 1);
    let rest = room % (line.len() + 1);
    let name = format!("x_{}", "9".repeat(rest));
    draft.lines.insert(at, format!("T,{name},here"));
    for _ in 0..lines {
        draft.lines.insert(at, line.clone());
    }
    draft.file()
}

/// One closure that meets the accesses one after another, N - 1 rounds in all.
/// The first sort of the order runs fastest. A sort of up to 16 members has a
/// rule for each step; a longer one is made of chains of 8, whose steps are
/// told by eight predicates and the hierarchy.
fn zigzag(random: &mut Random, turn: u64) -> Draft {
    let counts = match turn % 4 {
        0 => random.choose(&[[64, 64, 1], [16, 16, 16], [64, 8, 8], [8, 32, 16]]),
        _ => random.choose(&[[8, 8, 8], [24, 16, 1], [5, 7, 3], [32, 32, 1], [4, 40, 2]]),
    };
    let mut order = [0, 1, 2];
    random.shuffle(&mut order);
    let mut draft = Draft::default();
    for (sort, word) in SORT_WORDS.iter().enumerate() {
        let letter = ["u", "v", "w"][sort];
        draft.members[sort] = (0..counts[sort]).map(|n| format!("{letter}{n}")).collect();
        for number in 0..counts[sort] {
            let parent = match number % 8 {
                0 => "-".to_string(),
                _ => format!("{letter}{}", number - 1),
            };
            draft
                .lines
                .push(format!("{word},{letter}{number},{parent}"));
        }
    }
    for sort in (0..3).filter(|&sort| counts[sort] > 16) {
        for (number, member) in draft.members[sort].iter().enumerate() {
            let line = format!("P,{},class{},{member}", SORT_WORDS[sort], number % 8);
            draft.lines.push(line);
        }
    }
    draft.lines.push("T,start,here".to_string());
    draft.lines.push("G,start,u0,v0,w0".to_string());
    let mut rules = Vec::new();
    for place in 0..3 {
        zigzag_rules(&draft.members, &order[..=place], &mut rules);
    }
    random.shuffle(&mut rules);
    draft.lines.extend(rules.into_iter().flatten());
    let accesses: usize = counts.iter().product();
    let limit = random.choose(&[MOST_LIMIT, MOST_LIMIT, accesses - 1, accesses - 2, 50, 0]);
    let expression = random.choose(&[
        "start*step",
        "start*step*step",
        "start*step^[o<=v0]",
        "o(start*step,start,start*step)",
        "start-start*step",
        "(t:x.x)(start*step)",
        "(t:x.x*step-x)(start*step)",
        "(t:start.start*step)(start^[s=u0])+start",
    ]);
    draft.finish(limit, expression);
    draft
}

/// The steps of the last sort given. The sorts before it, which run faster,
/// are at their last member and go back to their first.
pub fn zigzag_rules(names: &[Vec<String>; 3], sorts: &[usize], rules: &mut Vec<Vec<String>>) {
    let (&along, faster) = match sorts.split_last() {
        Some(split) => split,
        None => return,
    };
    let mut head: Vec<String> = (0..3).map(|sort| format!("?{sort}")).collect();
    let mut body = head.clone();
    for &sort in faster {
        let members = &names[sort];
        head[sort] = members[0].clone();
        body[sort] = members[members.len() - 1].clone();
    }
    let members = &names[along];
    let chained = members.len() > 16;
    for number in 1..members.len() {
        if chained && number % 8 != 0 {
            continue;
        }
        head[along] = members[number].clone();
        body[along] = members[number - 1].clone();
        let lines = [
            format!("R,step,{}", head.join(",")),
            format!("B,grant,{}", body.join(",")),
        ];
        rules.push(lines.to_vec());
    }
    if chained {
        let word = SORT_WORDS[along];
        head[along] = format!("?{along}");
        body[along] = "?3".to_string();
        for class in 1..8 {
            let lines = [
                format!("R,step,{}", head.join(",")),
                format!("B,has,{word},class{},?3", class - 1),
                format!("B,has,{word},class{class},?{along}"),
                format!("B,lt,{word},?{along},?3"),
                format!("B,grant,{}", body.join(",")),
            ];
            rules.push(lines.to_vec());
        }
    }
}

/// The expression's size exactly at its edge or one past it; half of them have
/// templates.
fn expression_edge(random: &mut Random) -> Draft {
    if random.percent(50) {
        return templates::edge(random);
    }
    let mut draft = small(random);
    draft.lines.pop();
    let table = draft.tables[random.below(draft.tables.len())].0.clone();
    let past = random.below(2);
    let mut expression = table.clone();
    match random.below(3) {
        0 => {
            for _ in 0..64 + past {
                expression += &match random.percent(50) {
                    true => postfix(random, &draft),
                    false => format!("{}{table}", random.choose(&["+", "&", "-"])),
                };
            }
        }
        1 => {
            let depth = 13 + past;
            let opened = format!("{table}{}(", random.choose(&["+", "&", "-"]));
            expression = opened.repeat(depth) + &expression + &")".repeat(depth);
        }
        _ => {
            for _ in 0..32 + past {
                expression = match random.percent(30) {
                    true => format!("o({expression},{table},{table})"),
                    false => format!("({expression})"),
                };
            }
        }
    }
    let limit = sound::limit(random);
    draft.finish(limit, &expression);
    draft
}

/// An expression that fills the file, to be read to its end before it is
/// refused; half of them have another fault near that end.
fn long_expression(random: &mut Random) -> Draft {
    let mut draft = small(random);
    draft.lines.pop();
    let table = draft.tables[random.below(draft.tables.len())].0.clone();
    let room = MOST_FILE_BYTES - draft.bytes() - 32;
    let mut expression = table.clone();
    loop {
        let more = match random.below(5) {
            0 => postfix(random, &draft),
            1 => format!("+({table})"),
            2 => format!("-o({table},{table},{table})"),
            3 => format!("+(t:x.x-{table})({table})"),
            _ => format!("&{table}"),
        };
        if expression.len() + more.len() > room {
            break;
        }
        expression += &more;
    }
    expression += random.choose(&["", "", "", "", "+nobody", "+", ")", "*nobody"]);
    draft.finish(4_096, &expression);
    draft
}

/// As many closures as there can be that each start from a table: 43 closures
/// and 21 overrides are 64 operators. Half of them have two closures less and
/// stand as the F of a template.
fn many_closures(random: &mut Random) -> Draft {
    let mut draft = small(random);
    draft.lines.pop();
    let closed = |random: &mut Random, draft: &Draft| {
        let table = random.below(draft.tables.len());
        let rule_set: &str = random.pick(&draft.rule_sets);
        format!("{}*{rule_set}", draft.tables[table].0)
    };
    let mut expression = closed(random, &draft);
    let bound = random.percent(50);
    for _ in 0..if bound { 20 } else { 21 } {
        let (second, third) = (closed(random, &draft), closed(random, &draft));
        expression = format!("o({expression},{second},{third})");
    }
    if bound {
        expression = format!("(t:x.x-x)({expression})");
    }
    let limit = sound::limit(random);
    draft.finish(limit, &expression);
    draft
}

/// Grants passed down deep hierarchies of all three sorts.
fn hierarchies(random: &mut Random) -> Draft {
    let mut draft = Draft::default();
    let counts = random.choose(&[[64, 64, 1], [16, 16, 16], [40, 20, 4], [12, 9, 7]]);
    for (sort, word) in SORT_WORDS.iter().enumerate() {
        let letter = ["u", "v", "w"][sort];
        let chained = random.choose(&[0, 50, 80, 95, 100]);
        for number in 0..counts[sort] {
            let parent = match number {
                0 => "-".to_string(),
                _ if random.percent(chained) => format!("{letter}{}", number - 1),
                _ => format!("{letter}{}", random.below(number)),
            };
            draft.members[sort].push(format!("{letter}{number}"));
            draft
                .lines
                .push(format!("{word},{letter}{number},{parent}"));
        }
    }
    draft.lines.push("T,start,here".to_string());
    draft.lines.push("T,later,away".to_string());
    for _ in 0..random.between(1, 12) {
        let [s, o, a] = [0, 1, 2].map(|sort| random.below(counts[sort].div_ceil(4)));
        draft.lines.push(format!("G,start,u{s},v{o},w{a}"));
    }
    for sort in 0..3 {
        let order = random.choose(&["le", "lt", "lt", "gt"]);
        let mut from = ["?0", "?1", "?2"];
        from[sort] = "?3";
        draft.lines.push("R,down,?0,?1,?2".to_string());
        draft.lines.push(format!("B,grant,{}", from.join(",")));
        draft
            .lines
            .push(format!("B,{order},{},?{sort},?3", SORT_WORDS[sort]));
    }
    let expression = random.choose(&[
        "start*down",
        "start*down^[s<u1]",
        "(start+later)*down",
        "start*down-start",
        "start*down^[o<=v3]*down",
        "o(start*down,later,start*down^[a=w0])",
        "(t:later.start+later)(start*down)",
        "(t:x.x^[s<=u1]-(t:y.y&x)(later))(start*down)",
        "(t:x.(x+start)*down-x)(start*down^[o<=v3])",
    ]);
    draft.finish(random.choose(&[0, 1, 2, 3, 4_096]), expression);
    draft
}

/// Rules with four variables that join grants with each other.
fn dense_rules(random: &mut Random) -> Draft {
    let counts = random.choose(&[[64, 64, 1], [24, 24, 3], [32, 16, 4], [16, 16, 16]]);
    let plan = Plan {
        counts,
        predicates: 2,
        tables: 2,
        rule_sets: 1,
        rules: 1,
        grants: random.choose(&[60, 300, 1_000]),
        instances: 300_000,
        atoms: &sound::ATOMS,
        short_names: true,
        crowd: None,
        bounds: Bounds {
            operators: 3,
            sets: 3,
            brackets: 1,
            bindings: 1,
            template_first: random.percent(30),
        },
    };
    let limit = sound::limit(random);
    let mut draft = sound::build(random, &plan, limit);
    let end = draft.lines.len() - 1;
    let set = draft.rule_sets[0].clone();
    let action: &str = random.pick(&draft.members[2]);
    let bodies = [
        ["?0,?2", "?3,?2", "?3,?1"],
        ["?0,?2", "?3,?1", "?0,?1"],
        ["?3,?2", "?3,?1", "?0,?2"],
    ];
    let body = random.choose(&bodies);
    draft.lines.insert(end, format!("R,{set},?0,?1,{action}"));
    for (number, pair) in body.iter().enumerate() {
        let line = format!("B,grant,{pair},{action}");
        draft.lines.insert(end + 1 + number, line);
    }
    draft.fit();
    draft
}
