//! Ruled files: small and accepted, with many rules of every shape and several
//! closures.

use super::expression::{postfix, Bounds, JOINS};
use super::random::Random;
use super::sound::{self, Draft, Plan};
use crate::policy::MOST_RULES;

pub fn policy(random: &mut Random) -> Draft {
    let plan = plan(random);
    let mut draft = sound::build(random, &plan, 0);
    draft.lines.pop();
    let expression = closures(random, &draft);
    let limit = sound::limit(random);
    draft.finish(limit, &expression);
    draft.fit();
    draft
}

/// Rules have as many instances as four variables can give them. Where a set
/// has few rules, its closures do not end with every access at once.
fn plan(random: &mut Random) -> Plan {
    let rule_sets = random.choose(&[1, 2, 3, 4, 6, 8, 16]);
    let rules = random.choose(&[4, 5, 6, 8, 12]) * rule_sets;
    Plan {
        counts: [0; 3].map(|_| random.between(2, 6)),
        predicates: random.choose(&[1, 3, 6]),
        tables: random.choose(&[1, 1, 2, 3]),
        rule_sets,
        rules: rules.min(MOST_RULES),
        grants: random.choose(&[2, 4, 8, 16]),
        instances: 6 * 6 * 6 * 6,
        atoms: &[0, 1, 1, 2, 2, 2, 3, 3, 3, 4, 4, 4, 4],
        short_names: random.percent(70),
        crowd: None,
        bounds: Bounds {
            operators: 0,
            sets: 1,
            brackets: 0,
            bindings: 0,
            template_first: false,
        },
    }
}

/// An expression of two to eight tables, each with closures of its own.
fn closures(random: &mut Random, draft: &Draft) -> String {
    let mut text = closed(random, draft);
    for _ in 0..random.between(1, 7) {
        let more = closed(random, draft);
        text = match random.below(8) {
            0 => format!("o({text},{more},{})", closed(random, draft)),
            3 => bound(random, draft, &text),
            4 => format!(
                "{more}{}{}",
                random.choose(&JOINS),
                bound(random, draft, &text)
            ),
            1 => format!("{more}{}({text})", random.choose(&JOINS)),
            2 => format!(
                "({text}{}{more}){}",
                random.choose(&JOINS),
                postfix(random, draft)
            ),
            _ => format!("{text}{}{more}", random.choose(&JOINS)),
        };
    }
    text
}

/// A table, perhaps with a scope or one more closure, and its closure.
fn closed(random: &mut Random, draft: &Draft) -> String {
    let table = draft.tables[random.below(draft.tables.len())].0.clone();
    let before = match random.percent(40) {
        true => postfix(random, draft),
        false => String::new(),
    };
    let rule_set: &str = random.pick(&draft.rule_sets);
    format!("{table}{before}*{rule_set}")
}

/// A template that uses x twice, once in a closure.
fn bound(random: &mut Random, draft: &Draft, f: &str) -> String {
    let rule_set: &str = random.pick(&draft.rule_sets);
    let (join, postfix) = (random.choose(&JOINS), postfix(random, draft));
    format!("(t:x.x*{rule_set}{join}x{postfix})({f})")
}
