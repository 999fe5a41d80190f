//! Composing: the three answers of every access, and the rounds.

use crate::closure::close;
use crate::expression::{pop, Join, Step};
use crate::policy::{Policy, Sort};
use crate::refusal::Refusal;

pub const DENY: u8 = 0;
pub const UNDECIDED: u8 = 1;
pub const PERMIT: u8 = 2;

#[derive(Clone, Debug, PartialEq, Eq)]
pub struct Composed {
    /// The answer of each of the N accesses, in access order.
    pub answers: Vec<u8>,
    pub permits: usize,
    pub undecided: usize,
    /// The sum of the rounds used by all closures.
    pub rounds: usize,
}

#[derive(Clone, Copy, Debug, PartialEq, Eq)]
pub struct Decision {
    pub answer: u8,
    pub rounds: usize,
}

/// F of a template is composed once, where its binding begins.
pub fn compose(policy: &Policy) -> Composed {
    let mut operands: Vec<Vec<u8>> = Vec::new();
    let mut bindings: Vec<Vec<u8>> = Vec::new();
    let mut rounds = 0;
    for step in &policy.expression {
        let answers = match *step {
            Step::Bind => {
                bindings.push(pop(&mut operands));
                continue;
            }
            Step::Unbind => {
                bindings.pop();
                continue;
            }
            Step::Bound(binding) => bindings[binding].clone(),
            Step::Table(table) => table_answers(policy, table),
            Step::Scope(sort, inside) => scope(policy, pop(&mut operands), sort, inside),
            Step::Closure(rule_set) => {
                let (answers, used) = closure(policy, &pop(&mut operands), rule_set);
                rounds += used;
                answers
            }
            Step::Join(join) => {
                let (right, left) = (pop(&mut operands), pop(&mut operands));
                joined(join, &left, &right)
            }
            Step::Override => {
                let third = pop(&mut operands);
                let (second, first) = (pop(&mut operands), pop(&mut operands));
                overridden(&first, &second, &third)
            }
        };
        operands.push(answers);
    }
    let answers = pop(&mut operands);
    let count = |answer| answers.iter().filter(|&&known| known == answer).count();
    Composed {
        permits: count(PERMIT),
        undecided: count(UNDECIDED),
        rounds,
        answers,
    }
}

/// Row 15, then the answer that Compose gives.
pub fn decide(policy: &Policy, names: [&[u8]; 3]) -> Result<Decision, Refusal> {
    let mut access = [0; 3];
    for sort in Sort::ALL {
        let member = policy.members_of(sort).number(names[sort.index()]);
        access[sort.index()] = member.ok_or(Refusal {
            number: 15,
            line: 0,
            place: sort.index() + 1,
        })?;
    }
    let composed = compose(policy);
    Ok(Decision {
        answer: composed.answers[policy.access_number(access)],
        rounds: composed.rounds,
    })
}

/// Here: permit if granted, else deny. Away: undecided everywhere.
fn table_answers(policy: &Policy, table: usize) -> Vec<u8> {
    let table = &policy.tables[table];
    let answer = |&granted: &bool| match (table.here, granted) {
        (false, _) => UNDECIDED,
        (true, true) => PERMIT,
        (true, false) => DENY,
    };
    table.grants.iter().map(answer).collect()
}

fn join_answers(join: Join, left: u8, right: u8) -> u8 {
    match join {
        Join::Plus => left.max(right),
        Join::And => left.min(right),
        Join::Minus => left.min(2 - right),
    }
}

fn joined(join: Join, left: &[u8], right: &[u8]) -> Vec<u8> {
    let pairs = left.iter().zip(right);
    pairs.map(|(&l, &r)| join_answers(join, l, r)).collect()
}

/// (P1 − P3) + (P2 & P3)
fn overridden(first: &[u8], second: &[u8], third: &[u8]) -> Vec<u8> {
    let kept = joined(Join::Minus, first, third);
    let put = joined(Join::And, second, third);
    joined(Join::Plus, &kept, &put)
}

/// Accesses outside the scope turn to deny.
fn scope(policy: &Policy, mut answers: Vec<u8>, sort: Sort, inside: u64) -> Vec<u8> {
    for (number, answer) in answers.iter_mut().enumerate() {
        let member = policy.access(number)[sort.index()];
        if inside >> member & 1 == 0 {
            *answer = DENY;
        }
    }
    answers
}

/// The closure's answers and its rounds used. It denies only where the operand
/// has no undecided access and the limit left no round undone.
fn closure(policy: &Policy, operand: &[u8], rule_set: usize) -> (Vec<u8>, usize) {
    let permits: Vec<bool> = operand.iter().map(|&answer| answer == PERMIT).collect();
    let closed = close(policy, rule_set, &permits, policy.limit);
    let decided = closed.ended && !operand.contains(&UNDECIDED);
    let elsewhere = if decided { DENY } else { UNDECIDED };
    let answer = |&derived: &bool| if derived { PERMIT } else { elsewhere };
    (closed.permits.iter().map(answer).collect(), closed.rounds)
}
