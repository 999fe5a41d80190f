//! The three calls beside the evaluator's, with every number and every byte.

use crate::buffers::{memory_difference, Lent};
use evaluator::Refusal;

fn same_refusal(engine: snowdell::Refusal, evaluator: Option<Refusal>) -> Option<String> {
    let expected = evaluator.map_or((0, 0, 0), |r| (r.number as usize, r.line, r.place));
    let said = (engine.number, engine.line, engine.place);
    (said != expected).then(|| format!("{said:?}, not {expected:?}"))
}

fn same(what: &str, engine: usize, evaluator: usize) -> Option<String> {
    (engine != evaluator).then(|| format!("{what} {engine}, not {evaluator}"))
}

pub fn check(file: &[u8]) -> Option<String> {
    let said = snowdell::check(file);
    let expected = evaluator::check(file);
    let counts = expected.unwrap_or([0; 3]);
    same_refusal(said.refusal, expected.err())
        .or_else(|| same("subjects", said.subjects, counts[0]))
        .or_else(|| same("objects", said.objects, counts[1]))
        .or_else(|| same("actions", said.actions, counts[2]))
        .map(|d| format!("check: {d}"))
}

/// Compose with buffers of these lengths.
fn compose_in(file: &[u8], result_len: usize, memory_len: usize) -> Option<String> {
    let mut result = Lent::new(result_len, file.len() as u8);
    let mut memory = Lent::new(memory_len, 7);
    let said = snowdell::compose(file, result.lend(), memory.lend());
    let short = result_len < snowdell::RESULT || memory_len < snowdell::MEMORY;
    let expected = if short {
        Err(Refusal::of_file(1))
    } else {
        evaluator::compose(file)
    };
    let composed = expected.as_ref().ok();
    let answers = composed.map_or(&[][..], |c| &c.answers);
    same_refusal(said.refusal, expected.as_ref().err().copied())
        .or_else(|| same("accesses", said.accesses, answers.len()))
        .or_else(|| same("permits", said.permits, composed.map_or(0, |c| c.permits)))
        .or_else(|| same("undecided", said.undecided, composed.map_or(0, |c| c.undecided)))
        .or_else(|| same("rounds", said.rounds, composed.map_or(0, |c| c.rounds)))
        .or_else(|| (!result.guards_stand()).then(|| "a guard byte of the result changed".to_string()))
        .or_else(|| (result.now()[..answers.len()] != *answers).then(|| "other answers".to_string()))
        .or_else(|| {
            (result.now()[answers.len()..] != result.before()[answers.len()..]).then(|| "the result changed beyond N".to_string())
        })
        .or_else(|| memory_difference(&memory, said.refusal.number))
        .map(|d| format!("compose: {d}"))
}

fn decide_in(file: &[u8], names: [&[u8]; 3], memory_len: usize) -> Option<String> {
    let mut memory = Lent::new(memory_len, 11);
    let said = snowdell::decide(file, names[0], names[1], names[2], memory.lend());
    let expected = if memory_len < snowdell::MEMORY {
        Err(Refusal::of_file(1))
    } else {
        evaluator::decide(file, names[0], names[1], names[2])
    };
    let decision = expected.as_ref().ok();
    same_refusal(said.refusal, expected.as_ref().err().copied())
        .or_else(|| same("answer", said.answer, decision.map_or(0, |d| d.answer as usize)))
        .or_else(|| same("rounds", said.rounds, decision.map_or(0, |d| d.rounds)))
        .or_else(|| memory_difference(&memory, said.refusal.number))
        .map(|d| format!("decide: {d}"))
}

/// What Decide says, as asks.tsv has it.
pub fn decision_text(file: &[u8], subject: &[u8], object: &[u8], action: &[u8]) -> String {
    let mut memory = vec![0; snowdell::MEMORY];
    let said = snowdell::decide(file, subject, object, action, &mut memory);
    match said.refusal.number {
        0 => format!("{},{}", said.answer, said.rounds),
        n => format!("refused,{n},{},{}", said.refusal.line, said.refusal.place),
    }
}

/// Names to ask for: members of the file, chosen by its bytes, and some that are none.
fn asked<'a>(file: &'a [u8], salt: usize) -> [&'a [u8]; 3] {
    let mut names: [&'a [u8]; 3] = [b"", b"x", b"nobody"];
    for (slot, kind) in [b'S', b'O', b'A'].into_iter().enumerate() {
        let lines: Vec<&[u8]> = file
            .split(|b| *b == b'\n')
            .filter(|l| l.len() > 2 && l[0] == kind && l[1] == b',')
            .collect();
        if !lines.is_empty() && (salt >> slot) % 8 != 7 {
            let line = lines[(file.len() * 7 + salt * 13 + slot) % lines.len()];
            names[slot] = line[2..].split(|b| *b == b',').next().unwrap_or(b"");
        }
    }
    names
}

/// All three calls on one file, with sound buffers, longer ones and, for one in eight, short ones.
pub fn all(file: &[u8]) -> Option<String> {
    let salt = file.iter().fold(file.len(), |a, b| a.wrapping_mul(33).wrapping_add(*b as usize));
    check(file)
        .or_else(|| compose_in(file, snowdell::RESULT + salt % 3, snowdell::MEMORY + salt % 5))
        .or_else(|| decide_in(file, asked(file, salt), snowdell::MEMORY + salt % 4))
        .or_else(|| {
            (salt % 8 == 0)
                .then(|| {
                    compose_in(file, snowdell::RESULT - 1 - salt % 100, snowdell::MEMORY)
                        .or_else(|| compose_in(file, snowdell::RESULT, snowdell::MEMORY - 1 - salt % 1000))
                        .or_else(|| decide_in(file, asked(file, salt + 1), snowdell::MEMORY - 1))
                })
                .flatten()
        })
}
