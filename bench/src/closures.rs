//! Closures: the corpus's heavy and big files beside the evaluator and the plain program, and the slowest of many worst-shaped files.

use crate::plain::Plain;
use crate::{file_name, Timed, ENOUGH};
use evaluator::expression::Step;
use evaluator::generate::{self, Kind};
use evaluator::policy::{Policy, Rule};
use std::hint::black_box;
use std::time::Instant;

/// The plain program is not run on a file for which it would try more instances, about a minute and a half's work.
const MOST_INSTANCES: usize = 20_000_000_000;

/// The rule sets of a policy's closures.
fn closures(policy: &Policy) -> Vec<usize> {
    let closure = |step: &Step| match *step {
        Step::Closure(rule_set) => Some(rule_set),
        _ => None,
    };
    policy.expression.iter().filter_map(closure).collect()
}

fn instances(policy: &Policy, rule: &Rule) -> usize {
    let sorts = rule.variables.iter().flatten();
    sorts.map(|sort| policy.members_of(*sort).count()).product()
}

/// The most instances that the plain program can have to try: those of the dearest rule set, in every round, and once more
/// for each closure.
fn work(policy: &Policy, rounds: usize) -> usize {
    let sets = closures(policy);
    let of_set = |set: &usize| policy.rules.iter().filter(|rule| rule.rule_set == *set).map(|rule| instances(policy, rule)).sum();
    let dearest: usize = sets.iter().map(of_set).max().unwrap_or(0);
    (rounds + sets.len()) * dearest
}

/// The files that are given, or else the heavy and the big ones that have a closure.
fn chosen(words: &[String]) -> Vec<String> {
    if !words.is_empty() {
        return words.to_vec();
    }
    let corpus = concat!(env!("CARGO_MANIFEST_DIR"), "/../evaluator/corpus");
    let mut paths = Vec::new();
    // The last has those of `big` that are refused as they stand, with another letter for a name that is none.
    for group in ["heavy", "big", "cr/renamed/big"] {
        let folder = std::fs::read_dir(format!("{corpus}/{group}")).expect("a folder of the corpus");
        let mut files: Vec<String> = folder.map(|entry| entry.expect("an entry").path().display().to_string()).collect();
        files.retain(|path| path.ends_with(".pol"));
        files.sort();
        paths.extend(files);
    }
    paths
}

/// One row a file: Compose beside the evaluator and the plain program.
pub fn heavy(words: &[String], turns: u32) {
    println!("Times in milliseconds, the least of up to {turns} turns; ratio = engine / other.\n");
    println!("| file | closures | rounds | engine | evaluator | ratio | plain program | ratio |");
    println!("|---|---|---|---|---|---|---|---|");
    for path in chosen(words) {
        let file = std::fs::read(&path).expect("a policy");
        match evaluator::reader::read(&file) {
            Ok(policy) if !closures(&policy).is_empty() => row(&path, &file, &policy, turns),
            _ => {}
        }
    }
}

fn row(path: &str, file: &[u8], policy: &Policy, turns: u32) {
    let mut result = vec![0u8; snowdell::RESULT];
    let mut memory = vec![0u8; snowdell::MEMORY];
    let (mut engine, mut other, mut plain) = (Timed::new(), Timed::new(), Timed::new());
    let composed = evaluator::compose(file).expect("accepted");
    let too_long = work(policy, composed.rounds) > MOST_INSTANCES;
    for _ in 0..turns {
        if engine.spent < ENOUGH {
            let mut rounds = 0;
            engine.turn(|| rounds = snowdell::compose(black_box(file), &mut result, &mut memory).rounds);
            assert_eq!((rounds, &result[..composed.answers.len()]), (composed.rounds, &composed.answers[..]), "{path}");
        }
        if other.spent < ENOUGH {
            other.turn(|| drop(black_box(evaluator::compose(black_box(file)))));
        }
        if plain.spent < ENOUGH && !too_long {
            let mut said = (Vec::new(), 0);
            plain.turn(|| {
                let policy = evaluator::reader::read(black_box(file)).expect("accepted");
                said = Plain::new(&policy).compose();
            });
            assert_eq!(said, (composed.answers.clone(), composed.rounds), "{path}");
        }
    }
    let (name, count, rounds) = (file_name(path), closures(policy).len(), composed.rounds);
    let ratio = |other: &Timed| engine.micros() / other.micros();
    print!("| {name} | {count} | {rounds} | {:.3} |", engine.micros() / 1e3);
    print!(" {:.3} | {:.3} |", other.micros() / 1e3, ratio(&other));
    match too_long {
        true => println!(" not run | |"),
        false => println!(" {:.3} | {:.4} |", plain.micros() / 1e3, ratio(&plain)),
    }
}

/// Compose once on each worst-shaped file of a seed; the slowest ten are shown.
pub fn worst(seed: u64, count: u64) {
    let mut result = vec![0u8; snowdell::RESULT];
    let mut memory = vec![0u8; snowdell::MEMORY];
    let mut rows = Vec::new();
    for number in 0..count {
        let file = generate::policy(seed, number, Kind::Worst);
        let start = Instant::now();
        let said = snowdell::compose(&file, &mut result, &mut memory);
        let seconds = start.elapsed().as_secs_f64();
        assert_eq!(said.refusal.number, 0, "seed {seed} number {number}");
        rows.push((seconds, number, file, said.rounds));
    }
    rows.sort_by(|one, other| other.0.total_cmp(&one.0));
    println!("| number | bytes | closures | rounds | seconds |");
    println!("|---|---|---|---|---|");
    for (seconds, number, file, rounds) in rows.iter().take(10) {
        let policy = evaluator::reader::read(file).expect("accepted");
        let (bytes, count) = (file.len(), closures(&policy).len());
        println!("| {number} | {bytes} | {count} | {rounds} | {seconds:.3} |");
    }
    let over = |limit: f64| rows.iter().filter(|row| row.0 > limit).count();
    let all: f64 = rows.iter().map(|row| row.0).sum();
    println!("\nOf {count} files of seed {seed}, {} took over 2 s and {} over 10 s; all took {all:.1} s.", over(2.0), over(10.0));
}
