//! Times the engine beside a plain Rust program that tries every instance in every round, and beside the
//! separate evaluator: the same files, one run, all optimised. Each figure is the least of several turns,
//! taken by turns, so that the machine's other work meets all alike.
//!
//!   bench [TURNS] FILE..      (TURNS 5 unless given)
//!
//! Or two builds of the engine beside each other, each as a shared library:
//!
//!   bench builds BEFORE AFTER [TURNS] FILE..      (TURNS 25 unless given)
//!
//! Or closures: of the corpus's heavy and big files, or of those given; and of generated worst-shaped files, Compose alone.
//!
//!   bench heavy [TURNS] [FILE..]      (TURNS 5 unless given)
//!   bench worst SEED COUNT

mod builds;
mod closures;
mod files;
mod plain;

use std::time::{Duration, Instant};

/// A side takes no further turn once its turns have taken this long.
const ENOUGH: Duration = Duration::from_secs(20);

/// The time of one call in each turn; short calls are repeated.
struct Timed {
    took: Vec<Duration>,
    /// How long all turns have taken.
    spent: Duration,
}

impl Timed {
    fn new() -> Timed {
        Timed { took: Vec::new(), spent: Duration::ZERO }
    }

    fn turn(&mut self, mut call: impl FnMut()) {
        let first = Instant::now();
        call();
        let mut took = first.elapsed();
        if took < Duration::from_millis(5) {
            let times = (Duration::from_millis(20).as_nanos() / took.as_nanos().max(1)).clamp(1, 10_000) as u32;
            let start = Instant::now();
            for _ in 0..times {
                call();
            }
            took = start.elapsed() / times;
        }
        self.took.push(took);
        self.spent += first.elapsed();
    }

    /// The least time.
    fn micros(&self) -> f64 {
        self.took.iter().min().expect("a turn").as_nanos() as f64 / 1000.0
    }

    /// The least and the largest ratio to the other's time, turn by turn.
    fn range(&self, other: &Timed) -> (f64, f64) {
        let ratios = self.took.iter().zip(&other.took).map(|(one, other)| one.as_secs_f64() / other.as_secs_f64());
        ratios.fold((f64::INFINITY, 0.0), |(low, high), ratio| (low.min(ratio), high.max(ratio)))
    }
}

fn file_name(path: &str) -> String {
    path.rsplit('/').next().unwrap_or(path).to_string()
}

/// The files made for the benchmark, and those that are given.
fn named(words: &[String]) -> Vec<(String, Vec<u8>)> {
    let mut files = files::made();
    for word in words {
        files.push((file_name(word), std::fs::read(word).expect("a policy")));
    }
    files
}

/// The number of turns, where the word at this place is one; it is taken out.
fn turns(words: &mut Vec<String>, at: usize, otherwise: u32) -> u32 {
    match words.get(at).and_then(|word| word.parse().ok()) {
        Some(turns) => {
            words.remove(at);
            turns
        }
        None => otherwise,
    }
}

fn row(name: &str, what: &str, engine: &Timed, others: &[&Timed]) {
    print!("| {name} | {what} | {:.1} |", engine.micros());
    for other in others {
        let (low, high) = engine.range(other);
        print!(" {:.1} | {:.2} | {low:.2} to {high:.2} |", other.micros(), engine.micros() / other.micros());
    }
    println!();
}

/// Check beside the evaluator; Compose and Decide beside the plain program and the evaluator.
fn beside(words: &[String], turns: u32) {
    let mut result = vec![0u8; snowdell::RESULT];
    let mut memory = vec![0u8; snowdell::MEMORY];

    println!("Times in microseconds, the least of up to {turns} turns; ratio = engine / other; the range is that of the turns.\n");
    println!("| file | call | engine | evaluator | ratio | range |");
    println!("|---|---|---|---|---|---|");
    let files = named(words);
    for (name, file) in &files {
        let (mut engine, mut other) = (Timed::new(), Timed::new());
        for _ in 0..turns {
            engine.turn(|| {
                std::hint::black_box(snowdell::check(std::hint::black_box(file)));
            });
            other.turn(|| {
                let _ = std::hint::black_box(evaluator::check(std::hint::black_box(file)));
            });
        }
        row(name, "Check", &engine, &[&other]);
    }

    println!("\n| file | call | engine | plain program | ratio | range | evaluator | ratio | range |");
    println!("|---|---|---|---|---|---|---|---|---|");
    for (name, file) in &files {
        let read = evaluator::reader::read(file);
        let (mut engine, mut plain, mut other, mut asked) = (Timed::new(), Timed::new(), Timed::new(), Timed::new());
        let mut said = snowdell::compose(file, &mut result, &mut memory);
        let mut names: Vec<&[u8]> = vec![b"", b"", b""];
        match &read {
            Ok(policy) => {
                let (answers, rounds) = plain::Plain::new(policy).compose();
                assert_eq!((said.rounds, &result[..answers.len()]), (rounds, &answers[..]), "{name}");
                names = policy.members.iter().map(|m| &m.names[m.names.len() - 1][..]).collect();
            }
            Err(_) => assert_ne!(said.refusal.number, 0, "{name}"),
        }
        for _ in 0..turns {
            engine.turn(|| said = snowdell::compose(std::hint::black_box(file), &mut result, &mut memory));
            if plain.spent < ENOUGH {
                plain.turn(|| {
                    // The plain program reads the file by the evaluator, as the engine reads it too.
                    if let Ok(policy) = evaluator::reader::read(std::hint::black_box(file)) {
                        std::hint::black_box(plain::Plain::new(&policy).compose());
                    }
                });
            }
            other.turn(|| {
                let _ = std::hint::black_box(evaluator::compose(std::hint::black_box(file)));
            });
            asked.turn(|| {
                std::hint::black_box(snowdell::decide(file, names[0], names[1], names[2], &mut memory));
            });
        }
        row(name, "Compose", &engine, &[&plain, &other]);
        row(name, "Decide", &asked, &[&plain, &other]);
    }
}

fn main() {
    let mut words: Vec<String> = std::env::args().skip(1).collect();
    let first = words.first().cloned().unwrap_or_default();
    match first.as_str() {
        "builds" => {
            let turns = turns(&mut words, 3, 25);
            builds::compare(&words[1..], turns);
        }
        "heavy" => {
            let turns = turns(&mut words, 1, 5);
            closures::heavy(&words[1..], turns);
        }
        "worst" => {
            let number = |at: usize| words.get(at).and_then(|word| word.parse().ok()).expect("bench worst SEED COUNT");
            closures::worst(number(1), number(2));
        }
        _ => {
            let turns = turns(&mut words, 0, 5);
            beside(&words, turns);
        }
    }
}
