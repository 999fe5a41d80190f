//! Prints who may do one action on which object: a row a subject, a column an object.
//!
//!   cargo run --example grid -- FILE ACTION
//!
//! P is permit, ? undecided, . deny. A file that is refused is named in plain words with the line at fault.

use snowdell::{Answer, Answers, Memory, Policy, Refused};
use std::process::ExitCode;

fn mark(answer: Option<Answer>) -> &'static str {
    match answer {
        Some(Answer::Permit) => "P",
        Some(Answer::Undecided) => "?",
        Some(Answer::Deny) => ".",
        None => "",
    }
}

/// The words, the line at fault, and below it a sign at the place.
fn explain(file: &[u8], refused: Refused) {
    println!("{refused}");
    let Some(number) = refused.line() else { return };
    let text = String::from_utf8_lossy(file.split(|b| *b == b'\n').nth(number - 1).unwrap_or_default());
    println!("line {number}: {}", text.escape_debug());
    if let Some(place) = refused.place() {
        let before = text.match_indices(',').nth(1).map_or(0, |(at, _)| at + 1);
        let margin = format!("line {number}: ").len();
        println!("{}^", " ".repeat(margin + before + place));
    }
}

fn print(policy: &Policy, action: &str) -> ExitCode {
    let Some(a) = policy.actions().position(|member| member.name == action) else {
        let actions: Vec<&str> = policy.actions().map(|member| member.name).collect();
        eprintln!("no action {action:?}; there are: {}", actions.join(" "));
        return ExitCode::FAILURE;
    };
    let (mut answers, mut memory) = (Answers::new(), Memory::new());
    let all = policy.compose(&mut answers, &mut memory);
    let wide = policy.subjects().map(|member| member.name.len()).chain([action.len()]).max().unwrap_or(0);
    let objects: Vec<&str> = policy.objects().map(|member| member.name).collect();
    println!("{action:wide$}  {}", objects.join("  "));
    for (s, subject) in policy.subjects().enumerate() {
        print!("{:wide$}", subject.name);
        for (o, object) in objects.iter().enumerate() {
            print!("  {:<width$}", mark(all.answer(s, o, a)), width = object.len());
        }
        println!();
    }
    ExitCode::SUCCESS
}

fn main() -> ExitCode {
    let words: Vec<String> = std::env::args().skip(1).collect();
    let [path, action] = &words[..] else {
        eprintln!("grid FILE ACTION");
        return ExitCode::FAILURE;
    };
    let file = match std::fs::read(path) {
        Ok(file) => file,
        Err(error) => {
            eprintln!("{path}: {error}");
            return ExitCode::FAILURE;
        }
    };
    match Policy::new(&file) {
        Ok(policy) => print(&policy, action),
        Err(refused) => {
            explain(&file, refused);
            ExitCode::FAILURE
        }
    }
}
