//! `snowdell why FILE S O A`: the answer to one access, and how it comes about. Standard output has these lines, in this order.
//! ANSWER is 0, 1 or 2; an access is written `s,o,a`.
//!
//! - `answer,ANSWER,ROUNDS`: what Decide says.
//! - `part,DEPTH,ANSWER,TEXT`, one for each part of the expression: a part before those it is made of, and these in the order of
//!   the text. DEPTH is 0 for the whole. The answer is the engine's with that part alone in the E line, under the bindings of the
//!   templates around it. Brackets that only group are no part. TEXT is the rest of the line, commas included.
//! - `limit,K`: the least limit that already gives the answer; 0 for undecided.
//! - `grant,LINE,ANSWER,TABLE,s,o,a`, any number, in the order of the file: without this grant, all else being the same, the
//!   engine gives this other ANSWER. LINE is the first that says it; lines that repeat it are dropped with it.
//! - `ways,one`: there are `grant` lines, so every way to the answer needs each of these grants. `ways,several`: there are none,
//!   but the answer changes without all grants that can matter at once, or without all of them whose table stands in the right
//!   of a minus or in the third place of an override. `ways,none`: neither.
//! - `closure,PART,TEXT`, any number: a closure with a permit on which the answer rests. A deny can rest on one too, in the right
//!   of a minus. PART counts the `part` lines from 1, and TEXT is that line's. A closure comes after those it draws on. Parts
//!   that read alike under the same bindings are shown once, as the last of them. Below it stand:
//!   - `given,s,o,a`: the closure's operand permits this itself.
//!   - `step,K,LINE,s,o,a,VALUES`: round K of the closure brings this, by the rule whose R line is LINE. VALUES are those of the
//!     rule's variables, as `?0=ann;?3=staff`, or `-` where it has none. Each grant of the rule's body stands in a `given` or
//!     `step` line above it, below the same `closure`.
//!
//! A refused file gives the one line that the listing has. The exit status is 0 for permit, 1 for deny, 4 for undecided.

mod case;
mod derivations;
mod grants;
mod grounds;
mod limits;
mod parts;
mod rounds;
mod rules;
mod steps;
#[cfg(test)]
mod tests;

use crate::calls::{decide, Answer, Decision};
use crate::hints::refused_ask;
use crate::shell::{escaped, exactly, Shell, Source, Status, Stop};
use case::Case;
use grants::Tried;
use parts::Parts;
use std::ffi::OsString;
use std::time::{Duration, Instant};

/// What will take longer is said beforehand.
const LONG: Duration = Duration::from_secs(3);

/// What there is to say of one thing: lines for scripts, and words for people.
#[derive(Default)]
pub struct Said {
    lines: Vec<String>,
    words: Vec<String>,
}

pub fn run(arguments: &[OsString], shell: &mut Shell) -> Result<Status, Stop> {
    let [file, subject, object, action] = exactly(arguments, "why FILE S O A")?;
    let source = shell.policy(file)?;
    let names = [subject, object, action].map(|name| name.as_encoded_bytes());
    let started = Instant::now();
    let decision = match decide(&source.bytes, names[0], names[1], names[2]) {
        Ok(decision) => decision,
        Err(refusal) => return refused_ask(shell, &source, refusal, names),
    };
    let took = started.elapsed();
    let case = Case::of(&source.bytes, names, decision).ok_or_else(unfollowed)?;
    tell(shell, answer(&source, &case, decision))?;
    let tried = grants::tried(&case);
    announce(&case, &tried, took, shell)?;
    let parts = Parts::of(&case)?;
    tell(shell, parts::said(&case, &parts))?;
    tell(shell, limits::said(&case)?)?;
    tell(shell, grants::said(&case, &tried)?)?;
    tell(shell, derivations::said(&case, &parts)?)?;
    Ok(match case.answer {
        Answer::Permit => Status::Good,
        Answer::Deny => Status::Differs,
        Answer::Undecided => Status::Undecided,
    })
}

fn tell(shell: &mut Shell, said: Said) -> Result<(), Stop> {
    for line in &said.lines {
        shell.print(line)?;
    }
    shell.finish()?;
    for line in &said.words {
        shell.explain(line);
    }
    Ok(())
}

fn answer(source: &Source, case: &Case, decision: Decision) -> Said {
    let [subject, object, action] = case.names;
    let Decision { answer, rounds } = decision;
    Said {
        lines: vec![format!("answer,{},{rounds}", answer.number())],
        words: vec![format!(
            "{}: {} for {subject} to {action} {object}, rounds: {rounds}",
            escaped(source.path.as_bytes()),
            answer.word()
        )],
    }
}

/// Says how long it may take, where that is long. The first question is asked again before that is said, since the machine may
/// have been busy.
fn announce(case: &Case, tried: &[Tried], took: Duration, shell: &mut Shell) -> Result<(), Stop> {
    let questions = parts::questions(case) + limits::questions(case) + tried.len();
    if announcement(questions, took).is_some() {
        let started = Instant::now();
        let _ = case.at_limit(case.limit)?;
        if let Some(words) = announcement(questions, started.elapsed().min(took)) {
            shell.explain(&words);
        }
    }
    Ok(())
}

/// What to say of so many questions that take at most so long each.
fn announcement(questions: usize, each: Duration) -> Option<String> {
    let longest = each * questions as u32;
    (longest > LONG).then(|| format!("{questions} questions to the engine follow; they may take {} seconds.", longest.as_secs()))
}

/// The engine has accepted the file, so this is a fault in here.
fn unfollowed() -> Stop {
    Stop::Failed("why cannot follow a file that the engine accepts".into())
}

/// A text of any length, short enough for one line at a terminal.
fn shortened(text: &str) -> String {
    const MOST: usize = 60;
    if text.len() <= MOST {
        text.to_string()
    } else {
        format!("{}..", &text[..MOST])
    }
}
