//! `snowdell decide FILE S O A`: may subject S do action A on object O. Where that is undecided, it is said what would decide it.

mod supply;

use crate::calls::{decide, Answer};
use crate::hints::refused_ask;
use crate::shell::{escaped, exactly, Shell, Status, Stop};
use std::ffi::OsString;

pub fn run(arguments: &[OsString], shell: &mut Shell) -> Result<Status, Stop> {
    let [file, subject, object, action] = exactly(arguments, "decide FILE S O A")?;
    let names = [subject, object, action].map(|name| name.as_encoded_bytes());
    let source = shell.policy(file)?;
    let decision = match decide(&source.bytes, names[0], names[1], names[2]) {
        Ok(decision) => decision,
        Err(refusal) => return refused_ask(shell, &source, refusal, names),
    };
    shell.print(&format!("{},{}", decision.answer.number(), decision.rounds))?;
    // The answer goes out first: finding what would decide it may take long.
    shell.finish()?;
    shell.explain(&in_words(decision.answer, names));
    Ok(match decision.answer {
        Answer::Permit => Status::Good,
        Answer::Deny => Status::Differs,
        Answer::Undecided => {
            for line in supply::what_decides(&source.bytes, names) {
                shell.explain(&line);
            }
            Status::Undecided
        }
    })
}

fn in_words(answer: Answer, names: [&[u8]; 3]) -> String {
    let [subject, object, action] = names.map(escaped);
    match answer {
        Answer::Permit => format!("permit: {subject} may {action} {object}"),
        Answer::Deny => format!("deny: {subject} may not {action} {object}"),
        Answer::Undecided => format!("undecided: it is open whether {subject} may {action} {object}"),
    }
}
