//! `snowdell list FILE`: document 01's listing, byte for byte that of the program `list`.

use crate::calls::{first_line, Answer, Policy};
use crate::hints::refused;
use crate::shell::{exactly, Shell, Status, Stop};
use std::ffi::OsString;

pub fn run(arguments: &[OsString], shell: &mut Shell) -> Result<Status, Stop> {
    let [file] = exactly(arguments, "list FILE")?;
    let source = shell.policy(file)?;
    match Policy::of(&source.bytes) {
        Ok(policy) => {
            shell.print(&first_line(&policy.all))?;
            accesses(&policy, shell)?;
            Ok(Status::Good)
        }
        Err(refusal) => refused(shell, &source, refusal),
    }
}

/// A line for each access that is not denied, in the order of the accesses' numbers.
fn accesses(policy: &Policy, shell: &mut Shell) -> Result<(), Stop> {
    let [subjects, objects, actions] = &policy.outline.members;
    for (s, subject) in subjects.iter().enumerate() {
        for (o, object) in objects.iter().enumerate() {
            for (a, action) in actions.iter().enumerate() {
                let answer = policy.answer([s, o, a]);
                if answer != Answer::Deny {
                    shell.print(&format!("{},{},{},{}", answer.word(), subject.name, object.name, action.name))?;
                }
            }
        }
    }
    Ok(())
}
