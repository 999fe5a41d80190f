//! `snowdell check FILE..`: is each file accepted, and if not, why. Line k of standard output speaks of file k.

use crate::calls::check;
use crate::hints::refused;
use crate::shell::{Shell, Status, Stop};
use std::ffi::{OsStr, OsString};

pub fn run(arguments: &[OsString], shell: &mut Shell) -> Result<Status, Stop> {
    if arguments.is_empty() {
        return Err(Stop::Usage("usage: snowdell check FILE..".into()));
    }
    if arguments.iter().filter(|path| *path == "-").count() > 1 {
        return Err(Stop::Usage("standard input can be read only once".into()));
    }
    let mut worst = Status::Good;
    for path in arguments {
        let status = one(path, shell)?;
        worst = worse(worst, status);
    }
    Ok(worst)
}

/// One file's line.
fn one(path: &OsStr, shell: &mut Shell) -> Result<Status, Stop> {
    let source = match shell.policy(path) {
        Ok(source) => source,
        Err(stop) => {
            shell.print("unread")?;
            shell.finish()?;
            shell.say_why(&stop);
            return Ok(Status::Trouble);
        }
    };
    match check(&source.bytes) {
        Ok(counts) => {
            shell.print(&format!("ok,{},{},{}", counts.subjects, counts.objects, counts.actions))?;
            Ok(Status::Good)
        }
        Err(refusal) => refused(shell, &source, refusal),
    }
}

/// A file that could not be read outweighs one that is refused, and that one all that are good.
fn worse(one: Status, other: Status) -> Status {
    let statuses = [one, other];
    [Status::Trouble, Status::Refused].into_iter().find(|status| statuses.contains(status)).unwrap_or(Status::Good)
}
