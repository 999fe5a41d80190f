//! `snowdell`: the engine at the command line. Every answer comes from the proved library; what stands here reads
//! arguments and files, asks the library and puts what it says into lines. Nothing here is proved.
//!
//! Standard output has lines for scripts, which never change with the terminal; words for people go to standard error.

mod calls;
mod check;
mod decide;
mod diff;
mod hints;
mod list;
mod outline;
mod shell;
mod table;
mod test;
mod tree;
mod why;

use shell::{escaped, Shell, Status, Stop};
use std::ffi::OsString;
use std::process::ExitCode;

const USAGE: &str = "\
usage: snowdell SUBCOMMAND ..

  list FILE                 every access that is not denied
  check FILE..              is the file accepted, and if not, why
  decide FILE S O A         may subject S do action A on object O
  why FILE S O A            the same, with how the answer comes about
  diff OLD NEW [--gains]    what changes for whom
  test FILE EXPECTED        does the policy answer as expected
  table FILE [--action A] [--format text|csv|json|html]
                            who may do what where

FILE may be - for standard input.
Exit status: 0 good or permit, 1 deny or a difference found, 2 usage or input/output, 3 refused, 4 undecided.
";

fn main() -> ExitCode {
    let arguments: Vec<OsString> = std::env::args_os().skip(1).collect();
    let mut shell = Shell::new();
    let ended = run(&arguments, &mut shell).and_then(|status| shell.finish().map(|()| status));
    match ended {
        Ok(status) => status.into(),
        Err(stop) => {
            shell.say_why(&stop);
            Status::Trouble.into()
        }
    }
}

fn run(arguments: &[OsString], shell: &mut Shell) -> Result<Status, Stop> {
    let Some((subcommand, rest)) = arguments.split_first() else {
        return Err(Stop::Usage("no subcommand".into()));
    };
    if rest.iter().any(|a| a == "--help" || a == "-h") {
        return help(shell);
    }
    match subcommand.to_str() {
        Some("list") => list::run(rest, shell),
        Some("check") => check::run(rest, shell),
        Some("decide") => decide::run(rest, shell),
        Some("why") => why::run(rest, shell),
        Some("diff") => diff::run(rest, shell),
        Some("test") => test::run(rest, shell),
        Some("table") => table::run(rest, shell),
        Some("help" | "--help" | "-h") => help(shell),
        Some("--version" | "version") => version(shell),
        _ => Err(Stop::Usage(format!("no subcommand \"{}\"", escaped(subcommand.as_encoded_bytes())))),
    }
}

fn help(shell: &mut Shell) -> Result<Status, Stop> {
    shell.print(USAGE.trim_end())?;
    Ok(Status::Good)
}

fn version(shell: &mut Shell) -> Result<Status, Stop> {
    shell.print(&format!("snowdell {}", env!("CARGO_PKG_VERSION")))?;
    Ok(Status::Good)
}
