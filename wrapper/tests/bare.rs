//! The crate as another package uses it: without `std`, without a panic, and without the library.

use std::io::Write;
use std::path::{Path, PathBuf};
use std::process::{Command, Output, Stdio};

const POLICY: &str = "S,ann,-\nS,cook,-\nO,wk3,-\nA,read,-\nT,ward,here\nT,kitchen,away\nG,ward,ann,wk3,read\n\
    E,0,ward+kitchen^[s=cook]\n";

/// A folder to build into, of this test alone.
fn target(test: &str) -> PathBuf {
    Path::new(env!("CARGO_TARGET_TMPDIR")).join(test)
}

/// Cargo on the package `bare`, built anew.
fn cargo(command: &str, test: &str) -> Command {
    let _ = std::fs::remove_dir_all(target(test));
    let mut cargo = Command::new(env!("CARGO"));
    let manifest = Path::new(env!("CARGO_MANIFEST_DIR")).join("tests/bare/Cargo.toml");
    cargo.args([command, "--release", "--offline", "--manifest-path"]).arg(manifest).arg("--target-dir").arg(target(test));
    cargo
}

fn errors(ran: &Output) -> String {
    String::from_utf8_lossy(&ran.stderr).into_owned()
}

fn printed(program: &Path, input: &str) -> String {
    let mut child = Command::new(program).stdin(Stdio::piped()).stdout(Stdio::piped()).spawn().expect("the program starts");
    child.stdin.take().expect("a pipe").write_all(input.as_bytes()).expect("it reads its input");
    let ended = child.wait_with_output().expect("it ends");
    assert!(ended.status.success(), "{}", ended.status);
    String::from_utf8(ended.stdout).expect("text")
}

#[test]
fn a_program_without_std_and_without_a_panic() {
    let built = cargo("build", "bare").output().expect("cargo");
    assert!(built.status.success(), "{}", errors(&built));
    let program = target("bare").join("release/bare");
    let undeclared = "refused 15: the object asked for is not declared; ask for a declared name\n";
    let listed = "permit,ann,wk3,read\nundecided,cook,wk3,read\nlast undecided, 0 rounds, the same true\n";
    assert_eq!(printed(&program, POLICY), format!("{listed}{undeclared}"));
    let refused = "refused 5 at line 2: a member or a table is declared a second time; drop or rename one\n";
    assert_eq!(printed(&program, "S,ann,-\nS,ann,-\n"), refused);
}

#[test]
fn where_the_library_is_missing_it_is_said_what_to_do() {
    let folder = target("no-library");
    let missing = |command: &str, test: &str| cargo(command, test).env("SNOWDELL_LIB", &folder).output().expect("cargo");
    let word = format!(
        "warning: snowdell@{}: libsnowdell.a is not in {}: run `tools/build library` at the root of the repository, \
         or set SNOWDELL_LIB to the folder that has it\n",
        env!("CARGO_PKG_VERSION"),
        folder.display()
    );
    let checked = missing("check", "checked");
    assert!(checked.status.success() && errors(&checked).contains(&word), "{}", errors(&checked));
    let built = missing("build", "unlinked");
    assert!(!built.status.success() && errors(&built).contains(&word), "{}", errors(&built));
    assert!(errors(&built).contains("could not find native static library `snowdell`"), "{}", errors(&built));
}
