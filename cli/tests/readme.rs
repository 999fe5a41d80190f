//! What README.md shows is what a user gets. Its C program is tried by `wrapper/c/run-tests`.

mod common;
use common::{root, snowdell, text};
use std::process::Command;

/// The lines of a block of the page that begins with this line, without their indentation.
fn indented(page: &str, first: &str) -> Vec<String> {
    let lines = page.lines().skip_while(|line| line.trim() != first);
    lines.map_while(|line| line.strip_prefix("    ")).map(str::to_string).collect()
}

/// The text of a fenced block.
fn fenced(page: &str, language: &str) -> String {
    let opening = format!("```{language}");
    let lines: Vec<&str> = page.lines().skip_while(|line| *line != opening).skip(1).take_while(|line| *line != "```").collect();
    lines.join("\n") + "\n"
}

/// Every block that begins with a command: what is shown is standard output, then standard error.
#[test]
fn transcripts() {
    let page = text("README.md");
    let commands: Vec<&str> = page.lines().filter_map(|line| line.strip_prefix("    $ ./snowdell ")).collect();
    assert_eq!(commands.len(), 2, "{commands:?}");
    for command in commands {
        let shown = indented(&page, &format!("$ ./snowdell {command}"))[1..].join("\n") + "\n";
        let ran = snowdell(&command.split(' ').collect::<Vec<_>>());
        assert_eq!(ran.out + &ran.err, shown, "{command}");
    }
}

#[test]
fn the_worked_file_and_its_listing() {
    let page = text("README.md");
    let policy = indented(&page, "S,staff,-").join("\n") + "\n";
    assert_eq!(policy, text("evaluator/corpus/worked/k01.pol"));
    let listing = indented(&page, "grants,4,2,0,1").join("\n") + "\n";
    assert_eq!(snowdell(&["list", "evaluator/corpus/worked/k01.pol"]).out, listing);
}

#[test]
fn the_template_has_the_same_permits_in_fewer_rounds() {
    let page = text("README.md");
    let with = |expression: &str| text("evaluator/corpus/worked/k01.pol").replace("E,4096,forms*down^[o<=week]", expression);
    let template = indented(&page, "E,4096,(t:x.x+x)(forms*down)").join("");
    let listed = |file: String| common::snowdell_with(&["list", "-"], file.as_bytes()).out;
    let permits = "permit,staff,week,read\npermit,ann,week,read\n";
    assert_eq!(listed(with(&template)), format!("grants,4,2,0,1\n{permits}"));
    assert!(page.contains("written out, `forms*down+forms*down`, it takes two"));
    assert_eq!(listed(with("E,4096,forms*down+forms*down")), format!("grants,4,2,0,2\n{permits}"));
}

/// The program is one of the crate's examples, and prints what the page says.
#[test]
fn the_rust_program() {
    let page = text("README.md");
    let program = text("wrapper/examples/closed_weeks.rs");
    let (_, code) = program.split_once('\n').expect("a comment, then the program");
    assert_eq!(fenced(&page, "rust"), code);
    let said = "It prints `permit` and `5 of 24 permitted`.";
    assert!(page.contains(said), "{said}");
    let target = concat!(env!("CARGO_TARGET_TMPDIR"), "/readme");
    let cargo = ["run", "--quiet", "--offline", "--manifest-path", "wrapper/Cargo.toml", "--example", "closed_weeks"];
    let ran = Command::new(env!("CARGO")).args(cargo).args(["--target-dir", target]).current_dir(root()).output();
    let ran = ran.expect("cargo runs");
    assert_eq!(String::from_utf8_lossy(&ran.stdout), "permit\n5 of 24 permitted\n", "{}", String::from_utf8_lossy(&ran.stderr));
}

/// The table of subcommands has those that there are, and the words on the exit status are the program's.
#[test]
fn the_subcommands() {
    let page = text("README.md");
    let help = snowdell(&["--help"]).out;
    let shown: Vec<&str> = page.lines().filter_map(|line| line.strip_prefix("| `./snowdell ")?.split(' ').next()).collect();
    let there = help.lines().filter(|line| line.starts_with("  ") && !line.starts_with("   "));
    let there: Vec<&str> = there.filter_map(|line| line.trim().split(' ').next()).collect();
    assert_eq!(shown, there);
    assert_eq!(there, ["list", "check", "decide", "why", "diff", "test", "table"]);
}
