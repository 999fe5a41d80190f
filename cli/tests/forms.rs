//! What README.md of this folder shows is what the program prints.

mod common;
use common::{root, text};
use std::process::Command;

/// Each block that begins with a command: standard output, then standard error for `check` alone.
#[test]
fn transcripts() {
    let page = text("cli/README.md");
    let blocks: Vec<&str> = page.split("\n\n").filter(|block| block.starts_with("    $ ")).collect();
    assert_eq!(blocks.len(), 3);
    for block in blocks {
        let mut lines = block.lines().map(|line| line.strip_prefix("    ").expect("an indented block"));
        let command = lines.next().and_then(|line| line.strip_prefix("$ ")).expect("a command");
        let shown: String = lines.map(|line| format!("{line}\n")).collect();
        let ran = Command::new("sh")
            .args(["-c", &format!("snowdell() {{ \"$PROGRAM\" \"$@\"; }}; {command}")])
            .env("PROGRAM", common::program())
            .current_dir(root())
            .output()
            .expect("sh runs");
        let errors = if command.contains("snowdell check") { ran.stderr } else { Vec::new() };
        assert_eq!(String::from_utf8_lossy(&[ran.stdout, errors].concat()), shown, "{command}");
    }
}

/// The blocks of `table` are those of one example, in the three formats.
#[test]
fn tables() {
    let page = text("cli/README.md");
    for format in ["text", "csv", "json"] {
        let ran = common::snowdell(&["table", "--format", format, "examples/away_list.pol"]);
        let block: String =
            ran.out.lines().map(|line| if line.is_empty() { "\n".into() } else { format!("    {line}\n") }).collect();
        assert!(page.contains(&format!("\n\n{block}\n")), "{format}:\n{block}");
    }
}
