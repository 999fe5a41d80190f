//! Every public item of the crate has documentation with an example; that these run is the documentation tests' to show.

use std::fs;
use std::path::Path;

/// What begins a public item. What is public only within the crate is none.
const ITEMS: [&str; 5] = ["pub fn ", "pub const ", "pub struct ", "pub enum ", "pub trait "];

/// The documentation right above a line, attributes between them left out.
fn documentation<'a>(lines: &[&'a str]) -> Vec<&'a str> {
    let above = lines.iter().rev().map(|line| line.trim());
    let above = above.take_while(|line| line.starts_with("///") || line.starts_with("#["));
    above.filter(|line| line.starts_with("///")).collect()
}

#[test]
fn every_public_item_has_an_example() {
    let (mut items, mut without) = (0, Vec::new());
    for entry in fs::read_dir(Path::new(env!("CARGO_MANIFEST_DIR")).join("src")).expect("the sources") {
        let path = entry.expect("an entry").path();
        let text = fs::read_to_string(&path).expect("a source");
        let lines: Vec<&str> = text.lines().collect();
        for (at, line) in lines.iter().enumerate().filter(|(_, line)| ITEMS.iter().any(|item| line.trim().starts_with(item))) {
            items += 1;
            if documentation(&lines[..at]).iter().filter(|line| line.starts_with("/// ```")).count() < 2 {
                without.push(format!("{}: {}", path.display(), line.trim()));
            }
        }
    }
    assert!(items > 40, "{items} items");
    assert_eq!(without, Vec::<String>::new());
}
