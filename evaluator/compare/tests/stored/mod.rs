//! The policies that the repository has.

use std::fs;
use std::path::{Path, PathBuf};

pub fn root() -> &'static Path {
    Path::new(env!("CARGO_MANIFEST_DIR")).ancestors().nth(2).expect("the repository")
}

/// The policies of folders of the repository, and of those below them.
pub fn policies(folders: &[&str]) -> Vec<PathBuf> {
    folders.iter().flat_map(|folder| policies_in(&root().join(folder))).collect()
}

fn policies_in(folder: &Path) -> Vec<PathBuf> {
    let mut found = Vec::new();
    for entry in fs::read_dir(folder).expect("a folder") {
        let path = entry.expect("an entry").path();
        if path.is_dir() {
            found.extend(policies_in(&path));
        } else if path.extension().is_some_and(|end| end == "pol") {
            found.push(path);
        }
    }
    found.sort();
    found
}
