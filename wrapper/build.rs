//! Links the engine's static library, `libsnowdell.a`. SNOWDELL_LIB names its folder; without it, it is that of
//! `tools/build library` in the repository. Where the library is missing this says what to do: `cargo check` and `cargo doc`
//! work without it, and what has to be linked then fails below that word.

use std::env::var_os;
use std::path::PathBuf;

const LIBRARY: &str = "libsnowdell.a";

fn main() {
    println!("cargo:rerun-if-env-changed=SNOWDELL_LIB");
    let folder = folder();
    println!("cargo:rerun-if-changed={}", folder.join(LIBRARY).display());
    println!("cargo:rustc-link-search=native={}", folder.display());
    println!("cargo:rustc-link-lib=static=snowdell");
    if !folder.join(LIBRARY).is_file() {
        println!(
            "cargo:warning={LIBRARY} is not in {}: run `tools/build library` at the root of the repository, \
             or set SNOWDELL_LIB to the folder that has it",
            folder.display()
        );
    }
}

/// A folder that is no full path is looked for from this package's own.
fn folder() -> PathBuf {
    let package = PathBuf::from(var_os("CARGO_MANIFEST_DIR").unwrap_or_default());
    match var_os("SNOWDELL_LIB") {
        Some(folder) => package.join(folder),
        None => package.parent().unwrap_or(&package).join("target/staticlib"),
    }
}
