//! `list` beside the listings that the repository keeps.

mod common;
use common::{root, snowdell, snowdell_with, text};

#[test]
fn the_worked_file() {
    let ran = snowdell(&["list", "evaluator/corpus/worked/k01.pol"]);
    assert_eq!((ran.status, ran.err.as_str()), (0, ""));
    assert_eq!(ran.out, "grants,4,2,0,1\npermit,staff,week,read\npermit,ann,week,read\n");
}

#[test]
fn standard_input_is_a_file_too() {
    let file = text("examples/closed_weeks.pol");
    let ran = snowdell_with(&["list", "-"], file.as_bytes());
    assert_eq!((ran.status, ran.out), (0, text("examples/closed_weeks.out")));
}

#[test]
fn the_listings_that_are_kept() {
    let mut listed = 0;
    let mut refused = 0;
    let corpus =
        ["worked", "broken", "valid", "big", "cr/01/valid", "cr/01/big"].map(|group| format!("evaluator/corpus/{group}"));
    for folder in corpus.into_iter().chain(["examples".into(), "examples/refusals".into()]) {
        for entry in std::fs::read_dir(root().join(&folder)).expect("a folder") {
            let name = entry.expect("an entry").file_name().into_string().expect("a name of text");
            let Some(policy) = name.strip_suffix(".pol") else { continue };
            let ran = snowdell(&["list", &format!("{folder}/{name}")]);
            let listing = text(&format!("{folder}/{policy}.out"));
            let status = if listing.starts_with("refused,") { 3 } else { 0 };
            assert_eq!((ran.status, ran.out), (status, listing), "{folder}/{name}");
            assert_eq!(ran.err.is_empty(), status == 0, "{folder}/{name}: {}", ran.err);
            *(if status == 0 { &mut listed } else { &mut refused }) += 1;
        }
    }
    assert!(listed > 100 && refused > 300, "{listed} listed, {refused} refused");
}
