//! The index of names.

mod common;

use common::{file, many};
use evaluator::index::{fnv1a, slot, Index};
use evaluator::lookup;
use evaluator::policy::Sort;

/// The test table of Go's standard library, `golden32a` of package `hash/fnv`.
const PUBLISHED: [(&str, u32); 4] = [
    ("", 0x811c_9dc5),
    ("a", 0xe40c_292c),
    ("ab", 0x4d25_05ca),
    ("abc", 0x1a47_e90b),
];

/// Those that the definition is computed on besides (`name_index/proofs/Examples`).
const OTHERS: [(&str, u32); 8] = [
    ("b", 0xe70c_2de5),
    ("foobar", 0xbf9c_f968),
    ("ward", 0x7afa_5b33),
    ("kitchen", 0x33e6_572f),
    ("wk3", 0x56f2_313c),
    ("read", 0xcedf_a3c5),
    ("write", 0xbe26_9f5c),
    ("abcdefghijklmnopqrstuvwx", 0x3740_69fd),
];

#[test]
fn values() {
    for (text, value) in PUBLISHED.into_iter().chain(OTHERS) {
        assert_eq!(fnv1a(text.as_bytes()), value, "{text:?}");
    }
    assert_eq!(slot(b""), 197);
}

fn names(words: &str) -> Vec<Vec<u8>> {
    words.split(' ').map(|word| word.into()).collect()
}

fn searched(members: &str, name: &str) -> String {
    Index::new(&names(members))
        .search(name.as_bytes())
        .to_string()
}

#[test]
fn names_of_the_last_slot_go_on_at_the_first() {
    let members = "c7 gc h2";
    assert!(names(members).iter().all(|name| slot(name) == 255));
    assert_eq!(searched(members, "c7"), "found,0,1");
    assert_eq!(searched(members, "gc"), "found,1,2");
    assert_eq!(searched(members, "h2"), "found,2,3");
    assert_eq!(searched(members, "ln"), "none,4");
    assert_eq!(searched("h2 c7 gc", "gc"), "found,2,3");
    assert_eq!(searched("ak", ""), "none,2");
}

#[test]
fn a_file_is_read_first() {
    let policy = file("S,c7,- S,gc,- O,y,- A,z,- T,b,here E,0,b");
    let found = |sort, name: &[u8]| lookup(&policy, sort, name).map(|found| found.to_string());
    assert_eq!(found(Sort::Subject, b"gc"), Ok("found,1,2".to_string()));
    assert_eq!(found(Sort::Object, b"gc"), Ok("none,1".to_string()));
    let refusal = lookup(b"S,c7,-\n", Sort::Subject, b"c7").err();
    assert_eq!(refusal.map(|refusal| refusal.number), Some(9));
}

/// A full sort: each member is found, as a walk finds it, and no search reads
/// more slots than there are members and one.
#[test]
fn searches_find_what_a_walk_finds() {
    let words = many(64, "name_#");
    let members = names(&words);
    let index = Index::new(&members);
    for text in names(&many(100, "name_#")) {
        let found = index.search(&text);
        let walked = members.iter().position(|name| *name == text);
        assert_eq!(found.member, walked);
        assert!((1..=65).contains(&found.read));
    }
}
