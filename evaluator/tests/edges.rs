//! The edges: the evaluator returns what the documents say of each.

use evaluator::edges::{all, fields};

#[test]
fn each_edge_is_as_the_document_says() {
    let differences: Vec<String> = all()
        .iter()
        .filter(|edge| fields(&edge.file) != edge.said)
        .map(|edge| format!("{}: {}, not {}", edge.name, fields(&edge.file), edge.said))
        .collect();
    assert!(differences.is_empty(), "{differences:#?}");
}

#[test]
fn names_are_in_order_and_differ() {
    assert!(all().windows(2).all(|pair| pair[0].name < pair[1].name));
}

/// Every refusal of a file is met, and there are accepted files.
#[test]
fn every_number_occurs() {
    for number in [0, 2, 3, 4, 5, 6, 7, 8, 9, 10, 11, 12, 13, 14, 16] {
        let start = format!("{number},");
        assert!(
            all().iter().any(|edge| edge.said.starts_with(&start)),
            "{number}"
        );
    }
}
