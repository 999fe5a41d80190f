//! Templates and what they come to written out: the answers are equal, the
//! rounds need not be.

mod common;

use common::tree::{split_expression, tree, Tree};
use evaluator::compose;
use evaluator::generate::{policy, Kind};

/// The tree without templates: every bound name is its F, written out where
/// the template stands. What is in force there is given, the innermost last.
fn without_templates(tree: &Tree, bound: &mut Vec<(String, Tree)>) -> Tree {
    match tree {
        Tree::Leaf(name) => {
            let f = bound.iter().rev().find(|(known, _)| known == name);
            f.map_or_else(|| tree.clone(), |(_, f)| f.clone())
        }
        Tree::Template(name, e, f) => {
            let f = without_templates(f, bound);
            bound.push((name.clone(), f));
            let e = without_templates(e, bound);
            bound.pop();
            e
        }
        _ => tree.map_below(&mut |below| without_templates(below, bound)),
    }
}

/// F for each free x in E. A template within that binds a name of F has another
/// name, which is nowhere in the file.
fn filled_in(e: &Tree, x: &str, f: &Tree, renamed: &mut usize) -> Tree {
    match e {
        Tree::Leaf(name) if name == x => f.clone(),
        Tree::Template(name, inner, inner_f) => {
            let inner_f = filled_in(inner_f, x, f, renamed);
            let (mut name, mut inner) = (name.clone(), inner.clone());
            if name != x {
                if f.has_free(&name) && inner.has_free(x) {
                    *renamed += 1;
                    let other = format!("renamed_{renamed}");
                    let leaf = Tree::Leaf(other.clone());
                    inner = Box::new(filled_in(&inner, &name, &leaf, renamed));
                    name = other;
                }
                inner = Box::new(filled_in(&inner, x, f, renamed));
            }
            Tree::Template(name, inner, Box::new(inner_f))
        }
        _ => e.map_below(&mut |below| filled_in(below, x, f, renamed)),
    }
}

/// The tree with its outermost templates written out and no others.
fn outermost_filled_in(tree: &Tree, renamed: &mut usize) -> Tree {
    match tree {
        Tree::Template(x, e, f) => filled_in(e, x, f, renamed),
        _ => tree.map_below(&mut |below| outermost_filled_in(below, renamed)),
    }
}

/// What a comparison of written-out files came to.
#[derive(Default)]
struct Seen {
    compared: usize,
    other_rounds: usize,
    renamed: usize,
}

/// Compares the answers of accepted files that both ways of writing have.
fn compare(kind: Kind, change: fn(&Tree, &mut usize) -> Tree) -> Seen {
    let mut seen = Seen::default();
    for number in 0..1_500 {
        let file = policy(21, number, kind);
        let (Some((lines, text)), Ok(composed)) = (split_expression(&file), compose(&file)) else {
            continue;
        };
        let (tree, mut renamed) = (tree(text).expect("an expression"), 0);
        let changed = change(&tree, &mut renamed);
        if changed == tree {
            continue;
        }
        // Too large for an expression, some of them.
        let written = format!("{lines}{}\n", changed.text());
        if let Ok(other) = compose(written.as_bytes()) {
            assert_eq!(composed.answers, other.answers, "number {number}: {text}");
            seen.compared += 1;
            seen.other_rounds += usize::from(composed.rounds != other.rounds);
            seen.renamed += renamed;
        }
    }
    seen
}

#[test]
fn trees_have_their_own_text() {
    for number in 0..300 {
        let file = policy(20, number, Kind::Templates);
        let (_, text) = split_expression(&file).expect("an expression");
        let Some(known) = tree(text) else { continue };
        assert_eq!(tree(&known.text()), Some(known), "{text}");
    }
}

#[test]
fn all_templates_written_out_answer_alike() {
    let change = |tree: &Tree, _: &mut usize| without_templates(tree, &mut Vec::new());
    for kind in [Kind::Templates, Kind::Sound, Kind::Ruled] {
        let seen = compare(kind, change);
        assert!(seen.compared > 300, "{kind:?}: {}", seen.compared);
        assert!(seen.other_rounds > 50, "{kind:?}: {}", seen.other_rounds);
    }
}

#[test]
fn the_outermost_written_out_answer_alike() {
    let seen = compare(Kind::Templates, outermost_filled_in);
    assert!(seen.compared > 300, "{}", seen.compared);
    assert!(seen.renamed > 5, "{}", seen.renamed);
}

#[test]
fn bound_names_are_renamed_where_they_would_capture() {
    let filled = |text: &str| {
        let tree = tree(text).expect("an expression");
        outermost_filled_in(&tree, &mut 0).text()
    };
    assert_eq!(filled("(t:x.x+x)(b-c)"), "b-c+(b-c)");
    assert_eq!(
        filled("(t:x.(t:b.b+x)(x))(b)"),
        "(t:renamed_1.renamed_1+b)(b)"
    );
    assert_eq!(filled("(t:x.(t:x.x)(x))(b)"), "(t:x.x)(b)");
    assert_eq!(filled("(t:x.(t:y.y+x)(c))(b)"), "(t:y.y+b)(c)");
}
