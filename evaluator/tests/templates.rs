//! Templates `(t:x.E)(F)`: where their bytes may stand, what x means, what
//! they hold and count, and what they answer.

mod common;

use common::{file, refusal, M, MB, W, WA};
use evaluator::{compose, list};

/// What Check says of an expression over MB.
fn checked(expression: &str) -> Option<(u32, usize, usize)> {
    refusal(&file(&format!("{MB} E,0,{expression}")))
}

/// Number and place of each refusal over MB, at the E line.
fn expect(number: u32, cases: &[(&str, usize)]) {
    for &(expression, place) in cases {
        assert_eq!(
            checked(expression),
            Some((number, 5, place)),
            "{expression}"
        );
    }
}

fn counts(lines: &str, expression: &str) -> [usize; 3] {
    let composed = compose(&file(&format!("{lines} E,{expression}"))).expect("accepted");
    [composed.permits, composed.undecided, composed.rounds]
}

/// Templates of one name, each in the E of the one before.
fn nested(depth: usize, inside: &str) -> String {
    "(t:x.".repeat(depth) + inside + &")(b)".repeat(depth)
}

#[test]
fn t_alone_is_no_name() {
    for line in [
        "T,t,here",
        "G,t,x,y,z",
        "G,b,t,y,z",
        "R,t,x,y,z",
        "R,r,x,t,z",
    ] {
        let lines = format!("{MB} {line}");
        assert_eq!(refusal(&file(&lines)), Some((3, 5, 0)), "{line}");
    }
    assert_eq!(refusal(&file("S,t,-")), Some((3, 1, 0)));
    assert_eq!(refusal(&file("S,x,t")), Some((3, 1, 0)));
    assert_eq!(refusal(&file(&format!("{M} P,S,t,x"))), Some((3, 4, 0)));
    assert_eq!(refusal(&file(&format!("{M} P,S,p,t"))), Some((3, 4, 0)));
    let rule = format!("{MB} R,r,x,y,z B,has,S,t,x");
    assert_eq!(refusal(&file(&rule)), Some((3, 6, 0)));
    expect(
        12,
        &[
            ("t", 1),
            ("b+t", 3),
            ("b*t", 3),
            ("b^[s=t]", 6),
            // No sort's letter, so a predicate is wanted.
            ("b^[t(s)]", 4),
            ("b^[t=x]", 4),
        ],
    );
    let longer = format!("{M} T,tt,here T,t1,away E,0,(tt)+(t1)+tt");
    assert_eq!(refusal(&file(&longer)), None);
}

#[test]
fn a_template_has_its_bytes_in_order() {
    let whole = "(t:x.x)(b)";
    assert_eq!(checked(whole), None);
    for end in 1..whole.len() {
        assert_eq!(checked(&whole[..end]), Some((12, 5, end)), "{end}");
    }
    expect(
        12,
        &[
            ("(t:x.x)", 7),
            ("(t:x.x)b", 7),
            ("(t:x.x)^[s=x](b)", 7),
            ("(t:x.x)*r(b)", 7),
            ("((t:x.x))(b)", 8),
            ("(t:x.x)(b)(b)", 10),
            ("(t:x.x)()", 8),
            ("(t:x.x)(b,b)", 9),
            ("(t:x.)(b)", 5),
            ("(t:.b)(b)", 3),
            ("(t:x)(b)", 4),
            ("(t:x,b)(b)", 4),
            ("(t:x.b,b)(b)", 6),
            ("(t:x.t:y.y)(b)", 6),
            ("(t;x.b)(b)", 2),
            ("(tx.b)(b)", 3),
        ],
    );
}

#[test]
fn the_bracket_before_t_is_a_plain_one() {
    expect(
        12,
        &[
            ("t:x.b", 1),
            ("b+t:x.b", 3),
            ("o(t:x.x)(b)", 3),
            ("o(b,t:x.x)(b)", 5),
            ("(t:x.x)(t:y.y)(b)", 9),
        ],
    );
    assert_eq!(checked("(t:x.x)((t:y.y)(b))"), None);
    assert_eq!(checked("o((t:x.x)(b),b,(t:x.b)(b))"), None);
}

#[test]
fn x_is_a_name() {
    expect(
        12,
        &[
            ("(t:s.b)(b)", 4),
            ("(t:o.b)(b)", 4),
            ("(t:a.b)(b)", 4),
            ("(t:t.b)(b)", 4),
            ("(t:1.b)(b)", 3),
            ("(t:X.b)(b)", 3),
        ],
    );
    let named = |length: usize| checked(&format!("(t:{}.b)(b)", "n".repeat(length)));
    assert_eq!(named(24), None);
    assert_eq!(named(25), Some((12, 5, 27)));
}

#[test]
fn e_and_f_are_one_bracket_deeper() {
    let inside = |depth: usize, text: &str| "(".repeat(depth) + text + &")".repeat(depth);
    assert_eq!(checked(&inside(31, "(t:x.x)(b)")), None);
    assert_eq!(checked(&inside(32, "(t:x.x)(b)")), Some((12, 5, 32)));
    let e = |depth| format!("(t:x.{})(b)", inside(depth, "x"));
    assert_eq!(checked(&e(31)), None);
    assert_eq!(checked(&e(32)), Some((12, 5, 36)));
    let f = |depth| format!("(t:x.x)({})", inside(depth, "b"));
    assert_eq!(checked(&f(31)), None);
    assert_eq!(checked(&f(32)), Some((12, 5, 39)));
}

#[test]
fn x_is_declared_within_e_alone() {
    expect(
        13,
        &[
            ("(t:q.q)(q)", 8),
            ("(t:q.q)(b)+q", 11),
            ("q+(t:q.q)(b)", 0),
            ("(t:q.u)(v)", 5),
            ("(t:q.b)(v)+w", 8),
            ("(t:q.(t:r.r)(r))(b)", 13),
            // No rule set, member or predicate comes of it.
            ("(t:q.q*q)(b)", 7),
            ("(t:q.b^[s=q])(b)", 10),
            ("(t:q.b^[q(s)])(b)", 8),
        ],
    );
    assert_eq!(checked("(t:q.(t:r.r)(q))(b)"), None);
    assert_eq!(checked("(t:b.b)(b)"), None);
}

#[test]
fn the_innermost_binding_counts() {
    let lines = format!("{M} T,full,here T,none,here G,full,x,y,z");
    let permits = |expression: &str| counts(&lines, &format!("0,{expression}"))[0];
    assert_eq!(permits("(t:none.none)(full)"), 1);
    assert_eq!(permits("(t:full.full)(none)"), 0);
    // Behind the template the table is meant again.
    assert_eq!(permits("(t:full.full)(none)+full"), 1);
    assert_eq!(permits("(t:x.(t:x.x)(none))(full)"), 0);
    // The outer x is meant in the F of an inner template that binds x.
    assert_eq!(permits("(t:x.(t:x.x)(x))(full)"), 1);
    // And again behind the inner template.
    assert_eq!(permits("(t:x.(t:x.x)(none)+x)(full)"), 1);
    // Nothing is captured: the outer x is the table `full`.
    assert_eq!(permits("(t:x.(t:full.x)(none))(full)"), 1);
    assert_eq!(permits("(t:x.(t:full.full)(none))(full)"), 0);
}

#[test]
fn members_rule_sets_and_predicates_are_not_hidden() {
    let lines = format!("{M} P,S,x,x T,b,here T,x,away G,b,x,y,z R,x,x,y,z");
    assert_eq!(counts(&lines, "9,(t:x.x*x^[s=x]^[x(s)])(b)"), [1, 0, 0]);
    assert_eq!(counts(W, "4096,(t:down.down*down)(forms)"), [2, 0, 1]);
}

#[test]
fn sets_held_and_operators() {
    let right = |depth: usize, last: &str| "b+(".repeat(depth) + last + &")".repeat(depth);
    let e = |depth| checked(&format!("(t:x.{})(b)", right(depth, "x")));
    assert_eq!(e(12), None);
    assert_eq!(e(13), Some((14, 5, 0)));
    let f = |depth| checked(&format!("(t:x.x)({})", right(depth, "b")));
    assert_eq!(f(13), None);
    assert_eq!(f(14), Some((14, 5, 0)));
    // As the right operand it holds one more.
    let operand = |depth| checked(&right(depth, "(t:x.x)(b)"));
    assert_eq!(operand(12), None);
    assert_eq!(operand(13), Some((14, 5, 0)));
    let sums = |e: usize, f: usize| format!("(t:x.x{})(b{})", "+x".repeat(e), "+b".repeat(f));
    assert_eq!(checked(&sums(63, 0)), None);
    assert_eq!(checked(&sums(64, 0)), Some((14, 5, 0)));
    assert_eq!(checked(&sums(31, 32)), None);
    assert_eq!(checked(&sums(32, 32)), Some((14, 5, 0)));
}

#[test]
fn a_fifth_binding_is_16() {
    assert_eq!(checked(&nested(4, "x")), None);
    assert_eq!(checked(&nested(5, "x")), Some((16, 5, 0)));
    assert_eq!(checked(&nested(5, "b")), Some((16, 5, 0)));
    assert_eq!(checked(&nested(13, "b")), Some((16, 5, 0)));
    // Names and line do not matter.
    let five = "(t:q.(t:r.(t:u.(t:v.(t:w.b)(b))(b))(b))(b))(b)";
    assert_eq!(checked(five), Some((16, 5, 0)));
    let seventh = format!("{MB} G,b,x,y,z R,r,x,y,z E,0,{}", nested(5, "x"));
    assert_eq!(refusal(&file(&seventh)), Some((16, 7, 0)));
    // F is outside its own binding, but inside those around the template.
    let through_f = "(t:x.x)(".repeat(31) + "b" + &")".repeat(31);
    assert_eq!(checked(&through_f), None);
    let beside = ["(t:x.(t:y.(t:z.(t:w.w)(z))(y))(x))(b)"; 8].join("+");
    assert_eq!(checked(&beside), None);
    let inner_f = |inner: &str| format!("(t:x.(t:x.(t:x.(t:x.x)({inner}))(x))(x))(b)");
    assert_eq!(checked(&inner_f("(t:x.x)(x)")), None);
    assert_eq!(checked(&inner_f("(t:x.(t:x.x)(x))(x)")), Some((16, 5, 0)));
}

#[test]
fn sixteen_comes_after_12_13_and_14() {
    expect(
        12,
        &[
            (&nested(33, "x"), 160),
            (&nested(5, "+"), 25),
            (&(nested(5, "x") + ")"), 46),
        ],
    );
    expect(13, &[(&nested(5, "nobody"), 25)]);
    let held = "b+(".repeat(10) + "x" + &")".repeat(10);
    expect(14, &[(&nested(5, &held), 0)]);
    expect(14, &[(&nested(14, "x"), 0), (&nested(32, "x"), 0)]);
    expect(
        14,
        &[(&nested(5, &("x".to_string() + &"+x".repeat(60))), 0)],
    );
}

#[test]
fn f_is_composed_once() {
    assert_eq!(counts(W, "4096,(t:x.x+x)(forms*down)"), [2, 0, 1]);
    assert_eq!(counts(W, "4096,forms*down+forms*down"), [2, 0, 2]);
    // Also where x is not used.
    assert_eq!(counts(W, "4096,(t:x.forms)(forms*down)"), [1, 0, 1]);
    // E's closures count as they stand.
    assert_eq!(counts(W, "4096,(t:x.x*down+x*down)(forms)"), [2, 0, 2]);
}

#[test]
fn x_stands_for_three_answers() {
    assert_eq!(counts(WA, "4096,(t:x.x-x)(forms)"), [0, 4, 0]);
    assert_eq!(counts(W, "0,(t:x.x-x)(forms*down)"), [0, 3, 0]);
    assert_eq!(counts(W, "0,(t:x.x)(forms*down)"), [1, 3, 0]);
}

#[test]
fn scopes_and_closures_follow_the_whole() {
    let listing = list(&file(&format!("{W} E,4096,(t:x.x)(forms)*down^[s=ann]")));
    assert_eq!(listing, "grants,4,1,0,1\npermit,ann,week,read\n");
}
