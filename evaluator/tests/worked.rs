//! The worked file of document 01, K1 to K14, and its edges.

mod common;

use common::{file, many, refusal, M, MB, W, WA};
use evaluator::{compose, list};

fn counts(lines: &str, expression: &str) -> [usize; 3] {
    let composed = compose(&file(&format!("{lines} E,{expression}"))).expect("accepted");
    [composed.permits, composed.undecided, composed.rounds]
}

#[test]
fn k1_lists_as_shown() {
    let listing = list(&file(&format!("{W} E,4096,forms*down^[o<=week]")));
    let shown = "grants,4,2,0,1\npermit,staff,week,read\npermit,ann,week,read\n";
    assert_eq!(listing, shown);
}

#[test]
fn k2_to_k5_scopes_and_limits() {
    assert_eq!(counts(W, "4096,forms*down^[o<week]"), [0, 0, 1]);
    assert_eq!(counts(W, "1,forms*down^[o<=week]"), [2, 0, 1]);
    assert_eq!(counts(W, "0,forms*down^[o<=week]"), [1, 3, 0]);
    assert_eq!(counts(W, "0,forms*down^[o<week]"), [0, 2, 0]);
}

#[test]
fn k6_to_k8_away() {
    assert_eq!(counts(WA, "4096,forms*down"), [0, 4, 0]);
    assert_eq!(counts(WA, "4096,forms-forms"), [0, 4, 0]);
    assert_eq!(counts(WA, "4096,forms&forms^[o<week]"), [0, 2, 0]);
}

#[test]
fn k9_and_k10_joins() {
    assert_eq!(counts(W, "4096,forms+forms-forms"), [0, 0, 0]);
    assert_eq!(counts(W, "4096,o(forms,forms*down,forms*down)"), [2, 0, 2]);
}

#[test]
fn k11_and_k12_refusals() {
    let k11 = file(&format!("{W} E,4096,forms-"));
    assert_eq!(refusal(&k11), Some((12, 11, 6)));
    let k12 = file(&format!("{W} E,4096,forms^[o<wk]"));
    assert_eq!(refusal(&k12), Some((13, 11, 9)));
    assert_eq!(list(&k12), "refused,13,11,9\n");
}

#[test]
fn k13_and_k14_two_rules() {
    let two = format!("{W} R,down,?0,?1,?2 B,grant,?0,?3,?2 B,le,O,?1,?3");
    assert_eq!(counts(&two, "1,forms*down"), [3, 1, 1]);
    assert_eq!(counts(&two, "4096,forms*down"), [4, 0, 2]);
}

#[test]
fn listing_names_undecided_accesses() {
    let listing = list(&file(&format!("{W} E,0,forms*down^[s=ann]")));
    let shown = "grants,4,0,2,0\nundecided,ann,week,read\nundecided,ann,mon,read\n";
    assert_eq!(listing, shown);
}

#[test]
fn nine_pairs_of_each_join() {
    // One access for each pair of answers: left by subject, right by object.
    let lines = "S,deny,- S,maybe,- S,permit,- O,deny,- O,maybe,- O,permit,- A,z,- \
        T,left,here T,right,here T,far,away \
        G,left,permit,deny,z G,left,permit,maybe,z G,left,permit,permit,z \
        G,right,deny,permit,z G,right,maybe,permit,z G,right,permit,permit,z";
    let (left, right) = ("(left+far^[s=maybe])", "(right+far^[o=maybe])");
    let answers = |expression: String| {
        let policy = file(&format!("{lines} E,0,{expression}"));
        compose(&policy).expect("accepted").answers
    };
    let plus = answers(format!("{left}+{right}"));
    assert_eq!(plus, [0, 1, 2, 1, 1, 2, 2, 2, 2]);
    let and = answers(format!("{left}&{right}"));
    assert_eq!(and, [0, 0, 0, 0, 1, 1, 0, 1, 2]);
    let minus = answers(format!("{left}-{right}"));
    assert_eq!(minus, [0, 0, 0, 1, 1, 0, 2, 1, 0]);
}

#[test]
fn override_is_joined_from_minus_and_and() {
    // First by subject, second by object, third by action, as above.
    let sort = |word| format!("{word},deny,- {word},maybe,- {word},permit,-");
    let members = ["S", "O", "A"].map(sort).join(" ");
    let all = "R,all,?0,?1,?2";
    let lines = format!("{members} T,none,here T,far,away {all}");
    let operand = |letter| format!("(none*all^[{letter}=permit]+far^[{letter}=maybe])");
    let [p1, p2, p3] = ["s", "o", "a"].map(operand);
    let answers = |expression: String| {
        let policy = file(&format!("{lines} E,9,{expression}"));
        compose(&policy).expect("accepted").answers
    };
    let overridden = answers(format!("o({p1},{p2},{p3})"));
    assert_eq!(overridden, answers(format!("({p1}-{p3})+({p2}&{p3})")));
    for answer in 0..3 {
        assert!(overridden.contains(&answer));
    }
    // Third deny gives the first, third permit the second.
    for s in 0..3 {
        for o in 0..3 {
            assert_eq!(usize::from(overridden[(s * 3 + o) * 3]), s);
            assert_eq!(usize::from(overridden[(s * 3 + o) * 3 + 2]), o);
        }
    }
}

#[test]
fn joins_bind_equally_to_the_left() {
    let lines = format!("{M} T,b,here T,none,here G,b,x,y,z");
    // b + (none & none) would permit.
    assert_eq!(counts(&lines, "0,b+none&none"), [0, 0, 0]);
    // b - (b + b) would deny.
    assert_eq!(counts(&lines, "0,b-b+b"), [1, 0, 0]);
    assert_eq!(counts(&lines, "0,b-(b+b)"), [0, 0, 0]);
}

#[test]
fn edge_file_length() {
    let padded = |name: &str| {
        let pad = many(4_090, "P,S,p,x");
        file(&format!("{M} {pad} T,b,here T,{name},here E,0,b"))
    };
    assert_eq!(padded("seven_7").len(), 32_768);
    assert_eq!(refusal(&padded("seven_7")), None);
    assert_eq!(padded("eight__8").len(), 32_769);
    assert_eq!(refusal(&padded("eight__8")), Some((2, 0, 0)));
}

#[test]
fn edge_limit() {
    let at = |limit| refusal(&file(&format!("{MB} E,{limit},b")));
    assert_eq!(at("4096"), None);
    assert_eq!(at("4097"), Some((7, 5, 0)));
}

#[test]
fn edge_name_of_25_bytes() {
    let (fits, long) = ("n".repeat(24), "n".repeat(25));
    assert_eq!(refusal(&file(&format!("S,{fits},-"))), Some((9, 0, 0)));
    assert_eq!(refusal(&file(&format!("S,{long},-"))), Some((3, 1, 0)));
    let accepted = format!("{M} T,{fits},here E,0,{fits}");
    assert_eq!(refusal(&file(&accepted)), None);
    let refused = format!("{MB} E,0,b+{long}");
    assert_eq!(refusal(&file(&refused)), Some((12, 5, 26)));
}

#[test]
fn edge_number_of_accesses() {
    let members = format!("{} {}", many(64, "S,s#,-"), many(64, "O,o#,-"));
    let one = format!("{members} A,a0,- T,b,here E,0,b");
    assert_eq!(evaluator::check(&file(&one)), Ok([64, 64, 1]));
    let two = format!("{members} A,a0,- A,a1,- T,b,here E,0,b");
    assert_eq!(refusal(&file(&two)), Some((8, 131, 0)));
}

#[test]
fn edge_sets_held() {
    let nested = |depth: usize| {
        let expression = "b+(".repeat(depth) + "b" + &")".repeat(depth);
        refusal(&file(&format!("{MB} E,0,{expression}")))
    };
    assert_eq!(nested(13), None);
    assert_eq!(nested(14), Some((14, 5, 0)));
}
