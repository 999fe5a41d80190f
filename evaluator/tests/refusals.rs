//! The rows of document 01's table of returns, and their order.

mod common;

use common::{file, many, refusal, M, MB, W};
use evaluator::decide;

/// Compares the refusal of each file, given as lines parted by blanks.
fn expect(cases: &[(&str, u32, usize, usize)]) {
    for &(lines, number, line, place) in cases {
        assert_eq!(
            refusal(&file(lines)),
            Some((number, line, place)),
            "{lines}"
        );
    }
}

/// The same for lines that follow those of MB.
fn expect_after_mt(cases: &[(&str, u32, usize, usize)]) {
    for &(lines, number, line, place) in cases {
        let all = format!("{MB} {lines}");
        assert_eq!(refusal(&file(&all)), Some((number, line, place)), "{lines}");
    }
}

/// The place at which MB refuses an expression with 12.
fn fault(expression: &str) -> usize {
    match refusal(&[&file(MB)[..], b"E,0,", expression.as_bytes(), b"\n"].concat()) {
        Some((12, 5, place)) => place,
        other => panic!("{expression}: {other:?}"),
    }
}

#[test]
fn row_2_file() {
    assert_eq!(refusal(b""), Some((2, 0, 0)));
    assert_eq!(refusal(b"S,x,-"), Some((2, 0, 0)));
    assert_eq!(refusal(&vec![b'\n'; 32_769]), Some((2, 0, 0)));
    assert_eq!(refusal(&vec![b'\n'; 32_768]), Some((3, 1, 0)));
    // Before every fault of a line.
    assert_eq!(refusal(b"X\nS"), Some((2, 0, 0)));
}

#[test]
fn row_3_form_of_members() {
    for line in [
        "",
        "S",
        "S,x",
        "S,x,-,",
        "S,x,-,-",
        "S,,-",
        "S,x,",
        "s,x,-",
        "S,X,-",
        "S,1x,-",
        "S,_x,-",
        "S,s,-",
        "S,o,-",
        "S,a,-",
        "S,x,a",
        "S,x,?0",
        "S,-,-",
        " S,x,-",
        "S,x,- ",
        "S,x,-\r",
        "S,x\u{e9},-",
        "S,x\0,-",
        "H,S,x,y",
        "SS,x,-",
    ] {
        let lines = format!("{line}\n");
        assert_eq!(refusal(lines.as_bytes()), Some((3, 1, 0)), "{line:?}");
    }
}

#[test]
fn row_3_form_of_other_lines() {
    for line in [
        "P,S,p",
        "P,s,p,x",
        "P,SO,p,x",
        "P,S,?0,x",
        "P,S,p,?0",
        "P,S,p,-",
        "P,S,p,x,",
        "T,b",
        "T,b,Here",
        "T,b,",
        "T,?0,here",
        "G,b,x,y",
        "G,b,x,y,?0",
        "G,b,s,o,a",
        "G,b,x,y,z,z",
        "R,r,?0,?1",
        "R,r,?0,?1,?4",
        "R,r,?0,?1,?",
        "R,r,?0,?1,?00",
        "R,?0,x,y,z",
        "R,r,x,y,-",
        "B,grant,x,y",
        "B,ne,S,x,x",
        "B,le,s,x,x",
        "B,le,S,x",
        "B,has,S,p",
        "B,has,S,?0,x",
        "B,has,S,p,x,x",
        "E",
        "E,0",
        "E,0,",
        "E,,b",
        "E,00,b",
        "E,01,b",
        "E,0999,b",
        "E,10000,b",
        "E,-1,b",
        "E,+1,b",
        "E,1x,b",
        "E,4097,",
    ] {
        expect_after_mt(&[(line, 3, 5, 0)]);
    }
}

#[test]
fn row_3_after_the_expression() {
    assert_eq!(
        refusal(&[&file(&format!("{MB} E,0,b")), &b"\n"[..]].concat()),
        Some((3, 6, 0))
    );
    expect_after_mt(&[("E,0,b Q", 3, 6, 0), ("E,0,b E,00,b", 3, 6, 0)]);
}

#[test]
fn row_4_order() {
    expect(&[
        ("O,y,- S,x,-", 4, 2, 0),
        ("S,x,- A,z,- O,y,-", 4, 3, 0),
        ("S,x,- B,eq,S,x,x", 4, 2, 0),
        ("B,grant,x,y,z", 4, 1, 0),
    ]);
    expect_after_mt(&[
        ("S,w,-", 4, 5, 0),
        ("P,S,p,x", 4, 5, 0),
        ("G,b,x,y,z T,u,here", 4, 6, 0),
        ("R,r,x,y,z G,b,x,y,z", 4, 6, 0),
        ("B,eq,S,x,x", 4, 5, 0),
        ("E,0,b E,0,b", 4, 6, 0),
        ("E,0,b S,x,-", 4, 6, 0),
        ("E,0,b R,r,x,y,z", 4, 6, 0),
    ]);
}

#[test]
fn row_8_sorts() {
    expect(&[
        ("E,4097,b", 8, 1, 0),
        ("S,x,- T,b,here", 8, 2, 0),
        ("S,x,- O,y,- E,0,(", 8, 3, 0),
        ("O,y,- A,z,- P,S,p,nobody", 8, 3, 0),
    ]);
    let large = many(64, "S,s#,-") + " " + &many(16, "O,o#,-") + " " + &many(5, "A,a#,-");
    expect(&[
        (&format!("{large} T,b,here E,0,b"), 8, 86, 0),
        // No line that is not S, O or A: 8 is never tested.
        (&large, 9, 0, 0),
        ("S,x,-", 9, 0, 0),
    ]);
}

#[test]
fn row_7_members() {
    for (word, most) in [("S", 64), ("O", 64), ("A", 16)] {
        let full = many(most, &format!("{word},m#,-"));
        expect(&[
            (&full, 9, 0, 0),
            (&format!("{full} {word},m{most},-"), 7, most + 1, 0),
            // Before 5 and 6.
            (&format!("{full} {word},m0,-"), 7, most + 1, 0),
            (&format!("{full} {word},new,nobody"), 7, most + 1, 0),
        ]);
    }
}

#[test]
fn row_7_predicates_and_tables() {
    let full = format!("{M} {} {}", many(8, "P,S,p#,x"), many(8, "P,O,p#,y"));
    expect(&[
        (&full, 9, 0, 0),
        (&format!("{full} P,S,p3,x P,O,p3,y"), 9, 0, 0),
        (&format!("{full} P,A,p0,z"), 7, 20, 0),
        (&format!("{full} P,S,new,nobody"), 7, 20, 0),
        (&format!("{full} P,S,p0,nobody"), 6, 20, 0),
    ]);
    let full = format!("{M} {}", many(16, "T,t#,here"));
    expect(&[
        (&full, 9, 0, 0),
        (&format!("{full} T,t16,here"), 7, 20, 0),
        (&format!("{full} T,t0,here"), 7, 20, 0),
    ]);
}

#[test]
fn row_7_rules() {
    let full = format!("{M} {}", many(16, "R,r#,x,y,z"));
    expect(&[
        (&format!("{full} R,r0,x,y,z"), 9, 0, 0),
        (&format!("{full} R,r16,x,y,z"), 7, 20, 0),
    ]);
    let full = format!("{M} {}", many(64, "R,r,x,y,z"));
    expect(&[
        (&full, 9, 0, 0),
        (&format!("{full} R,r,x,y,z"), 7, 68, 0),
        (&format!("{full} R,r,nobody,?0,?0"), 7, 68, 0),
    ]);
    let full = format!("{M} R,r,x,y,z {}", many(4, "B,eq,S,x,x"));
    expect(&[
        (&format!("{full} R,r,x,y,z B,eq,S,x,x"), 9, 0, 0),
        (&format!("{full} B,eq,S,x,x"), 7, 9, 0),
        (&format!("{full} B,eq,O,nobody,?0"), 7, 9, 0),
    ]);
}

#[test]
fn row_7_limit_before_the_expression() {
    expect_after_mt(&[("E,4097,nobody+", 7, 5, 0), ("E,9999,b", 7, 5, 0)]);
}

#[test]
fn row_5_declared_already() {
    expect(&[
        ("S,x,- S,x,-", 5, 2, 0),
        ("S,x,- S,w,x S,w,-", 5, 3, 0),
        ("S,x,- S,x,nobody", 5, 2, 0),
        ("S,x,- O,x,- A,x,-", 9, 0, 0),
    ]);
    expect_after_mt(&[("T,b,here", 5, 5, 0), ("T,b,away", 5, 5, 0)]);
}

#[test]
fn row_6_not_declared() {
    expect(&[
        ("S,x,x", 6, 1, 0),
        ("S,x,- O,y,x", 6, 2, 0),
        (&format!("{M} P,S,p,y"), 6, 4, 0),
        (&format!("{M} P,S,p,x R,r,x,y,z B,has,O,p,y"), 6, 6, 0),
        (&format!("{M} P,S,p,x R,r,x,y,z B,has,S,p,y"), 6, 6, 0),
    ]);
    expect_after_mt(&[
        ("G,u,x,y,z", 6, 5, 0),
        ("G,b,y,y,z", 6, 5, 0),
        ("G,b,x,x,z", 6, 5, 0),
        ("G,b,x,y,x", 6, 5, 0),
        ("R,r,y,y,z", 6, 5, 0),
        ("R,r,x,y,nobody", 6, 5, 0),
        ("R,r,x,y,z B,grant,x,z,z", 6, 6, 0),
        ("R,r,x,y,z B,le,A,z,x", 6, 6, 0),
        ("R,r,x,y,z B,has,S,p,x", 6, 6, 0),
        // Before 11.
        ("R,r,?0,?0,nobody", 6, 5, 0),
        ("R,r,?0,y,z B,le,O,?0,nobody", 6, 6, 0),
    ]);
}

#[test]
fn row_10_grant_for_an_away_table() {
    let away = format!("{M} T,b,away");
    expect(&[
        (&format!("{away} G,b,x,y,z"), 10, 5, 0),
        (&format!("{away} G,b,x,y,nobody"), 6, 5, 0),
    ]);
}

#[test]
fn row_11_variable_at_two_sorts() {
    expect_after_mt(&[
        ("R,r,?0,?0,z", 11, 5, 0),
        ("R,r,?0,?1,?0", 11, 5, 0),
        ("R,r,?0,?1,?2 B,grant,?1,y,z", 11, 6, 0),
        ("R,r,?0,?1,?2 B,eq,O,?1,?0", 11, 6, 0),
        ("R,r,?0,?1,?2 B,le,S,?3,x B,le,O,?3,y", 11, 7, 0),
        ("R,r,?0,?1,?2 R,r,?1,?0,?2", 9, 0, 0),
    ]);
    let marked = format!("{M} P,S,p,x R,r,x,?0,z B,has,S,p,?0");
    expect(&[(&marked, 11, 6, 0)]);
}

#[test]
fn row_12_ends_too_early() {
    for text in [
        "(b", "o(b,b", "o(", "b^", "b^[", "b^[s", "b^[s<", "b^[s<=", "b^[p", "b^[p(", "b^[p(s",
        "b^[p(s)", "b^[s=x", "b*", "b+", "b&(b-", "s", "b*a",
    ] {
        assert_eq!(fault(text), text.len(), "{text}");
    }
}

#[test]
fn row_12_place() {
    for (text, place) in [
        (",", 0),
        (")", 0),
        ("+b", 0),
        ("9", 0),
        ("_t", 0),
        ("T", 0),
        (" b", 0),
        ("\u{e9}", 0),
        ("b b", 1),
        ("b\r", 1),
        ("b,b", 1),
        ("b)", 1),
        ("b(b)", 1),
        ("b[s=x]", 1),
        ("tT", 1),
        ("s+b", 1),
        ("o+b", 1),
        ("b&(o)", 4),
        ("b*a+b", 3),
        ("b^[s=o]", 6),
        ("b^s=x", 2),
        ("o(b)", 3),
        ("o(b,b)", 5),
        ("o(b,b,b,b)", 7),
        ("(b,b)", 2),
        ("o((b,b),b)", 4),
        ("oo(b,b,b)", 2),
        ("o(,,)", 2),
        ("()", 1),
        ("b**r", 2),
        ("b++b", 2),
        ("b^^[s=x]", 2),
        ("b^[]", 3),
        ("b^[s]", 4),
        ("b^[s(s)]", 4),
        ("b^[x<=x]", 4),
        ("b^[x=s]", 4),
        ("b^[s<>x]", 5),
        ("b^[s==x]", 5),
        ("b^[s=<x]", 5),
        ("b^[s>=<x]", 6),
        ("b^[s<=x)", 7),
        ("b^[p(x)]", 5),
        ("b^[p(sx)]", 6),
        ("b^[p(s]", 6),
        ("b^[p(s))", 7),
        ("b^[1(s)]", 3),
    ] {
        assert_eq!(fault(text), place, "{text}");
    }
}

#[test]
fn row_12_long_names() {
    let long = "n".repeat(25);
    assert_eq!(fault(&long), 24);
    assert_eq!(fault(&format!("b*{long}")), 26);
    assert_eq!(fault(&format!("b^[{long}(s)]")), 27);
    assert_eq!(fault(&format!("b^[s={long}]")), 29);
}

#[test]
fn row_12_brackets() {
    let (open, close) = ("(".repeat(32), ")".repeat(32));
    assert_eq!(fault(&format!("({open}b{close})")), 32);
    assert_eq!(fault(&format!("{open}o(b,b,b){close}")), 33);
    assert_eq!(fault(&format!("{open}b{close}+{open}({open}")), 98);
    let deep = "o(b,b,".repeat(32);
    assert_eq!(fault(&format!("{deep}(b){close}")), deep.len());
    let good = format!("{M} P,S,p,x T,b,here E,0,{open}b^[p(s)]{close}+(b)");
    assert_eq!(refusal(&file(&good)), None);
}

#[test]
fn row_12_before_13_and_14() {
    assert_eq!(fault("nobody+"), 7);
    let long = "b+".repeat(16_000);
    assert_eq!(fault(&long), long.len());
}

#[test]
fn row_13_names() {
    let rest = "R,r,?0,?1,?2 E,0,";
    let lines = |expression: &str| format!("{M} P,S,p,x T,b,here {rest}{expression}");
    for (expression, place) in [
        ("u", 0),
        ("r", 0),
        ("b*b", 2),
        ("b^[s=y]", 5),
        ("b^[s<=y]", 6),
        ("b^[p(o)]", 3),
        ("b^[b(s)]", 3),
        ("b^[o=x]*q+u", 5),
        ("u^[o=x]", 0),
        ("b+(b-u)", 5),
        ("o(b,u,q)", 4),
        ("b*p", 2),
        ("b^[a=z]+x", 8),
    ] {
        expect(&[(&lines(expression), 13, 7, place)]);
    }
    expect(&[(&format!("{M} E,0,b"), 13, 4, 0)]);
    // Before 14.
    let long = "b+".repeat(70) + "u";
    expect(&[(&lines(&long), 13, 7, 140)]);
}

#[test]
fn row_14_operators() {
    let lines = |operators: usize| {
        let scopes = "^[s<=x]".repeat(operators - 1);
        format!("{MB} E,0,o(b,b,b){scopes}")
    };
    assert_eq!(refusal(&file(&lines(64))), None);
    expect(&[(&lines(65), 14, 5, 0)]);
    for operator in ["+b", "&b", "-b", "*r", "^[s=x]"] {
        let lines = |count: usize| {
            let expression = "b".to_string() + &operator.repeat(count);
            format!("{MB} R,r,x,y,z E,0,{expression}")
        };
        assert_eq!(refusal(&file(&lines(64))), None, "{operator}");
        expect(&[(&lines(65), 14, 6, 0)]);
    }
    expect(&[(&format!("{MB} E,0,b{}", "+b".repeat(16_000)), 14, 5, 0)]);
}

#[test]
fn row_14_sets_held() {
    // Override: the largest of first, 1 + second, 2 + third.
    let nested = |open: &str, depth: usize, close: &str| {
        let expression = open.repeat(depth) + "b" + &close.repeat(depth);
        refusal(&file(&format!("{MB} E,0,{expression}")))
    };
    assert_eq!(nested("o(", 21, ",b,b)"), None);
    assert_eq!(nested("o(b,", 12, ",b)"), None);
    assert_eq!(nested("o(b,", 13, ",b)"), Some((14, 5, 0)));
    assert_eq!(nested("o(b,b,", 6, ")"), None);
    assert_eq!(nested("o(b,b,", 7, ")"), Some((14, 5, 0)));
    // Scopes, closures and brackets hold as their operand.
    assert_eq!(nested("b+(", 13, "^[s=x])"), None);
    assert_eq!(nested("(", 32, "^[s=x])"), None);
    assert_eq!(nested("(b+", 31, ")"), Some((14, 5, 0)));
}

#[test]
fn row_9_no_expression() {
    expect(&[(M, 9, 0, 0), (MB, 9, 0, 0), (W, 9, 0, 0)]);
}

#[test]
fn row_15_decide() {
    let policy = file(&format!("{W} E,4096,forms*down"));
    let ask = |s: &[u8], o: &[u8], a: &[u8]| {
        let decision = decide(&policy, s, o, a);
        decision.map_err(|refusal| (refusal.number, refusal.line, refusal.place))
    };
    assert_eq!(
        ask(b"staff", b"week", b"read").map(|d| (d.answer, d.rounds)),
        Ok((2, 1))
    );
    assert_eq!(
        ask(b"ann", b"mon", b"read").map(|d| (d.answer, d.rounds)),
        Ok((0, 1))
    );
    assert_eq!(ask(b"week", b"staff", b""), Err((15, 0, 1)));
    assert_eq!(ask(b"ann", b"ann", b"nobody"), Err((15, 0, 2)));
    assert_eq!(ask(b"ann", b"mon", b"\xff"), Err((15, 0, 3)));
    // After all of the file's own tests.
    let unfinished = file(W);
    let refused = decide(&unfinished, b"nobody", b"nobody", b"nobody");
    assert_eq!(refused.map_err(|refusal| refusal.number), Err(9));
}
