//! Document 01's edges, those of document 02's templates, the order of rows and
//! a chosen set of damaged files, each with what Check has to return, written
//! down from the documents.

use crate::check;

/// A file, its name, and `number,line,place,subjects,objects,actions`.
pub struct Edge {
    pub name: String,
    pub said: String,
    pub file: Vec<u8>,
}

/// What Check returns, as an edge says it.
pub fn fields(file: &[u8]) -> String {
    match check(file) {
        Ok([s, o, a]) => format!("0,0,0,{s},{o},{a}"),
        Err(refusal) => {
            let (number, line, place) = (refusal.number, refusal.line, refusal.place);
            format!("{number},{line},{place},0,0,0")
        }
    }
}

/// All edges, by name.
pub fn all() -> Vec<Edge> {
    let mut edges = Vec::new();
    for group in [
        worked, refusals, sizes, limits, names, counts, places, large, templates, bindings, rows,
        damaged, bytes,
    ] {
        edges.extend(group());
    }
    edges.sort_by(|a, b| a.name.cmp(&b.name));
    edges
}

/// One member of each sort: three lines.
const M: &str = "S,x,- O,y,- A,z,-";
/// And one table.
const MB: &str = "S,x,- O,y,- A,z,- T,b,here";
/// And one table that is away.
const MA: &str = "S,x,- O,y,- A,z,- T,b,away";
/// The worked file's ten lines before E.
const W: &str = "S,staff,- S,ann,staff O,week,- O,mon,week A,read,- T,forms,here \
    G,forms,staff,week,read R,down,?0,?1,?2 B,grant,?3,?1,?2 B,le,S,?0,?3";
/// The same with `forms` away.
const WA: &str = "S,staff,- S,ann,staff O,week,- O,mon,week A,read,- T,forms,away \
    R,down,?0,?1,?2 B,grant,?3,?1,?2 B,le,S,?0,?3";
/// The second rule of K13 and K14.
const R2: &str = "R,down,?0,?1,?2 B,grant,?0,?3,?2 B,le,O,?1,?3";
const ONE: &str = "0,0,0,1,1,1";
const TWO: &str = "0,0,0,2,2,1";

fn edge(name: &str, said: &str, file: Vec<u8>) -> Edge {
    let counts = if said.matches(',').count() == 2 {
        ",0,0,0"
    } else {
        ""
    };
    Edge {
        name: format!("{name}.pol"),
        said: format!("{said}{counts}"),
        file,
    }
}

/// Lines parted by blanks, each closed by LF.
fn text(lines: &str) -> Vec<u8> {
    let lines = lines.split_whitespace().map(|line| format!("{line}\n"));
    lines.collect::<String>().into_bytes()
}

/// An edge whose file has no blank: lines parted by blanks.
fn lines(name: &str, said: &str, lines: impl AsRef<str>) -> Edge {
    edge(name, said, text(lines.as_ref()))
}

/// Numbered lines of one pattern, `#` standing for the number.
fn many(count: usize, pattern: &str) -> String {
    let lines = (0..count).map(|number| pattern.replace('#', &number.to_string()));
    lines.collect::<Vec<_>>().join(" ")
}

fn members(subjects: usize, objects: usize, actions: usize) -> String {
    let (s, o) = (many(subjects, "S,s#,-"), many(objects, "O,o#,-"));
    format!("{s} {o} {} ", many(actions, "A,a#,-"))
}

/// So many templates `(t:x.E)(F)`, each the E of the one before.
fn nested(count: usize, e: &str, f: &str) -> String {
    "(t:x.".repeat(count) + e + &format!(")({f})").repeat(count)
}

/// K1 to K14.
fn worked() -> Vec<Edge> {
    let k1 = "forms*down^[o<=week]";
    let k2 = "forms*down^[o<week]";
    vec![
        lines("k01", TWO, format!("{W} E,4096,{k1}")),
        lines("k02", TWO, format!("{W} E,4096,{k2}")),
        lines("k03", TWO, format!("{W} E,1,{k1}")),
        lines("k04", TWO, format!("{W} E,0,{k1}")),
        lines("k05", TWO, format!("{W} E,0,{k2}")),
        lines("k06", TWO, format!("{WA} E,4096,forms*down")),
        lines("k07", TWO, format!("{WA} E,4096,forms-forms")),
        lines("k08", TWO, format!("{WA} E,4096,forms&forms^[o<week]")),
        lines("k09", TWO, format!("{W} E,4096,forms+forms-forms")),
        lines(
            "k10",
            TWO,
            format!("{W} E,4096,o(forms,forms*down,forms*down)"),
        ),
        lines("k11", "12,11,6", format!("{W} E,4096,forms-")),
        lines("k12", "13,11,9", format!("{W} E,4096,forms^[o<wk]")),
        lines("k13", TWO, format!("{W} {R2} E,1,forms*down")),
        lines("k14", TWO, format!("{W} {R2} E,4096,forms*down")),
    ]
}

/// Each row's smallest file, as docs/REFUSALS.md has it.
fn refusals() -> Vec<Edge> {
    let x = "S,x,- O,x,- A,x,-";
    let deep = "o(x,x,o(x,x,o(x,x,o(x,x,o(x,x,o(x,x,o(x,x,x)))))))";
    vec![
        edge("refusal_02", "2,0,0", Vec::new()),
        edge("refusal_03", "3,1,0", b"\n".to_vec()),
        lines("refusal_04", "4,1,0", "B,eq,S,x,x"),
        lines("refusal_05", "5,2,0", "S,x,- S,x,-"),
        lines("refusal_06", "6,1,0", "S,x,y"),
        lines("refusal_07", "7,4,0", format!("{x} E,9999,x")),
        lines("refusal_08", "8,1,0", "E,0,x"),
        lines("refusal_09", "9,0,0", "S,x,-"),
        lines("refusal_10", "10,5,0", format!("{x} T,x,away G,x,x,x,x")),
        lines("refusal_11", "11,4,0", format!("{x} R,x,?0,?0,x")),
        lines("refusal_12", "12,4,0", format!("{x} E,0,)")),
        lines("refusal_13", "13,4,0", format!("{x} E,0,x")),
        lines("refusal_14", "14,5,0", format!("{x} T,x,here E,0,{deep}")),
        lines(
            "refusal_16",
            "16,5,0",
            format!("{x} T,x,here E,0,{}", nested(5, "x", "x")),
        ),
    ]
}

/// A good file of so many bytes: G lines of two lengths fill it.
fn sized(bytes: usize) -> Vec<u8> {
    let (head, end) = (text(&format!("{MB} T,tt,here")), text("E,0,b"));
    let (short, long) = (text("G,b,x,y,z"), text("G,tt,x,y,z"));
    let rest = bytes - head.len() - end.len();
    let (count, over) = (rest / short.len(), rest % short.len());
    let mut file = head;
    for number in 0..count {
        file.extend(if number < over { &long } else { &short });
    }
    file.extend(end);
    file
}

/// 32,768 bytes pass, 32,769 give 2.
fn sizes() -> Vec<Edge> {
    let mut bad_line = sized(32_769);
    bad_line[0] = b'X';
    let mut unclosed = sized(32_768);
    unclosed.pop();
    vec![
        edge("size_32767", ONE, sized(32_767)),
        edge("size_32768", ONE, sized(32_768)),
        edge("size_32768_unclosed", "2,0,0", unclosed),
        edge("size_32769", "2,0,0", sized(32_769)),
        edge("size_32769_bad_line", "2,0,0", bad_line),
        edge("size_70000", "2,0,0", sized(70_000)),
    ]
}

fn limits() -> Vec<Edge> {
    let limit = |name, said, limit| lines(name, said, format!("{MB} E,{limit},b"));
    vec![
        limit("limit_0", ONE, "0"),
        limit("limit_4096", ONE, "4096"),
        limit("limit_4097", "7,5,0", "4097"),
        limit("limit_9999", "7,5,0", "9999"),
        limit("limit_10000", "3,5,0", "10000"),
        limit("limit_00", "3,5,0", "00"),
        limit("limit_01", "3,5,0", "01"),
        limit("limit_empty", "3,5,0", ""),
        limit("limit_minus_1", "3,5,0", "-1"),
        limit("limit_plus_1", "3,5,0", "+1"),
        limit("limit_hex", "3,5,0", "1f"),
    ]
}

/// Names of 24 and 25 bytes, and other names that are none.
fn names() -> Vec<Edge> {
    let (n24, n25) = ("n".repeat(24), "n".repeat(25));
    let first = |name, said, member| {
        lines(
            name,
            said,
            format!("S,{member},- O,y,- A,z,- T,b,here E,0,b"),
        )
    };
    let in_expression =
        |name, said, e: &str| lines(name, said, format!("{MB} T,{n24},here E,0,{e}"));
    vec![
        first("name_24_line", ONE, &n24[..]),
        first("name_25_line", "3,1,0", &n25),
        in_expression("name_24_expression", ONE, &n24),
        in_expression("name_25_expression", "12,6,24", &n25),
        in_expression("name_25_expression_later", "12,6,26", &format!("b+{n25}")),
        in_expression("name_25_in_scope", "12,6,30", &format!("b^[s<={n25}]")),
        in_expression("name_25_ruleset", "12,6,26", &format!("b*{n25}")),
        first("name_s_alone", "3,1,0", "s"),
        first("name_o_alone", "3,1,0", "o"),
        first("name_a_alone", "3,1,0", "a"),
        first("name_t_alone", "3,1,0", "t"),
        first("name_tt", ONE, "tt"),
        first("name_ss", ONE, "ss"),
        first("name_digit_first", "3,1,0", "1x"),
        first("name_underscore_first", "3,1,0", "_x"),
        first("name_digit_later", ONE, "x_1"),
        first("name_capital", "3,1,0", "Ann"),
        first("name_dash", "3,1,0", "-"),
        first("name_word", ONE, "here"),
    ]
}

/// The most of each kind, and one more.
fn counts() -> Vec<Edge> {
    let end = "T,b,here E,0,b";
    let sorts = |name, said, s, o, a| lines(name, said, members(s, o, a) + end);
    let tables = |count| format!("{M} {} E,0,t0", many(count, "T,t#,here"));
    let marks = |count| format!("{M} {} T,b,here E,0,b", many(count, "P,S,p#,x"));
    let spread = |more| {
        format!(
            "{M} {} {} {} {more}",
            many(6, "P,S,p#,x"),
            many(5, "P,O,p#,y"),
            many(5, "P,A,p#,z")
        )
    };
    let sets = |count| format!("{MB} {} E,0,b", many(count, "R,r#,x,y,z"));
    let rules = |count| format!("{MB} {} E,0,b", many(count, "R,r,x,y,z"));
    let bodies = |count| {
        format!(
            "{MB} R,r,x,y,z {} R,r,x,y,z B,grant,x,y,z E,0,b",
            many(count, "B,grant,x,y,z")
        )
    };
    vec![
        sorts("members_64_64_1", "0,0,0,64,64,1", 64, 64, 1),
        sorts("members_64_64_2", "8,131,0", 64, 64, 2),
        sorts("members_64_4_16", "0,0,0,64,4,16", 64, 4, 16),
        sorts("members_64_5_16", "8,86,0", 64, 5, 16),
        sorts("members_16_16_16", "0,0,0,16,16,16", 16, 16, 16),
        sorts("members_1_64_16", "0,0,0,1,64,16", 1, 64, 16),
        sorts("members_0_1_1", "8,3,0", 0, 1, 1),
        sorts("members_1_0_1", "8,3,0", 1, 0, 1),
        sorts("members_1_1_0", "8,3,0", 1, 1, 0),
        sorts("members_65_1_1", "7,65,0", 65, 1, 1),
        sorts("members_1_65_1", "7,66,0", 1, 65, 1),
        sorts("members_1_1_17", "7,19,0", 1, 1, 17),
        lines("members_only", "9,0,0", members(2, 2, 2)),
        lines("members_only_64_64_2", "9,0,0", members(64, 64, 2)),
        lines(
            "repeated_17th_action",
            "7,19,0",
            format!("{} A,a0,- {end}", members(1, 1, 16)),
        ),
        lines(
            "repeated_16th_action",
            "5,18,0",
            format!("{} A,a0,- {end}", members(1, 1, 15)),
        ),
        lines(
            "repeated_65th_subject",
            "7,65,0",
            format!("{} S,s0,-", many(64, "S,s#,-")),
        ),
        lines(
            "repeated_64th_subject",
            "5,64,0",
            format!("{} S,s0,-", many(63, "S,s#,-")),
        ),
        lines(
            "repeated_65th_object",
            "7,66,0",
            format!("S,x,- {} O,o0,-", many(64, "O,o#,-")),
        ),
        lines(
            "repeated_17th_table",
            "7,20,0",
            format!("{M} {} T,t0,here", many(16, "T,t#,here")),
        ),
        lines(
            "repeated_16th_table",
            "5,19,0",
            format!("{M} {} T,t0,away", many(15, "T,t#,here")),
        ),
        lines("tables_16", ONE, tables(16)),
        lines("tables_17", "7,20,0", tables(17)),
        lines("predicates_16", ONE, marks(16)),
        lines("predicates_17", "7,20,0", marks(17)),
        lines(
            "predicates_16_three_sorts",
            ONE,
            spread("P,S,p0,x T,b,here E,0,b"),
        ),
        lines(
            "predicates_17_three_sorts",
            "7,20,0",
            spread("P,O,p5,y T,b,here E,0,b"),
        ),
        lines("rule_sets_16", ONE, sets(16)),
        lines("rule_sets_17", "7,21,0", sets(17)),
        lines("rules_64", ONE, rules(64)),
        lines("rules_65", "7,69,0", rules(65)),
        lines("body_4", ONE, bodies(4)),
        lines("body_5", "7,10,0", bodies(5)),
    ]
}

/// The places of 12 and 13; E is the fifth line, or the seventh.
fn places() -> Vec<Edge> {
    let short = [
        ("close", "12,5,0", ")"),
        ("plus_first", "12,5,0", "+b"),
        ("capital", "12,5,0", "T"),
        ("digit", "12,5,0", "1"),
        ("plus_last", "12,5,2", "b+"),
        ("and_last", "12,5,2", "b&"),
        ("minus_last", "12,5,2", "b-"),
        ("close_last", "12,5,1", "b)"),
        ("open", "12,5,2", "(b"),
        ("empty_brackets", "12,5,1", "()"),
        ("comma", "12,5,1", "b,b"),
        ("comma_in_brackets", "12,5,2", "(b,b)"),
        ("letter_s", "12,5,1", "s"),
        ("letter_o", "12,5,1", "o"),
        ("letter_t", "12,5,1", "t"),
        ("letter_t_second", "12,5,3", "b+t"),
        ("letter_t_rule_set", "12,5,3", "b*t"),
        ("letter_t_member", "12,5,6", "b^[s=t]"),
        ("letter_t_predicate", "12,5,4", "b^[t(s)]"),
        ("letter_t_sort", "12,5,4", "b^[t<=x]"),
        ("override_open", "12,5,2", "o("),
        ("override_two", "12,5,5", "o(b,b)"),
        ("override_four", "12,5,7", "o(b,b,b,b)"),
        ("scope_open", "12,5,3", "b^["),
        ("scope_no_bracket", "12,5,2", "b^s"),
        ("scope_sort", "12,5,4", "b^[s"),
        ("scope_less", "12,5,5", "b^[s<"),
        ("scope_member", "12,5,7", "b^[s<=x"),
        ("scope_twice_closed", "12,5,7", "b^[s<x]]"),
        ("scope_two_equals", "12,5,5", "b^[s==x]"),
        ("scope_equals_less", "12,5,5", "b^[s=<x]"),
        ("scope_sort_bracket", "12,5,4", "b^[s(s)]"),
        ("scope_long_sort", "12,5,5", "b^[ss<x]"),
        ("scope_predicate_of_x", "12,5,5", "b^[p(x)]"),
        ("scope_predicate_open", "12,5,6", "b^[p(s]"),
        ("scope_letter_member", "12,5,6", "b^[s<s]"),
        ("closure_last", "12,5,2", "b*"),
        ("closure_twice", "12,5,2", "b**"),
        ("closure_letter", "12,5,3", "b*s"),
        ("closure_of_nothing", "12,5,0", "*r"),
        ("two_names", "13,5,0", "tt"),
        ("table", "13,5,0", "u"),
        ("table_second", "13,5,2", "b+u"),
        ("table_leftmost", "13,5,0", "u+v"),
        ("table_in_brackets", "13,5,3", "(((u)))"),
        ("table_in_override", "13,5,6", "o(b,b,u)"),
        ("member_as_table", "13,5,0", "x"),
        ("rule_set", "13,5,2", "b*r"),
        ("table_as_rule_set", "13,5,2", "b*b"),
        ("member_of_other_sort", "13,5,5", "b^[s<y]"),
        ("member_of_other_sort_equal", "13,5,6", "b^[o>=z]"),
        ("predicate", "13,5,3", "b^[p(s)]"),
        ("leftmost_in_scope", "13,5,5", "b^[s<u]*r"),
        ("leftmost_rule_set", "13,5,2", "b*r^[s<u]+v"),
    ];
    let marked = [
        ("predicate_good", ONE, "b^[p(s)]*r"),
        ("predicate_of_other_sort", "13,7,3", "b^[p(o)]"),
        ("rule_set_as_predicate", "13,7,3", "b^[r(s)]"),
        ("predicate_as_rule_set", "13,7,2", "b*p"),
    ];
    let mut edges = Vec::new();
    for (name, said, e) in short {
        let name = format!(
            "{}_{name}",
            if said.starts_with("12") {
                "wrong"
            } else {
                "unknown"
            }
        );
        edges.push(lines(&name, said, format!("{MB} E,0,{e}")));
    }
    for (name, said, e) in marked {
        edges.push(lines(
            name,
            said,
            format!("{M} P,S,p,x T,b,here R,r,x,y,z E,0,{e}"),
        ));
    }
    edges
}

/// The expression's depth, its sets held and its operators.
fn large() -> Vec<Edge> {
    let of = |name: &str, said, e: String| {
        lines(
            name,
            said,
            format!("{M} P,S,p,x T,b,here R,r,x,y,z E,0,{e}"),
        )
    };
    let inside = |count, e: &str| format!("{}{e}{}", "(".repeat(count), ")".repeat(count));
    let right = |count| format!("{}b{}", "b+(".repeat(count), ")".repeat(count));
    let overrides = |count| format!("{}b{}", "o(b,b,".repeat(count), ")".repeat(count));
    let left = |count| format!("b{}", "+b".repeat(count));
    vec![
        of("brackets_32", ONE, inside(32, "b")),
        of("brackets_33", "12,7,32", inside(33, "b")),
        of(
            "brackets_32_twice",
            ONE,
            format!("{0}-{0}", inside(32, "b")),
        ),
        of("brackets_32_override_last", ONE, inside(31, "o(b,b,b)")),
        of(
            "brackets_33_override_last",
            "12,7,33",
            inside(32, "o(b,b,b)"),
        ),
        of("brackets_32_predicate", ONE, inside(32, "b^[p(s)]")),
        of("brackets_33_unclosed", "12,7,32", "(".repeat(33)),
        of("brackets_32_unclosed", "12,7,32", "(".repeat(32)),
        of("sets_plus_13_right", ONE, right(13)),
        of("sets_plus_14_right", "14,7,0", right(14)),
        of("sets_override_6", ONE, overrides(6)),
        of("sets_override_6_plus", ONE, format!("b+{}", overrides(6))),
        of("sets_override_7", "14,7,0", overrides(7)),
        of("operators_64", ONE, left(64)),
        of("operators_65", "14,7,0", left(65)),
        of(
            "operators_64_scopes",
            ONE,
            format!("b{}", "^[s=x]".repeat(64)),
        ),
        of(
            "operators_65_scopes",
            "14,7,0",
            format!("b{}", "^[p(s)]".repeat(65)),
        ),
        of(
            "operators_64_closures",
            ONE,
            format!("b{}", "*r".repeat(64)),
        ),
        of(
            "operators_65_closures",
            "14,7,0",
            format!("b{}", "*r".repeat(65)),
        ),
        of("operators_64_override", ONE, format!("o({},b,b)", left(63))),
        of(
            "operators_65_override",
            "14,7,0",
            format!("o({},b,b)", left(64)),
        ),
    ]
}

/// The form of templates, and where the name they bind is declared. `t` alone
/// is no name.
fn templates() -> Vec<Edge> {
    let said = [
        ("good", ONE, "(t:x.x)(b)"),
        ("good_x_unused", ONE, "(t:x.b)(b)"),
        ("good_x_is_table", ONE, "(t:b.b)(b)"),
        ("good_x_of_letters", ONE, "(t:ss.ss)(b)"),
        ("good_in_e", ONE, "(t:x.(t:y.y-x)(x))(b)"),
        ("good_in_f", ONE, "(t:x.x)((t:y.y)(b))"),
        ("good_operands", ONE, "(t:x.x)(b)-(t:x.x)(b)"),
        ("good_scopes", ONE, "(t:x.x^[s=x])(b^[o=y])^[a=z]"),
        ("good_override", ONE, "o((t:x.x)(b),(t:x.b)(b),b)"),
        ("t_open", "12,5,2", "(t"),
        ("t_in_brackets", "12,5,2", "(t)"),
        ("colon_open", "12,5,3", "(t:"),
        ("name_open", "12,5,4", "(t:x"),
        ("dot_open", "12,5,5", "(t:x."),
        ("e_open", "12,5,6", "(t:x.x"),
        ("no_f", "12,5,7", "(t:x.x)"),
        ("no_f_plus", "12,5,7", "(t:x.x)+b"),
        ("no_bracket_of_f", "12,5,7", "(t:x.x)b"),
        ("scope_before_f", "12,5,7", "(t:x.x)^[s=x](b)"),
        ("in_brackets_before_f", "12,5,8", "((t:x.x))(b)"),
        ("f_open", "12,5,8", "(t:x.x)("),
        ("f_empty", "12,5,8", "(t:x.x)()"),
        ("f_not_closed", "12,5,9", "(t:x.x)(b"),
        ("f_of_two", "12,5,9", "(t:x.x)(b,b)"),
        ("f_again", "12,5,10", "(t:x.x)(b)(b)"),
        ("two_names", "12,5,6", "(t:x.t:y.x)(b)"),
        ("comma_for_dot", "12,5,4", "(t:x,b)(b)"),
        ("no_dot", "12,5,4", "(t:x)(b)"),
        ("e_of_two", "12,5,6", "(t:x.x,b)(b)"),
        ("e_empty", "12,5,5", "(t:x.)(b)"),
        ("x_empty", "12,5,3", "(t:.b)(b)"),
        ("x_digit", "12,5,3", "(t:1.b)(b)"),
        ("x_letter_s", "12,5,4", "(t:s.b)(b)"),
        ("x_letter_t", "12,5,4", "(t:t.b)(b)"),
        ("x_capital", "12,5,3", "(t:X.b)(b)"),
        ("no_bracket", "12,5,1", "t:x.x"),
        ("no_bracket_second", "12,5,3", "b+t:x.x"),
        ("bracket_of_override", "12,5,3", "o(t:x.x)(b)"),
        ("bracket_of_f", "12,5,9", "(t:x.x)(t:y.y)(b)"),
        ("no_colon", "12,5,3", "(tx.x)(b)"),
        ("x_in_f", "13,5,8", "(t:q.q)(q)"),
        ("x_behind", "13,5,11", "(t:q.q)(b)+q"),
        ("x_before", "13,5,0", "q+(t:q.q)(b)"),
        ("x_in_inner_f", "13,5,13", "(t:x.(t:y.y)(y))(b)"),
        ("leftmost_in_e", "13,5,5", "(t:q.u)(v)"),
        ("leftmost_in_f", "13,5,8", "(t:q.b)(v)+u"),
        ("x_as_rule_set", "13,5,7", "(t:q.q*q)(b)"),
        ("x_as_member", "13,5,10", "(t:q.b^[s=q])(b)"),
        ("x_as_predicate", "13,5,8", "(t:q.b^[q(s)])(b)"),
    ];
    let mut edges: Vec<Edge> = said
        .iter()
        .map(|(name, said, e)| lines(&format!("template_{name}"), said, format!("{MB} E,0,{e}")))
        .collect();
    let (n24, n25) = ("n".repeat(24), "n".repeat(25));
    let bound = |name: &str| format!("{MB} E,0,(t:{name}.b)(b)");
    edges.extend([
        lines("template_x_of_24", ONE, bound(&n24)),
        lines("template_x_of_25", "12,5,27", bound(&n25)),
        lines("letter_t_parent", "3,1,0", "S,x,t"),
        lines("letter_t_table", "3,4,0", format!("{M} T,t,here E,0,t")),
        lines("letter_t_marked", "3,4,0", format!("{M} P,S,p,t")),
        lines("letter_t_mark", "3,4,0", format!("{M} P,S,t,x")),
        lines("letter_t_granted", "3,5,0", format!("{MB} G,t,x,y,z")),
        lines("letter_t_head", "3,5,0", format!("{MB} R,r,t,?1,?2")),
        lines("letter_t_rules", "3,5,0", format!("{MB} R,t,?0,?1,?2")),
        lines(
            "letter_t_body",
            "3,6,0",
            format!("{MB} R,r,x,y,z B,has,S,t,x"),
        ),
    ]);
    edges
}

/// The brackets, sets, operators and bindings of templates, and the order of
/// 12, 13, 14 and 16.
fn bindings() -> Vec<Edge> {
    let of = |name: &str, said, e: String| lines(name, said, format!("{MB} E,0,{e}"));
    let inside = |count, e: &str| format!("{}{e}{}", "(".repeat(count), ")".repeat(count));
    let right = |count, last| format!("{}{last}{}", "b+(".repeat(count), ")".repeat(count));
    let through_f = |count| format!("{}b{}", "(t:x.x)(".repeat(count), ")".repeat(count));
    let e = |e: String| format!("(t:x.{e})(b)");
    let f = |f: String| format!("(t:x.x)({f})");
    let sums = |in_e, in_f| format!("(t:x.x{})(b{})", "+x".repeat(in_e), "+b".repeat(in_f));
    let inner_f = |inner: &str| format!("(t:x.(t:x.(t:x.(t:x.x)({inner}))(x))(x))(b)");
    vec![
        of("brackets_32_template", ONE, inside(31, "(t:x.x)(b)")),
        of("brackets_33_template", "12,5,32", inside(32, "(t:x.x)(b)")),
        of("brackets_32_in_e", ONE, e(inside(31, "x"))),
        of("brackets_33_in_e", "12,5,36", e(inside(32, "x"))),
        of("brackets_32_in_f", ONE, f(inside(31, "b"))),
        of("brackets_33_in_f", "12,5,39", f(inside(32, "b"))),
        of("brackets_32_through_f", ONE, through_f(32)),
        of("brackets_33_through_f", "12,5,256", through_f(33)),
        of("brackets_33_through_e", "12,5,160", nested(33, "x", "b")),
        of("sets_14_in_e", ONE, e(right(12, "x"))),
        of("sets_15_in_e", "14,5,0", e(right(13, "x"))),
        of("sets_14_in_f", ONE, f(right(13, "b"))),
        of("sets_15_in_f", "14,5,0", f(right(14, "b"))),
        of("sets_14_template_right", ONE, right(12, "(t:x.x)(b)")),
        of("sets_15_template_right", "14,5,0", right(13, "(t:x.x)(b)")),
        of("sets_14_bindings_4", ONE, nested(4, &right(9, "x"), "b")),
        of(
            "sets_15_bindings_4",
            "14,5,0",
            nested(4, &right(10, "x"), "b"),
        ),
        of("operators_64_in_e", ONE, sums(63, 0)),
        of("operators_65_in_e", "14,5,0", sums(64, 0)),
        of("operators_64_in_f", ONE, sums(0, 63)),
        of("operators_65_in_f", "14,5,0", sums(0, 64)),
        of("operators_64_template", ONE, sums(31, 32)),
        of("operators_65_template", "14,5,0", sums(32, 32)),
        of("bindings_4", ONE, nested(4, "x", "b")),
        of("bindings_5", "16,5,0", nested(5, "x", "b")),
        of("bindings_5_unused", "16,5,0", nested(5, "b", "b")),
        of("bindings_13", "16,5,0", nested(13, "b", "b")),
        of(
            "bindings_5_of_five_names",
            "16,5,0",
            "(t:q.(t:r.(t:u.(t:v.(t:w.w)(b))(b))(b))(b))(b)".to_string(),
        ),
        of("bindings_4_and_f", ONE, inner_f("(t:x.x)(x)")),
        of(
            "bindings_5_in_inner_f",
            "16,5,0",
            inner_f("(t:x.(t:x.x)(x))(x)"),
        ),
        of(
            "bindings_4_and_4",
            ONE,
            format!("{0}-{0}", nested(4, "x", "b")),
        ),
        lines(
            "bindings_5_later_line",
            "16,7,0",
            format!("{MB} G,b,x,y,z R,r,x,y,z E,0,{}", nested(5, "x", "b")),
        ),
        of("rows_12_16_left", "12,5,25", nested(5, "+", "b")),
        of("rows_12_16_right", "12,5,46", nested(5, "x", "b") + ")"),
        of("rows_13_16", "13,5,25", nested(5, "nobody", "b")),
        of("rows_13_16_in_f", "13,5,28", nested(5, "x", "nobody")),
        of(
            "rows_14_16_sets",
            "14,5,0",
            nested(5, &right(10, "x"), "b"),
        ),
        of("rows_14_16_bindings_14", "14,5,0", nested(14, "b", "b")),
        of("rows_14_16_bindings_32", "14,5,0", nested(32, "x", "b")),
        of(
            "rows_14_16_operators",
            "14,5,0",
            nested(5, &format!("x{}", "+x".repeat(60)), "b"),
        ),
        lines(
            "rows_7_16",
            "7,5,0",
            format!("{MB} E,4097,{}", nested(5, "x", "b")),
        ),
        lines(
            "rows_3_16",
            "3,5,0",
            format!("{MB} E,00,{}", nested(5, "x", "b")),
        ),
        lines(
            "lines_16_4",
            "16,5,0",
            format!("{MB} E,0,{} E,0,b", nested(5, "x", "b")),
        ),
    ]
}

/// Two rows met on one line: the earlier row of the table wins, whichever of
/// the two stands further left. And two faulty lines: the first wins.
fn rows() -> Vec<Edge> {
    let subjects = many(64, "S,s#,-");
    let marks = many(16, "P,S,p#,x");
    let sets = many(16, "R,r#,x,y,z");
    let rules = many(64, "R,r,x,y,z");
    let body = format!("{MB} R,r,x,?0,z {}", many(4, "B,grant,x,y,z"));
    let right = |count, last| format!("{}{last}{}", "b+(".repeat(count), ")".repeat(count));
    let mut edges = vec![
        lines("rows_3_4", "3,5,0", format!("{MB} S,w")),
        lines("rows_3_6_left", "3,5,0", format!("{MB} G,T,nobody,y,z")),
        lines("rows_3_6_right", "3,5,0", format!("{MB} G,b,nobody,y,Z")),
        lines("rows_3_7_subject", "3,65,0", format!("{subjects} S,1,-")),
        lines("rows_3_7_limit", "3,5,0", format!("{MB} E,4097,")),
        lines("rows_3_8", "3,2,0", "S,x,- T,b,gone"),
        lines("rows_3_10_left", "3,5,0", format!("{MA} G,b,X,y,z")),
        lines("rows_3_10_right", "3,5,0", format!("{MA} G,b,x,y,Z")),
        lines("rows_3_11_left", "3,5,0", format!("{MB} R,r,?4,?0,?0")),
        lines("rows_3_11_right", "3,5,0", format!("{MB} R,r,?0,?0,?4")),
        lines("rows_3_12", "3,5,0", format!("{MB} E,x,)")),
        lines("rows_4_5", "4,3,0", "S,x,- O,y,- S,x,-"),
        lines("rows_4_6", "4,3,0", "S,x,- O,y,- S,w,nobody"),
        lines("rows_4_6_body", "4,5,0", format!("{MB} B,le,S,nobody,x")),
        lines("rows_4_7", "4,66,0", format!("{subjects} O,y,- S,s64,-")),
        lines("rows_4_8", "4,2,0", "S,x,- B,grant,x,y,z"),
        lines("rows_8_7", "8,3,0", "S,x,- O,y,- E,4097,b"),
        lines("rows_8_6", "8,3,0", "S,x,- O,y,- P,A,p,z"),
        lines("rows_8_11", "8,3,0", "S,x,- O,y,- R,r,?0,?0,z"),
        lines("rows_8_12", "8,3,0", "S,x,- O,y,- E,0,)"),
        lines(
            "rows_7_6_subject",
            "7,65,0",
            format!("{subjects} S,s64,nobody"),
        ),
        lines(
            "rows_7_6_predicate",
            "7,20,0",
            format!("{M} {marks} P,S,p16,nobody"),
        ),
        lines(
            "rows_7_6_rule_set",
            "7,21,0",
            format!("{MB} {sets} R,r16,nobody,y,z"),
        ),
        lines(
            "rows_7_6_rule",
            "7,69,0",
            format!("{MB} {rules} R,r,x,y,nobody"),
        ),
        lines("rows_7_6_body", "7,10,0", format!("{body} B,le,S,nobody,x")),
        lines(
            "rows_7_11_rule",
            "7,69,0",
            format!("{MB} {rules} R,r,?0,?0,z"),
        ),
        lines("rows_7_11_body", "7,10,0", format!("{body} B,le,S,?0,x")),
        lines("rows_7_12", "7,5,0", format!("{MB} E,4097,)")),
        lines("rows_7_13", "7,5,0", format!("{MB} E,4097,u")),
        lines(
            "rows_7_14",
            "7,5,0",
            format!("{MB} E,4097,{}", right(14, "b")),
        ),
        lines("rows_5_6", "5,2,0", "S,x,- S,x,nobody"),
        lines("rows_5_6_own_parent", "5,2,0", "S,x,- S,x,x"),
        lines("rows_6_10_left", "6,5,0", format!("{MA} G,b,nobody,y,z")),
        lines("rows_6_10_right", "6,5,0", format!("{MA} G,b,x,y,nobody")),
        lines("rows_6_11_left", "6,5,0", format!("{MB} R,r,nobody,?0,?0")),
        lines("rows_6_11_right", "6,5,0", format!("{MB} R,r,?0,?0,nobody")),
        lines(
            "rows_6_11_body",
            "6,6,0",
            format!("{MB} R,r,?0,y,z B,has,O,p,?0"),
        ),
        lines("rows_12_13_left", "12,5,1", format!("{MB} E,0,b)+u")),
        lines("rows_12_13_right", "12,5,4", format!("{MB} E,0,u+b+")),
        lines(
            "rows_12_14",
            "12,5,57",
            format!("{MB} E,0,{})", right(14, "b")),
        ),
        lines(
            "rows_13_14_left",
            "13,5,0",
            format!("{MB} E,0,u+({})", right(13, "b")),
        ),
        lines(
            "rows_13_14_right",
            "13,5,42",
            format!("{MB} E,0,{}", right(14, "u")),
        ),
        lines("lines_6_3", "6,1,0", "S,x,nobody S,1,-"),
        lines("lines_3_6", "3,1,0", "S,1,- S,x,nobody"),
        lines("lines_12_4", "12,5,0", format!("{MB} E,0,) E,0,b")),
        lines("lines_3_9", "3,3,0", "S,x,- O,y,- A,Z,-"),
    ];
    edges.push(edge("rows_2_3", "2,0,0", b"X".to_vec()));
    edges
}

/// Whole files of printable bytes that are damaged in one place.
fn damaged() -> Vec<Edge> {
    vec![
        lines("two_e_lines", "4,6,0", format!("{MB} E,0,b E,0,b")),
        lines("s_after_e", "4,6,0", format!("{MB} E,0,b S,w,-")),
        lines("b_after_e", "4,6,0", format!("{MB} E,0,b B,grant,x,y,z")),
        lines("malformed_after_e", "3,6,0", format!("{MB} E,0,b X")),
        lines("no_e", "9,0,0", MB),
        lines("empty_expression", "3,5,0", format!("{MB} E,0,")),
        lines("e_one_field", "3,5,0", format!("{MB} E,0")),
        lines("e_alone", "3,5,0", format!("{MB} E")),
        lines("kind_unknown", "3,4,0", format!("{M} X,b,here")),
        lines("kind_small", "3,1,0", "s,x,-"),
        lines("kind_long", "3,1,0", "SS,x,-"),
        lines("too_few_fields", "3,1,0", "S,x"),
        lines("too_many_fields", "3,1,0", "S,x,-,-"),
        lines("trailing_comma", "3,1,0", "S,x,-,"),
        lines("empty_field", "3,1,0", "S,,-"),
        lines("no_parent", "3,1,0", "S,x,"),
        lines("parent_later", "6,1,0", "S,x,w S,w,-"),
        lines("parent_itself", "6,1,0", "S,x,x"),
        lines("parent_of_other_sort", "6,2,0", "S,x,- O,y,x"),
        lines(
            "parent_good",
            "0,0,0,2,1,1",
            "S,x,- S,w,x O,y,- A,z,- T,b,here E,0,b",
        ),
        lines(
            "same_name_in_sorts",
            ONE,
            "S,x,- O,x,- A,x,- P,S,x,x T,x,here R,x,x,x,x E,0,x*x^[x(s)]",
        ),
        lines("o_before_s", "4,2,0", "O,y,- S,x,-"),
        lines("a_before_o", "4,3,0", "S,x,- A,z,- O,y,-"),
        lines("p_after_t", "4,5,0", format!("{MB} P,S,p,x")),
        lines("t_after_g", "4,6,0", format!("{MB} G,b,x,y,z T,w,here")),
        lines("g_after_r", "4,6,0", format!("{MB} R,r,x,y,z G,b,x,y,z")),
        lines(
            "g_after_b",
            "4,7,0",
            format!("{MB} R,r,x,y,z B,grant,x,y,z G,b,x,y,z"),
        ),
        lines(
            "b_without_rule",
            "4,5,0",
            format!("{MB} B,grant,x,y,z E,0,b"),
        ),
        lines("p_sort_small", "3,4,0", format!("{M} P,s,p,x")),
        lines("p_sort_unknown", "3,4,0", format!("{M} P,T,p,x")),
        lines("p_member_of_other_sort", "6,4,0", format!("{M} P,O,p,x")),
        lines(
            "p_repeated",
            ONE,
            format!("{M} P,S,p,x P,S,p,x T,b,here E,0,b^[p(s)]"),
        ),
        lines("t_word", "3,4,0", format!("{M} T,b,gone")),
        lines("t_repeated", "5,5,0", format!("{MB} T,b,here")),
        lines("t_repeated_away", "5,5,0", format!("{MB} T,b,away")),
        lines("g_repeated", ONE, format!("{MB} G,b,x,y,z G,b,x,y,z E,0,b")),
        lines("g_away", "10,5,0", format!("{MA} G,b,x,y,z")),
        lines("g_unknown_table", "6,5,0", format!("{MB} G,u,x,y,z")),
        lines("g_subject_as_object", "6,5,0", format!("{MB} G,b,x,x,z")),
        lines("g_object_as_action", "6,5,0", format!("{MB} G,b,x,y,y")),
        lines("g_action_as_subject", "6,5,0", format!("{MB} G,b,z,y,z")),
        lines("g_variable", "3,5,0", format!("{MB} G,b,?0,y,z")),
        lines(
            "r_four_variables",
            ONE,
            format!("{MB} R,r,?0,?1,?2 B,le,S,?3,x E,0,b*r"),
        ),
        lines("r_variable_4", "3,5,0", format!("{MB} R,r,?4,y,z")),
        lines("r_variable_long", "3,5,0", format!("{MB} R,r,?00,y,z")),
        lines("r_variable_bare", "3,5,0", format!("{MB} R,r,?,y,z")),
        lines("r_two_sorts_s_o", "11,5,0", format!("{MB} R,r,?0,?0,z")),
        lines("r_two_sorts_s_a", "11,5,0", format!("{MB} R,r,?1,y,?1")),
        lines("r_two_sorts_o_a", "11,5,0", format!("{MB} R,r,x,?3,?3")),
        lines("r_subject_as_object", "6,5,0", format!("{MB} R,r,x,x,z")),
        lines(
            "b_two_sorts_grant",
            "11,6,0",
            format!("{MB} R,r,?0,y,z B,grant,x,?0,z"),
        ),
        lines(
            "b_two_sorts_order",
            "11,6,0",
            format!("{MB} R,r,?0,?1,z B,le,O,?1,?0"),
        ),
        lines(
            "b_two_sorts_has",
            "11,7,0",
            format!("{M} P,A,p,z T,b,here R,r,?0,y,z B,has,A,p,?0"),
        ),
        lines(
            "b_two_sorts_in_body",
            "11,7,0",
            format!("{MB} R,r,x,y,z B,eq,S,?2,?2 B,eq,O,y,?2"),
        ),
        lines(
            "b_sorts_of_two_rules",
            ONE,
            format!("{MB} R,r,?0,y,z R,r,x,?0,z E,0,b*r"),
        ),
        lines("b_word", "3,6,0", format!("{MB} R,r,x,y,z B,ne,S,x,x")),
        lines("b_sort", "3,6,0", format!("{MB} R,r,x,y,z B,le,s,x,x")),
        lines(
            "b_all_words",
            ONE,
            format!(
                "{M} P,S,p,x T,b,here R,r,?0,?1,z B,le,S,?0,x B,ge,S,?0,x B,lt,O,?1,y B,gt,A,?2,z \
             R,r,?0,?1,z B,eq,O,?1,y B,has,S,p,?0 B,grant,?0,?1,?3 E,0,b*r"
            ),
        ),
        lines(
            "b_unknown_predicate",
            "6,6,0",
            format!("{MB} R,r,x,y,z B,has,S,p,x"),
        ),
        lines(
            "b_predicate_of_other_sort",
            "6,7,0",
            format!("{M} P,S,p,x T,b,here R,r,x,y,z B,has,O,p,y"),
        ),
        lines(
            "b_member_of_other_sort",
            "6,6,0",
            format!("{MB} R,r,x,y,z B,lt,S,x,y"),
        ),
        lines("away_in_expression", ONE, format!("{MA} E,0,b-b")),
    ]
}

/// The worked file with a byte that is wrong, or cut.
fn bytes() -> Vec<Edge> {
    let whole = text(&format!("{W} E,4096,forms*down^[o<=week]"));
    let cut = |name, said, end: usize| edge(name, said, whole[..end].to_vec());
    // The place of a line's byte, both from 1 and from 0.
    let at = |line: usize, byte: usize| {
        let before = whole.split_inclusive(|b| *b == b'\n').take(line - 1);
        before.map(<[u8]>::len).sum::<usize>() + byte
    };
    let put = |name, said, place: usize, byte: u8| {
        let mut file = whole.clone();
        file[place] = byte;
        edge(name, said, file)
    };
    let joined = |name, said, place: usize, byte: u8| {
        let mut file = whole.clone();
        file.insert(place, byte);
        edge(name, said, file)
    };
    vec![
        cut("cut_last_lf", "2,0,0", whole.len() - 1),
        cut("cut_in_expression", "2,0,0", whole.len() - 7),
        cut("cut_in_line", "2,0,0", at(7, 5)),
        cut("cut_before_e", "9,0,0", at(11, 0)),
        cut("cut_after_first_line", "9,0,0", at(2, 0)),
        cut("cut_first_byte_only", "2,0,0", 1),
        put("byte_nul_in_name", "3,1,0", at(1, 3), 0),
        put("byte_255_in_name", "3,2,0", at(2, 3), 0xFF),
        put("byte_blank_in_name", "3,3,0", at(3, 3), b' '),
        put("byte_tab_as_comma", "3,4,0", at(4, 1), b'\t'),
        put("byte_cr_as_lf", "3,1,0", at(2, 0) - 1, b'\r'),
        joined("byte_cr_before_lf", "3,5,0", at(6, 0) - 1, b'\r'),
        joined("byte_lf_more", "3,2,0", at(2, 0), b'\n'),
        joined("byte_lf_last", "3,12,0", whole.len(), b'\n'),
        joined("byte_cr_last", "2,0,0", whole.len(), b'\r'),
        put("byte_nul_in_expression", "12,11,5", at(11, 7 + 5), 0),
        put("byte_255_in_expression", "12,11,2", at(11, 7 + 2), 0xFF),
        joined("byte_blank_in_expression", "12,11,5", at(11, 7 + 5), b' '),
        joined("byte_cr_in_expression", "12,11,20", whole.len() - 1, b'\r'),
        put("byte_other_op", "13,11,6", at(11, 7 + 5), b'+'),
        put("byte_other_name", "13,11,0", at(11, 7), b'g'),
    ]
}
