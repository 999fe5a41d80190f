//! Expressions as deep as they may be and a bracket deeper, of every form, lawful ones, ones cut off, and ones that fill a file.

use super::{case, Case, Known, MOST_BYTES};

const MOST_OPEN: usize = 32;
const MOST_OPERATORS: usize = 64;
const MOST_HELD: usize = 14;
const MOST_BINDINGS: usize = 4;

/// The lines before E. `b` is here and `w` away; `r` has rules of up to four variables and of every kind of atom.
const LINES: &str = "S,s0,-\nS,s1,s0\nS,s2,s1\nO,o0,-\nO,o1,o0\nO,o2,o0\nA,a0,-\nA,a1,a0\nP,S,m,s1\nP,O,m,o1\n\
    T,b,here\nT,w,away\nG,b,s0,o0,a0\n\
    R,r,?0,?1,?2\nB,grant,?3,?1,?2\nB,le,S,?0,?3\n\
    R,r,?0,?1,?2\nB,grant,?0,?3,?2\nB,gt,O,?3,?1\nB,has,O,m,?1\nB,eq,A,?2,a0\n\
    R,r,?0,?1,a1\nB,grant,?0,?2,?3\nB,grant,s0,?2,?3\nB,grant,s0,?1,a0\nB,lt,A,a1,?3\n";

/// One level of an expression: what stands before and after the next, with one bracket open where the next stands; its operators;
/// how many sets it holds, the larger of `least` and `more` beside those of the next; and so its bindings, of which `bound` are in
/// force at some place of it and `binds` where the next stands.
struct Form {
    before: &'static str,
    after: &'static str,
    operators: usize,
    least: usize,
    more: usize,
    bound: usize,
    binds: usize,
}

const fn form(before: &'static str, after: &'static str, operators: usize, least: usize, more: usize) -> Form {
    Form { before, after, operators, least, more, bound: 0, binds: 0 }
}

/// A level with a template: the next stands in its E.
const fn in_e(before: &'static str, after: &'static str, operators: usize, least: usize, more: usize) -> Form {
    Form { before, after, operators, least, more, bound: 1, binds: 1 }
}

/// The next stands in its F, which is outside the binding.
const fn in_f(before: &'static str, after: &'static str, operators: usize, least: usize, more: usize) -> Form {
    Form { before, after, operators, least, more, bound: 1, binds: 0 }
}

/// Each is a factor, so that any may stand in any other.
const FACTORS: [Form; 43] = [
    form("(", ")", 0, 0, 0),
    form("o(", ",b,b)", 1, 3, 0),
    form("o(b,", ",b)", 1, 3, 1),
    form("o(b,b,", ")", 1, 0, 2),
    form("(", "+b)", 1, 2, 0),
    form("(", "&b)", 1, 2, 0),
    form("(", "-b)", 1, 2, 0),
    form("(b+", ")", 1, 0, 1),
    form("(b&", ")", 1, 0, 1),
    form("(b-", ")", 1, 0, 1),
    form("(", "*r)", 1, 0, 0),
    form("(", ")*r", 1, 0, 0),
    form("(", "^[s<=s1])", 1, 0, 0),
    form("(", ")^[o>o1]", 1, 0, 0),
    form("(", ")^[m(o)]", 1, 0, 0),
    form("(", "^[m(s)])", 1, 0, 0),
    form("(", ")*r^[a=a0]", 2, 0, 0),
    form("(", ")^[s>=s1]*r", 2, 0, 0),
    form("o(", ",b,b)*r", 2, 3, 0),
    form("o(", ",b,w)^[o<o0]", 2, 3, 0),
    form("o(", "*r,b,b)", 2, 3, 0),
    form("o(", "^[m(o)],b,b*r)", 3, 3, 0),
    form("o(b,", ",b)*r", 2, 3, 1),
    form("o(b*r,", ",b)^[m(s)]", 3, 3, 1),
    form("o(b,", "^[s<s0],w)", 2, 3, 1),
    form("o(b,b,", ")*r", 2, 0, 2),
    form("o(b,b*r,", ")^[a<=a1]", 3, 0, 2),
    form("o(w,b,", "*r)", 2, 0, 2),
    form("(b+", ")*r", 2, 0, 1),
    form("(b-", "*r)^[o>=o1]", 3, 0, 1),
    form("(b*r&", ")", 2, 0, 1),
    form("(", "+b*r&b-b)", 4, 2, 0),
    in_e("(t:v.", ")(b)", 1, 1, 1),
    in_e("(t:b.", ")(w)", 1, 1, 1),
    in_e("(t:v.", "*r)(b*r)^[m(o)]", 4, 1, 1),
    in_e("(t:v.v&", ")(b)", 2, 1, 2),
    in_e("(t:v.", "-v)(b)*r", 3, 3, 1),
    in_f("(t:v.v)(", ")", 1, 2, 0),
    in_f("(t:v.b)(", ")", 1, 2, 0),
    in_f("(t:b.b)(", ")*r", 2, 2, 0),
    in_f("(t:v.v*r^[s<=s1])(", "^[m(s)])", 4, 2, 0),
    in_f("(t:v.v-b*r+v)(", "*r)", 5, 3, 0),
    in_f("(t:v.b&v-w)(", "&b)", 4, 3, 0),
];

/// Levels for expressions that are 32 deep and lawful: a plain bracket, closures and templates.
const PLAIN: &Form = &FACTORS[0];
const CLOSED: &Form = &form("(", ")*r", 1, 0, 0);
const FIRST: &Form = &form("o(", ",b,b)", 1, 3, 0);
const IN_E: &Form = &in_e("(t:v.", ")(b)", 1, 1, 1);
const IN_F: &Form = &in_f("(t:v.v)(", ")", 1, 2, 0);

/// Operators outside the bracket, so that each may stand in itself alone.
const SUMS: [Form; 11] = [
    form("(", ")+b", 1, 2, 0),
    form("(", ")&w", 1, 2, 0),
    form("(", ")-b", 1, 2, 0),
    form("b+(", ")", 1, 0, 1),
    form("w&(", ")", 1, 0, 1),
    form("b-(", ")", 1, 0, 1),
    form("(", ")+b^[m(o)]-w", 3, 2, 0),
    form("b-b*r+(", ")", 3, 0, 1),
    in_f("(t:v.v)(", ")+b", 2, 2, 0),
    in_f("b-(t:v.v)(", ")", 2, 3, 1),
    in_e("b+(t:v.", ")(b)", 2, 2, 2),
];

/// What stands in the middle, with its operators; each holds one set.
const CORES: [(&str, usize); 3] = [("b", 0), ("b*r", 1), ("w^[m(s)]*r", 2)];

#[derive(Clone)]
struct Expression {
    text: String,
    operators: usize,
    held: usize,
    bindings: usize,
    /// Where the middle begins.
    deepest: usize,
}

impl Expression {
    fn is_too_large(&self) -> bool {
        self.operators > MOST_OPERATORS || self.held > MOST_HELD
    }

    fn is_lawful(&self) -> bool {
        !self.is_too_large() && self.bindings <= MOST_BINDINGS
    }

    /// How it is judged, if its names are declared and its brackets are not too many.
    fn known(&self) -> Known {
        match (self.is_too_large(), self.is_lawful()) {
            (true, _) => refused(14, 0),
            (false, false) => refused(16, 0),
            (false, true) => Known::Accepted,
        }
    }
}

fn refused(number: usize, place: usize) -> Known {
    Known::Refused(number, LINES.lines().count() + 1, place)
}

/// Levels, outermost first, around a middle that holds one set.
fn nest(levels: &[&Form], core: &str, operators: usize) -> Expression {
    let mut inner = Expression { text: core.to_string(), operators, held: 1, bindings: 0, deepest: 0 };
    for level in levels.iter().rev() {
        inner.text = format!("{}{}{}", level.before, inner.text, level.after);
        inner.operators += level.operators;
        inner.held = level.least.max(level.more + inner.held);
        inner.bindings = level.bound.max(level.binds + inner.bindings);
        inner.deepest += level.before.len();
    }
    inner
}

fn with_expression(name: String, limit: usize, text: &str, known: Known) -> Case {
    case(format!("{name}: {}", &text[..text.len().min(60)]), format!("{LINES}E,{limit},{text}\n"), known)
}

/// The levels around a middle: 32 deep, 33 deep, cut off, empty or unknown in the middle.
fn deepest(name: &str, levels: &[&Form], (core, operators): (&str, usize)) -> Vec<Case> {
    let within = &levels[..MOST_OPEN];
    let whole = nest(within, core, operators);
    let place = whole.deepest;
    let bracket = place + levels[MOST_OPEN].before.find('(').expect("a bracket");
    let told = |what: &str, text: &str, known| with_expression(format!("{name}, {what}"), 4096, text, known);
    vec![
        told("32 deep", &whole.text, whole.known()),
        told("33 deep", &nest(levels, core, operators).text, refused(12, bracket)),
        told("cut off before the middle", &whole.text[..place], refused(12, place)),
        told("cut off after the middle", &whole.text[..place + core.len()], refused(12, place + core.len())),
        told("cut off before the end", &format!("{}+", whole.text), refused(12, whole.text.len() + 1)),
        told("empty in the middle", &nest(within, "", 0).text, refused(12, place)),
        told("unknown in the middle", &nest(within, "x", 0).text, refused(13, place)),
        told("an unknown rule set", &nest(within, "b*x", 1).text, refused(13, place + 2)),
        told("an unknown member", &nest(within, "b^[s<=x]", 1).text, refused(13, place + 6)),
    ]
}

/// As many of the levels as are lawful, and then operators up to 64: in the middle, or around. One more is too many.
fn lawful(name: &str, levels: &[&Form], (core, operators): (&str, usize)) -> Vec<Case> {
    let most = (0..=MOST_OPEN).rev().find(|depth| nest(&levels[..*depth], core, operators).is_lawful());
    let levels = &levels[..most.expect("a lawful depth")];
    let whole = nest(levels, core, operators);
    let left = MOST_OPERATORS - whole.operators;
    let name = format!("{name}, {} deep", levels.len());
    let mut cases = vec![with_expression(name.clone(), 1, &whole.text, Known::Accepted)];
    for more in ["*r", "^[s<=s0]", "^[m(o)]"] {
        let inside = |count: usize| nest(levels, &(core.to_string() + &more.repeat(count)), operators + count).text;
        cases.push(with_expression(format!("{name}, with 64 operators inside"), 4096, &inside(left), Known::Accepted));
        cases.push(with_expression(format!("{name}, with 65"), 4096, &inside(left + 1), refused(14, 0)));
    }
    for more in ["+b", "&w", "-b"] {
        let around = |count: usize| whole.text.clone() + &more.repeat(count);
        cases.push(with_expression(format!("{name}, with 64 operators around"), 4096, &around(left), Known::Accepted));
        cases.push(with_expression(format!("{name}, with 65"), 4096, &around(left + 1), refused(14, 0)));
    }
    cases
}

/// Templates whose E has the next, at these levels, and by turns these others at all other levels.
fn with_bindings(levels: &[usize], others: &[&'static Form]) -> Vec<&'static Form> {
    (0..=MOST_OPEN).map(|level| if levels.contains(&level) { IN_E } else { others[level % others.len()] }).collect()
}

/// Four bindings in force and more, in expressions of 32 levels: accepted, refused with 16, and with 14 before it.
fn bindings() -> Vec<(String, Vec<&'static Form>)> {
    let mut nests = Vec::new();
    let others: [(&str, &[&Form]); 4] = [
        ("brackets", &[PLAIN]),
        ("closures", &[CLOSED, PLAIN]),
        ("templates in F", &[IN_F]),
        ("all of these", &[IN_F, CLOSED, FIRST, PLAIN]),
    ];
    for (name, others) in others {
        for levels in [&[0, 1, 2, 3][..], &[28, 29, 30, 31], &[0, 9, 18, 31], &[0, 1, 30, 31, 32], &[0, 7, 14, 21, 28]] {
            nests.push((format!("bindings at {levels:?}, {name}"), with_bindings(levels, others)));
        }
        for count in [5, 13, 14, MOST_OPEN] {
            let levels: Vec<usize> = (0..count).collect();
            nests.push((format!("{count} bindings, {name}"), with_bindings(&levels, others)));
        }
    }
    nests
}

/// Levels of many forms by turns, `step` forms apart.
fn by_turns(forms: &[&'static Form], step: usize) -> Vec<&'static Form> {
    (0..=MOST_OPEN).map(|level| forms[(step + level * step) % forms.len()]).collect()
}

/// An expression that fills the file: a beginning, as many of a part as fit, and an end; `place` finds the place of the refusal
/// from the whole text.
fn filled(start: &str, part: &str, end: &str, number: usize, place: impl Fn(&str) -> usize) -> Case {
    let room = MOST_BYTES - LINES.len() - "E,4096,\n".len() - start.len() - end.len();
    let text = format!("{start}{}{end}", part.repeat(room / part.len()));
    with_expression(format!("filled with {part}"), 4096, &text, refused(number, place(&text)))
}

fn all_filled() -> Vec<Case> {
    let nowhere = |_: &str| 0;
    let mut cases = vec![
        filled("(", "(", "", 12, |_| 32),
        filled("o(", "o(", "", 12, |_| 65),
        filled("b", "b", "", 12, |_| 24),
        filled("b+", "b+", "", 12, str::len),
        filled("b", "*r", "*", 12, str::len),
        filled("b^[s<=", "s", "]", 12, |_| 30),
        filled("x", "+x", "", 13, |_| 0),
        filled("b", "+x", "", 13, |_| 2),
        filled("b", "*x", "", 13, |_| 2),
        filled("b", "^[s<=x]", "", 13, |_| 6),
        filled("b", "^[x(o)]", "", 13, |_| 3),
        filled("(t:v.", "(t:v.", "", 12, |_| 160),
        filled("(t:v.v)(", "(t:v.v)(", "", 12, |_| 256),
        filled("(t", "t", "", 12, |_| 25),
        filled("(t:", "v", "", 12, |_| 27),
        filled("(t:v.", "v+", "", 12, str::len),
        filled("(t:v.v)(", "b+", "", 12, str::len),
        filled("b", "+(t:v.v)(b)", "+(t", 12, str::len),
        filled("b", "+(t:v.x)(b)", "", 13, |_| 7),
        filled("b", "+(t:v.v)(x)", "", 13, |_| 10),
        filled("(t:v.v", "+v", ")(x)", 13, |text| text.len() - 2),
        filled("(t:v.v", "+v", ")(b)", 14, nowhere),
        filled("(t:v.v)(b", "+b", ")", 14, nowhere),
    ];
    for part in ["+b", "&b", "-b", "*r", "^[s<=s0]", "^[m(o)]", "*r^[o>o1]", "+(b)", "+((b-b))", "+o(b,b,b)", "+(t:v.v)(b)"] {
        cases.push(filled("b", part, "", 14, nowhere));
    }
    for (open, close) in
        [("(", ")"), ("o(", ",b,b)"), ("o(b,", ",b)"), ("o(b,b,", ")"), ("(b-", ")*r"), ("(t:v.", ")(b)"), ("(t:v.v)(", ")")]
    {
        let (start, end) = (open.repeat(MOST_OPEN) + "b", close.repeat(MOST_OPEN));
        for part in ["+b", "-b*r", "*r", "^[s<=s0]", "^[m(s)]"] {
            cases.push(filled(&start, part, &end, 14, nowhere));
            cases.push(filled(&start, part, "", 12, str::len));
            cases.push(filled(&start, part, &end[close.len()..], 12, str::len));
            cases.push(filled(&start, part, &format!("{end})"), 12, |text| text.len() - 1));
        }
        cases.push(filled(&start, "+x", &end, 13, |_| start.len() + 1));
    }
    cases
}

pub fn cases() -> Vec<Case> {
    let every: Vec<&Form> = FACTORS.iter().collect();
    let to_the_left: Vec<&Form> = FACTORS.iter().filter(|form| form.more == 0).collect();
    let mut nests: Vec<(String, Vec<&Form>)> = Vec::new();
    for form in FACTORS.iter().chain(&SUMS) {
        nests.push((format!("{}..{}", form.before, form.after), vec![form; MOST_OPEN + 1]));
    }
    for step in 1..20 {
        nests.push((format!("forms by {step}"), by_turns(&every, step)));
        nests.push((format!("forms to the left by {step}"), by_turns(&to_the_left, step)));
    }
    nests.extend(bindings());
    let mut cases = all_filled();
    for (name, levels) in &nests {
        for core in CORES {
            cases.extend(deepest(name, levels, core));
            cases.extend(lawful(name, levels, core));
        }
    }
    cases
}
