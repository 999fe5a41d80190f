//! `snowdell table` in each format: what it prints is held against what `snowdell list` prints of the same file.

mod common;
mod json;

use common::{program, root, snowdell, snowdell_with, text, Ran, Scratch};
use json::Json;
use std::collections::BTreeMap;
use std::fs::File;
use std::process::{Command, Stdio};

/// Accepted files: small and full, of one action and of many, with every answer, without lists, stopped by the limit.
const ACCEPTED: [&str; 16] = [
    "examples/away_list.pol",
    "examples/closed_weeks.pol",
    "examples/hospital.pol",
    "examples/laboratory.pol",
    "examples/propagation.pol",
    "examples/second_clinic.pol",
    "examples/three_lists.pol",
    "evaluator/corpus/worked/k01.pol",
    "evaluator/corpus/worked/k04.pol",
    "evaluator/corpus/worked/k08.pol",
    "evaluator/corpus/worked/k14.pol",
    "evaluator/corpus/big/g000.pol",
    "evaluator/corpus/big/g003.pol",
    "evaluator/corpus/big/g004.pol",
    "evaluator/corpus/big/g007.pol",
    FULL,
];
/// 64 subjects, 64 objects, permits and undecided accesses.
const FULL: &str = "cli/page-check/full.pol";
const REFUSED: &str = "evaluator/corpus/worked/k12.pol";

/// The answers that are not deny, by subject, object and action.
type Answers = BTreeMap<[String; 3], String>;

fn access(subject: &str, object: &str, action: &str) -> [String; 3] {
    [subject, object, action].map(String::from)
}

/// What `snowdell list` says: its numbers and its answers.
fn listing(path: &str) -> (Vec<usize>, Answers) {
    let ran = snowdell(&["list", path]);
    assert_eq!(ran.status, 0, "{path}");
    let mut lines = ran.out.lines().map(|line| line.split(',').collect::<Vec<&str>>());
    let numbers = lines.next().expect("a first line")[1..].iter().map(|n| n.parse().expect("a number")).collect();
    (numbers, lines.map(|line| (access(line[1], line[2], line[3]), line[0].to_string())).collect())
}

fn table(path: &str, options: &[&str]) -> Ran {
    snowdell(&[&["table", path], options].concat())
}

/// What is printed of an accepted file.
fn printed(path: &str, options: &[&str]) -> String {
    let ran = table(path, options);
    assert_eq!((ran.status, ran.err.as_str()), (0, ""), "{path}");
    ran.out
}

/// The members of a sort as the file has them, each with its parent.
fn members(path: &str, kind: &str) -> Vec<(String, String)> {
    let file = text(path);
    let lines = file.lines().map(|line| line.split(',').collect::<Vec<&str>>());
    lines.filter(|line| line[0] == kind).map(|line| (line[1].to_string(), line[2].to_string())).collect()
}

fn names(path: &str, kind: &str) -> Vec<String> {
    members(path, kind).into_iter().map(|(name, _)| name).collect()
}

// Text.

#[test]
fn text_is_the_default() {
    let wanted = "\
policy: closed_weeks.pol
accesses 24, permits 5, undecided 0, rounds 0
away: none, all lists are here
legend: read = permitted, read? = undecided, not named = denied, . = all denied

subject      wk4    wk3    wk2  wk1
-----------  -----  -----  ---  ----
staff        .      .      .    read
  nurse      write  write  .    .
  dietitian  write  write  .    .
";
    assert_eq!(printed("examples/closed_weeks.pol", &[]), wanted);
    assert_eq!(printed("examples/closed_weeks.pol", &["--format", "text"]), wanted);
}

#[test]
fn text_names_the_lists_that_are_away() {
    let wanted = "\
policy: away_list.pol
accesses 3, permits 0, undecided 2, rounds 0
away: suspended
legend: write = permitted, write? = undecided, not named = denied, . = all denied

subject  wk3
-------  ------
nurse    .
cook     write?
temp     write?
";
    assert_eq!(printed("examples/away_list.pol", &[]), wanted);
}

#[test]
fn text_says_when_the_limit_leaves_accesses_undecided() {
    let wanted = "\
policy: k04.pol
accesses 4, permits 1, undecided 3, rounds 0
away: none, all lists are here; a closure was stopped by the limit 0
legend: read = permitted, read? = undecided, not named = denied, . = all denied

subject  week   mon
-------  -----  -----
staff    read   read?
  ann    read?  read?
";
    assert_eq!(printed("evaluator/corpus/worked/k04.pol", &[]), wanted);
}

#[test]
fn text_of_one_action_counts_that_action() {
    let wanted = "\
policy: three_lists.pol
action: read alone
accesses 21, permits 2, undecided 0, rounds 4
away: none, all lists are here
legend: read = permitted, read? = undecided, not named = denied, . = all denied

subject    wk4   wk3  wk2
---------  ----  ---  ---
staff      .     .    .
  ward     read  .    .
    ann    read  .    .
  kitchen  .     .    .
    cook   .     .    .
  clinic   .     .    .
    dora   .     .    .
";
    assert_eq!(printed("examples/three_lists.pol", &["--action", "read"]), wanted);
}

#[test]
fn subjects_stand_below_their_parents_whatever_the_order_of_the_file() {
    let policy = "S,staff,-\nS,ward,staff\nS,kitchen,staff\nS,ann,ward\nS,guest,-\nS,cook,kitchen\nO,wk,-\nA,read,-\nA,write,-\n\
                  T,forms,here\nT,late,away\nG,forms,ann,wk,read\nG,forms,cook,wk,write\nE,0,forms+late^[s=ann]\n";
    let ran = snowdell_with(&["table", "-"], policy.as_bytes());
    let wanted = "\
policy: standard input
accesses 12, permits 2, undecided 1, rounds 0
away: late
legend: read = permitted, read? = undecided, not named = denied, . = all denied

subject    wk
---------  -----------
staff      .
  ward     .
    ann    read,write?
  kitchen  .
    cook   write
guest      .
";
    assert_eq!((ran.status, ran.out.as_str(), ran.err.as_str()), (0, wanted, ""));
}

#[test]
fn text_agrees_with_the_listing() {
    for path in ACCEPTED {
        let out = printed(path, &[]);
        let (numbers, answers) = listing(path);
        let [n, permits, undecided, rounds] = numbers[..] else { panic!("{path}: four numbers") };
        assert!(out.contains(&format!("\naccesses {n}, permits {permits}, undecided {undecided}, rounds {rounds}\n")), "{path}");
        let rows: Vec<Vec<&str>> = out.lines().skip_while(|l| !l.is_empty()).map(|l| l.split_whitespace().collect()).collect();
        assert_eq!(rows[1][1..], names(path, "O"), "{path}");
        let mut found = Answers::new();
        for row in &rows[3..] {
            for (object, cell) in rows[1][1..].iter().zip(&row[1..]) {
                for word in cell.split(',').filter(|word| *word != ".") {
                    let (action, answer) = word.strip_suffix('?').map_or((word, "permit"), |action| (action, "undecided"));
                    found.insert(access(row[0], object, action), answer.into());
                }
            }
        }
        assert_eq!((rows.len() - 3, found), (names(path, "S").len(), answers), "{path}");
    }
}

// A spreadsheet's form.

#[test]
fn csv_has_a_line_for_each_subject_and_action() {
    let wanted = "\
Subject,Parent,Action,wk4,wk3,wk2,wk1,Away
staff,,read,deny,deny,deny,permit,
staff,,write,deny,deny,deny,deny,
nurse,staff,read,deny,deny,deny,deny,
nurse,staff,write,permit,permit,deny,deny,
dietitian,staff,read,deny,deny,deny,deny,
dietitian,staff,write,permit,permit,deny,deny,
";
    assert_eq!(printed("examples/closed_weeks.pol", &["--format", "csv"]), wanted);
    let away = "Subject,Parent,Action,wk3,Away\nnurse,,write,deny,suspended\ncook,,write,undecided,suspended\n\
                temp,,write,undecided,suspended\n";
    assert_eq!(printed("examples/away_list.pol", &["--format", "csv"]), away);
    let one = "Subject,Parent,Action,wk4,wk3,wk2,wk1,Away\nstaff,,read,deny,deny,deny,permit,\n\
               nurse,staff,read,deny,deny,deny,deny,\ndietitian,staff,read,deny,deny,deny,deny,\n";
    assert_eq!(printed("examples/closed_weeks.pol", &["--format", "csv", "--action", "read"]), one);
}

#[test]
fn csv_agrees_with_the_listing() {
    for path in ACCEPTED {
        let out = printed(path, &["--format", "csv"]);
        let lines: Vec<Vec<&str>> = out.lines().map(|line| line.split(',').collect()).collect();
        let objects = names(path, "O");
        assert_eq!(lines[0][..3], ["Subject", "Parent", "Action"]);
        assert_eq!(lines[0][3..3 + objects.len()], objects, "{path}");
        assert_eq!(lines[0][3 + objects.len()..], ["Away"]);
        let parents: BTreeMap<String, String> = members(path, "S").into_iter().collect();
        let mut found = Answers::new();
        for line in &lines[1..] {
            assert_eq!(line.len(), lines[0].len(), "{path}");
            assert_eq!(line[1], parents[line[0]].trim_matches('-'), "{path}");
            for (object, answer) in objects.iter().zip(&line[3..]) {
                found.insert(access(line[0], object, line[2]), answer.to_string());
            }
        }
        let (numbers, answers) = listing(path);
        assert_eq!(found.len(), numbers[0], "{path}");
        found.retain(|_, answer| answer != "deny");
        assert_eq!(found, answers, "{path}");
    }
}

#[test]
fn no_field_of_csv_begins_a_formula() {
    for path in ACCEPTED {
        let out = printed(path, &["--format", "csv"]);
        for field in out.lines().flat_map(|line| line.split(',')) {
            assert!(field.bytes().all(|b| b.is_ascii_alphanumeric() || b == b'_' || b == b' '), "{path}: {field}");
            assert!(field.is_empty() || field.as_bytes()[0].is_ascii_alphabetic(), "{path}: {field}");
        }
    }
}

// A program's form.

#[test]
fn json_of_a_small_policy() {
    let wanted = r#"{
"accesses":3,
"permits":0,
"undecided":2,
"rounds":0,
"away":["suspended"],
"subjects":[{"name":"nurse","parent":null},{"name":"cook","parent":null},{"name":"temp","parent":null}],
"objects":[{"name":"wk3","parent":null}],
"actions":[{"name":"write","parent":null}],
"answers":{
"nurse":{"wk3":{"write":"deny"}},
"cook":{"wk3":{"write":"undecided"}},
"temp":{"wk3":{"write":"undecided"}}
}
}
"#;
    assert_eq!(printed("examples/away_list.pol", &["--format", "json"]), wanted);
}

/// The answers of a table in JSON, deny too.
fn answers_of(json: &Json) -> Answers {
    let mut found = Answers::new();
    for (subject, objects) in json.field("answers").fields() {
        for (object, actions) in objects.fields() {
            for (action, answer) in actions.fields() {
                assert!(found.insert(access(subject, object, action), answer.text().into()).is_none());
            }
        }
    }
    found
}

#[test]
fn json_agrees_with_the_listing() {
    for path in ACCEPTED {
        let json = Json::of(&printed(path, &["--format", "json"]));
        let (numbers, answers) = listing(path);
        let told = ["accesses", "permits", "undecided", "rounds"].map(|name| json.field(name).number());
        assert_eq!(told[..], numbers, "{path}");
        for (field, kind) in [("subjects", "S"), ("objects", "O"), ("actions", "A")] {
            let parent = |member: &Json| match member.field("parent") {
                Json::Null => "-".to_string(),
                name => name.text().to_string(),
            };
            let list = json.field(field).list().iter().map(|m| (m.field("name").text().to_string(), parent(m)));
            assert_eq!(list.collect::<Vec<_>>(), members(path, kind), "{path}");
        }
        let away: Vec<String> =
            members(path, "T").into_iter().filter(|(_, state)| state == "away").map(|(name, _)| name).collect();
        assert_eq!(json.field("away").list().iter().map(Json::text).collect::<Vec<_>>(), away, "{path}");
        let mut found = answers_of(&json);
        assert_eq!(found.len(), numbers[0], "{path}");
        found.retain(|_, answer| answer != "deny");
        assert_eq!(found, answers, "{path}");
    }
}

#[test]
fn json_of_one_action_has_that_action_alone() {
    let path = "examples/three_lists.pol";
    let json = Json::of(&printed(path, &["--action", "write", "--format", "json"]));
    let told = ["accesses", "permits", "undecided", "rounds"].map(|name| json.field(name).number());
    assert_eq!(told, [21, 4, 0, 4]);
    assert_eq!(json.field("actions").list().len(), 1);
    let mut answers = listing(path).1;
    answers.retain(|access, _| access[2] == "write");
    let mut found = answers_of(&json);
    assert_eq!(found.len(), 21);
    found.retain(|_, answer| answer != "deny");
    assert_eq!(found, answers);
}

// The page.

fn page(path: &str) -> String {
    printed(path, &["--format", "html"])
}

/// What stands between the first of these two, and all after the second.
fn between<'a>(text: &'a str, from: &str, to: &str) -> (&'a str, &'a str) {
    let rest = text.split_once(from).unwrap_or_else(|| panic!("no {from}")).1;
    rest.split_once(to).unwrap_or_else(|| panic!("no {to}"))
}

fn attribute<'a>(tag: &'a str, name: &str) -> &'a str {
    between(tag, &format!(" {name}=\""), "\"").0
}

/// The answers of a page's cells, deny too. Each cell stands in the row of its subject, in the column of its object, and its
/// elements and their words are those of their answers.
fn cells(page: &str, path: &str) -> Answers {
    let (head, body) = (between(page, "<thead>", "</thead>").0, between(page, "<tbody>", "</tbody>").0);
    let heads: Vec<&str> = head.split("<th ").skip(2).map(|th| attribute(th, "data-o")).collect();
    assert_eq!(heads, names(path, "O"), "{path}");
    let mut found = Answers::new();
    for row in body.split("<tr").skip(1) {
        let mut parts = row.split("<td");
        let subject = attribute(parts.next().expect("a name"), "data-s");
        let cells: Vec<&str> = parts.collect();
        assert_eq!(cells.len(), heads.len(), "{path}");
        for (cell, object) in cells.iter().zip(&heads) {
            assert_eq!((attribute(cell, "data-s"), attribute(cell, "data-o")), (subject, *object), "{path}");
            let elements: Vec<&str> = cell.split('<').filter(|tag| tag.contains(" data-a=")).collect();
            let nothing = cell.starts_with(" class=\"nothing\"");
            let mut denied = 0;
            for element in &elements {
                let (action, answer) = (attribute(element, "data-a"), attribute(element, "data-answer"));
                let text = cell.split_once(element).expect("the element").1;
                let said =
                    format!("{}{}", element.split_once('>').expect("its end").1, text.split("</").next().unwrap_or_default());
                let (tag, words) = told(action, answer, elements.len() == 1);
                assert_eq!((element.split(' ').next(), said.replace("<span>", "")), (Some(tag), words), "{path}");
                denied += usize::from(answer == "deny");
                assert!(found.insert(access(subject, object, action), answer.into()).is_none(), "{path}");
            }
            assert_eq!(nothing, denied == elements.len(), "{path}");
        }
    }
    found
}

/// An element's tag, and the words in it up to the first closing tag.
fn told(action: &str, answer: &str, alone: bool) -> (&'static str, String) {
    match (answer, alone) {
        ("permit", true) => ("b", "yes".into()),
        ("undecided", true) => ("i", "undecided".into()),
        ("deny", true) => ("span", "no".into()),
        ("permit", false) => ("b", action.into()),
        ("undecided", false) => ("i", format!("{action} undecided")),
        ("deny", false) => ("span", format!("no {action}")),
        _ => panic!("an answer {answer}"),
    }
}

#[test]
fn the_page_agrees_with_the_listing() {
    for path in ACCEPTED {
        let page = page(path);
        let (numbers, answers) = listing(path);
        let mut found = cells(&page, path);
        assert_eq!(found.len(), numbers[0], "{path}");
        found.retain(|_, answer| answer != "deny");
        assert_eq!(found, answers, "{path}");
        let counts = between(&page, "<dl class=\"counts\">", "</dl>").0;
        let told: Vec<usize> = counts.split("<dd>").skip(1).map(|dd| between(dd, "", "</dd>").0.parse().unwrap()).collect();
        assert_eq!(told, numbers, "{path}");
    }
}

#[test]
fn the_page_of_one_action() {
    let path = "examples/three_lists.pol";
    let page = printed(path, &["--format", "html", "--action", "write"]);
    let mut found = cells(&page, path);
    assert_eq!(found.len(), 21);
    found.retain(|_, answer| answer != "deny");
    let mut answers = listing(path).1;
    answers.retain(|access, _| access[2] == "write");
    assert_eq!(found, answers);
    assert!(page.contains("<h1>Who may write where</h1>"));
    assert!(page.contains("<p class=\"policy\">Policy <strong>three_lists.pol</strong>, this action alone</p>"));
}

#[test]
fn the_page_names_the_lists_that_are_away() {
    let lists = |path: &str| between(&page(path), "<p class=\"lists", "</p>").0.to_string();
    assert_eq!(lists("examples/closed_weeks.pol"), "\">All lists are here.");
    assert_eq!(
        lists("examples/away_list.pol"),
        " away\">List away: <strong>suspended</strong>. What depends on it is undecided until it has arrived."
    );
    assert_eq!(
        lists(FULL),
        " away\">Lists away: <strong>suspended</strong>, <strong>exchange</strong>. \
         What depends on them is undecided until they have arrived."
    );
    assert!(lists("evaluator/corpus/worked/k04.pol").contains("stopped by the limit <strong>0</strong>"));
}

#[test]
fn the_page_shows_the_hierarchy() {
    let page = page("examples/three_lists.pol");
    let (_, body) = page.split_once("<tbody>").unwrap();
    let rows: Vec<(&str, &str)> =
        body.split("<th ").skip(1).map(|th| (attribute(th, "data-s"), attribute(th, "data-depth"))).collect();
    let wanted = [("staff", "0"), ("ward", "1"), ("ann", "2"), ("kitchen", "1"), ("cook", "2"), ("clinic", "1"), ("dora", "2")];
    assert_eq!(rows, wanted);
    assert!(page.contains("style=\"--depth:2\">ann<span class=\"heard\">, below ward</span></th>"));
    assert!(page.contains("<th scope=\"col\" data-o=\"wk3\"><span>wk3<span class=\"heard\">, below wk4</span></span></th>"));
}

/// Each tag is closed in its order; text has no bare `<`. Style and script are left out.
fn is_well_formed(page: &str) {
    let mut open: Vec<&str> = Vec::new();
    let mut rest = page.strip_prefix("<!DOCTYPE html>\n").expect("a document type");
    while let Some((_, tag)) = rest.split_once('<') {
        let (tag, after) = tag.split_once('>').expect("the end of a tag");
        let name = tag.split(' ').next().unwrap_or_default();
        assert_eq!(tag.matches('"').count() % 2, 0, "<{tag}>");
        rest = after;
        if let Some(closed) = name.strip_prefix('/') {
            assert_eq!(open.pop(), Some(closed));
        } else if name == "style" || name == "script" {
            rest = after.split_once(&format!("</{name}>")).expect("its end").1;
        } else if name != "meta" {
            assert!(name.bytes().all(|b| b.is_ascii_alphanumeric()) && !name.is_empty(), "<{tag}>");
            open.push(name);
        }
    }
    assert_eq!(open, [""; 0]);
}

/// Nothing of the page comes from elsewhere.
fn stands_alone(page: &str) {
    for part in ["http:", "https:", "//", "src=", "@import", "url(", "<link", "<img", "<iframe"] {
        let allowed = if part == "//" { page.matches("\n  // ").count() } else { 0 };
        assert_eq!(page.matches(part).count(), allowed, "{part}");
    }
    assert!(page.matches("href=").count() == page.matches("href=\"#refused\"").count());
    assert!(page.contains("content=\"default-src 'none'; style-src 'unsafe-inline'; script-src 'sha256-"));
}

#[test]
fn the_page_is_well_formed_and_stands_alone() {
    for path in ACCEPTED {
        let page = page(path);
        is_well_formed(&page);
        stands_alone(&page);
    }
}

#[test]
fn the_page_can_be_heard() {
    let page = page("examples/closed_weeks.pol");
    for part in [
        "<html lang=\"en\">",
        "<title>Who may do what where: closed_weeks.pol</title>",
        "<meta name=\"viewport\" content=\"width=device-width, initial-scale=1\">",
        "<caption id=\"caption\">",
        "<label for=\"who\">",
        "<select id=\"who\">",
        "<label for=\"where\">",
        "<select id=\"where\">",
        "<label for=\"answer\">",
        "<select id=\"answer\">",
        "<p id=\"found\" role=\"status\" aria-live=\"polite\">",
        "<form id=\"filter\" autocomplete=\"off\" hidden>",
    ] {
        assert_eq!(page.matches(part).count(), 1, "{part}");
    }
    assert_eq!(page.matches("<th scope=\"col\"").count(), 5);
    assert_eq!(page.matches("<th scope=\"row\"").count(), 3);
    assert_eq!(page.matches("<th").count(), 5 + 3 + "<thead>".matches("<th").count());
}

/// The security policy knows the script by its hash: a script that was changed without it would not run.
#[test]
fn the_script_has_the_hash_that_the_page_allows() {
    let page = page("examples/closed_weeks.pol");
    let mut sum = Command::new("sha256sum").stdin(Stdio::piped()).stdout(Stdio::piped()).spawn().expect("sha256sum");
    let script = between(&page, "<script>", "</script>").0;
    std::io::Write::write_all(&mut sum.stdin.take().expect("a pipe"), script.as_bytes()).expect("the script is handed over");
    let digits = String::from_utf8(sum.wait_with_output().expect("a sum").stdout).expect("digits");
    let byte = |i: usize| u8::from_str_radix(&digits[2 * i..2 * i + 2], 16).expect("two digits");
    let hash = base64(&(0..32).map(byte).collect::<Vec<u8>>());
    assert_eq!(between(&page, "script-src 'sha256-", "'").0, hash);
}

fn base64(bytes: &[u8]) -> String {
    let letters: Vec<char> = ('A'..='Z').chain('a'..='z').chain('0'..='9').chain(['+', '/']).collect();
    let mut text = String::new();
    for three in bytes.chunks(3) {
        let word = three.iter().chain([0; 2].iter()).take(3).fold(0, |word, &byte| word << 8 | usize::from(byte));
        for i in 0..4 {
            text.push(if i <= three.len() { letters[word >> (18 - 6 * i) & 63] } else { '=' });
        }
    }
    text
}

/// The colours of one scheme: `--name: #rrggbb` from the place at which the style has it.
fn colours(style: &str) -> BTreeMap<&str, [f64; 3]> {
    let block = between(style, ":root {", "}").0;
    let mut colours = BTreeMap::new();
    for part in block.split(';').filter_map(|part| part.trim().strip_prefix("--")) {
        let (name, value) = part.split_once(": #").expect("a colour");
        colours.insert(name, [0, 2, 4].map(|i| f64::from(u8::from_str_radix(&value[i..i + 2], 16).expect("two digits"))));
    }
    colours
}

/// The contrast of two colours, as WCAG 2 defines it.
fn contrast(x: [f64; 3], y: [f64; 3]) -> f64 {
    let part = |c: f64| if c / 255.0 <= 0.04045 { c / 255.0 / 12.92 } else { ((c / 255.0 + 0.055) / 1.055).powf(2.4) };
    let light = |c: [f64; 3]| 0.2126 * part(c[0]) + 0.7152 * part(c[1]) + 0.0722 * part(c[2]) + 0.05;
    light(x).max(light(y)) / light(x).min(light(y))
}

#[test]
fn colours_have_enough_contrast_by_day_by_night_and_on_paper() {
    assert!((contrast([0.0; 3], [255.0; 3]) - 21.0).abs() < 0.001);
    let page = page("examples/closed_weeks.pol");
    let style = between(&page, "<style>", "</style>").0;
    let night = between(style, "(prefers-color-scheme: dark) {", "\n}").0;
    let paper = between(style, "@media print {", "\n}").0;
    let pairs = [
        ("ink", "paper"),
        ("ink", "band"),
        ("ink", "hover"),
        ("muted", "paper"),
        ("muted", "band"),
        ("muted", "hover"),
        ("link", "paper"),
        ("permit-ink", "permit"),
        ("undecided-ink", "undecided"),
        ("fault-ink", "fault"),
        ("fault-ink", "paper"),
    ];
    for scheme in [style, night, paper] {
        let colours = colours(scheme);
        for (ink, ground) in pairs {
            let found = contrast(colours[ink], colours[ground]);
            assert!(found >= 4.5, "{ink} on {ground}: {found:.2}");
        }
    }
    assert!(colours(style) != colours(night) && colours(night) != colours(paper));
}

/// Names of 24 bytes, 64 subjects and 64 objects: the largest page there is for a table of one action.
fn largest(expression: &str) -> String {
    let name = |sort: &str, i: usize| format!("{sort}_{}_{i:02}", "x".repeat(19));
    let member = |kind: &str, sort: &str| (0..64).map(|i| format!("{kind},{},-\n", name(sort, i))).collect::<String>();
    let lists = "T,none,here\nT,late,away\n";
    let rule = format!("R,all,?0,?1,{0}\n", name("a", 0));
    format!("{}{}A,{},-\n{lists}{rule}E,4096,{expression}\n", member("S", "s"), member("O", "o"), name("a", 0))
}

#[test]
fn the_largest_pages_stay_below_a_million_bytes() {
    for (expression, answer) in [("none", "deny"), ("late", "undecided"), ("none*all", "permit")] {
        let ran = snowdell_with(&["table", "-", "--format", "html"], largest(expression).as_bytes());
        assert_eq!(ran.status, 0);
        let cells = between(&ran.out, "<tbody>", "</tbody>").0;
        assert_eq!(cells.matches(&format!(" data-answer=\"{answer}\"")).count(), 4096);
        assert!(ran.out.len() < 1_000_000, "{}", ran.out.len());
    }
    let many = page("evaluator/corpus/big/g000.pol");
    assert!(many.len() < 1_000_000, "{}", many.len());
}

// Refused files.

#[test]
fn a_refusal_is_one_line_in_the_forms_for_scripts() {
    for format in ["text", "csv", "json"] {
        let ran = table(REFUSED, &["--format", format]);
        assert_eq!((ran.status, ran.out.as_str()), (3, "refused,13,11,9\n"));
        assert!(ran.err.contains("refused 13"), "{}", ran.err);
    }
    let none = snowdell_with(&["table", "-"], b"");
    assert_eq!((none.status, none.out.as_str()), (3, "refused,2,0,0\n"));
}

/// A refused file, its page and what the listing says of it.
fn refused_page(path: &str) -> (String, Vec<usize>) {
    let ran = table(path, &["--format", "html"]);
    assert_eq!(ran.status, 3, "{path}");
    let line = snowdell(&["list", path]).out;
    let numbers = line.trim_end().split(',').skip(1).map(|n| n.parse().expect("a number")).collect();
    assert!(ran.err.contains("refused"), "{path}: {}", ran.err);
    is_well_formed(&ran.out);
    refused_stands_alone(&ran.out);
    (ran.out, numbers)
}

fn refused_stands_alone(page: &str) {
    assert!(page.contains("content=\"default-src 'none'; style-src 'unsafe-inline'; script-src 'none';"));
    assert_eq!(page.matches("<script").count(), 0);
    let (_, body) = page.split_once("<body>").expect("a body");
    assert_eq!(body.matches("href=\"").count(), body.matches("href=\"#refused\"").count());
    assert_eq!(body.matches("src=\"").count(), 0);
}

/// The lines of the policy as the page has them, without its own words.
fn lines_of(page: &str) -> Vec<String> {
    let list = between(page, "<ol class=\"text\">\n", "</ol>").0;
    let item = |line: &str| {
        let line = line.strip_suffix("</li>").expect("an item").split_once('>').expect("an item").1;
        let line = line.split(" <strong class=\"note\">").next().unwrap_or_default();
        ["<mark>", "</mark>", "<i class=\"byte\">", "</i>"].iter().fold(line.to_string(), |text, tag| text.replace(tag, ""))
    };
    list.lines().map(item).collect()
}

/// The same text as the page has to show it.
fn shown(text: &str) -> String {
    text.replace('&', "&amp;").replace('<', "&lt;").replace('>', "&gt;").replace('"', "&quot;")
}

#[test]
fn the_page_of_a_refused_policy_marks_the_place() {
    let (page, numbers) = refused_page(REFUSED);
    assert_eq!(numbers, [13, 11, 9]);
    assert!(page.contains("<title>Refused: k12.pol</title>"));
    assert!(page.contains(
        "<p class=\"lists fault\">Refusal <strong>13</strong>, line <strong>11</strong>, place <strong>9</strong> of the \
         expression, counted from 0. Nothing is permitted by a policy that is refused.</p>"
    ));
    assert!(page.contains("<a href=\"#refused\">Line 11</a> is marked."));
    assert!(page.contains(
        "\n<li>B,le,S,?0,?3</li>\n<li id=\"refused\" class=\"fault\">E,4096,forms^[o&lt;<mark>wk</mark>] \
         <strong class=\"note\">refused 13</strong></li>\n</ol>"
    ));
    assert_eq!(lines_of(&page), text(REFUSED).lines().map(shown).collect::<Vec<_>>());
}

#[test]
fn a_place_at_the_end_of_the_line_is_marked_too() {
    let (page, numbers) = refused_page("evaluator/corpus/worked/k11.pol");
    assert_eq!(numbers, [12, 11, 6]);
    assert!(page.contains(">E,4096,forms-<mark>the line ends here</mark> <strong class=\"note\">refused 12</strong></li>"));
}

#[test]
fn every_refusal_has_its_words() {
    let words = text("docs/REFUSALS.md");
    for number in [2, 3, 4, 5, 6, 7, 8, 9, 10, 11, 12, 13, 14, 16] {
        let path = format!("examples/refusals/{number:02}.pol");
        let (page, numbers) = refused_page(&path);
        assert_eq!(numbers[0], number, "{path}");
        let row = words.lines().find(|line| line.starts_with(&format!("| {number} |"))).expect("a row");
        let cells: Vec<&str> = row.split(" | ").collect();
        let plain = page.replace("<code>", "`").replace("</code>", "`");
        for (heading, cell) in [("What happened", cells[1]), ("What to do", cells[2])] {
            assert!(plain.contains(&format!("<h2>{heading}</h2>\n<p>{}</p>\n", shown(cell))), "{path}: {cell}");
        }
        let said = common::snowdell(&["check", &path]).err;
        let (_, cause) = said.lines().next().and_then(|line| line.split_once(&format!("refused {number}: "))).expect("a cause");
        assert!(page.contains(&format!("<p>A second look says: {}</p>\n", shown(cause))), "{path}: {cause}");
        let marked = page.split("<li").position(|item| item.starts_with(" id=\"refused\"")).unwrap_or(0);
        assert_eq!(marked, numbers[1], "{path}");
    }
}

#[test]
fn nothing_of_a_policy_becomes_a_part_of_the_page() {
    let policy = b"S,staff,-\nS,<script>alert(1)</script>,\"&amp;\"\x00\x1b[31m\x7f M\xc3\xbcller\r\n</li></ol><a href=\"x\">\n";
    let file = Scratch::new("table-<b>&\u{202e}\u{1b}M\u{fc}ller.pol", policy);
    let (page, numbers) = refused_page(file.path());
    assert_eq!(numbers, [3, 2, 0]);
    let lines = lines_of(&page);
    assert_eq!(
        lines,
        [
            "S,staff,-",
            "S,&lt;script&gt;alert(1)&lt;/script&gt;,&quot;&amp;amp;&quot;\\x00\\x1b[31m\\x7f M\\xc3\\xbcller\\x0d",
            "&lt;/li&gt;&lt;/ol&gt;&lt;a href=&quot;x&quot;&gt;",
        ]
    );
    assert!(page.contains("<i class=\"byte\">\\x00\\x1b</i>[31m"));
    assert!(page.contains("table-&lt;b&gt;&amp;\\xe2\\x80\\xae\\x1bM\u{fc}ller.pol</strong></p>"));
    assert!(page.chars().all(|c| c == '\n' || c == '\u{fc}' || (' '..='~').contains(&c)));
}

/// Bytes of every kind, the same at each run.
fn noise(length: usize) -> Vec<u8> {
    let mut state: u32 = 1;
    let step = |_| {
        state = state.wrapping_mul(1_664_525).wrapping_add(1_013_904_223);
        (state >> 24) as u8
    };
    (0..length).map(step).collect()
}

#[test]
fn noise_and_long_files_have_a_page() {
    for (name, bytes) in [("short", noise(32_768)), ("long", noise(10_000_000)), ("lines", vec![b'\n'; 40_000])] {
        let file = Scratch::new(&format!("table-noise-{name}"), &bytes);
        let ran = table(file.path(), &["--format", "html"]);
        assert_eq!(ran.status, 3, "{name}");
        is_well_formed(&ran.out);
        refused_stands_alone(&ran.out);
        let shown = &bytes[..bytes.len().min(32_768)];
        let lines = shown.strip_suffix(b"\n").unwrap_or(shown).split(|&b| b == b'\n').count();
        assert_eq!(lines_of(&ran.out).len(), lines, "{name}");
        assert_eq!(ran.out.contains("<p>The file goes on."), bytes.len() > 32_768, "{name}");
        assert!(ran.out.len() < 1_000_000, "{name}: {}", ran.out.len());
        let body = ran.out.split_once("<body>").expect("a body").1;
        assert!(body.bytes().all(|b| b == b'\n' || (b' '..=b'~').contains(&b)), "{name}");
    }
}

#[test]
fn an_empty_and_a_cut_policy_have_a_page() {
    let empty = snowdell_with(&["table", "-", "--format", "html"], b"");
    assert_eq!(empty.status, 3);
    assert!(empty.out.contains("<h2>The policy</h2>\n<p>There is nothing in it.</p>\n"));
    assert!(empty.out.contains("Policy <strong>standard input</strong>"));
    let cut = snowdell_with(&["table", "--format", "html", "-"], b"S,staff,-\nS,an");
    assert_eq!(cut.status, 3);
    assert_eq!(lines_of(&cut.out), ["S,staff,-", "S,an"]);
    assert!(cut.out.contains("</ol>\n<p>The last line is not closed by a line feed.</p>\n"));
    assert!(cut.out.contains("<p>No line is marked: the fault is not in one line.</p>\n"));
}

// Arguments, files and outputs.

#[test]
fn an_action_that_is_not_there() {
    let ran = table("examples/closed_weeks.pol", &["--action", "wirte"]);
    assert_eq!((ran.status, ran.out.as_str()), (2, ""));
    assert_eq!(ran.err, "snowdell: no action \"wirte\"; did you mean \"write\"?\n");
    let far = table("examples/closed_weeks.pol", &["--action", "cook"]);
    assert_eq!((far.status, far.err.as_str()), (2, "snowdell: no action \"cook\"; the actions are read, write\n"));
    let strange = table("examples/closed_weeks.pol", &["--action", "\u{1b}\u{fc}", "--format", "html"]);
    assert_eq!((strange.status, strange.out.as_str()), (2, ""));
    assert!(strange.err.starts_with("snowdell: no action \"\\x1b\\xc3\\xbc\"; "), "{}", strange.err);
    let refused = table(REFUSED, &["--action", "wirte"]);
    assert_eq!((refused.status, refused.out.as_str()), (3, "refused,13,11,9\n"));
}

#[test]
fn wrong_arguments() {
    let file = "examples/closed_weeks.pol";
    let usage = "usage: snowdell table FILE [--action A] [--format text|csv|json|html]";
    for (arguments, what) in [
        (vec!["table"], usage),
        (vec!["table", file, file], usage),
        (vec!["table", file, "--action"], usage),
        (vec!["table", file, "--format"], usage),
        (vec!["table", "--format", "csv"], usage),
        (vec!["table", file, "--format", "csv", "--format", "csv"], usage),
        (vec!["table", file, "--action", "read", "--action", "write"], usage),
        (vec!["table", file, "--format", "xml"], "no format \"xml\"; the formats are text, csv, json and html"),
        (vec!["table", file, "--format", "\x1b"], "no format \"\\x1b\"; the formats are text, csv, json and html"),
        (vec!["table", file, "--colour"], "no option --colour; usage: snowdell table FILE"),
    ] {
        let ran = snowdell(&arguments);
        assert_eq!((ran.status, ran.out.as_str()), (2, ""), "{arguments:?}");
        assert!(ran.err.starts_with(&format!("snowdell: {what}")), "{arguments:?}: {}", ran.err);
        assert_eq!(ran.err.lines().count(), 1);
    }
}

#[test]
fn a_file_that_cannot_be_read() {
    for path in ["examples/none.pol", "examples"] {
        let ran = table(path, &["--format", "html"]);
        assert_eq!((ran.status, ran.out.as_str()), (2, ""));
        assert!(ran.err.starts_with(&format!("snowdell: {path}: cannot be read: ")), "{}", ran.err);
    }
}

#[test]
fn standard_input_gives_the_same_table() {
    for format in ["csv", "json"] {
        let ran = snowdell_with(&["table", "--format", format, "-"], text(FULL).as_bytes());
        assert_eq!((ran.status, ran.out), (0, printed(FULL, &["--format", format])));
    }
}

#[test]
fn a_full_disk_is_told_and_a_closed_pipe_is_not() {
    let start = |out: Stdio| {
        let mut command = Command::new(program());
        command.args(["table", FULL, "--format", "html"]).current_dir(root()).stdin(Stdio::null());
        command.stdout(out).stderr(Stdio::piped()).spawn().expect("the program starts")
    };
    let full = start(File::options().write(true).open("/dev/full").expect("a full disk").into()).wait_with_output().unwrap();
    assert_eq!(full.status.code(), Some(2));
    assert!(String::from_utf8(full.stderr).unwrap().starts_with("snowdell: the output cannot be written: "));
    let mut child = start(Stdio::piped());
    drop(child.stdout.take());
    let closed = child.wait_with_output().unwrap();
    assert_eq!((closed.status.code(), closed.stderr), (Some(2), Vec::new()));
}
