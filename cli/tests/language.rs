//! docs/LANGUAGE.md held to its files and to the program. Every fenced block is a policy, equal to the file named above it,
//! or a transcript, whose commands are run. The tables, and the sentences that no transcript shows, are tried.

mod common;
use common::{program, root, snowdell_with, text, Ran};
use std::collections::BTreeSet;
use std::fs;
use std::os::unix::fs::symlink;
use std::path::PathBuf;
use std::process::Command;

const PAGE: &str = "docs/LANGUAGE.md";
const FOLDER: &str = "examples/language";
const ANSWERS: [&str; 3] = ["deny", "undecided", "permit"];

// ---- The page ----

/// A fenced block, with the last line of text above it.
struct Block {
    info: String,
    above: String,
    lines: Vec<String>,
}

impl Block {
    fn text(&self) -> String {
        self.lines.iter().map(|line| format!("{line}\n")).collect()
    }
}

fn blocks() -> Vec<Block> {
    let page = text(PAGE);
    let (mut blocks, mut above) = (Vec::new(), "");
    let mut lines = page.lines();
    while let Some(line) = lines.next() {
        if let Some(info) = line.strip_prefix("```") {
            let body = lines.by_ref().take_while(|line| *line != "```").map(String::from).collect();
            blocks.push(Block { info: info.into(), above: above.into(), lines: body });
        } else if !line.is_empty() {
            above = line;
        }
    }
    blocks
}

/// A table, with the last line of text above it. The cells are without blanks at their ends; the first row is the heading.
struct Table {
    above: String,
    heading: Vec<String>,
    rows: Vec<Vec<String>>,
}

impl Table {
    /// The policy that the line above names.
    fn policy(&self) -> String {
        let named = codes(&self.above).into_iter().find(|code| code.ends_with(".pol"));
        text(&named.unwrap_or_else(|| panic!("no policy is named above a table: {}", self.above)))
    }
}

fn tables() -> Vec<Table> {
    let page = text(PAGE);
    let (mut tables, mut above): (Vec<Table>, &str) = (Vec::new(), "");
    let mut inside = false;
    for line in page.lines() {
        match line.strip_prefix('|').and_then(|rest| rest.strip_suffix('|')) {
            Some(_) if inside && line.starts_with("|---") => {}
            Some(cells) => {
                let cells = cells.split('|').map(|cell| cell.trim().to_string()).collect();
                if inside {
                    tables.last_mut().expect("a table is open").rows.push(cells);
                } else {
                    tables.push(Table { above: above.into(), heading: cells, rows: Vec::new() });
                }
                inside = true;
            }
            None => {
                inside = false;
                if !line.is_empty() {
                    above = line;
                }
            }
        }
    }
    tables
}

/// The tables with this heading; there is at least one.
fn tables_of(heading: &[&str]) -> Vec<Table> {
    let found: Vec<Table> = tables().into_iter().filter(|table| table.heading == heading).collect();
    assert!(!found.is_empty(), "the page has no table {heading:?}");
    found
}

fn table_of(heading: &[&str]) -> Table {
    let mut found = tables_of(heading);
    assert_eq!(found.len(), 1, "{heading:?}");
    found.remove(0)
}

/// What stands between backticks.
fn codes(text: &str) -> Vec<String> {
    text.split('`').skip(1).step_by(2).map(String::from).collect()
}

fn code(cell: &str) -> String {
    let mut found = codes(cell);
    assert_eq!(found.len(), 1, "one piece of code in a cell: {cell}");
    found.remove(0)
}

// ---- The program ----

fn list(policy: &[u8]) -> Ran {
    snowdell_with(&["list", "-"], policy)
}

/// The listing of a policy that has to be accepted.
fn listing(policy: &str) -> String {
    let ran = list(policy.as_bytes());
    assert_eq!(ran.status, 0, "{policy}{}", ran.out);
    ran.out
}

/// The listing's lines without its counts.
fn answers(policy: &str) -> Vec<String> {
    listing(policy).lines().skip(1).map(String::from).collect()
}

/// The number, the line and the place of a policy that has to be refused.
fn refusal(policy: &str) -> [usize; 3] {
    let ran = list(policy.as_bytes());
    let numbers = ran.out.strip_prefix("refused,").unwrap_or_else(|| panic!("accepted: {policy}"));
    let numbers: Vec<usize> = numbers.trim_end().split(',').map(|n| n.parse().expect("a number")).collect();
    assert_eq!(ran.status, 3);
    numbers.try_into().expect("three numbers")
}

/// What the listing says of one access; an access that it does not have is denied.
fn answer(listing: &str, access: &str) -> String {
    let found = listing.lines().find_map(|line| line.strip_suffix(access)?.strip_suffix(','));
    found.unwrap_or("deny").to_string()
}

/// The policy with another E line; all lines but the last stay.
fn with_goal(policy: &str, goal: &str) -> String {
    let kept = policy.trim_end().rfind('\n').expect("more than one line") + 1;
    format!("{}{goal}\n", &policy[..kept])
}

/// The limit and the expression of the E line.
fn goal(policy: &str) -> (&str, &str) {
    let last = policy.lines().last().expect("a line");
    last.strip_prefix("E,").and_then(|rest| rest.split_once(',')).expect("an E line")
}

fn with_expression(policy: &str, expression: &str) -> String {
    with_goal(policy, &format!("E,{},{expression}", goal(policy).0))
}

// ---- Blocks and files ----

#[test]
fn a_policy_on_the_page_is_its_file() {
    let policies: Vec<Block> = blocks().into_iter().filter(|block| block.info != "console").collect();
    assert!(policies.len() >= 10, "the page shows {} policies", policies.len());
    for block in policies {
        let path = block.above.strip_prefix('`').and_then(|rest| rest.strip_suffix("`:"));
        let path = path.unwrap_or_else(|| panic!("no file is named above a block: {}", block.above));
        assert!(block.info.is_empty() && path.ends_with(".pol"), "{path}");
        assert_eq!(block.text(), text(path), "{path}");
    }
}

/// A folder in which the page's commands can be typed as they stand, gone when the value is.
struct Desk(PathBuf);

impl Desk {
    fn new(name: &str) -> Desk {
        let folder = std::env::temp_dir().join(format!("snowdell-{}-{name}", std::process::id()));
        fs::create_dir(&folder).expect("a folder of its own");
        symlink(program(), folder.join("snowdell")).expect("a link to the program");
        symlink(root().join("examples"), folder.join("examples")).expect("a link to the examples");
        Desk(folder)
    }

    /// The standard output of a command.
    fn typed(&self, command: &str, locale: &str) -> String {
        let ran = Command::new("sh").args(["-c", command]).env("LC_ALL", locale).current_dir(&self.0).output();
        String::from_utf8(ran.expect("a shell").stdout).expect("text on standard output")
    }
}

impl Drop for Desk {
    fn drop(&mut self) {
        let _ = fs::remove_dir_all(&self.0);
    }
}

/// The commands of a transcript, each with the lines that it printed. A command may go on in lines that begin with `> `.
fn commands(block: &Block) -> Vec<(String, String)> {
    let mut commands: Vec<(String, String)> = Vec::new();
    for line in &block.lines {
        if let Some(command) = line.strip_prefix("$ ") {
            commands.push((command.into(), String::new()));
            continue;
        }
        let (command, printed) = commands.last_mut().expect("a transcript begins with a command");
        match line.strip_prefix("> ") {
            Some(rest) if command.ends_with('|') => *command = format!("{command} {rest}"),
            _ => *printed += &format!("{line}\n"),
        }
    }
    commands
}

#[test]
fn every_transcript_is_true() {
    let transcripts: Vec<Block> = blocks().into_iter().filter(|block| block.info == "console").collect();
    assert!(transcripts.len() >= 10, "the page shows {} transcripts", transcripts.len());
    for locale in ["C", "C.UTF-8"] {
        let desk = Desk::new(locale);
        for (command, printed) in transcripts.iter().flat_map(commands) {
            assert_eq!(desk.typed(&command, locale), printed, "{command}");
        }
    }
}

#[test]
fn every_file_is_on_the_page_and_has_its_listing() {
    let names = |ending: &str| -> BTreeSet<String> {
        let files = fs::read_dir(root().join(FOLDER)).expect("the folder");
        let names = files.map(|file| file.expect("a file").file_name().into_string().expect("a name of text"));
        names.filter_map(|name| Some(name.strip_suffix(ending)?.to_string())).collect()
    };
    let (all, policies) = (names(""), names(".pol"));
    assert_eq!(policies, names(".out"));
    assert_eq!(all.len(), 2 * policies.len(), "only policies and listings: {all:?}");
    let page = text(PAGE);
    for name in policies {
        let (short, long) = (format!("`{name}.pol`"), format!("{FOLDER}/{name}.pol"));
        assert!(page.contains(&short) || page.contains(&long), "{name}.pol is not on the page");
        let ran = list(&fs::read(root().join(&long)).expect("a policy"));
        assert_eq!(ran.out, text(&format!("{FOLDER}/{name}.out")), "{name}");
        assert_eq!(ran.status, if ran.out.starts_with("refused") { 3 } else { 0 }, "{name}");
    }
}

#[test]
fn the_tutorial_ends_with_the_example() {
    for ending in ["pol", "out"] {
        assert_eq!(text(&format!("{FOLDER}/step6.{ending}")), text(&format!("examples/closed_weeks.{ending}")));
    }
}

/// The words of a heading as a link has them.
fn anchor(heading: &str) -> String {
    let kept = heading.to_lowercase().replace(' ', "-");
    kept.chars().filter(|c| c.is_alphanumeric() || *c == '-').collect()
}

#[test]
fn links_lead_somewhere() {
    let page = text(PAGE);
    let headings: BTreeSet<String> =
        page.lines().filter(|line| line.starts_with('#')).map(|line| anchor(line.trim_start_matches(['#', ' ']))).collect();
    let targets: Vec<&str> = page.split("](").skip(1).filter_map(|rest| rest.split(')').next()).collect();
    assert!(targets.len() >= 10);
    for target in targets {
        match target.strip_prefix('#') {
            Some(heading) => assert!(headings.contains(heading), "{target}"),
            None => assert!(root().join("docs").join(target).is_file(), "{target}"),
        }
    }
}

// ---- Tables ----

#[test]
fn the_table_of_lines() {
    let policy = text(&format!("{FOLDER}/every_line.pol"));
    let lines: BTreeSet<&str> = policy.lines().collect();
    let mut kinds = String::new();
    for row in table_of(&["line", "example", "what it says"]).rows {
        let (form, example) = (code(&row[0]), code(&row[1]));
        assert!(lines.contains(example.as_str()), "{example}");
        assert_eq!(form.split(',').count(), example.split(',').count(), "{form}");
        assert_eq!(form[..1], example[..1]);
        if !kinds.ends_with(&form[..1]) {
            kinds += &form[..1];
        }
    }
    assert_eq!(kinds, "SOAPTGRBE", "every kind, in the order of the file");
}

#[test]
fn the_table_of_names() {
    let table = table_of(&["names", "not names"]);
    for (cell, said) in table.rows[0].iter().zip(["grants,1,0,0,0\n", "refused,3,1,0\n"]) {
        assert!(codes(cell).len() > 1);
        for name in codes(cell) {
            let policy = format!("S,{name},-\nO,wk3,-\nA,read,-\nT,ward,here\nE,0,ward\n");
            assert_eq!(list(policy.as_bytes()).out, said, "{name}");
        }
    }
}

/// Each of the sides of an expression, taken alone, answers what the members that stand for it are called by.
fn sides_answer_as_called(policy: &str, sides: &[String], access: impl Fn(usize, &str) -> Vec<String>) {
    for (side, expression) in sides.iter().enumerate() {
        let alone = listing(&with_expression(policy, expression));
        for called in ANSWERS {
            for access in access(side, called) {
                assert_eq!(answer(&alone, &access), called, "{expression} of {access}");
            }
        }
    }
}

#[test]
fn the_tables_of_plus_and_and_minus() {
    for sign in ["+", "&", "-"] {
        let table = table_of(&[&format!("`{sign}`"), "deny", "undecided", "permit"]);
        let policy = table.policy();
        let (left, right) = goal(&policy).1.split_once(&format!("){sign}(")).expect("two sides in brackets");
        let pair = |row: &str, column: &str| format!("ward_{row},kitchen_{column},write");
        sides_answer_as_called(&policy, &[format!("{left})"), format!("({right}")], |side, called| {
            ANSWERS.map(|other| if side == 0 { pair(called, other) } else { pair(other, called) }).into()
        });
        let said = listing(&policy);
        let rows: Vec<&str> = table.rows.iter().map(|row| row[0].trim_matches('*')).collect();
        assert_eq!(rows, ANSWERS);
        for row in &table.rows {
            assert_eq!(row.len(), table.heading.len());
            for (column, shown) in ANSWERS.iter().zip(&row[1..]) {
                assert_eq!(answer(&said, &pair(row[0].trim_matches('*'), column)), *shown, "{row:?} {sign} {column}");
            }
        }
    }
}

#[test]
fn the_table_of_override() {
    let table = table_of(&["x", "y", "deny", "undecided", "permit"]);
    let policy = table.policy();
    let triple = |x: &str, y: &str, z: &str| format!("ward_{x},clinic_{y},locked_{z}");
    let parts = goal(&policy).1.strip_prefix("o(").and_then(|rest| rest.strip_suffix(')')).expect("an override");
    let parts: Vec<String> = parts.split(',').map(String::from).collect();
    assert_eq!(parts.len(), 3);
    sides_answer_as_called(&policy, &parts, |part, called| {
        let others = ANSWERS.iter().flat_map(|one| ANSWERS.map(|other| (*one, other)));
        others.map(|(u, v)| [triple(called, u, v), triple(u, called, v), triple(u, v, called)][part].clone()).collect()
    });
    let said = listing(&policy);
    let pairs: Vec<(&str, &str)> = table.rows.iter().map(|row| (row[0].as_str(), row[1].as_str())).collect();
    assert_eq!(pairs, ANSWERS.iter().flat_map(|x| ANSWERS.map(|y| (*x, y))).collect::<Vec<_>>());
    for row in &table.rows {
        assert_eq!(row.len(), table.heading.len());
        for (z, shown) in ANSWERS.iter().zip(&row[2..]) {
            assert_eq!(answer(&said, &triple(&row[0], &row[1], z)), *shown, "{row:?} {z}");
        }
    }
    let [x, y, z] = &parts[..] else { unreachable!("three parts") };
    assert_eq!(said, listing(&with_expression(&policy, &format!("(({x})-({z}))+(({y})&({z}))"))), "as the sentence says");
}

#[test]
fn the_tables_of_binding() {
    let tables = tables_of(&["written", "read as", "not as"]);
    assert_eq!(tables.len(), 2);
    for table in tables {
        let policy = table.policy();
        for row in &table.rows {
            let [written, read, other] = [0, 1, 2].map(|i| listing(&with_expression(&policy, &code(&row[i]))));
            assert_eq!(written, read, "{row:?}");
            assert_ne!(written, other, "{row:?}");
        }
    }
}

#[test]
fn the_table_of_scopes() {
    let table = table_of(&["scope", "inside are", "kept"]);
    let policy = text(&format!("{FOLDER}/scope.pol"));
    for row in &table.rows {
        let expression = format!("forms{}", code(&row[0]));
        let kept: Vec<String> = codes(&row[2]).iter().map(|object| format!("permit,nurse,{object},read")).collect();
        assert_eq!(answers(&with_expression(&policy, &expression)), kept, "{expression}");
    }
    let scopes: String = table.rows.iter().map(|row| code(&row[0])).collect();
    for form in ["o<w", "o<=w", "o=w", "o>=w", "o>w", "(o)"] {
        assert!(scopes.contains(form), "{form}");
    }
}

/// A policy that has exactly so many of what a row of the limits speaks of, and is at no other limit.
fn of_size(what: &str, size: usize) -> String {
    let many = |count: usize, line: &dyn Fn(usize) -> String| -> String { (0..count).map(line).collect() };
    let members = "S,nurse,-\nO,wk3,-\nA,read,-\n";
    let ward = format!("{members}T,ward,here\n");
    let goal = |expression: String| format!("{ward}E,0,{expression}\n");
    match what.split([',', ':', ';']).next().expect("a word") {
        "bytes in the file" => {
            // One more object, with a name as long as is needed, makes up what grants leave over.
            let (start, grant, end) = ("S,nurse,-\nO,wk3,-\n", "G,ward,nurse,wk3,read\n", "E,0,ward\n");
            let rest = "A,read,-\nT,ward,here\n";
            let fixed = start.len() + rest.len() + end.len() + "O,,-\n".len() + 1;
            let (grants, spare) = ((size - fixed) / grant.len(), (size - fixed) % grant.len());
            format!("{start}O,{},-\n{rest}{}{end}", "x".repeat(spare + 1), grant.repeat(grants))
        }
        "characters in a name" => format!("S,{},-\nO,wk3,-\nA,read,-\nT,ward,here\nE,0,ward\n", "x".repeat(size)),
        "subjects" => format!("{}O,wk3,-\nA,read,-\nT,ward,here\nE,0,ward\n", many(size, &|i| format!("S,n{i},-\n"))),
        "objects" => format!("S,nurse,-\n{}A,read,-\nT,ward,here\nE,0,ward\n", many(size, &|i| format!("O,n{i},-\n"))),
        "actions" => format!("S,nurse,-\nO,wk3,-\n{}T,ward,here\nE,0,ward\n", many(size, &|i| format!("A,n{i},-\n"))),
        "accesses" => {
            // No three sorts have just one access more, so a second action goes past the limit.
            let sort = |kind: &str, count: usize| many(count, &|i| format!("{kind},n{i},-\n"));
            let actions = if size > 64 * 64 { 2 } else { 1 };
            format!("{}{}{}T,ward,here\nE,0,ward\n", sort("S", 64), sort("O", 64), sort("A", actions))
        }
        "predicates" => {
            // Half of the names are used for two sorts.
            let marks = many(size, &|i| format!("P,{},m{},{}\n", ["S", "O"][i % 2], i / 2, ["nurse", "wk3"][i % 2]));
            format!("{members}{marks}T,ward,here\nE,0,ward\n")
        }
        "tables" => format!("{members}{}E,0,n0\n", many(size, &|i| format!("T,n{i},here\n"))),
        "rule sets" => format!("{ward}{}E,0,ward\n", many(size, &|i| format!("R,n{i},?0,?1,?2\n"))),
        "rules" => format!("{ward}{}E,0,ward\n", many(size, &|i| format!("R,n{},?0,?1,?2\n", i % 2))),
        "B lines of a rule" => format!("{ward}R,down,?0,?1,?2\n{}E,0,ward\n", "B,eq,S,?0,nurse\n".repeat(size)),
        "variables" => {
            let used = many(size - 1, &|i| format!("B,eq,S,?{i},?{}\n", i + 1));
            format!("{ward}R,down,nurse,wk3,read\n{used}E,0,ward\n")
        }
        "as the limit of the E line" => format!("{ward}E,{size},ward\n"),
        "round brackets open at once" => {
            let scoped = format!("{members}P,S,leave,nurse\nT,ward,here\n");
            format!("{scoped}E,0,{}ward^[leave(s)]{}\n", "(".repeat(size), ")".repeat(size))
        }
        "operators" => {
            // Each operator is there, and then more of plus.
            let (eight, more) = ("ward&ward-ward^[s=nurse]*down+o(ward,ward,ward)+(t:x.x)(ward)", size - 8);
            format!("{ward}R,down,?0,?1,?2\nE,0,{eight}{}\n", "+ward".repeat(more))
        }
        "sets held at once" => goal(format!("{}ward{}", "ward+(".repeat(size - 1), ")".repeat(size - 1))),
        "templates" => goal(format!("{}x{}", "(t:x.".repeat(size), ")(ward)".repeat(size))),
        other => panic!("a limit that is not tried: {other}"),
    }
}

#[test]
fn the_table_of_limits() {
    let table = table_of(&["most", "of", "refused with"]);
    assert_eq!(table.rows.len(), 17);
    for row in &table.rows {
        let most: usize = row[0].replace(',', "").parse().expect("a number");
        let number: usize = row[2].split(',').next().and_then(|n| n.parse().ok()).expect("a number");
        listing(&of_size(&row[1], most));
        assert_eq!(refusal(&of_size(&row[1], most + 1))[0], number, "{row:?}");
        if row[1].starts_with("bytes in the file") {
            assert_eq!([most, most + 1].map(|size| of_size(&row[1], size).len()), [most, most + 1]);
        }
        if row[1].starts_with("characters in a name") {
            assert_eq!(row[2], "3, in the expression 12");
            let expression = with_expression(&of_size(&row[1], most), &"x".repeat(most + 1));
            assert_eq!(refusal(&expression), [12, 5, most]);
        }
    }
}

#[test]
fn the_table_of_damage() {
    let table = table_of(&["damage", "file", "refusal", "command"]);
    let clean = text(&format!("{FOLDER}/clean.pol"));
    for locale in ["C", "C.UTF-8"] {
        let desk = Desk::new(&format!("damage-{locale}"));
        for row in &table.rows {
            let (file, refusal, command) = (format!("{FOLDER}/{}", code(&row[1])), code(&row[2]), code(&row[3]));
            assert_eq!(desk.typed(&format!("./snowdell list {file}"), locale), format!("{refusal}\n"), "{file}");
            assert_eq!(desk.typed(&format!("{command} < {file}"), locale), clean, "{command}");
        }
    }
}

// ---- Sentences ----

#[test]
fn sentences_on_lines() {
    let policy = text(&format!("{FOLDER}/every_line.pol"));
    let (grant, mark) = ("G,forms,helper,wk3,read\n", "P,S,leave,helper\n");
    let repeated = policy.replace(grant, &grant.repeat(2)).replace(mark, &mark.repeat(2));
    assert_eq!(listing(&repeated), listing(&policy), "a repeated G or P line does no harm");
    listing("S,ward,-\nO,ward,-\nA,read,-\nT,ward,here\nE,0,ward\n");
    assert_eq!(refusal("S,cook,kitchen\nS,kitchen,-\n"), [6, 1, 0], "a parent stands further up");
    assert_eq!(refusal("S,cook,-\nT,-,here\n"), [3, 2, 0], "- stands nowhere else");
    let needed = "S,cook,-\nO,wk3,-\nA,read,-\nE,0,ward\n";
    for line in needed.lines().take(3) {
        assert_eq!(refusal(&needed.replace(&format!("{line}\n"), "")), [8, 3, 0], "without {line}");
    }
    assert_eq!(refusal("S,cook,-\nO,wk3,-\nA,read,-\nT,ward,here\n"), [9, 0, 0], "without an E line");
}

#[test]
fn sentences_on_rules() {
    let policy = text(&format!("{FOLDER}/closure.pol"));
    let (head, body) = ("R,down,?0,?1,?2\n", "B,grant,?3,?1,?2\nB,le,S,?0,?3\n");
    assert_eq!(refusal(&policy.replace(head, "R,down,?0,?0,?2\n")), [11, 10, 0], "a variable has one sort");
    let swapped = policy.replace(body, &format!("{body}R,other,?1,?0,?2\n"));
    assert_eq!(listing(&swapped), listing(&policy), "?0 of another rule is another variable");
    let everything = with_expression(&policy.replace(&format!("{head}{body}"), "R,all,helper,?0,?1\n"), "(forms-forms)*all");
    assert_eq!(answers(&everything), ["permit,helper,wk3,read", "permit,helper,wk2,read"], "a rule without B lines");
    let others = policy.replace("T,forms,here\n", "T,forms,here\nT,more,here\n").replace("G,forms,cook", "G,more,cook");
    assert_eq!(answer(&listing(&others), "helper,wk2,read"), "deny", "B,grant does not ask other tables");
    let chain = text(&format!("{FOLDER}/step6.pol")).replace("E,", "R,down,?0,?1,?2\nB,grant,?0,?3,?2\nB,le,O,?1,?3\nE,");
    let chain = with_goal(&chain, "E,4096,ward^[o=wk4]*down");
    let passed = answers(&chain).iter().filter(|line| line.starts_with("permit,nurse,")).count();
    assert_eq!(passed, 4, "week 4 is passed to all earlier weeks");
}

#[test]
fn sentences_on_undecided() {
    let policy = text(&format!("{FOLDER}/closure.pol")).replace("T,forms,here\n", "T,forms,here\nT,late,away\n");
    let closed = answers(&with_expression(&policy, "(forms+late^[s=helper]^[o=wk3])*down"));
    let permits = closed.iter().filter(|line| line.starts_with("permit")).count();
    assert_eq!((permits, closed.len()), (5, 6), "all that is not permitted is undecided");
    let scoped = answers(&with_expression(&policy, "late^[s=helper]"));
    assert_eq!(scoped, ["undecided,helper,wk3,read", "undecided,helper,wk2,read"], "denied outside the scope");
    let plain = text(&format!("{FOLDER}/step6.pol"));
    let limited = with_goal(&plain, &format!("E,4096,{}", goal(&plain).1));
    assert_eq!(listing(&limited), listing(&plain), "without a closure the limit does nothing");
}

#[test]
fn sentences_on_templates() {
    let policy = text(&format!("{FOLDER}/template.pol"));
    let alike = |one: &str, other: &str| {
        assert_eq!(listing(&with_expression(&policy, one)), listing(&with_expression(&policy, other)), "{one}");
    };
    alike("(t:forms.forms-forms)(forms)+forms", "forms");
    assert_eq!(refusal(&with_expression(&policy, "(t:x.x)(forms)+x")), [13, 12, 15], "x means nothing after the template");
    assert_eq!(refusal(&with_expression(&policy, "o(t:x.x)(forms)"))[0], 12);
    alike("o((t:x.x)(forms),forms,forms)", "forms");
}

#[test]
fn sentences_on_refusals() {
    let policy = text(&format!("{FOLDER}/clean.pol"));
    let expression = goal(&policy).1;
    assert_eq!(refusal(&with_expression(&policy, &format!("{expression}\r"))), [12, 8, expression.len()]);
    assert_eq!(refusal("S,Cook,-\nS,Nurse,-\n"), [3, 1, 0], "only the first fault is told");
    assert_eq!(refusal(&policy.replace("S,mueller", "S,head_cook")), [5, 2, 0], "two names that are one now");
}

/// The numbers of the sentence that says in which order a file is tested.
fn order_of_tests() -> Vec<usize> {
    let page = text(PAGE);
    let sentence = page.lines().find(|line| line.starts_with("Only the first fault is told.")).expect("the sentence");
    let bracketed = sentence.split('(').skip(1).filter_map(|rest| rest.split(')').next());
    bracketed.flat_map(|numbers| numbers.split(", ")).map(|n| n.parse().expect("a number")).collect()
}

#[test]
fn the_order_of_tests() {
    let members = "S,nurse,-\nO,wk3,-\nA,read,-\n";
    let subjects = |count: usize| -> String { (0..count).map(|i| format!("S,n{i},-\n")).collect() };
    let goal = |expression: String| format!("{members}T,ward,here\nE,0,{expression}\n");
    let five_templates = |inside: &str| goal(format!("{}{inside}{}", "(t:x.".repeat(5), ")(ward)".repeat(5)));
    let eleven_sets = format!("{}x{}", "ward+(".repeat(10), ")".repeat(10));
    // A file with two faults, of which the first is told, and the file without that one.
    let tried = [
        [(2, "Q".into()), (3, "Q\n".into())],
        [(3, goal("ward\nS,Cook,-".into())), (4, goal("ward\nS,cook,-".into()))],
        [(4, "S,nurse,-\nB,eq,S,nurse,nurse\n".into()), (8, "S,nurse,-\nT,ward,here\n".into())],
        [(8, "S,nurse,-\nE,4097,ward\n".into()), (7, format!("{members}E,4097,ward\n"))],
        [(7, subjects(64) + "S,n0,-\n"), (5, subjects(63) + "S,n0,-\n")],
        [(5, "S,nurse,-\nS,nurse,nobody\n".into()), (6, "S,nurse,-\nS,cook,nobody\n".into())],
        [
            (6, format!("{members}T,ward,away\nG,ward,nobody,wk3,read\n")),
            (10, format!("{members}T,ward,away\nG,ward,nurse,wk3,read\n")),
        ],
        [(6, format!("{members}R,down,?0,?0,nobody\n")), (11, format!("{members}R,down,?0,?0,read\n"))],
        [(12, goal("nobody+".into())), (13, goal("nobody".into()))],
        [(13, goal(format!("nobody{}", "+ward".repeat(65)))), (14, goal(format!("ward{}", "+ward".repeat(65))))],
        [(14, five_templates(&eleven_sets)), (16, five_templates("x"))],
    ];
    let order = order_of_tests();
    assert_eq!(order.len(), 14);
    assert_eq!(order.last(), Some(&9));
    let place = |number: usize| order.iter().position(|n| *n == number).expect("a number of the sentence");
    for [(first, both), (second, alone)] in tried {
        assert!(place(first) < place(second), "{first} before {second}");
        assert_eq!((refusal(&both)[0], refusal(&alone)[0]), (first, second), "{both}");
    }
}
