//! The generator: its numbers, its kinds, and what the calls agree on over
//! its files.

mod common;

use common::tree::{split_expression, tree, Tree};
use evaluator::expression::{bindings, operators, sets_held, Join, Step};
use evaluator::generate::random::Random;
use evaluator::generate::{self, has_template, Kind};
use evaluator::index::{slot, Index, SLOTS};
use evaluator::policy::{Atom, Policy, Rule, Term};
use evaluator::reader::read;
use evaluator::{check, compose, decide, list};

fn files(seed: u64, count: u64, kind: Kind) -> impl Iterator<Item = Vec<u8>> {
    (0..count).map(move |number| generate::policy(seed, number, kind))
}

#[test]
fn random_numbers_are_those_of_splitmix64() {
    let random = &mut Random::from_state(1_234_567);
    let expected = [
        6_457_827_717_110_365_317,
        3_203_168_211_198_807_973,
        9_817_491_932_198_370_423,
        4_593_380_528_125_082_431,
        16_408_922_859_458_223_821,
    ];
    for number in expected {
        assert_eq!(random.draw(), number);
    }
}

#[test]
fn a_seed_gives_its_own_files() {
    for kind in Kind::ALL {
        let first: Vec<_> = files(1, 40, kind).collect();
        assert!(first == files(1, 40, kind).collect::<Vec<_>>(), "{kind:?}");
        assert!(first != files(2, 40, kind).collect::<Vec<_>>(), "{kind:?}");
        // A file does not depend on those before it.
        assert!(first[39] == generate::policy(1, 39, kind), "{kind:?}");
    }
}

/// The constructs that a policy uses.
fn constructs(policy: &Policy, file: &[u8]) -> Vec<String> {
    let mut found = Vec::new();
    for rule in &policy.rules {
        found.push(format!("body of {}", rule.body.len()));
        for atom in &rule.body {
            found.push(match atom {
                Atom::Grant(_) => "grant".to_string(),
                Atom::Order(_, order, ..) => format!("{order:?}"),
                Atom::Has(..) => "has".to_string(),
            });
        }
    }
    for step in &policy.expression {
        found.push(match step {
            Step::Table(table) => format!("table here {}", policy.tables[*table].here),
            Step::Join(join) => format!("{join:?}"),
            Step::Override => "override".to_string(),
            Step::Closure(_) => "closure".to_string(),
            Step::Scope(sort, _) => format!("scope of {sort:?}"),
            Step::Bound(_) => "bound name".to_string(),
            Step::Bind => "template".to_string(),
            Step::Unbind => continue,
        });
    }
    let text = String::from_utf8_lossy(file);
    for part in [
        "<=", ">=", "^[s<", "=", "(s)]", "(o)]", "(a)]", "+(", "*", ",o(",
    ] {
        let expression = text.rsplit_once("\nE,").map_or("", |(_, line)| line);
        if expression.contains(part) {
            found.push(format!("text {part}"));
        }
    }
    let lines: Vec<&str> = text.lines().collect();
    let repeated = |kind| {
        let of_kind = lines.iter().filter(|line| line.starts_with(kind));
        let mut of_kind: Vec<_> = of_kind.collect();
        of_kind.sort();
        of_kind.windows(2).any(|pair| pair[0] == pair[1])
    };
    if repeated("P,") {
        found.push("repeated P".to_string());
    }
    if repeated("G,") {
        found.push("repeated G".to_string());
    }
    let members = policy.members.iter();
    if members
        .clone()
        .any(|sort| sort.parents.iter().any(Option::is_some))
    {
        found.push("parent".to_string());
    }
    if members
        .flat_map(|sort| &sort.names)
        .any(|name| name.len() == 24)
    {
        found.push("longest name".to_string());
    }
    if policy.rule_sets.len() > 1 {
        found.push("several rule sets".to_string());
    }
    if [0, 4_096].contains(&policy.limit) {
        found.push(format!("limit {}", policy.limit));
    }
    found
}

#[test]
fn sound_files_are_accepted_and_use_every_construct() {
    let mut found = Vec::new();
    let (mut answers, mut rounds) = ([0; 3], 0);
    for file in files(3, 300, Kind::Sound) {
        let policy = read(&file).unwrap_or_else(|refusal| panic!("{refusal}"));
        found.extend(constructs(&policy, &file));
        let composed = compose(&file).expect("accepted");
        for &answer in &composed.answers {
            answers[usize::from(answer)] += 1;
        }
        rounds += usize::from(composed.rounds > 1);
    }
    let wanted = "body of 0/body of 1/body of 2/body of 3/body of 4/grant/has/Le/Ge/Lt/Gt/Eq/\
        table here true/table here false/override/closure/template/bound name/\
        scope of Subject/scope of Object/scope of Action/\
        text <=/text >=/text ^[s</text =/text (s)]/text (o)]/text (a)]/text +(/text */text ,o(/\
        repeated P/repeated G/parent/longest name/several rule sets/limit 0/limit 4096";
    let joins = [Join::Plus, Join::And, Join::Minus].map(|join| format!("{join:?}"));
    for construct in wanted.split('/').chain(joins.iter().map(|join| &join[..])) {
        let times = found.iter().filter(|known| *known == construct).count();
        assert!(times >= 5, "{construct}: {times}");
    }
    assert!(answers.iter().all(|&times| times > 1_000), "{answers:?}");
    assert!(rounds > 20, "{rounds}");
}

/// How the templates of an expression are used: where they stand, what stands
/// in them and what their names mean elsewhere. `around` is right around the
/// tree, the names bound there are given, the innermost last.
fn template_uses(
    policy: &Policy,
    tree: &Tree,
    around: &str,
    bound: &mut Vec<String>,
    found: &mut Vec<String>,
) {
    let below = match tree {
        Tree::Leaf(_) => "table",
        Tree::Post(_, text) if text.starts_with('*') => "closure",
        Tree::Post(..) => "scope",
        Tree::Join(..) => "join",
        Tree::Override(_) => "override",
        Tree::Template(..) => "template",
    };
    if let Tree::Template(x, e, f) = tree {
        found.push(format!("template in {around}"));
        found.extend(name_uses(policy, x, bound));
        if !e.has_free(x) {
            found.push("unused".to_string());
        }
        template_uses(policy, f, "F", bound, found);
        bound.push(x.clone());
        found.push(format!("{} bindings", bound.len()));
        template_uses(policy, e, "E", bound, found);
        bound.pop();
        return;
    }
    if ["E", "F"].contains(&around) {
        found.push(format!("{below} in {around}"));
    }
    for inner in tree.below() {
        template_uses(policy, inner, below, bound, found);
    }
}

/// What else a bound name means.
fn name_uses(policy: &Policy, x: &str, bound: &[String]) -> Vec<String> {
    let (name, mut uses) = (x.as_bytes(), Vec::new());
    let mut note = |met: bool, what: &str| {
        if met {
            uses.push(format!("x is a {what}"));
        }
    };
    note(policy.table(name).is_some(), "table");
    note(policy.rule_set(name).is_some(), "rule set");
    note(bound.iter().any(|outer| outer == x), "bound name");
    let members = &policy.members;
    note(members.iter().any(|m| m.number(name).is_some()), "member");
    let predicates = &policy.predicates;
    note(predicates.iter().any(|p| p.name == name), "predicate");
    uses
}

#[test]
fn templates_stand_in_every_form_and_every_form_in_them() {
    for kind in [Kind::Sound, Kind::Templates] {
        let mut found = Vec::new();
        for file in files(13, 1_200, kind) {
            let Ok(policy) = read(&file) else { continue };
            let (_, text) = split_expression(&file).expect("an expression");
            let tree = tree(text).expect("of the grammar");
            template_uses(&policy, &tree, "nothing", &mut Vec::new(), &mut found);
        }
        let wanted = "template in nothing/template in E/template in F/template in closure/\
            template in scope/template in join/template in override/\
            table in E/closure in E/scope in E/join in E/override in E/\
            table in F/closure in F/scope in F/join in F/override in F/\
            unused/1 bindings/2 bindings/3 bindings/4 bindings/\
            x is a table/x is a bound name/x is a member/x is a rule set/x is a predicate";
        for use_of_template in wanted.split('/') {
            let times = found.iter().filter(|known| *known == use_of_template);
            let times = times.count();
            assert!(times >= 10, "{kind:?} {use_of_template}: {times}");
        }
    }
}

#[test]
fn half_of_the_mixed_files_have_a_template() {
    let share = |kind| {
        files(14, 800, kind)
            .filter(|file| has_template(file))
            .count()
    };
    for kind in [Kind::Sound, Kind::Damaged, Kind::Large, Kind::Mixed] {
        assert!(
            (320..=560).contains(&share(kind)),
            "{kind:?}: {}",
            share(kind)
        );
    }
    assert_eq!(share(Kind::Templates), 800);
}

#[test]
fn template_files_are_accepted_or_past_one_limit() {
    let (mut accepted, mut numbers) = (0, Vec::new());
    let (mut most_sets, mut most_operators, mut most_bindings) = (0, 0, 0);
    for (number, file) in files(15, 800, Kind::Templates).enumerate() {
        match read(&file) {
            Ok(policy) => {
                accepted += 1;
                most_sets = most_sets.max(sets_held(&policy.expression));
                most_operators = most_operators.max(operators(&policy.expression));
                most_bindings = most_bindings.max(bindings(&policy.expression));
            }
            Err(refusal) => {
                assert_eq!(number % 4, 3, "{refusal}");
                numbers.push(refusal.number);
            }
        }
    }
    assert!((640..760).contains(&accepted), "{accepted}");
    assert_eq!((most_sets, most_operators, most_bindings), (14, 64, 4));
    for wanted in [12, 14, 16] {
        let times = numbers.iter().filter(|&&number| number == wanted).count();
        assert!(times >= 10, "{wanted}: {times}");
    }
}

fn closures(policy: &Policy) -> usize {
    let closure = |step: &&Step| matches!(step, Step::Closure(_));
    policy.expression.iter().filter(closure).count()
}

/// What kind of rule it is, in words.
fn shapes(rule: &Rule) -> Vec<String> {
    let variables = rule.variables.iter().flatten().count();
    let in_head = |term: &&Term| matches!(term, Term::Variable(_));
    let in_head = rule.head.iter().filter(in_head).count();
    let grants = |atom: &&Atom| matches!(atom, Atom::Grant(_));
    let grants = rule.body.iter().filter(grants).count();
    let mut shapes = vec![
        format!("{variables} variables"),
        format!("{in_head} in the head"),
        format!("{grants} grants"),
    ];
    for atom in &rule.body {
        match atom {
            Atom::Grant(_) => {}
            Atom::Order(_, order, ..) => shapes.push(format!("{order:?}")),
            Atom::Has(..) => shapes.push("has".to_string()),
        }
    }
    shapes
}

/// Every shape of rule occurs at least so often.
fn assert_every_shape(found: &[String], least: usize) {
    let wanted = "4 variables/0 in the head/1 in the head/2 in the head/3 in the head/\
        0 grants/1 grants/2 grants/3 grants/4 grants/Le/Ge/Lt/Gt/Eq/has";
    for shape in wanted.split('/') {
        let times = found.iter().filter(|known| *known == shape).count();
        assert!(times >= least, "{shape}: {times}");
    }
}

#[test]
fn ruled_files_have_many_rules_and_closures() {
    let (mut found, mut rounds, mut cut) = (Vec::new(), 0, 0);
    for file in files(11, 300, Kind::Ruled) {
        let policy = read(&file).unwrap_or_else(|refusal| panic!("{refusal}"));
        assert!(policy.counts().iter().all(|count| (2..=6).contains(count)));
        assert!(policy.rules.len() >= 3 && closures(&policy) >= 2);
        found.extend(policy.rules.iter().flat_map(shapes));
        let composed = compose(&file).expect("accepted");
        rounds += usize::from(composed.rounds > 3);
        let here = policy.tables.iter().all(|table| table.here);
        cut += usize::from(here && composed.undecided > 0);
    }
    assert_every_shape(&found, 50);
    assert!(rounds > 100 && cut > 10, "{rounds} {cut}");
}

#[test]
fn worst_files_are_accepted_and_of_every_shape() {
    let read = |file: Vec<u8>| read(&file).unwrap_or_else(|refusal| panic!("{refusal}"));
    let policies: Vec<_> = files(12, 300, Kind::Worst).map(read).collect();
    assert!(policies.iter().all(|policy| policy.rules.len() == 64));
    let rules = policies.iter().flat_map(|policy| &policy.rules);
    assert_every_shape(&rules.flat_map(shapes).collect::<Vec<_>>(), 100);
    let some = |met: &dyn Fn(&Policy) -> bool| policies.iter().filter(|p| met(p)).count() > 5;
    let counts = [
        [64, 64, 1],
        [64, 32, 2],
        [16, 16, 16],
        [64, 8, 8],
        [64, 4, 16],
    ];
    for counts in counts {
        assert!(some(&|policy| policy.counts() == counts), "{counts:?}");
    }
    for number in [1, 43, 64] {
        assert!(some(&|policy| closures(policy) == number), "{number}");
    }
    assert!(some(&|policy| policy.rule_sets.len() == 1));
    assert!(some(&|policy| policy.rule_sets.len() == 16));
    assert!(some(&|policy| policy.limit == 4_096));
    let granted = |policy: &Policy| policy.tables[0].grants.iter().filter(|&&g| g).count();
    assert!(some(&|policy| granted(policy) == 1));
    assert!(some(&|policy| granted(policy) > 1_000));
}

#[test]
fn worst_files_have_many_rounds() {
    // Every seventh has one access in a round.
    let numbers = (0..10).map(|turn| 7 * turn);
    let composed = numbers.map(|number| compose(&generate::policy(12, number, Kind::Worst)));
    let rounds = composed.map(|composed| composed.expect("accepted").rounds);
    let most = rounds.max();
    assert!(most > Some(100_000), "{most:?}");
}

#[test]
fn damaged_files_meet_every_refusal() {
    let mut times = [0; 17];
    for file in files(4, 600, Kind::Damaged) {
        if let Err(refusal) = check(&file) {
            times[refusal.number as usize] += 1;
        }
    }
    for number in (2..=14).chain([16]) {
        assert!(times[number] >= 10, "{number}: {times:?}");
    }
}

#[test]
fn large_files_are_near_the_limits() {
    let all: Vec<_> = files(5, 300, Kind::Large).collect();
    for length in [32_767, 32_768] {
        let of_length = |file: &&Vec<u8>| file.len() == length;
        assert!(all.iter().filter(of_length).any(|file| check(file).is_ok()));
    }
    assert!(all.iter().any(|file| file.len() == 32_769));
    let policies: Vec<_> = all.iter().filter_map(|file| read(file).ok()).collect();
    let some = |met: &dyn Fn(&Policy) -> bool| policies.iter().any(met);
    assert!(some(&|policy| policy.accesses() == 4_096));
    assert!(some(&|policy| policy.rules.len() == 64));
    assert!(some(&|policy| policy.rule_sets.len() == 16));
    assert!(some(&|policy| policy.predicates.len() == 16));
    assert!(some(&|policy| policy.tables.len() == 16));
    assert!(some(&|policy| operators(&policy.expression) == 64));
    assert!(some(&|policy| sets_held(&policy.expression) == 14));
    assert!(some(&|policy| closures(policy) == 43));
    assert!(some(&|policy| bindings(&policy.expression) == 4));
    let number = |file: &Vec<u8>| check(file).err().map(|refusal| refusal.number);
    for wanted in [2, 12, 13, 14, 16] {
        assert!(
            all.iter().any(|file| number(file) == Some(wanted)),
            "{wanted}"
        );
    }
}

#[test]
fn crowded_files_share_slots() {
    let (mut longest, mut round, mut numbers) = (0, 0, Vec::new());
    for file in files(7, 300, Kind::Crowded) {
        let policy = match read(&file) {
            Ok(policy) => policy,
            Err(refusal) => {
                numbers.push(refusal.number);
                continue;
            }
        };
        for sort in &policy.members {
            let index = Index::new(&sort.names);
            for name in &sort.names {
                let found = index.search(name);
                longest = longest.max(found.read);
                round += usize::from(slot(name) + found.read > SLOTS);
            }
        }
    }
    assert_eq!(longest, 64);
    assert!(round > 1_000, "{round}");
    for wanted in [5, 6] {
        let times = numbers.iter().filter(|&&number| number == wanted).count();
        assert!(times > 10, "{wanted}: {numbers:?}");
    }
    assert!(numbers.len() < 80, "{numbers:?}");
}

#[test]
fn mixed_files_are_of_all_kinds() {
    let all: Vec<_> = files(6, 160, Kind::Mixed).collect();
    let accepted = all.iter().filter(|file| check(file).is_ok()).count();
    assert!((80..140).contains(&accepted), "{accepted}");
    assert!(all.iter().any(|file| file.len() >= 32_767));
}

/// The three calls and the listing over one file.
fn assert_calls_agree(file: &[u8]) {
    let listing = list(file);
    match (read(file), check(file), compose(file)) {
        (Ok(policy), Ok(counts), Ok(composed)) => {
            assert_eq!(counts, policy.counts());
            let n: usize = counts.iter().product();
            assert_eq!(composed.answers.len(), n);
            let shown = composed.permits + composed.undecided;
            assert_eq!(listing.lines().count(), 1 + shown);
            let (permits, undecided, rounds) =
                (composed.permits, composed.undecided, composed.rounds);
            let first = format!("grants,{n},{permits},{undecided},{rounds}\n");
            assert!(listing.starts_with(&first), "{listing}");
            for number in [0, n / 2, n - 1] {
                let [s, o, a] = policy.access(number);
                let names = &policy.members;
                let decision = decide(
                    file,
                    &names[0].names[s],
                    &names[1].names[o],
                    &names[2].names[a],
                );
                let decision = decision.expect("declared names");
                assert_eq!(decision.answer, composed.answers[number]);
                assert_eq!(decision.rounds, composed.rounds);
            }
        }
        (Err(refusal), checked, composed) => {
            assert_eq!(checked, Err(refusal));
            assert_eq!(composed, Err(refusal));
            assert_eq!(decide(file, b"", b"", b""), Err(refusal));
            assert_eq!(listing, format!("{refusal}\n"));
        }
        other => panic!("{other:?}"),
    }
}

#[test]
fn calls_agree() {
    let mixed = files(10, 240, Kind::Mixed);
    for file in mixed
        .chain(files(10, 120, Kind::Ruled))
        .chain(files(10, 120, Kind::Templates))
    {
        assert_calls_agree(&file);
    }
}

#[test]
fn senseless_bytes_are_refused() {
    let random = &mut Random::from_state(40);
    let bytes = b"SOAPTGRBE,,,,\n\n-?0123abcxyz_hereawaygrant()[]^*+&<>=:.\r\0\x80\xff";
    for _ in 0..2_000 {
        let length = random.between(0, 300);
        let mut file: Vec<u8> = (0..length).map(|_| random.choose(bytes)).collect();
        file.push(b'\n');
        assert!(check(&file).is_err());
        assert_calls_agree(&file);
    }
}
