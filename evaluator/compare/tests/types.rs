//! The wrapper's types on the corpus, its asks, the examples and generated files: what they make of a file is the listing that is stored
//! beside it, or the evaluator's.

mod stored;

use evaluator::generate::{policy, Kind};
use snowdell::{Answer, Answers, Memory, Policy, Refusal, Refused};
use std::fs;
use stored::{policies, root};

const SEED: u64 = 11;
const GENERATED: u64 = 100;

fn refused(refused: Refused) -> String {
    let Refusal { number, line, place } = refused.into();
    format!("refused,{number},{line},{place}")
}

/// Document 01's listing, made of the types alone.
fn listed(file: &[u8], answers: &mut Answers, memory: &mut Memory) -> String {
    let policy = match Policy::new(file) {
        Ok(policy) => policy,
        Err(error) => return refused(error) + "\n",
    };
    let all = policy.compose(answers, memory);
    let mut text = format!("grants,{},{},{},{}\n", all.accesses().len(), all.permits, all.undecided, all.rounds);
    for access in all.accesses().filter(|access| access.answer != Answer::Deny) {
        text += &format!("{access}\n");
    }
    text
}

#[test]
fn stored_files_have_their_listings() {
    let (mut answers, mut memory) = (Answers::new(), Memory::new());
    let paths = policies(&["evaluator/corpus", "examples"]);
    assert!(paths.len() > 1_200, "{} files", paths.len());
    for path in paths {
        let file = fs::read(&path).expect("a policy");
        let listing = fs::read_to_string(path.with_extension("out")).expect("a listing");
        assert_eq!(listed(&file, &mut answers, &mut memory), listing, "{}", path.display());
    }
}

#[test]
fn generated_files_have_the_evaluators_listings() {
    let (mut answers, mut memory) = (Answers::new(), Memory::new());
    for kind in Kind::ALL.into_iter().filter(|kind| *kind != Kind::Worst) {
        for number in 0..GENERATED {
            let file = policy(SEED, number, kind);
            let said = listed(&file, &mut answers, &mut memory);
            assert_eq!(said, evaluator::list(&file), "seed {SEED} number {number} ({})", kind.word());
        }
    }
}

/// What is decided by name, as asks.tsv has it.
fn decided(file: &[u8], [subject, object, action]: [&str; 3], memory: &mut Memory) -> Result<String, Refused> {
    let said = Policy::new(file)?.decide(subject, object, action, memory)?;
    Ok(format!("{},{}", said.answer.number(), said.rounds))
}

#[test]
fn asks_are_decided_by_name() {
    let mut memory = Memory::new();
    for part in ["evaluator/corpus", "evaluator/corpus/cr/renamed"].map(|part| root().join(part)) {
        let asks = fs::read_to_string(part.join("asks.tsv")).expect("asks.tsv");
        assert!(asks.lines().count() >= 120, "{}", part.display());
        for ask in asks.lines() {
            let fields: Vec<&str> = ask.split('\t').collect();
            let [name, subject, object, action, expected] = fields[..] else { panic!("{ask}") };
            let file = fs::read(part.join(format!("{name}.pol"))).expect("a policy");
            let said = decided(&file, [subject, object, action], &mut memory).unwrap_or_else(refused);
            assert_eq!(said, expected, "{ask}");
        }
    }
}
