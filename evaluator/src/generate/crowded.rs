//! Crowded files: the names of a sort's members begin at few slots of the
//! index, some of them at the last ones. One in four has a fault of names.

use super::expression::Bounds;
use super::random::Random;
use super::sound::{self, Crowd, Draft, Plan, NAME_BYTES, SORT_WORDS};
use crate::index::{slot, SLOTS};
use crate::policy::MOST_NAME_BYTES;

/// The fault goes round with the file's number, so that all occur.
pub fn policy(random: &mut Random, number: u64) -> Vec<u8> {
    let crowd = crowd(random);
    let mut draft = build(random, crowd);
    match number % 12 {
        0 => declared_again(random, &mut draft),
        4 => undeclared(random, &mut draft, crowd, "G,"),
        8 => undeclared(random, &mut draft, crowd, "B,"),
        _ => {}
    }
    draft.file()
}

fn crowd(random: &mut Random) -> Crowd {
    let any = random.below(SLOTS);
    Crowd {
        first: random.choose(&[SLOTS - 1, SLOTS - 1, SLOTS - 3, SLOTS - 20, 0, any]),
        slots: random.choose(&[1, 1, 2, 4, 20]),
    }
}

fn build(random: &mut Random, crowd: Crowd) -> Draft {
    let counts = random.choose(&[
        [64, 64, 1],
        [64, 4, 16],
        [8, 64, 8],
        [30, 20, 5],
        [5, 5, 3],
        [2, 3, 2],
    ]);
    let plan = Plan {
        counts,
        predicates: random.choose(&[0, 2, 5]),
        tables: random.choose(&[1, 3]),
        rule_sets: 2,
        rules: 4,
        grants: random.choose(&[10, 40, 150]),
        instances: 5_000,
        atoms: &sound::ATOMS,
        short_names: false,
        crowd: Some(crowd),
        bounds: Bounds {
            operators: random.choose(&[2, 6, 12]),
            sets: 3,
            brackets: 2,
            bindings: 2,
            template_first: false,
        },
    };
    let limit = sound::limit(random);
    sound::build(random, &plan, limit)
}

/// A member's line once more, at the end of its sort's lines.
fn declared_again(random: &mut Random, draft: &mut Draft) {
    let sort = random.below(3);
    let name: &str = random.pick(&draft.members[sort]);
    let line = format!("{},{name},-", SORT_WORDS[sort]);
    let others = |other: &String| other.starts_with(&line[..2]);
    let last = draft.lines.iter().rposition(others).unwrap_or(0);
    draft.lines.insert(last + 1, line);
}

/// A name of the crowd that is not declared, for the last name of a line.
fn undeclared(random: &mut Random, draft: &mut Draft, crowd: Crowd, kind: &str) {
    let of_kind = |line: &&mut String| line.starts_with(kind);
    let mut lines: Vec<&mut String> = draft.lines.iter_mut().filter(of_kind).collect();
    if lines.is_empty() {
        return;
    }
    let line = random.below(lines.len());
    let name = crowd.name(random, &draft.members.concat());
    if let Some((before, _)) = lines[line].rsplit_once(',') {
        *lines[line] = format!("{before},{name}");
    }
}

impl Crowd {
    fn has(self, name: &str) -> bool {
        (slot(name.as_bytes()) + SLOTS - self.first) % SLOTS < self.slots
    }

    /// A name that is not taken yet, whose own slot is one of the crowd's.
    pub fn name(self, random: &mut Random, taken: &[String]) -> String {
        loop {
            let mut start = sound::name(random, taken, false);
            start.truncate(MOST_NAME_BYTES - 1);
            let ends = NAME_BYTES.iter().map(|&byte| char::from(byte));
            let names = ends.map(|end| format!("{start}{end}"));
            let fits = |name: &String| self.has(name) && !taken.contains(name);
            let names: Vec<String> = names.filter(fits).collect();
            if !names.is_empty() {
                return random.pick::<str, _>(&names).to_string();
            }
        }
    }
}
