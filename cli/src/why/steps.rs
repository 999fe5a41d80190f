//! A step of a derivation, confirmed by the engine: in a file that has nothing but the grants of the step's body and the one
//! rule with its values put in, the engine has to permit the head.

use super::case::{good, Case};
use super::rules::{access, Atom, Rule, Term, Values};
use crate::calls::{self, Answer};
use crate::outline::{Outline, SORTS};
use crate::shell::Stop;

pub struct Steps {
    /// The S, O, A and P lines, with short names made of the numbers, so that every step has room.
    members: String,
}

impl Steps {
    pub fn of(outline: &Outline) -> Steps {
        let mut members = String::new();
        for sort in SORTS {
            for (i, member) in outline.members[sort as usize].iter().enumerate() {
                let parent = member.parent.map_or("-".into(), name);
                members += &format!("{},{},{parent}\n", sort.letter(), name(i));
            }
        }
        for (i, predicate) in outline.predicates.iter().enumerate() {
            for &member in &predicate.members {
                members += &format!("P,{},p{i},{}\n", predicate.sort.letter(), name(member));
            }
        }
        Steps { members }
    }

    /// An error where the engine does not confirm the step.
    pub fn confirm(&self, case: &Case, rule: &Rule, values: &Values) -> Result<(), Stop> {
        let [s, o, a] = rule.head.map(|term| put(term, values));
        let said = good(calls::decide(self.file(rule, values).as_bytes(), s.as_bytes(), o.as_bytes(), a.as_bytes()))?;
        if said.answer == Answer::Permit {
            return Ok(());
        }
        let head = access(&case.counts, &rule.head, values).map(|head| case.written(head)).unwrap_or_default();
        Err(Stop::Failed(format!("the engine does not confirm that line {} derives {head}", rule.line)))
    }

    fn file(&self, rule: &Rule, values: &Values) -> String {
        let put = |term: &Term| put(*term, values);
        let grant = |terms: &[Term; 3]| terms.each_ref().map(put).join(",");
        let mut file = format!("{}T,facts,here\n", self.members);
        for terms in rule.grants() {
            file += &format!("G,facts,{}\n", grant(terms));
        }
        file += &format!("R,step,{}\n", grant(&rule.head));
        for atom in &rule.body {
            file += &match atom {
                Atom::Grant(terms) => format!("B,grant,{}\n", grant(terms)),
                Atom::Order(sort, comparison, x, y) => {
                    format!("B,{},{},{},{}\n", comparison.word(), sort.letter(), put(x), put(y))
                }
                Atom::Has(sort, predicate, x) => format!("B,has,{},p{predicate},{}\n", sort.letter(), put(x)),
            };
        }
        file + "E,1,facts*step\n"
    }
}

/// The name of the member that a term stands for. In an instance every variable has a value.
fn put(term: Term, values: &Values) -> String {
    term.value(values).map(name).unwrap_or_default()
}

fn name(member: usize) -> String {
    format!("m{member}")
}
