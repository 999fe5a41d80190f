//! What the answer rests on: from the asked access of the whole expression down, the parts and accesses whose answers already
//! force the answer above them.

use super::case::Case;
use super::parts::Parts;
use super::rounds::{Origin, Rounds};
use super::rules::{access, Rule};
use crate::calls::Answer;
use crate::shell::Stop;
use crate::tree::{Form, Sign, ROOT};
use std::collections::{BTreeMap, BTreeSet};

/// A part and an access.
type Ground = (usize, usize);

/// A part and the answer that it counts for.
type Counted = (usize, Answer);

/// A closure that permits something, with how each access that it permits on the way came in.
pub struct Derivation {
    pub closure: usize,
    pub accesses: Vec<(usize, Origin)>,
}

pub struct Grounds<'a> {
    case: &'a Case<'a>,
    parts: &'a Parts,
    rules: &'a [Rule<'a>],
    /// The closures among them that permit something.
    closures: BTreeMap<usize, Rounds<'a>>,
    met: BTreeSet<Ground>,
}

impl<'a> Grounds<'a> {
    pub fn of(case: &'a Case<'a>, parts: &'a Parts, rules: &'a [Rule<'a>]) -> Result<Grounds<'a>, Stop> {
        let mut grounds = Grounds { case, parts, rules, closures: BTreeMap::new(), met: BTreeSet::new() };
        let mut ahead = vec![(ROOT, case.access)];
        while let Some((part, access)) = ahead.pop() {
            let ground = (parts.alike(part), access);
            if grounds.met.insert(ground) {
                ahead.extend(grounds.below(ground)?);
            }
        }
        Ok(grounds)
    }

    /// A closure comes after those that it draws on, an access after those that it is derived from.
    pub fn derivations(&mut self) -> Result<Vec<Derivation>, Stop> {
        let mut derivations = Vec::new();
        // A part stands before those it is made of, and a template's filling behind the places where its name is used.
        for (&closure, rounds) in self.closures.iter_mut().rev() {
            let mut accesses = Vec::new();
            let met = self.met.range((closure, 0)..(closure + 1, 0)).map(|&(_, access)| access);
            for access in met.filter(|&access| self.parts.answer(closure, access) == Answer::Permit) {
                accesses.push((access, rounds.origin(access)?));
            }
            accesses.sort_by_key(|(access, origin)| (origin.round(), *access));
            derivations.push(Derivation { closure, accesses });
        }
        Ok(derivations)
    }

    /// A rule of a closure that permits something.
    pub fn rule(&self, closure: usize, number: usize) -> &'a Rule<'a> {
        self.closures[&closure].rules[number]
    }

    /// What a ground rests on in turn.
    fn below(&mut self, (part, access): Ground) -> Result<Vec<Ground>, Stop> {
        let case = self.case;
        let counted = |part: usize| (part, self.parts.answer(part, access));
        let (_, answer) = counted(part);
        let made_of: Vec<Counted> = case.tree.answers_from(part).into_iter().map(counted).collect();
        let forced = match case.tree.parts[part].form {
            Form::Closure(_) if answer == Answer::Permit => return self.derived(part, access),
            // What a closure does not permit is said by no part of its operand alone.
            Form::Closure(_) => Vec::new(),
            Form::Scope(scope) if scope.holds(&case.outline, case.members(access)) != Some(true) => Vec::new(),
            Form::Join(Sign::Minus) => forcing(answer, &[made_of[0], taken(made_of[1])]),
            Form::Override => {
                let sides = [[made_of[0], taken(made_of[2])], [made_of[1], made_of[2]]];
                let carrying = sides.iter().filter(|[(_, one), (_, other)]| *one.min(other) == answer);
                carrying.flat_map(|side| forcing(answer, side)).collect()
            }
            Form::Name(_) | Form::Join(_) | Form::Scope(_) | Form::Template(_) => forcing(answer, &made_of),
        };
        Ok(forced.into_iter().map(|below| (below, access)).collect())
    }

    /// What a permit of a closure rests on: the operand's permit, or the grants in the body of the rule that derives it.
    fn derived(&mut self, part: usize, at: usize) -> Result<Vec<Ground>, Stop> {
        let (case, parts, rules) = (self.case, self.parts, self.rules);
        let operand = case.tree.parts[part].made_of[0];
        let rounds = self.closures.entry(part).or_insert_with(|| {
            let of_set = rules.iter().filter(|rule| case.tree.parts[part].form == Form::Closure(rule.set)).collect();
            Rounds::new(case, of_set, parts.all(operand), parts.all(part))
        });
        Ok(match rounds.origin(at)? {
            Origin::Given => vec![(operand, at)],
            Origin::Step { rule, values, .. } => rounds.rules[rule]
                .grants()
                .filter_map(|grant| access(&case.counts, grant, &values))
                .map(|grant| (part, grant))
                .collect(),
        })
    }
}

/// The parts that count for as much as the answer above.
fn forcing(above: Answer, counted: &[Counted]) -> Vec<usize> {
    counted.iter().filter(|(_, answer)| *answer == above).map(|(part, _)| *part).collect()
}

/// How what is taken out counts: 2 less its answer.
fn taken((part, answer): Counted) -> Counted {
    let counts = match answer {
        Answer::Deny => Answer::Permit,
        Answer::Undecided => Answer::Undecided,
        Answer::Permit => Answer::Deny,
    };
    (part, counts)
}
