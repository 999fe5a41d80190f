//! Barren rules: they join grants and orders in every manner, and hold of
//! nothing, or of nothing new, or of an access that the ground has last.

use super::random::Random;
use super::sound::SORT_WORDS;
use super::worst::{member, Ground};

/// A rule's head and the atoms of its body.
struct Rule {
    head: String,
    body: Vec<String>,
}

/// So many rules of one, two or three forms, the sets in turn.
pub fn rules(
    random: &mut Random,
    ground: &Ground,
    sets: &[String],
    count: usize,
) -> Vec<Vec<String>> {
    let forms = forms(random, ground);
    let mut rules = Vec::new();
    for number in 0..count {
        let form = random.choose(&forms);
        let mut rule = Writer::new(random, ground).rule(form);
        random.shuffle(&mut rule.body);
        let mut lines = vec![format!("R,{},{}", sets[number % sets.len()], rule.head)];
        lines.extend(rule.body.iter().map(|atom| format!("B,{atom}")));
        rules.push(lines);
    }
    rules
}

/// The last form would make a ground of many rounds grow faster.
fn forms(random: &mut Random, ground: &Ground) -> Vec<usize> {
    let mut forms = Vec::new();
    for _ in 0..random.between(1, 3) {
        let form = random.below(12);
        let walk = ground.few_rounds && random.percent(30);
        forms.push(if walk { 12 } else { form });
    }
    forms
}

/// Two sorts are walked along, to and fro; `x` and `z` are variables of the
/// first, `y` and `k` of the second.
struct Writer<'a> {
    random: &'a mut Random,
    ground: &'a Ground,
    /// These two, and the third.
    sorts: [usize; 3],
    /// The third sort's term, where it is no variable.
    term: String,
    variables: [&'static str; 4],
}

impl<'a> Writer<'a> {
    /// The two longest sorts, in any order.
    fn new(random: &'a mut Random, ground: &'a Ground) -> Writer<'a> {
        let mut sorts = ground.sorts;
        sorts.swap(0, random.below(2));
        let mut variables = ["?0", "?1", "?2", "?3"];
        random.shuffle(&mut variables);
        let any = random.below(ground.parts(sorts[2]).main);
        let term = member(sorts[2], random.choose(&[0, 0, 0, any]));
        Writer {
            random,
            ground,
            sorts,
            term,
            variables,
        }
    }

    fn rule(&mut self, form: usize) -> Rule {
        match form {
            0 => self.across(),
            1 => self.bridge(),
            2 => self.apart(),
            3 => self.nowhere(),
            4 => self.marked(),
            5 => self.star(),
            6 => self.both_ways(),
            7 => self.ring(),
            8 => self.orders(),
            9 => self.late(),
            10 => self.of_three_sorts(),
            11 => self.tangle(),
            _ => self.closed_walk(),
        }
    }

    /// Terms of the first and the second sort, with the third sort's.
    fn terms(&self, first: &str, second: &str) -> String {
        self.all_terms(first, second, &self.term)
    }

    fn all_terms(&self, first: &str, second: &str, third: &str) -> String {
        let mut terms = [""; 3];
        for (sort, term) in self.sorts.into_iter().zip([first, second, third]) {
            terms[sort] = term;
        }
        terms.join(",")
    }

    fn grant(&self, first: &str, second: &str) -> String {
        format!("grant,{}", self.terms(first, second))
    }

    /// An order of two terms of the first sort.
    fn order(&self, word: &str, x: &str, y: &str) -> String {
        format!("{word},{},{x},{y}", SORT_WORDS[self.sorts[0]])
    }

    fn has(&self, predicate: &str, x: &str) -> String {
        format!("has,{},{predicate},{x}", SORT_WORDS[self.sorts[0]])
    }

    fn of_main(&mut self, place: usize) -> String {
        let sort = self.sorts[place];
        member(sort, self.random.below(self.ground.parts(sort).main))
    }

    /// The last of the main part.
    fn last(&self, place: usize) -> String {
        let sort = self.sorts[place];
        member(sort, self.ground.parts(sort).main - 1)
    }

    fn is_last(&self, x: &str, place: usize) -> String {
        let word = SORT_WORDS[self.sorts[place]];
        format!("eq,{word},{x},{}", self.last(place))
    }

    /// A member of the isle, or a bare one where there is no isle.
    fn of_isle(&mut self, place: usize) -> String {
        let sort = self.sorts[place];
        let isle = self.ground.parts(sort).of_isle();
        match isle.is_empty() {
            true => self.bare(place),
            false => member(sort, self.random.between(isle.start, isle.end - 1)),
        }
    }

    fn bare(&mut self, place: usize) -> String {
        let sort = self.sorts[place];
        let bare = self.ground.parts(sort).of_bare();
        member(sort, self.random.between(bare.start, bare.end - 1))
    }

    /// A head with a bare member, and so one that no access of the ground is.
    /// The other term is one of these or a member of the main part.
    fn bare_head(&mut self, first: &[&str], second: &[&str]) -> String {
        let place = self.random.below(2);
        let bare = self.bare(place);
        let choices = [second, first][place];
        let other = match self.random.percent(20) || choices.is_empty() {
            true => self.of_main(1 - place),
            false => self.random.choose(choices).to_string(),
        };
        match place {
            0 => self.terms(&bare, &other),
            _ => self.terms(&other, &bare),
        }
    }

    /// A walk of three grants from x to k.
    fn walk(&self) -> Vec<String> {
        let [x, z, y, k] = self.variables;
        vec![self.grant(x, y), self.grant(z, y), self.grant(z, k)]
    }

    /// The walk leads where a grant is.
    fn closed_walk(&mut self) -> Rule {
        let [x, _, _, k] = self.variables;
        Rule {
            head: self.terms(x, k),
            body: self.walk(),
        }
    }

    /// The walk from the isle does not leave it.
    fn across(&mut self) -> Rule {
        let [x, _, _, k] = self.variables;
        let (first, second) = (self.of_isle(0), self.of_isle(1));
        let mut body = self.walk();
        let marked = self.ground.marks(self.sorts[0]).contains(&"isle");
        body.push(match marked && self.random.percent(50) {
            true => self.has("isle", x),
            false => self.grant(x, &second),
        });
        Rule {
            head: self.terms(&first, k),
            body,
        }
    }

    /// A cycle through constants, one in the main part and one in the isle.
    fn bridge(&mut self) -> Rule {
        let [x, z, y, k] = self.variables;
        let (here, there) = (self.of_main(1), self.of_isle(1));
        let body = vec![
            self.grant(x, y),
            self.grant(z, y),
            self.grant(x, &here),
            self.grant(z, &there),
        ];
        let head = self.bare_head(&[x, z], &[y, k]);
        Rule { head, body }
    }

    /// The head's variables do not stand in the body.
    fn apart(&mut self) -> Rule {
        let [x, z, y, k] = self.variables;
        let (here, there) = (self.of_main(1), self.of_isle(0));
        let body = vec![
            self.grant(z, y),
            self.grant(z, &here),
            self.grant(&there, y),
        ];
        Rule {
            head: self.terms(x, k),
            body,
        }
    }

    /// The walk starts at a member to which nothing is granted.
    fn nowhere(&mut self) -> Rule {
        let [x, z, y, k] = self.variables;
        let bare = self.bare(1);
        let mut body = self.walk();
        body.push(self.grant(x, &bare));
        let head = self.bare_head(&[x, z], &[y, k]);
        Rule { head, body }
    }

    /// A member with two marks, of which each has one.
    fn marked(&mut self) -> Rule {
        let [x, z, y, k] = self.variables;
        let marks = self.ground.marks(self.sorts[0]);
        let [one, .., other] = marks[..] else {
            return self.nowhere();
        };
        let body = vec![
            self.grant(x, y),
            self.grant(z, y),
            self.has(one, x),
            self.has(other, x),
        ];
        let head = self.bare_head(&[x, z], &[y, k]);
        Rule { head, body }
    }

    /// Three of the first sort about one of the second.
    fn star(&mut self) -> Rule {
        let [x, z, w, y] = self.variables;
        let end = match self.random.percent(50) {
            true => self.bare(1),
            false => self.of_isle(1),
        };
        let body = vec![
            self.grant(x, y),
            self.grant(z, y),
            self.grant(w, y),
            self.grant(w, &end),
        ];
        let head = self.bare_head(&[x, z, w], &[y]);
        Rule { head, body }
    }

    /// Two grants, of which each is to be below the other.
    fn both_ways(&mut self) -> Rule {
        let [x, z, y, k] = self.variables;
        let words = [("lt", "gt"), ("lt", "ge"), ("gt", "eq"), ("le", "gt")];
        let (one, other) = self.random.choose(&words);
        let body = vec![
            self.grant(x, y),
            self.grant(z, k),
            self.order(one, x, z),
            self.order(other, x, z),
        ];
        let head = self.bare_head(&[x, z], &[y, k]);
        Rule { head, body }
    }

    /// A grant, and an order that runs round.
    fn ring(&mut self) -> Rule {
        let [x, z, w, y] = self.variables;
        let word = self.random.choose(&["lt", "gt"]);
        let body = vec![
            self.grant(x, y),
            self.order(word, x, z),
            self.order(word, z, w),
            self.order(word, w, x),
        ];
        let head = self.bare_head(&[x, z, w], &[y]);
        Rule { head, body }
    }

    /// Orders alone, running round.
    fn orders(&mut self) -> Rule {
        let [x, z, w, v] = self.variables;
        let words = [("lt", "lt"), ("le", "lt"), ("ge", "gt")];
        let (word, last) = self.random.choose(&words);
        let body = vec![
            self.order(word, x, z),
            self.order(word, z, w),
            self.order(word, w, v),
            self.order(last, v, x),
        ];
        let head = self.bare_head(&[x, z, w, v], &[]);
        Rule { head, body }
    }

    /// A walk that needs the main part's last member, to its last access.
    fn late(&mut self) -> Rule {
        let [_, _, _, k] = self.variables;
        let mut body = self.walk();
        body.push(self.is_last(k, 1));
        Rule {
            head: self.terms(&self.last(0), &self.last(1)),
            body,
        }
    }

    /// Variables of all three sorts.
    fn of_three_sorts(&mut self) -> Rule {
        let [x, z, y, a] = self.variables;
        let bare = self.bare(1);
        let granted = |first, second| format!("grant,{}", self.all_terms(first, second, a));
        let (lower, not_lower) = (self.order("lt", x, z), self.order("ge", x, z));
        let (one, other, none) = (granted(x, y), granted(z, y), granted(z, &bare));
        match self.random.below(4) {
            0 => Rule {
                head: self.all_terms(x, &bare, a),
                body: vec![one, other, none],
            },
            1 => Rule {
                head: self.all_terms(x, &bare, a),
                body: vec![one, other, lower, not_lower],
            },
            2 => Rule {
                head: self.all_terms(x, y, a),
                body: vec![other, lower, not_lower],
            },
            _ => Rule {
                head: self.all_terms(&self.last(0), &self.last(1), &self.last(2)),
                body: vec![one, other, self.is_last(y, 1), self.is_last(a, 2)],
            },
        }
    }

    /// Three grants of any terms, and one that does not hold.
    fn tangle(&mut self) -> Rule {
        let [x, z, y, k] = self.variables;
        let mut body = Vec::new();
        for _ in 0..3 {
            let (here, there) = (self.of_main(0), self.of_main(1));
            let first = self.random.choose(&[x, z, x, z, &here[..]]).to_string();
            let second = self.random.choose(&[y, k, y, k, &there[..]]).to_string();
            body.push(self.grant(&first, &second));
        }
        let (here, there) = (self.bare(0), self.bare(1));
        body.push(match self.random.percent(50) {
            true => self.grant(x, &there),
            false => self.grant(&here, y),
        });
        let head = self.bare_head(&[x, z], &[y, k]);
        Rule { head, body }
    }
}
