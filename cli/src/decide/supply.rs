//! What would decide an undecided access: lists that are away, supplied empty or full, and a higher limit. Each is put into
//! the file and asked of the engine.

use crate::calls::{decide, Answer};
use crate::outline::{Goal, Outline};
use crate::shell::{joined, LONGEST_POLICY};

const HIGHEST_LIMIT: usize = 4096;
const NOT_TRIED: &str = "a list with every access could not be tried";

/// What a list brings: no access, or every one.
#[derive(Clone, Copy, PartialEq, Eq)]
enum Supply {
    Empty,
    Full,
}

/// A line in plain words, and whether what it speaks of would decide the access.
struct Said {
    line: String,
    decides: bool,
}

/// What would decide the access, in lines; the file is accepted and its answer undecided.
pub fn what_decides(file: &[u8], names: [&[u8]; 3]) -> Vec<String> {
    let said = Question::of(file, names).map_or(Vec::new(), |question| question.findings());
    if said.is_empty() {
        return vec!["what would decide it could not be tried: the file has no room for it".into()];
    }
    said.into_iter().map(|said| said.line).collect()
}

/// A file and the access that is asked of it, again and again.
struct Question<'a> {
    text: &'a str,
    outline: Outline<'a>,
    goal: Goal<'a>,
    names: [&'a [u8]; 3],
}

impl<'a> Question<'a> {
    fn of(file: &'a [u8], names: [&'a [u8]; 3]) -> Option<Question<'a>> {
        let mut outline = Outline::of(file);
        let goal = outline.goal.take()?;
        Some(Question { text: std::str::from_utf8(file).ok()?, outline, goal, names })
    }

    /// Each list alone, then the limit alone; where these do not decide it, lists together, and last with a higher limit.
    fn findings(&self) -> Vec<Said> {
        let away = self.away();
        let mut said: Vec<Said> = away.iter().filter_map(|&list| self.alone(list)).collect();
        said.extend(self.limit_alone());
        for limit in [self.goal.limit, HIGHEST_LIMIT] {
            if !away.is_empty() && !said.iter().any(|said| said.decides) {
                said.extend([Supply::Full, Supply::Empty].into_iter().filter_map(|supply| self.together(&away, supply, limit)));
            }
        }
        // That full lists could not be tried may have been met at both limits.
        said.dedup_by(|one, other| one.line == other.line);
        said
    }

    /// The lists that are away and whose names stand in the expression; no other can matter.
    fn away(&self) -> Vec<usize> {
        let tables = self.outline.tables.iter().enumerate();
        tables.filter(|(_, table)| !table.here && self.goal.names(table.name)).map(|(number, _)| number).collect()
    }

    /// What one list would do while the others stay away, if it would do anything.
    fn alone(&self, list: usize) -> Option<Said> {
        let empty = self.ask(&[list], Supply::Empty, self.goal.limit)?;
        let full = self.ask(&[list], Supply::Full, self.goal.limit);
        let decides = is_decided(empty) || full.is_some_and(is_decided);
        if !decides && full.is_some() {
            return None;
        }
        let full = full.map_or(NOT_TRIED.into(), |answer| if_they_bring(answer, Supply::Full, 1));
        let empty = if_they_bring(empty, Supply::Empty, 1);
        Some(Said { line: format!("{}: {full}; {empty}", self.outline.tables[list].name), decides })
    }

    /// A higher limit may decide it with all lists still away.
    fn limit_alone(&self) -> Option<Said> {
        let (limit, answer) = self.least_limit(&[], Supply::Empty)?;
        Some(Said { line: format!("a limit of {limit} would decide it: {}", answer.word()), decides: true })
    }

    /// Lists that decide it together, none of them superfluous.
    fn together(&self, away: &[usize], supply: Supply, limit: usize) -> Option<Said> {
        let answer = match self.ask(away, supply, limit) {
            Some(answer) if is_decided(answer) => answer,
            None if supply == Supply::Full => {
                return Some(Said { line: format!("{}: {NOT_TRIED}", self.called(away)), decides: false });
            }
            _ => return None,
        };
        let mut lists = away.to_vec();
        for list in away {
            let fewer: Vec<usize> = lists.iter().copied().filter(|other| other != list).collect();
            if self.ask(&fewer, supply, limit).is_some_and(is_decided) {
                lists = fewer;
            }
        }
        let mut line = format!("{}: {}", self.called(&lists), if_they_bring(answer, supply, lists.len()));
        if limit > self.goal.limit {
            let (least, _) = self.least_limit(&lists, supply)?;
            line += &format!(" and the limit is at least {least}");
        }
        Some(Said { line, decides: true })
    }

    fn called(&self, lists: &[usize]) -> String {
        let names: Vec<&str> = lists.iter().map(|&list| self.outline.tables[list].name).collect();
        match names[..] {
            [one] => one.into(),
            _ => format!("{} together", joined(&names)),
        }
    }

    /// The least limit at which the access is decided with these lists supplied, and its answer. An answer that is decided
    /// never changes as the limit is raised, so that the range can be halved.
    fn least_limit(&self, lists: &[usize], supply: Supply) -> Option<(usize, Answer)> {
        let decided = |limit: usize| self.ask(lists, supply, limit).filter(|&answer| is_decided(answer));
        let (mut below, mut least) = (self.goal.limit, HIGHEST_LIMIT);
        let answer = decided(least)?;
        while least - below > 1 {
            let middle = (below + least) / 2;
            match decided(middle) {
                Some(_) => least = middle,
                None => below = middle,
            }
        }
        Some((least, answer))
    }

    /// The engine's answer with these lists supplied under this limit; none where no accepted file says so.
    fn ask(&self, lists: &[usize], supply: Supply, limit: usize) -> Option<Answer> {
        let file = match supply {
            Supply::Empty => self.file(lists, "", "", limit, self.goal.expression),
            Supply::Full => self.full(lists, limit)?,
        };
        let [subject, object, action] = self.names;
        Some(decide(file.as_bytes(), subject, object, action).ok()?.answer)
    }

    /// Full lists are G lines. Where these do not fit, a closure stands for them: in `(t:x.E)(x*all)` the list x is here and
    /// empty, and the rule without a body brings every access in one round. Under the limit 0 there is no round.
    fn full(&self, lists: &[usize], limit: usize) -> Option<String> {
        let grants: String = lists.iter().map(|&list| self.every_grant(self.outline.tables[list].name)).collect();
        let file = self.file(lists, &grants, "", limit, self.goal.expression);
        if file.len() <= LONGEST_POLICY {
            return Some(file);
        }
        let all = self.fresh_rule_set();
        let closed = lists.iter().fold(self.goal.expression.to_string(), |expression, &list| {
            let name = self.outline.tables[list].name;
            format!("(t:{name}.{expression})({name}*{all})")
        });
        (limit > 0).then(|| self.file(lists, "", &format!("R,{all},?0,?1,?2\n"), limit, &closed))
    }

    fn every_grant(&self, table: &str) -> String {
        let mut grants = String::new();
        let [subjects, objects, actions] = &self.outline.members;
        for subject in subjects {
            for object in objects {
                for action in actions {
                    grants += &format!("G,{table},{},{},{}\n", subject.name, object.name, action.name);
                }
            }
        }
        grants
    }

    fn fresh_rule_set(&self) -> String {
        let taken = self.outline.rule_sets();
        let mut names = (0..).map(|i| format!("all{i}"));
        names.find(|name| !taken.contains(&name.as_str())).unwrap_or_default()
    }

    /// The file with these lists here, grants joined to the G group, a rule before the E line, and another limit and expression.
    fn file(&self, lists: &[usize], grants: &str, rule: &str, limit: usize, expression: &str) -> String {
        let tables = &self.outline.tables;
        let granted = self.outline.grants.last().map(|grant| grant.line);
        let last_of_lists = granted.or(tables.last().map(|table| table.line));
        let mut file = String::new();
        for (line, number) in self.text.lines().zip(1..) {
            if let Some(list) = lists.iter().find(|&&list| tables[list].line == number) {
                file += &format!("T,{},here\n", tables[*list].name);
            } else if number == self.goal.line {
                file += &format!("{rule}E,{limit},{expression}\n");
            } else {
                file += &format!("{line}\n");
            }
            if Some(number) == last_of_lists {
                file += grants;
            }
        }
        file
    }
}

fn is_decided(answer: Answer) -> bool {
    answer != Answer::Undecided
}

fn if_they_bring(answer: Answer, supply: Supply, lists: usize) -> String {
    let still = if is_decided(answer) { "" } else { "still " };
    let brings = if lists == 1 { "it brings" } else { "they bring" };
    let what = match supply {
        Supply::Empty => "none",
        Supply::Full => "every access",
    };
    format!("{still}{} if {brings} {what}", answer.word())
}
