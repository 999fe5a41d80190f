//! One access asked of one accepted file, and the questions that follow from it.

use crate::calls::{self, refusal_line, Answer, Counts, Decision, Refusal};
use crate::outline::{Outline, SORTS};
use crate::shell::Stop;
use crate::tree::{Tree, ROOT};

pub struct Case<'a> {
    /// The lines before the E line, each with its line feed.
    before: Vec<&'a [u8]>,
    pub outline: Outline<'a>,
    pub tree: Tree<'a>,
    pub limit: usize,
    pub counts: Counts,
    /// The access that is asked for: its names, and its number.
    pub names: [&'a str; 3],
    pub access: usize,
    /// What the engine answers to it.
    pub answer: Answer,
}

impl<'a> Case<'a> {
    /// Of a file that the engine has accepted, and of names that it knows; none where the file cannot be followed.
    pub fn of(file: &'a [u8], names: [&[u8]; 3], decision: Decision) -> Option<Case<'a>> {
        let outline = Outline::of(file);
        let goal = outline.goal.as_ref()?;
        let (tree, limit) = (Tree::of(goal.expression)?, goal.limit);
        let before = file.split_inclusive(|&b| b == b'\n').take(goal.line - 1).collect();
        let [subjects, objects, actions] = [0, 1, 2].map(|sort| outline.members[sort].len());
        let counts = Counts { subjects, objects, actions };
        let mut members = [0; 3];
        for sort in SORTS {
            members[sort as usize] = outline.member(sort, std::str::from_utf8(names[sort as usize]).ok()?)?;
        }
        let access = counts.access(members[0], members[1], members[2]);
        let names = [0, 1, 2].map(|sort| outline.members[sort][members[sort]].name);
        Some(Case { before, outline, tree, limit, counts, names, access, answer: decision.answer })
    }

    /// The numbers of an access's members.
    pub fn members(&self, access: usize) -> [usize; 3] {
        let (place, action) = (access / self.counts.actions, access % self.counts.actions);
        [place / self.counts.objects, place % self.counts.objects, action]
    }

    /// An access by its names, as the listing writes it.
    pub fn written(&self, access: usize) -> String {
        let members = self.members(access);
        [0, 1, 2].map(|sort| self.outline.members[sort][members[sort]].name).join(",")
    }

    /// What the engine answers under a limit that is no larger than the file's.
    pub fn at_limit(&self, limit: usize) -> Result<Answer, Stop> {
        self.decide(&self.file(&[], limit, self.tree.text(ROOT)))
    }

    /// What it answers without these lines, which are G lines in the order of the file.
    pub fn without(&self, lines: &[usize]) -> Result<Answer, Stop> {
        self.decide(&self.file(lines, self.limit, self.tree.text(ROOT)))
    }

    /// What it answers to every access, by number, where this stands in the E line.
    pub fn answers(&self, expression: &str) -> Result<Vec<Answer>, Stop> {
        Ok(good(calls::compose(&self.file(&[], self.limit, expression)))?.answers)
    }

    fn decide(&self, file: &[u8]) -> Result<Answer, Stop> {
        let [subject, object, action] = self.names.map(str::as_bytes);
        Ok(good(calls::decide(file, subject, object, action))?.answer)
    }

    /// The file without some lines, with another E line.
    fn file(&self, dropped: &[usize], limit: usize, expression: &str) -> Vec<u8> {
        let mut file = Vec::new();
        for (i, line) in self.before.iter().enumerate() {
            if dropped.binary_search(&(i + 1)).is_err() {
                file.extend_from_slice(line);
            }
        }
        file.extend_from_slice(format!("E,{limit},{expression}\n").as_bytes());
        file
    }
}

/// What the engine says of a file that was made here. It never has a reason to refuse one, so a refusal is a fault in here.
pub fn good<T>(said: Result<T, Refusal>) -> Result<T, Stop> {
    said.map_err(|refusal| Stop::Failed(format!("a file that why made is not good: {}", refusal_line(refusal))))
}
