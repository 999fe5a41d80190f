//! What good lines of a policy say, for showing and for hints. It judges nothing: the lines that come here were accepted by
//! the engine, or stand before the line at which the engine refused the file.

/// The three sorts, in the order of the file.
#[derive(Clone, Copy, Debug, PartialEq, Eq)]
pub enum Sort {
    Subject,
    Object,
    Action,
}

pub const SORTS: [Sort; 3] = [Sort::Subject, Sort::Object, Sort::Action];

impl Sort {
    pub fn of(letter: &str) -> Option<Sort> {
        match letter {
            "S" | "s" => Some(Sort::Subject),
            "O" | "o" => Some(Sort::Object),
            "A" | "a" => Some(Sort::Action),
            _ => None,
        }
    }

    /// The letter that lines have for it.
    pub fn letter(self) -> &'static str {
        ["S", "O", "A"][self as usize]
    }

    pub fn word(self) -> &'static str {
        ["subject", "object", "action"][self as usize]
    }
}

pub struct Member<'a> {
    pub name: &'a str,
    /// The number of its parent in the same sort.
    pub parent: Option<usize>,
    pub line: usize,
}

pub struct Predicate<'a> {
    pub sort: Sort,
    pub name: &'a str,
    /// The members listed, by number, each once.
    pub members: Vec<usize>,
}

/// How two members of a sort are compared, in rules and in scopes.
#[derive(Clone, Copy, Debug, PartialEq, Eq)]
pub enum Comparison {
    Le,
    Ge,
    Lt,
    Gt,
    Eq,
}

impl Comparison {
    /// By the word that a B line has for it, or by the sign that a scope has.
    pub fn of(text: &str) -> Option<Comparison> {
        match text {
            "le" | "<=" => Some(Comparison::Le),
            "ge" | ">=" => Some(Comparison::Ge),
            "lt" | "<" => Some(Comparison::Lt),
            "gt" | ">" => Some(Comparison::Gt),
            "eq" | "=" => Some(Comparison::Eq),
            _ => None,
        }
    }

    /// The word that a B line has for it.
    pub fn word(self) -> &'static str {
        ["le", "ge", "lt", "gt", "eq"][self as usize]
    }
}

pub struct Table<'a> {
    pub name: &'a str,
    pub here: bool,
    pub line: usize,
}

/// A G line: its table by number, its members by number and sort.
pub struct Grant {
    pub line: usize,
    pub table: usize,
    pub access: [usize; 3],
}

/// A line of a rule, as its fields: the head without `R` and the set's name, or a body line without `B`.
pub struct Rule<'a> {
    pub line: usize,
    pub set: &'a str,
    pub head: [&'a str; 3],
    pub body: Vec<Vec<&'a str>>,
}

#[derive(Default)]
pub struct Outline<'a> {
    /// Members by sort, in file order.
    pub members: [Vec<Member<'a>>; 3],
    pub predicates: Vec<Predicate<'a>>,
    pub tables: Vec<Table<'a>>,
    pub grants: Vec<Grant>,
    pub rules: Vec<Rule<'a>>,
    pub goal: Option<Goal<'a>>,
}

/// The E line.
pub struct Goal<'a> {
    pub line: usize,
    pub limit: usize,
    pub expression: &'a str,
}

impl Goal<'_> {
    /// Does the name stand in the expression, as whatever? A table whose name does not cannot matter.
    pub fn names(&self, name: &str) -> bool {
        self.expression.split(|c: char| !c.is_ascii_alphanumeric() && c != '_').any(|word| word == name)
    }
}

impl<'a> Outline<'a> {
    /// Of lines that are good, one after another from the first; it stops at the first that it cannot follow.
    pub fn of(lines: &'a [u8]) -> Outline<'a> {
        let mut outline = Outline::default();
        for (i, line) in lines.split(|&b| b == b'\n').enumerate() {
            let Ok(text) = std::str::from_utf8(line) else { break };
            if outline.line(i + 1, text).is_none() {
                break;
            }
        }
        outline
    }

    pub fn member(&self, sort: Sort, name: &str) -> Option<usize> {
        self.members[sort as usize].iter().position(|m| m.name == name)
    }

    pub fn table(&self, name: &str) -> Option<usize> {
        self.tables.iter().position(|t| t.name == name)
    }

    /// The names of the rule sets, in the order in which they are declared.
    pub fn rule_sets(&self) -> Vec<&'a str> {
        let mut names = Vec::new();
        for rule in &self.rules {
            if !names.contains(&rule.set) {
                names.push(rule.set);
            }
        }
        names
    }

    /// Is x below y, or y itself?
    pub fn le(&self, sort: Sort, x: usize, y: usize) -> bool {
        let mut at = Some(x);
        while let Some(member) = at {
            if member == y {
                return true;
            }
            at = self.members[sort as usize][member].parent;
        }
        false
    }

    pub fn compares(&self, sort: Sort, comparison: Comparison, x: usize, y: usize) -> bool {
        match comparison {
            Comparison::Le => self.le(sort, x, y),
            Comparison::Ge => self.le(sort, y, x),
            Comparison::Lt => x != y && self.le(sort, x, y),
            Comparison::Gt => x != y && self.le(sort, y, x),
            Comparison::Eq => x == y,
        }
    }

    pub fn predicate(&self, sort: Sort, name: &str) -> Option<usize> {
        self.predicates.iter().position(|p| p.sort == sort && p.name == name)
    }

    /// How many members stand above this one.
    pub fn depth(&self, sort: Sort, member: usize) -> usize {
        std::iter::successors(self.members[sort as usize][member].parent, |&m| self.members[sort as usize][m].parent).count()
    }

    fn line(&mut self, number: usize, text: &'a str) -> Option<()> {
        let (kind, rest) = text.split_once(',')?;
        let fields: Vec<&'a str> = rest.split(',').collect();
        match kind {
            "S" | "O" | "A" => {
                let sort = Sort::of(kind)?;
                let [name, parent] = fields[..] else { return None };
                let parent = if parent == "-" { None } else { Some(self.member(sort, parent)?) };
                self.members[sort as usize].push(Member { name, parent, line: number });
            }
            "P" => {
                let [sort, name, member] = fields[..] else { return None };
                let sort = Sort::of(sort)?;
                let member = self.member(sort, member)?;
                match self.predicate(sort, name) {
                    None => self.predicates.push(Predicate { sort, name, members: vec![member] }),
                    Some(known) if self.predicates[known].members.contains(&member) => {}
                    Some(known) => self.predicates[known].members.push(member),
                }
            }
            "T" => {
                let [name, state] = fields[..] else { return None };
                self.tables.push(Table { name, here: state == "here", line: number });
            }
            "G" => {
                let [table, s, o, a] = fields[..] else { return None };
                let access = [self.member(Sort::Subject, s)?, self.member(Sort::Object, o)?, self.member(Sort::Action, a)?];
                self.grants.push(Grant { line: number, table: self.table(table)?, access });
            }
            "R" => {
                let [set, s, o, a] = fields[..] else { return None };
                self.rules.push(Rule { line: number, set, head: [s, o, a], body: Vec::new() });
            }
            "B" => self.rules.last_mut()?.body.push(fields),
            "E" => {
                let (limit, expression) = rest.split_once(',')?;
                self.goal = Some(Goal { line: number, limit: limit.parse().ok()?, expression });
            }
            _ => return None,
        }
        Some(())
    }
}
