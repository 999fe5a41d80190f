//! The policy: what an accepted file says, with members, predicates, tables
//! and rule sets as numbers in file order.

use crate::expression::Step;

pub const MOST_SUBJECTS: usize = 64;
pub const MOST_OBJECTS: usize = 64;
pub const MOST_ACTIONS: usize = 16;
pub const MOST_ACCESSES: usize = 4_096;
pub const MOST_PREDICATES: usize = 16;
pub const MOST_TABLES: usize = 16;
pub const MOST_RULE_SETS: usize = 16;
pub const MOST_RULES: usize = 64;
pub const MOST_BODY_ATOMS: usize = 4;
pub const MOST_LIMIT: usize = 4_096;
pub const MOST_NAME_BYTES: usize = 24;

#[derive(Clone, Copy, Debug, PartialEq, Eq)]
pub enum Sort {
    Subject,
    Object,
    Action,
}

impl Sort {
    pub const ALL: [Sort; 3] = [Sort::Subject, Sort::Object, Sort::Action];

    /// Where this sort stands in an access: 0, 1 or 2.
    pub fn index(self) -> usize {
        self as usize
    }

    pub fn most_members(self) -> usize {
        [MOST_SUBJECTS, MOST_OBJECTS, MOST_ACTIONS][self.index()]
    }
}

/// Members of one sort as bits, member 0 lowest. No sort has over 64.
pub type MemberSet = u64;

/// The members of a set in rising order.
pub fn members_in(set: MemberSet) -> impl Iterator<Item = usize> {
    let mut rest = set;
    std::iter::from_fn(move || {
        let lowest = rest.trailing_zeros() as usize;
        rest &= rest.wrapping_sub(1);
        (lowest < 64).then_some(lowest)
    })
}

#[derive(Clone, Copy, Debug, PartialEq, Eq)]
pub enum Order {
    Le,
    Ge,
    Lt,
    Gt,
    Eq,
}

impl Order {
    /// The order that holds of y and x when this one holds of x and y.
    pub fn reversed(self) -> Order {
        match self {
            Order::Le => Order::Ge,
            Order::Ge => Order::Le,
            Order::Lt => Order::Gt,
            Order::Gt => Order::Lt,
            Order::Eq => Order::Eq,
        }
    }
}

/// The members of one sort with their hierarchy.
#[derive(Debug, Default)]
pub struct Members {
    pub names: Vec<Vec<u8>>,
    pub parents: Vec<Option<usize>>,
    /// For each member x, all y with x le y.
    above: Vec<MemberSet>,
    /// For each member x, all y with y le x.
    below: Vec<MemberSet>,
}

impl Members {
    pub fn count(&self) -> usize {
        self.names.len()
    }

    pub fn number(&self, name: &[u8]) -> Option<usize> {
        self.names.iter().position(|known| known == name)
    }

    pub fn all(&self) -> MemberSet {
        match self.count() {
            0 => 0,
            count => MemberSet::MAX >> (64 - count),
        }
    }

    /// Adds a member. Its parent is there already, so all it reaches is known.
    pub fn declare(&mut self, name: &[u8], parent: Option<usize>) {
        let itself = self.count();
        let reached = parent.map_or(0, |parent| self.above[parent]) | 1 << itself;
        self.names.push(name.to_vec());
        self.parents.push(parent);
        self.above.push(reached);
        self.below.push(0);
        for member in members_in(reached) {
            self.below[member] |= 1 << itself;
        }
    }

    /// All y for which `x order y` holds.
    pub fn related(&self, order: Order, x: usize) -> MemberSet {
        let itself = 1 << x;
        match order {
            Order::Le => self.above[x],
            Order::Lt => self.above[x] & !itself,
            Order::Ge => self.below[x],
            Order::Gt => self.below[x] & !itself,
            Order::Eq => itself,
        }
    }
}

#[derive(Debug)]
pub struct Predicate {
    pub sort: Sort,
    pub name: Vec<u8>,
    pub holds: MemberSet,
}

#[derive(Debug)]
pub struct Table {
    pub name: Vec<u8>,
    pub here: bool,
    /// For each access number, whether it is granted.
    pub grants: Vec<bool>,
}

#[derive(Clone, Copy, Debug, PartialEq, Eq)]
pub enum Term {
    Member(usize),
    Variable(usize),
}

#[derive(Debug)]
pub enum Atom {
    Grant([Term; 3]),
    Order(Sort, Order, Term, Term),
    /// The number is the predicate's.
    Has(Sort, usize, Term),
}

#[derive(Debug)]
pub struct Rule {
    pub rule_set: usize,
    pub head: [Term; 3],
    pub body: Vec<Atom>,
    /// The sort of each variable that the rule has.
    pub variables: [Option<Sort>; 4],
}

/// Subject, object and action numbers.
pub type Access = [usize; 3];

#[derive(Debug, Default)]
pub struct Policy {
    /// Subjects, objects, actions.
    pub members: [Members; 3],
    pub predicates: Vec<Predicate>,
    pub tables: Vec<Table>,
    pub rule_sets: Vec<Vec<u8>>,
    pub rules: Vec<Rule>,
    pub limit: usize,
    pub expression: Vec<Step>,
}

impl Policy {
    pub fn members_of(&self, sort: Sort) -> &Members {
        &self.members[sort.index()]
    }

    pub fn counts(&self) -> [usize; 3] {
        Sort::ALL.map(|sort| self.members_of(sort).count())
    }

    /// N, the number of possible accesses.
    pub fn accesses(&self) -> usize {
        self.counts().iter().product()
    }

    /// (s × objects + o) × actions + a
    pub fn access_number(&self, [s, o, a]: Access) -> usize {
        let [_, objects, actions] = self.counts();
        (s * objects + o) * actions + a
    }

    pub fn access(&self, number: usize) -> Access {
        let [_, objects, actions] = self.counts();
        let (pair, a) = (number / actions, number % actions);
        [pair / objects, pair % objects, a]
    }

    pub fn predicate(&self, sort: Sort, name: &[u8]) -> Option<usize> {
        let found = |known: &Predicate| known.sort == sort && known.name == name;
        self.predicates.iter().position(found)
    }

    pub fn table(&self, name: &[u8]) -> Option<usize> {
        self.tables.iter().position(|known| known.name == name)
    }

    pub fn rule_set(&self, name: &[u8]) -> Option<usize> {
        self.rule_sets.iter().position(|known| known == name)
    }
}
