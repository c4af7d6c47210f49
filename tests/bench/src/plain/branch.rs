//! The facts of a branch, the classes that its ≈ facts make, and the constraints that each fact rests on.

use super::question::MOST_FACTS;
use super::records::{i32_at, index_at, pair};

#[derive(Clone, Copy, PartialEq)]
pub enum Relation {
    AtLeast,
    Equal,
    NotEqual,
}

impl Relation {
    /// The relation that a record writes as 0, 1 or 2.
    pub fn of(number: usize) -> Relation {
        match number {
            0 => Relation::AtLeast,
            1 => Relation::Equal,
            _ => Relation::NotEqual,
        }
    }

    pub fn holds(self, value: i64) -> bool {
        match self {
            Relation::AtLeast => value >= 0,
            Relation::Equal => value == 0,
            Relation::NotEqual => value != 0,
        }
    }
}

/// A fact; of an arithmetic one where its row begins.
#[derive(Clone, Copy)]
pub enum Fact {
    Arithmetic(Relation, u16),
    Same(u8, u8),
    Differ(u8, u8),
    IsLiteral(u8, u8),
}

/// A label for each variable (0 to 15) and each literal (16 to 31); what ≈ facts join has one label.
type Labels = [u8; 32];

/// Where the labels of literals begin.
const LITERALS: usize = 16;

/// Constraints of the question: k is bit k of the first word, or bit k − 64 of the second.
#[derive(Clone, Copy, Default)]
pub struct Set(pub [u64; 2]);

impl Set {
    fn only(constraint: usize) -> Set {
        let mut set = Set::default();
        set.0[constraint / 64] = 1 << (constraint % 64);
        set
    }

    pub fn with(self, other: Set) -> Set {
        Set([self.0[0] | other.0[0], self.0[1] | other.0[1]])
    }
}

#[derive(Default)]
pub struct Branch {
    pub facts: Vec<Fact>,
    pub labels: Labels,
    /// What each fact rests on, with room for the most facts; under claim 1 alone.
    sets: Vec<Set>,
    /// What all ≈ facts rest on.
    pub same: Set,
    /// What all ≉ facts rest on; no step adds one.
    pub differ: Set,
    /// The rows one behind another: a constant, then a coefficient for each column of the question.
    numbers: Vec<i32>,
    pub width: usize,
}

/// What a branch is cut back to.
pub struct Mark {
    pub facts: usize,
    numbers: usize,
    labels: Labels,
    same: Set,
}

impl Branch {
    pub fn new(columns: usize) -> Branch {
        let width = columns + 1;
        Branch {
            facts: Vec::with_capacity(MOST_FACTS),
            labels: std::array::from_fn(|node| node as u8),
            numbers: Vec::with_capacity(MOST_FACTS * width),
            width,
            ..Branch::default()
        }
    }

    pub fn has_room(&self, facts: usize) -> bool {
        self.facts.len() + facts <= MOST_FACTS
    }

    /// The row that begins at `start`.
    pub fn row(&self, start: u16) -> &[i32] {
        &self.numbers[usize::from(start)..][..self.width]
    }

    /// An arithmetic fact by its number.
    pub fn arithmetic(&self, number: usize) -> Option<(Relation, &[i32])> {
        match self.facts.get(number)? {
            Fact::Arithmetic(relation, start) => Some((*relation, self.row(*start))),
            _ => None,
        }
    }

    /// Adds a constraint of the question, of kind 3 or 4.
    pub fn add_constraint(&mut self, kind: u16, body: &[u8]) {
        let (relation, a, b) = (index_at(body, 0), body[2], body[4]);
        match (kind, relation) {
            (3, 0) => self.add_string(Fact::Same(a, b)),
            (3, 1) => self.add_string(Fact::Differ(a, b)),
            (3, _) => self.add_string(Fact::IsLiteral(a, b)),
            _ => self.add_form(Relation::of(relation), &body[2..], 1, 0),
        }
    }

    /// Adds an arithmetic fact with a row of zeros, which the caller fills.
    pub fn add_row(&mut self, relation: Relation) -> &mut [i32] {
        let start = self.numbers.len();
        self.facts.push(Fact::Arithmetic(relation, start as u16));
        self.numbers.resize(start + self.width, 0);
        &mut self.numbers[start..]
    }

    /// Adds an arithmetic fact with `sign` times a form, its constant raised.
    pub fn add_form(&mut self, relation: Relation, form: &[u8], sign: i32, raise: i32) {
        let row = self.add_row(relation);
        row[0] = sign * i32_at(form, 0) + raise;
        for (column, coefficient) in form[4..].as_chunks().0.iter().map(pair) {
            row[1 + column] = sign * coefficient;
        }
    }

    /// Adds an arithmetic fact with the row of another.
    pub fn add_copy(&mut self, relation: Relation, number: usize) -> &mut [i32] {
        let Fact::Arithmetic(_, from) = self.facts[number] else { unreachable!("the fact named is arithmetic") };
        let (from, start) = (usize::from(from), self.numbers.len());
        self.facts.push(Fact::Arithmetic(relation, start as u16));
        self.numbers.extend_from_within(from..from + self.width);
        &mut self.numbers[start..]
    }

    /// Adds a string fact; an ≈ fact joins two labels.
    pub fn add_string(&mut self, fact: Fact) {
        match fact {
            Fact::Same(a, b) => self.join(usize::from(a), usize::from(b)),
            Fact::IsLiteral(a, literal) => self.join(usize::from(a), LITERALS + usize::from(literal)),
            _ => {}
        }
        self.facts.push(fact);
    }

    fn join(&mut self, one: usize, other: usize) {
        let (to, from) = (self.labels[one], self.labels[other]);
        for label in &mut self.labels {
            if *label == from {
                *label = to;
            }
        }
    }

    /// The lowest of so many literals in the class of a variable.
    pub fn literal_of(&self, x: usize, literals: usize) -> Option<usize> {
        (0..literals).find(|literal| self.labels[LITERALS + literal] == self.labels[x])
    }

    pub fn mark(&self) -> Mark {
        Mark { facts: self.facts.len(), numbers: self.numbers.len(), labels: self.labels, same: self.same }
    }

    pub fn cut_back(&mut self, mark: &Mark) {
        self.facts.truncate(mark.facts);
        self.numbers.truncate(mark.numbers);
        self.labels = mark.labels;
        self.same = mark.same;
    }

    /// Every constraint rests on itself.
    pub fn set_roots(&mut self) {
        self.sets = vec![Set::default(); MOST_FACTS];
        for (number, fact) in self.facts.iter().enumerate() {
            let set = Set::only(number);
            self.sets[number] = set;
            match fact {
                Fact::Arithmetic(..) => {}
                Fact::Differ(..) => self.differ = self.differ.with(set),
                _ => self.same = self.same.with(set),
            }
        }
    }

    /// The facts from a number on, all of one step, rest on a set.
    pub fn set_from(&mut self, number: usize, set: Set) {
        self.sets[number..self.facts.len()].fill(set);
        if let Some(Fact::Same(..) | Fact::IsLiteral(..)) = self.facts.get(number) {
            self.same = self.same.with(set);
        }
    }

    /// What a fact rests on. The set of a split's first fact still stands when its branch is cut back to the mark.
    pub fn set_of(&self, number: usize) -> Set {
        self.sets.get(number).copied().unwrap_or_default()
    }

    /// Whether two of so many literals share a class, or a ≉ fact has both sides in one.
    pub fn strings_conflict(&self, literals: usize) -> bool {
        let mut seen = 0u32;
        for label in &self.labels[LITERALS..LITERALS + literals] {
            seen |= 1 << label;
        }
        let apart = |fact: &Fact| match fact {
            Fact::Differ(a, b) => self.labels[usize::from(*a)] == self.labels[usize::from(*b)],
            _ => false,
        };
        (seen.count_ones() as usize) < literals || self.facts.iter().any(apart)
    }
}
