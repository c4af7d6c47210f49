//! Splits: whether they fit, and the facts of their children.

use super::branch::Relation::{self, AtLeast, Equal, NotEqual};
use super::branch::{Fact, Mark, Set};
use super::checking::Checker;
use super::question::within_limit;
use super::records::{i32_at, index_at};
use super::{demand, Checked};

/// "at most 64 splits have children pending"
const MOST_PENDING: usize = 64;

/// A split with children not yet begun, `next` the first of them.
pub struct Split<'a> {
    pub body: &'a [u8],
    pub next: usize,
    pub children: usize,
    pub mark: Mark,
}

impl<'a> Checker<'a> {
    /// Takes a split: under claim 1 all its children, under claim 2 one, counted from 1.
    pub fn split(&mut self, body: &'a [u8], children: usize, child: usize) -> Checked {
        let (rule, operands) = (index_at(body, 0), &body[4..]);
        let set = self.split_set(rule, operands).ok_or(8u64)?;
        let (first, second) = (child != 2, child != 1);
        demand(self.split_within_limit(rule, operands, first, second), 9)?;
        let facts = match (rule, second) {
            (10, true) => 3,
            (10, false) => 2,
            _ => 1,
        };
        let pends = self.claim == 1 && children > 1;
        demand(self.branch.has_room(facts) && !(pends && self.pending.len() == MOST_PENDING), 10)?;
        if pends {
            self.pending.push(Split { body, next: 1, children, mark: self.branch.mark() });
        }
        let first = self.branch.facts.len();
        self.begin(body, child.saturating_sub(1));
        if self.claim == 1 {
            self.branch.set_from(first, set);
        }
        Ok(())
    }

    /// What a split rests on, if it fits.
    fn split_set(&self, rule: usize, operands: &[u8]) -> Option<Set> {
        let x = index_at(operands, 0);
        match rule {
            3 if !matches!(self.branch.arithmetic(x), Some((NotEqual, _))) => None,
            3 => Some(self.branch.set_of(x)),
            11 if x == index_at(operands, 2) => None,
            12 => self.card_set(operands),
            _ => Some(Set::default()),
        }
    }

    /// The constants of the first and the second child, of those that are tried.
    fn split_within_limit(&self, rule: usize, operands: &[u8], first: bool, second: bool) -> bool {
        let (constant, below) = match rule {
            2 => (i32_at(operands, 0), 0),
            3 => (self.branch.arithmetic(index_at(operands, 0)).expect("it fits").1[0], -1),
            _ => return true,
        };
        (!first || within_limit(constant + below)) && (!second || within_limit(-constant - 1))
    }

    /// What Card rests on, if it fits: for each neighbouring pair the lowest fact that states equal lengths.
    fn card_set(&self, operands: &[u8]) -> Option<Set> {
        let mut seen = 0u32;
        for at in (0..operands.len()).step_by(2) {
            seen |= 1 << index_at(operands, at);
        }
        let mut set = Set::default();
        for at in (2..operands.len()).step_by(2) {
            let lowest = self.equal_lengths(index_at(operands, at - 2), index_at(operands, at))?;
            set = set.with(self.branch.set_of(lowest));
        }
        (seen.count_ones() as usize == operands.len() / 2).then_some(set)
    }

    /// The lowest fact which states that the difference of two lengths is 0.
    fn equal_lengths(&self, x: usize, y: usize) -> Option<usize> {
        let (x, y) = (self.question.len_place(x), self.question.len_place(y));
        self.branch.facts.iter().position(|fact| match fact {
            Fact::Arithmetic(Equal, start) => {
                let row = self.branch.row(*start);
                let others = || row.iter().enumerate().all(|(place, number)| place == x || place == y || *number == 0);
                row[x].abs() == 1 && row[x] == -row[y] && others()
            }
            _ => false,
        })
    }

    /// Adds the facts of a child, counted from 0.
    pub fn begin(&mut self, body: &[u8], child: usize) {
        let (rule, operands) = (index_at(body, 0), &body[4..]);
        let x = index_at(operands, 0);
        match (rule, child) {
            (2, 0) => self.branch.add_form(AtLeast, operands, 1, 0),
            (2, _) => self.branch.add_form(AtLeast, operands, -1, -1),
            (3, _) => self.begin_apart(x, child),
            (8, 0) => self.branch.add_string(Fact::IsLiteral(x as u8, 0)),
            (8, _) => self.add_one(AtLeast, self.question.len_place(x), 1, -1),
            (10, _) => self.begin_valid_code(x, child),
            (11, _) => self.begin_injective_code(x, index_at(operands, 2), child),
            _ => self.begin_card(operands, child),
        }
    }

    fn begin_apart(&mut self, fact: usize, child: usize) {
        let row = self.branch.add_copy(AtLeast, fact);
        if child == 1 {
            row.iter_mut().for_each(|number| *number = -*number);
        }
        row[0] -= 1;
    }

    fn begin_valid_code(&mut self, x: usize, child: usize) {
        let (len, code) = (self.question.len_place(x), self.question.code_place(x));
        if child == 0 {
            self.add_one(NotEqual, len, 1, -1);
            self.add_one(Equal, code, 1, 1);
        } else {
            self.add_one(Equal, len, 1, -1);
            self.add_one(AtLeast, code, 1, 0);
            self.add_one(AtLeast, code, -1, self.question.n as i32 - 1);
        }
    }

    fn begin_injective_code(&mut self, x: usize, y: usize, child: usize) {
        let (code_x, code_y) = (self.question.code_place(x), self.question.code_place(y));
        match child {
            0 => self.add_one(Equal, code_x, 1, 1),
            1 => self.add_difference(NotEqual, code_x, code_y),
            _ => self.branch.add_string(Fact::Same(x as u8, y as u8)),
        }
    }

    /// The pair of Card's child in lexicographic order, or the bound behind the last pair.
    fn begin_card(&mut self, operands: &[u8], child: usize) {
        let m = operands.len() / 2;
        let mut left = child;
        for i in 0..m {
            let pairs = m - 1 - i;
            if left < pairs {
                let (x, y) = (index_at(operands, 2 * i), index_at(operands, 2 * (i + 1 + left)));
                return self.branch.add_string(Fact::Same(x as u8, y as u8));
            }
            left -= pairs;
        }
        let len = self.question.len_place(index_at(operands, 0));
        self.add_one(AtLeast, len, 1, -least_length(self.question.n, m));
    }

    /// Adds a row with one coefficient and a constant.
    pub fn add_one(&mut self, relation: Relation, place: usize, coefficient: i32, constant: i32) {
        let row = self.branch.add_row(relation);
        (row[0], row[place]) = (constant, coefficient);
    }

    /// Adds a row with 1 and −1.
    pub fn add_difference(&mut self, relation: Relation, x: usize, y: usize) {
        let row = self.branch.add_row(relation);
        (row[x], row[y]) = (1, -1);
    }
}

/// The least length with n to its power at least m, for n over 1.
pub fn least_length(n: u32, m: usize) -> i32 {
    let (mut length, mut power) = (0, 1);
    while power < m as u64 {
        power *= u64::from(n);
        length += 1;
    }
    length
}
