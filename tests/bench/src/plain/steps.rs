//! Steps that are taken: the rules with one conclusion or none.

use super::branch::Relation::{AtLeast, Equal};
use super::branch::Set;
use super::checking::Checker;
use super::forms::{Step, StepReader};
use super::question::{code_of, within_limit};
use super::records::{i32_at, index_at, pair};
use super::{demand, Checked};

/// Columns of the largest question.
const MOST_COLUMNS: usize = 48;

impl<'a> Checker<'a> {
    pub fn take_step(&mut self, body: &'a [u8]) -> Checked {
        let Step { rule, child, children, operands } = self.read_step(body)?;
        match rule {
            1 => self.sum(operands),
            4 => {
                let fact = index_at(operands, 0);
                self.close(self.is_false(fact), self.branch.set_of(fact))
            }
            5 => {
                let fits = self.branch.strings_conflict(self.question.literal_count);
                self.close(fits, self.branch.same.with(self.branch.differ))
            }
            6 => self.propagate(operands),
            7 | 9 => self.take_from_literal(rule, index_at(operands, 0)),
            13 => self.join(index_at(operands, 0), index_at(operands, 2)),
            _ => self.split(body, children, child),
        }
    }

    /// The newest fact rests on a set.
    fn rest_on(&mut self, set: Set) {
        if self.claim == 1 {
            self.branch.set_from(self.branch.facts.len() - 1, set);
        }
    }

    fn sum(&mut self, operands: &[u8]) -> Checked {
        let mut sums = [0; 1 + MOST_COLUMNS];
        let sums = &mut sums[..self.branch.width];
        let (mut equations, mut set) = (true, Set::default());
        for (fact, multiplier) in operands[4..].as_chunks().0.iter().map(pair) {
            let (relation, row) = self.branch.arithmetic(fact).ok_or(8u64)?;
            demand((relation == AtLeast && multiplier >= 1) || (relation == Equal && multiplier != 0), 8)?;
            equations &= relation == Equal;
            add_times(sums, multiplier, row);
            set = set.with(self.branch.set_of(fact));
        }
        let divisor = i64::from(i32_at(operands, 0));
        let relation = if equations && sums[0] % divisor == 0 { Equal } else { AtLeast };
        // A refusal ends the check, so the row may stand before it is tried.
        let room = self.branch.has_room(1);
        divide(sums, divisor, self.branch.add_row(relation))?;
        demand(room, 10)?;
        self.rest_on(set);
        Ok(())
    }

    fn is_false(&self, fact: usize) -> bool {
        let Some((relation, row)) = self.branch.arithmetic(fact) else { return false };
        !relation.holds(i64::from(row[0])) && row[1..].iter().fold(0, |bits, coefficient| bits | coefficient) == 0
    }

    /// Closes the branch if the rule fits, which rests on a set, and begins the next child of the last pending split.
    fn close(&mut self, fits: bool, set: Set) -> Checked {
        demand(fits && self.claim == 1, 8)?;
        self.core = self.core.with(set);
        let Some(mut split) = self.pending.pop() else {
            self.closed = true;
            return Ok(());
        };
        let (first, set) = (split.mark.facts, self.branch.set_of(split.mark.facts));
        self.branch.cut_back(&split.mark);
        self.begin(split.body, split.next);
        self.branch.set_from(first, set);
        split.next += 1;
        if split.next < split.children {
            self.pending.push(split);
        }
        Ok(())
    }

    fn propagate(&mut self, operands: &[u8]) -> Checked {
        let (x, y) = (index_at(operands, 2), index_at(operands, 4));
        let labels = &self.branch.labels;
        demand(x != y && labels[x] == labels[y], 8)?;
        demand(self.branch.has_room(1), 10)?;
        let place = |x| match index_at(operands, 0) {
            0 => self.question.len_place(x),
            _ => self.question.code_place(x),
        };
        let (x, y) = (place(x), place(y));
        self.add_difference(Equal, x, y);
        self.rest_on(self.branch.same);
        Ok(())
    }

    /// L-Intro and C-Collapse.
    fn take_from_literal(&mut self, rule: usize, x: usize) -> Checked {
        let literal = self.branch.literal_of(x, self.question.literal_count).ok_or(8u64)?;
        let text = self.question.literals[literal];
        demand(self.branch.has_room(1), 10)?;
        match rule {
            7 => self.add_one(Equal, self.question.len_place(x), 1, -(text.len() as i32 / 4)),
            _ => self.add_one(Equal, self.question.code_place(x), 1, -code_of(text)),
        }
        self.rest_on(self.branch.same);
        Ok(())
    }

    fn join(&mut self, first: usize, second: usize) -> Checked {
        let branch = &mut self.branch;
        let opposite = match (branch.arithmetic(first), branch.arithmetic(second)) {
            (Some((AtLeast | Equal, one)), Some((AtLeast | Equal, other))) => {
                one.iter().zip(other).fold(0, |bits, (a, b)| bits | (a + b)) == 0
            }
            _ => false,
        };
        demand(opposite, 8)?;
        demand(branch.has_room(1), 10)?;
        branch.add_copy(Equal, first);
        let set = branch.set_of(first).with(branch.set_of(second));
        self.rest_on(set);
        Ok(())
    }
}

/// Adds a row times a multiplier.
fn add_times(sums: &mut [i64], multiplier: i32, row: &[i32]) {
    for (sum, number) in sums.iter_mut().zip(row) {
        *sum += i64::from(multiplier) * i64::from(*number);
    }
}

/// Divides sums, the columns exactly, the constant rounding down: 8, then 9.
fn divide(sums: &[i64], divisor: i64, row: &mut [i32]) -> Checked {
    let mut good = true;
    for (place, (sum, number)) in sums.iter().zip(row).enumerate() {
        let quotient = if divisor == 1 || *sum == 0 { *sum } else { sum.div_euclid(divisor) };
        demand(place == 0 || quotient * divisor == *sum, 8)?;
        good &= within_limit(quotient);
        *number = quotient as i32;
    }
    demand(good, 9)
}
