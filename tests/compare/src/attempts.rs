//! Looks for an assignment that meets the constraints of a question: one that meets most of them is mended again and again.

use crate::random::Random;
use nuldwich_reference::answer::Answer;
use nuldwich_reference::classes::Classes;
use nuldwich_reference::facts::{Fact, Relation, Row};
use nuldwich_reference::judging::{column_values, meets};
use nuldwich_reference::question::Question;

/// How many assignments are begun anew, and how often each is mended.
const BEGUN: usize = 4;
const MENDED: usize = 16;

/// The longest string that is tried, and the greatest integer.
const LONGEST: i128 = 300;
const GREATEST: i128 = 1_000_000_000_000;

/// An assignment to the variables of a question.
struct Attempt<'a> {
    question: &'a Question,
    random: Random,
    assignment: Answer,
}

/// The best of many assignments, and how many constraints it leaves unmet: 0 when it meets all.
pub fn least_unmet(question: &Question, seed: u64) -> (Answer, usize) {
    let assignment = Answer { strings: vec![Vec::new(); question.p], integers: vec![0; question.q] };
    let mut best = (assignment.clone(), usize::MAX);
    let mut attempt = Attempt { question, random: Random::new(seed), assignment };
    for begun in 0..BEGUN {
        attempt.begin(begun % 2 == 0);
        for _ in 0..MENDED {
            let unmet = attempt.unmet();
            if unmet.len() < best.1 {
                best = (attempt.assignment.clone(), unmet.len());
            }
            if unmet.is_empty() {
                return best;
            }
            let fact = attempt.random.pick(&unmet);
            attempt.mend(fact);
        }
    }
    best
}

impl<'a> Attempt<'a> {
    /// The constraints that are not met, as judging goes.
    fn unmet(&self) -> Vec<&'a Fact> {
        let values = column_values(&self.assignment);
        self.question.constraints.iter().filter(|fact| !meets(self.question, &self.assignment, &values, fact)).collect()
    }

    /// A new assignment of small values and literals; at times what the ≈ constraints join has one string, the literal if there is one.
    fn begin(&mut self, joined: bool) {
        for value in &mut self.assignment.integers {
            *value = self.random.between(-3, 3);
        }
        for x in 0..self.question.p {
            self.assignment.strings[x] = self.string();
        }
        if joined {
            let classes = Classes::of(self.question, &self.question.constraints);
            for x in 0..self.question.p {
                let literal = classes.literal(x).map(|literal| self.question.literals[literal].clone());
                self.assignment.strings[x] =
                    literal.unwrap_or_else(|| self.assignment.strings[classes.lowest(x)].clone());
            }
        }
    }

    /// A short string or a literal.
    fn string(&mut self) -> Vec<u32> {
        match self.random.below(4) {
            0 => self.question.literals[self.random.below(self.question.literals.len())].clone(),
            1 => Vec::new(),
            2 => self.text(1),
            _ => {
                let length = self.random.between(1, 4);
                self.text(length)
            }
        }
    }

    /// A string of a length; few characters are tried often, all of them at times.
    fn text(&mut self, length: i128) -> Vec<u32> {
        let characters = if self.random.chance(50) { self.question.n.min(4) } else { self.question.n };
        (0..length).map(|_| self.random.below(characters as usize) as u32).collect()
    }

    /// Changes a value so that a constraint is met, where that can be had by one.
    fn mend(&mut self, fact: &Fact) {
        match fact {
            Fact::Same(a, b) => {
                let (a, b) = if self.random.chance(50) { (*a, *b) } else { (*b, *a) };
                self.assignment.strings[a] = self.assignment.strings[b].clone();
            }
            Fact::Differ(a, b) => {
                let x = self.random.pick(&[*a, *b]);
                let length = self.assignment.strings[x].len() as i128;
                self.assignment.strings[x] = if self.random.chance(60) { self.text(length) } else { self.string() };
            }
            Fact::IsLiteral(a, literal) => self.assignment.strings[*a] = self.question.literals[*literal].clone(),
            Fact::Arithmetic(relation, row) => self.mend_row(*relation, row),
        }
    }

    /// Solves a row for one of its columns.
    fn mend_row(&mut self, relation: Relation, row: &Row) {
        let columns: Vec<usize> = (0..row.coefficients.len()).filter(|column| row.coefficients[*column] != 0).collect();
        if columns.is_empty() {
            return;
        }
        let column = self.random.pick(&columns);
        let (values, coefficient) = (column_values(&self.assignment), row.coefficients[column]);
        let rest = row.value(&values) - coefficient * values[column];
        let bound = (-rest).div_euclid(coefficient);
        let value = match relation {
            Relation::AtLeast => {
                let exact = bound * coefficient == -rest;
                let slack = self.random.pick(&[0, 0, 0, 1, 2]);
                bound + if coefficient > 0 { i128::from(!exact) + slack } else { -slack }
            }
            Relation::Equal => bound,
            Relation::NotEqual => values[column] + self.random.pick(&[1, -1]),
        };
        self.set(column, value);
    }

    /// Gives a column a value, where a string can have it.
    fn set(&mut self, column: usize, value: i128) {
        let Question { q, p, n, .. } = *self.question;
        if column < q {
            self.assignment.integers[column] = value.clamp(-GREATEST, GREATEST);
        } else if column < q + p {
            if (0..=LONGEST).contains(&value) {
                self.assignment.strings[column - q] = self.text(value);
            }
        } else if value == -1 {
            let length = self.random.pick(&[0, 2, 3]);
            self.assignment.strings[column - q - p] = self.text(length);
        } else if (0..i128::from(n)).contains(&value) {
            self.assignment.strings[column - q - p] = vec![value as u32];
        }
    }
}
