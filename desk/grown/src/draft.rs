//! A question as it grows.

use compare::random::Random;
use std::collections::BTreeMap;
use ticket::{Constraint, Form, Question, Relation};

/// A column by what it stands for.
#[derive(Clone, Copy, Debug, PartialEq, Eq, PartialOrd, Ord)]
pub enum Column {
    Integer(usize),
    Len(usize),
    Code(usize),
}

pub struct Draft {
    pub question: Question,
}

impl Draft {
    pub fn new(n: u32, p: usize, q: usize) -> Draft {
        let (literals, constraints, extended) = (Vec::new(), Vec::new(), Vec::new());
        Draft { question: Question { n, p, q, literals, constraints, extended } }
    }

    fn number(&self, column: Column) -> usize {
        match column {
            Column::Integer(number) => number,
            Column::Len(x) => self.question.len_column(x),
            Column::Code(x) => self.question.code_column(x),
        }
    }

    pub fn add(&mut self, constraint: Constraint) {
        self.question.constraints.push(constraint);
    }

    pub fn arithmetic(&mut self, relation: Relation, constant: i64, terms: &[(Column, i64)]) {
        let mut sums: BTreeMap<usize, i64> = BTreeMap::new();
        for (column, factor) in terms {
            *sums.entry(self.number(*column)).or_insert(0) += factor;
        }
        let terms = sums.into_iter().filter(|term| term.1 != 0).collect();
        self.add(Constraint::Arithmetic(relation, Form { constant, terms }));
    }

    /// low <= column <= high
    pub fn within(&mut self, column: Column, low: i64, high: i64) {
        self.arithmetic(Relation::Ge, -low, &[(column, 1)]);
        self.arithmetic(Relation::Ge, high, &[(column, -1)]);
    }

    pub fn equals(&mut self, column: Column, value: i64) {
        self.arithmetic(Relation::Eq, -value, &[(column, 1)]);
    }

    pub fn differ(&mut self, x: usize, y: usize) {
        self.add(Constraint::NotSame(x, y));
    }

    /// All of these texts differ from each other.
    pub fn all_differ(&mut self, texts: &[usize]) {
        for (place, x) in texts.iter().enumerate() {
            texts[place + 1..].iter().for_each(|y| self.differ(*x, *y));
        }
    }

    /// x is this text.
    pub fn is(&mut self, x: usize, text: &[u32]) {
        let known = self.question.literals.iter().position(|literal| literal == text);
        let number = match known {
            _ if text.is_empty() => 0,
            Some(place) => place + 1,
            None => {
                self.question.literals.push(text.to_vec());
                self.question.literals.len()
            }
        };
        self.add(Constraint::IsLiteral(x, number));
    }

    /// The question with its constraints in a random order, those on strings first, and no more than a ticket takes.
    pub fn finish(mut self, random: &mut Random) -> Question {
        random.shuffle(&mut self.question.constraints);
        self.question.constraints.truncate(128);
        self.question.constraints.sort_by_key(|constraint| matches!(constraint, Constraint::Arithmetic(..)));
        self.question
    }
}
