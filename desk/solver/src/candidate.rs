//! A candidate for a model: the simplex's values, and values to suit for columns that stand in no fact.

use crate::branch::Branch;
use crate::rational::Rational;
use std::collections::BTreeSet;
use ticket::{Question, LONGEST_STRING};

pub struct Candidate<'q> {
    question: &'q Question,
    pub values: Vec<Rational>,
    /// Of each class the variable whose columns are named most.
    pub heads: Vec<usize>,
}

/// How many strings of a length there are.
pub fn room(n: u32, length: i64) -> u64 {
    u64::from(n).saturating_pow(u32::try_from(length).unwrap_or(0).min(64))
}

impl<'q> Candidate<'q> {
    pub fn new(question: &'q Question, branch: &Branch) -> Candidate<'q> {
        let groups = branch.classes.groups();
        let names = |x: &usize| {
            usize::from(branch.is_named(question.code_column(*x)))
                + usize::from(branch.is_named(question.len_column(*x)))
        };
        let heads = groups.iter().filter_map(|group| group.iter().copied().max_by_key(names)).collect();
        let mut candidate = Candidate { question, values: branch.simplex.values().to_vec(), heads };
        candidate.fill(branch, &groups);
        candidate
    }

    pub fn len(&self, x: usize) -> &Rational {
        &self.values[self.question.len_column(x)]
    }

    pub fn code(&self, x: usize) -> &Rational {
        &self.values[self.question.code_column(x)]
    }

    /// A form's value.
    pub fn value(&self, constant: i64, terms: &[(usize, i64)]) -> Rational {
        terms.iter().fold(Rational::from(constant), |sum, (column, factor)| &sum + &self.values[*column].times(*factor))
    }

    /// Lengths that no fact names, then codes that no fact names.
    fn fill(&mut self, branch: &Branch, groups: &[Vec<usize>]) {
        let open = |group: &&Vec<usize>| branch.classes.literal_of(group[0]).is_none();
        let free =
            |group: &[usize], column: &dyn Fn(usize) -> usize| !group.iter().any(|x| branch.is_named(column(*x)));
        let question = self.question;
        let by_length = |group: &&Vec<usize>| free(group, &|x| question.len_column(x));
        let by_code = |group: &&Vec<usize>| free(group, &|x| question.code_column(x));
        let mut done: Vec<usize> =
            groups.iter().filter(|group| !(open(group) && by_length(group))).map(|g| g[0]).collect();
        for group in groups.iter().filter(open).filter(by_length) {
            let length = self.free_length(group[0], by_code(&group), &done);
            group.iter().for_each(|x| self.values[question.len_column(*x)] = Rational::from(length));
            done.push(group[0]);
        }
        for group in groups.iter().filter(open).filter(by_code) {
            let code = self.free_code(group);
            group.iter().for_each(|x| self.values[question.code_column(*x)] = Rational::from(code));
        }
    }

    /// 1 where the code asks for it, else the least length from 2 on with a string to spare.
    fn free_length(&self, x: usize, code_is_free: bool, done: &[usize]) -> i64 {
        if !code_is_free && !self.code(x).is(-1) {
            return 1;
        }
        let taken = |length: i64| done.iter().filter(|y| self.len(**y).is(length)).count() as u64;
        (2..LONGEST_STRING as i64).find(|length| taken(*length) < room(self.question.n, *length)).unwrap_or(2)
    }

    /// The least character that no other text of length 1 has; -1 for other lengths.
    fn free_code(&self, group: &[usize]) -> i64 {
        if !self.len(group[0]).is(1) {
            return -1;
        }
        let others = (0..self.question.p).filter(|y| !group.contains(y) && self.len(*y).is(1));
        let taken: BTreeSet<i64> = others.filter_map(|y| self.code(y).small()).collect();
        (0..i64::from(self.question.n)).find(|code| !taken.contains(code)).unwrap_or(0)
    }
}
