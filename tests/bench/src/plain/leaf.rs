//! Leaves: whether a model settles one, and the answer.

use super::branch::{Branch, Fact};
use super::question::{code_of, Question};
use super::records::words;
use super::splits::least_length;
use super::{demand, Checked};
use std::ops::Range;

/// Model values and integers of an answer lie within ±100,000,000.
pub const VALUE_LIMIT: i32 = 100_000_000;

/// "14 when a length passes 64"
const LONGEST: i32 = 64;

/// The branch at the model.
pub struct Leaf<'a> {
    pub question: &'a Question<'a>,
    pub branch: &'a Branch,
    pub model: &'a [i32],
}

pub fn read_model(question: &Question, body: &[u8]) -> Result<Vec<i32>, u64> {
    demand(body.len() == 4 * question.columns(), 5)?;
    let model: Vec<i32> = words(body).map(|word| word as i32).collect();
    demand(model.iter().all(|value| (-VALUE_LIMIT..=VALUE_LIMIT).contains(value)), 6)?;
    Ok(model)
}

impl<'a> Leaf<'a> {
    /// 12, 13 and 14.
    pub fn settle(&self) -> Checked {
        demand(self.branch.facts.iter().all(|fact| self.meets(fact)), 12)?;
        demand(self.is_settled(), 13)?;
        demand(self.lengths().iter().all(|length| *length <= LONGEST), 14)
    }

    fn lengths(&self) -> &[i32] {
        &self.model[self.question.q..][..self.question.p]
    }

    fn codes(&self) -> &[i32] {
        &self.model[self.question.q + self.question.p..]
    }

    fn together(&self, x: usize, y: usize) -> bool {
        self.branch.labels[x] == self.branch.labels[y]
    }

    /// The lowest literal of a variable's class, by its number.
    fn literal_of(&self, x: usize) -> Option<usize> {
        self.branch.literal_of(x, self.question.literal_count)
    }

    fn meets(&self, fact: &Fact) -> bool {
        let Fact::Arithmetic(relation, start) = fact else { return true };
        let row = self.branch.row(*start);
        let pairs = row[1..].iter().zip(self.model);
        let products = pairs.map(|(coefficient, value)| i64::from(*coefficient) * i64::from(*value));
        relation.holds(i64::from(row[0]) + products.sum::<i64>())
    }

    fn is_settled(&self) -> bool {
        let all = || 0..self.question.p;
        !self.branch.strings_conflict(self.question.literal_count)
            && all().all(|x| self.variable_is_settled(x))
            && all().all(|x| (0..x).all(|y| self.pair_is_settled(x, y)))
            && all().all(|x| self.length_is_settled(x))
    }

    /// L-Intro, L-Valid, C-Collapse and C-Valid.
    fn variable_is_settled(&self, x: usize) -> bool {
        let (length, code) = (self.lengths()[x], self.codes()[x]);
        let valid = if length == 1 { (0..self.question.n as i32).contains(&code) } else { code == -1 };
        let as_literal = match self.literal_of(x) {
            Some(literal) => {
                let text = self.question.literals[literal];
                length == text.len() as i32 / 4 && code == code_of(text)
            }
            None => length >= 1,
        };
        valid && as_literal
    }

    /// S-Prop and C-Inj.
    fn pair_is_settled(&self, x: usize, y: usize) -> bool {
        let (lengths, codes) = (self.lengths(), self.codes());
        if self.together(x, y) {
            lengths[x] == lengths[y] && codes[x] == codes[y]
        } else {
            codes[x] == -1 || codes[x] != codes[y]
        }
    }

    /// Card: no more classes of the length of x than there are strings.
    fn length_is_settled(&self, x: usize) -> bool {
        let lengths = self.lengths();
        let mut classes = 0u32;
        for (length, label) in lengths.iter().zip(&self.branch.labels) {
            if *length == lengths[x] {
                classes |= 1 << label;
            }
        }
        let m = classes.count_ones() as usize;
        m < 2 || (self.question.n > 1 && lengths[x] >= least_length(self.question.n, m))
    }

    pub fn write_answer(&self, answer: &mut [u8]) {
        let mut starts = [0; 16];
        let mut at = 0;
        for (start, length) in starts.iter_mut().zip(self.lengths()) {
            *start = write_head(answer, at, 9, 4 * *length as usize);
            at = *start + 4 * *length as usize;
        }
        self.write_strings(answer, &starts);
        at = write_head(answer, at, 10, 4 * self.question.q);
        for value in &self.model[..self.question.q] {
            answer[at..at + 4].copy_from_slice(&value.to_le_bytes());
            at += 4;
        }
        write_head(answer, at, 8, 0);
    }

    /// "a class with a literal gets it; a class of length 1 gets the character of its code; then each other class, by lowest variable, .."
    fn write_strings(&self, answer: &mut [u8], starts: &[usize; 16]) {
        let text_of = |x| self.literal_of(x).map(|literal| self.question.literals[literal]);
        let texts: Vec<Option<&[u8]>> = (0..self.question.p).map(text_of).collect();
        let mut last_free = [None; 1 + LONGEST as usize];
        for (x, text) in texts.iter().enumerate() {
            let length = self.lengths()[x] as usize;
            let place = starts[x]..starts[x] + 4 * length;
            if let Some(text) = text {
                answer[place].copy_from_slice(text);
            } else if length == 1 {
                answer[place].copy_from_slice(&self.codes()[x].to_le_bytes());
            } else if let Some(y) = (0..x).find(|y| self.together(x, *y)) {
                answer.copy_within(starts[y]..starts[y] + 4 * length, place.start);
            } else {
                self.write_free(answer, place, last_free[length], &texts);
                last_free[length] = Some(starts[x]);
            }
        }
    }

    /// "the smallest string of its length, by code points, not yet given": behind the last that was given so, and none of a literal's.
    fn write_free(&self, answer: &mut [u8], place: Range<usize>, last: Option<usize>, literals: &[Option<&[u8]>]) {
        match last {
            Some(last) => answer.copy_within(last..last + place.len(), place.start),
            None => answer[place.clone()].fill(0),
        }
        let text = &mut answer[place];
        if last.is_some() {
            self.advance(text);
        }
        while literals.contains(&Some(&*text)) {
            self.advance(text);
        }
    }

    /// The next text of the same length.
    fn advance(&self, text: &mut [u8]) {
        for character in text.as_chunks_mut().0.iter_mut().rev() {
            let next = u32::from_le_bytes(*character) + 1;
            *character = if next == self.question.n { [0; 4] } else { next.to_le_bytes() };
            if next < self.question.n {
                return;
            }
        }
    }
}

/// The six leading bytes of a record; gives where its body starts.
fn write_head(answer: &mut [u8], at: usize, kind: u8, length: usize) -> usize {
    answer[at..at + 4].copy_from_slice(&(length as u32).to_le_bytes());
    answer[at + 4..at + 6].copy_from_slice(&[kind, 0]);
    at + 6
}
