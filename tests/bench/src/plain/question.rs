//! The question: kinds 1 to 4, as every operation reads them, and kind 11, which judging and sameness alone hand on.

use super::records::{i32_at, index_at, pair, u32_at, words};
use super::{demand, Checked};

/// "At most 128 facts stand on a branch", and constraints are facts.
pub const MOST_FACTS: usize = 128;

const LIMIT: i64 = 1_000_000_000;

/// Whether a number lies within ±1,000,000,000.
pub fn within_limit(number: impl Into<i64>) -> bool {
    (-LIMIT..=LIMIT).contains(&number.into())
}

/// A question without its constraints. A literal is the bytes of its characters; literal 0 has none.
#[derive(Default)]
pub struct Question<'a> {
    pub n: u32,
    pub p: usize,
    pub q: usize,
    pub literals: [&'a [u8]; 16],
    pub literal_count: usize,
    pub constraint_count: usize,
    last_kind: u16,
}

impl<'a> Question<'a> {
    pub fn has_head(&self) -> bool {
        self.last_kind > 0
    }

    pub fn columns(&self) -> usize {
        self.q + 2 * self.p
    }

    /// Where the length of a variable stands in a row.
    pub fn len_place(&self, x: usize) -> usize {
        1 + self.q + x
    }

    /// Where the code of a variable stands in a row.
    pub fn code_place(&self, x: usize) -> usize {
        1 + self.q + self.p + x
    }

    /// Takes one whole record of a question with at most 128 constraints.
    pub fn take_limited(&mut self, kind: u16, body: &'a [u8]) -> Checked {
        self.take(kind, body)?;
        demand(self.constraint_count <= MOST_FACTS, 10)
    }

    /// Takes one whole record; a constraint is tried, and the caller keeps it.
    pub fn take(&mut self, kind: u16, body: &'a [u8]) -> Checked {
        let in_place = match kind {
            1 => self.last_kind == 0,
            2 => (1..=2).contains(&self.last_kind) && self.literal_count < 16,
            3 | 4 | 11 => (1..=kind).contains(&self.last_kind),
            _ => false,
        };
        demand(in_place, 4)?;
        self.last_kind = kind;
        match kind {
            1 => self.take_head(body),
            2 => self.take_literal(body),
            _ => {
                match kind {
                    3 => self.string_constraint_in_range(body)?,
                    4 => self.arithmetic_constraint_in_range(body)?,
                    _ => self.extended_constraint_in_range(body)?,
                }
                self.constraint_count += 1;
                Ok(())
            }
        }
    }

    fn take_head(&mut self, body: &[u8]) -> Checked {
        demand(body.len() == 8, 5)?;
        (self.n, self.p, self.q) = (u32_at(body, 0), index_at(body, 4), index_at(body, 6));
        self.literal_count = 1;
        demand((1..=196_608).contains(&self.n) && self.p <= 16 && self.q <= 16, 6)
    }

    fn take_literal(&mut self, body: &'a [u8]) -> Checked {
        demand(body.len() % 4 == 0 && (4..=256).contains(&body.len()), 5)?;
        demand(all_below(self.n, body), 6)?;
        demand(!self.literals[..self.literal_count].contains(&body), 7)?;
        self.literals[self.literal_count] = body;
        self.literal_count += 1;
        Ok(())
    }

    fn string_constraint_in_range(&self, body: &[u8]) -> Checked {
        demand(body.len() == 6, 5)?;
        let (relation, a, b) = (index_at(body, 0), index_at(body, 2), index_at(body, 4));
        let choices = if relation == 2 { self.literal_count } else { self.p };
        demand(relation <= 2 && a < self.p && b < choices, 6)
    }

    fn extended_constraint_in_range(&self, body: &[u8]) -> Checked {
        demand(body.len() == 6, 5)?;
        let (function, a, b) = (index_at(body, 0), index_at(body, 2), index_at(body, 4));
        let choices_of_a = if function == 2 { self.q } else { self.p };
        let choices_of_b = if function == 3 { self.q } else { self.p };
        demand(function <= 4 && a < choices_of_a && b < choices_of_b, 6)
    }

    fn arithmetic_constraint_in_range(&self, body: &[u8]) -> Checked {
        demand(body.len() >= 6 && body.len() % 6 == 0 && body.len() <= 6 + 6 * 48, 5)?;
        demand(index_at(body, 0) <= 2 && self.form_in_range(&body[2..]), 6)
    }

    /// The ranges of a form's constant, columns and coefficients.
    pub fn form_in_range(&self, form: &[u8]) -> bool {
        let mut lowest = 0;
        let mut good = within_limit(i32_at(form, 0));
        for (column, coefficient) in form[4..].as_chunks().0.iter().map(pair) {
            good &= (column >= lowest) & (coefficient != 0) & within_limit(coefficient);
            lowest = column + 1;
        }
        good && lowest <= self.columns()
    }
}

/// Whether all characters of a text are below n.
pub fn all_below(n: u32, text: &[u8]) -> bool {
    words(text).fold(true, |good, character| good & (character < n))
}

/// The code of a text, given by the bytes of its characters.
pub fn code_of(text: &[u8]) -> i32 {
    match text.len() {
        4 => i32_at(text, 0),
        _ => -1,
    }
}
