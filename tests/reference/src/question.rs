//! The question: kinds 1 to 4 of a ticket, and kind 11 where it is judged.

use crate::extended::Extended;
use crate::facts::{Fact, Relation, Row};
use crate::records::{i32_at, u16_at, u32_at};
use crate::{demand, Refusal};

/// "At most 128 facts stand on a branch."
pub const MOST_FACTS: usize = 128;

/// "Kinds 1 to 4 are the question." Literal 0 is the empty string. "Its constraints are facts 0, 1 and on."
#[derive(Clone, Debug, Default)]
pub struct Question {
    pub n: u32,
    pub p: usize,
    pub q: usize,
    pub literals: Vec<Vec<u32>>,
    pub constraints: Vec<Fact>,
    /// "kind 11 after kind 4, counted as constraints": those that follow.
    pub extended: Vec<Extended>,
    pub last_kind: u16,
}

impl Question {
    /// "Columns: the q integer variables, then len of each string variable, then code of each."
    pub fn columns(&self) -> usize {
        self.q + 2 * self.p
    }

    /// The column of "len of each string variable".
    pub fn len_column(&self, variable: usize) -> usize {
        self.q + variable
    }

    /// The column of "code of each".
    pub fn code_column(&self, variable: usize) -> usize {
        self.q + self.p + variable
    }

    /// Whether the head was read.
    pub fn has_head(&self) -> bool {
        self.last_kind > 0
    }

    /// Takes one record of the question: 4 to 7 and 10, in this order.
    pub fn take(&mut self, kind: u16, body: &[u8]) -> Result<(), Refusal> {
        self.read(kind, body)?;
        demand(self.constraints.len() <= MOST_FACTS, 10)
    }

    /// Takes one record of a question that is judged, where kind 11 may stand: 4 to 7 and 10, in this order. "Checking and the
    /// operation of L2 still refuse kind 11 with 4."
    pub fn take_judged(&mut self, kind: u16, body: &[u8]) -> Result<(), Refusal> {
        if kind == 11 {
            self.take_extended(body)?;
        } else {
            self.read(kind, body)?;
        }
        demand(self.constraints.len() + self.extended.len() <= MOST_FACTS, 10)
    }

    /// Takes one record of a question that may have any number of constraints: 4 to 7, in this order.
    pub fn read(&mut self, kind: u16, body: &[u8]) -> Result<(), Refusal> {
        demand(self.in_place(kind), 4)?;
        self.last_kind = kind;
        match kind {
            1 => self.take_head(body),
            2 => self.take_literal(body),
            3 => self.take_string_constraint(body),
            _ => self.take_arithmetic_constraint(body),
        }
    }

    /// "They stand in order of kind"; "a 16th literal" is out of its place.
    fn in_place(&self, kind: u16) -> bool {
        match kind {
            1 => self.last_kind == 0,
            2 => (1..=2).contains(&self.last_kind) && self.literals.len() <= 15,
            3 | 4 => (1..=kind).contains(&self.last_kind),
            _ => false,
        }
    }

    /// "1 head, once: u32 n (1 to 196,608), u16 p string variables, u16 q integer variables (each 0 to 16)."
    fn take_head(&mut self, body: &[u8]) -> Result<(), Refusal> {
        demand(body.len() == 8, 5)?;
        self.n = u32_at(body, 0);
        self.p = usize::from(u16_at(body, 4));
        self.q = usize::from(u16_at(body, 6));
        self.literals.push(Vec::new());
        demand((1..=196_608).contains(&self.n) && self.p <= 16 && self.q <= 16, 6)
    }

    /// "2 literal, 0 to 15 of them: 1 to 64 characters, u32 each, below n."
    fn take_literal(&mut self, body: &[u8]) -> Result<(), Refusal> {
        demand(body.len() % 4 == 0 && (4..=256).contains(&body.len()), 5)?;
        let text: Vec<u32> = body.chunks(4).map(|field| u32_at(field, 0)).collect();
        demand(text.iter().all(|character| *character < self.n), 6)?;
        demand(!self.literals.contains(&text), 7)?;
        self.literals.push(text);
        Ok(())
    }

    /// "3 string constraint: u16 relation, u16 a, u16 b."
    fn take_string_constraint(&mut self, body: &[u8]) -> Result<(), Refusal> {
        demand(body.len() == 6, 5)?;
        let a = usize::from(u16_at(body, 2));
        let b = usize::from(u16_at(body, 4));
        demand(a < self.p, 6)?;
        let (fact, choices) = match u16_at(body, 0) {
            0 => (Fact::Same(a, b), self.p),
            1 => (Fact::Differ(a, b), self.p),
            2 => (Fact::IsLiteral(a, b), self.literals.len()),
            _ => return Err(6),
        };
        demand(b < choices, 6)?;
        self.constraints.push(fact);
        Ok(())
    }

    /// "4 arithmetic constraint: u16 relation, i32 constant, then 0 to 48 pairs."
    fn take_arithmetic_constraint(&mut self, body: &[u8]) -> Result<(), Refusal> {
        demand(body.len() >= 6 && (body.len() - 6) % 6 == 0 && body.len() <= 6 + 48 * 6, 5)?;
        let relation = match u16_at(body, 0) {
            0 => Relation::AtLeast,
            1 => Relation::Equal,
            2 => Relation::NotEqual,
            _ => return Err(6),
        };
        let row = self.read_form(&body[2..])?;
        self.constraints.push(Fact::Arithmetic(relation, row));
        Ok(())
    }

    /// "kind 11 after kind 4 ..: u16 function, u16 a, u16 b". Kinds 3 and 4 may be missing, and none may follow.
    fn take_extended(&mut self, body: &[u8]) -> Result<(), Refusal> {
        demand(self.has_head(), 4)?;
        self.last_kind = 11;
        demand(body.len() == 6, 5)?;
        let a = usize::from(u16_at(body, 2));
        let b = usize::from(u16_at(body, 4));
        let (extended, choices_of_a, choices_of_b) = match u16_at(body, 0) {
            0 => (Extended::Upper { a, b }, self.p, self.p),
            1 => (Extended::Lower { a, b }, self.p, self.p),
            2 => (Extended::Read { integer: a, string: b }, self.q, self.p),
            3 => (Extended::Written { string: a, integer: b }, self.p, self.q),
            4 => (Extended::Before { a, b }, self.p, self.p),
            _ => return Err(6),
        };
        demand(a < choices_of_a && b < choices_of_b, 6)?;
        self.extended.push(extended);
        Ok(())
    }

    /// "i32 constant, then 0 to 48 pairs of u16 column and nonzero i32 coefficient, columns rising strictly."
    pub fn read_form(&self, bytes: &[u8]) -> Result<Row, Refusal> {
        let mut row = Row::constant(self.columns(), i32_at(bytes, 0));
        let mut lowest = 0;
        for pair in bytes[4..].chunks(6) {
            let column = usize::from(u16_at(pair, 0));
            let coefficient = i32_at(pair, 2);
            demand((lowest..self.columns()).contains(&column) && coefficient != 0, 6)?;
            row = row.with(column, coefficient);
            lowest = column + 1;
        }
        demand(row.within_limit(), 6)?;
        Ok(row)
    }
}
