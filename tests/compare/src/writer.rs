//! Writes the records of tickets and questions from decoded values.

use nuldwich_reference::extended::Extended;
use nuldwich_reference::facts::{Fact, Relation, Row};
use nuldwich_reference::question::Question;
use nuldwich_reference::records::record;
use nuldwich_reference::steps::Rule;

/// A body put together from fields.
#[derive(Default)]
struct Body {
    bytes: Vec<u8>,
}

impl Body {
    fn u16(mut self, field: usize) -> Body {
        self.bytes.extend((field as u16).to_le_bytes());
        self
    }

    fn u32(mut self, field: u32) -> Body {
        self.bytes.extend(field.to_le_bytes());
        self
    }

    fn i32(mut self, field: i128) -> Body {
        self.bytes.extend((field as i32).to_le_bytes());
        self
    }

    /// A linear form: constant, then pairs of column and coefficient.
    fn form(mut self, row: &Row) -> Body {
        self = self.i32(row.constant);
        for (column, coefficient) in row.coefficients.iter().enumerate().filter(|(_, c)| **c != 0) {
            self = self.u16(column).i32(*coefficient);
        }
        self
    }

    fn record(self, kind: u16) -> Vec<u8> {
        record(kind, &self.bytes)
    }
}

/// The head record.
pub fn head(n: u32, p: usize, q: usize) -> Vec<u8> {
    Body::default().u32(n).u16(p).u16(q).record(1)
}

/// A literal record.
pub fn literal(text: &[u32]) -> Vec<u8> {
    text.iter().fold(Body::default(), |body, character| body.u32(*character)).record(2)
}

/// A constraint record, of kind 3 or 4.
pub fn constraint(fact: &Fact) -> Vec<u8> {
    let string = |relation, a: &usize, b: &usize| Body::default().u16(relation).u16(*a).u16(*b).record(3);
    match fact {
        Fact::Same(a, b) => string(0, a, b),
        Fact::Differ(a, b) => string(1, a, b),
        Fact::IsLiteral(a, b) => string(2, a, b),
        Fact::Arithmetic(relation, row) => {
            let number = match relation {
                Relation::AtLeast => 0,
                Relation::Equal => 1,
                Relation::NotEqual => 2,
            };
            Body::default().u16(number).form(row).record(4)
        }
    }
}

/// A record of kind 11.
pub fn extended(extended: &Extended) -> Vec<u8> {
    let (function, a, b) = match *extended {
        Extended::Upper { a, b } => (0, a, b),
        Extended::Lower { a, b } => (1, a, b),
        Extended::Read { integer, string } => (2, integer, string),
        Extended::Written { string, integer } => (3, string, integer),
        Extended::Before { a, b } => (4, a, b),
    };
    Body::default().u16(function).u16(a).u16(b).record(11)
}

/// The records of a question: head, literals, constraints, those of kind 11 last.
pub fn question(question: &Question) -> Vec<u8> {
    let mut bytes = head(question.n, question.p, question.q);
    question.literals.iter().skip(1).for_each(|text| bytes.extend(literal(text)));
    question.constraints.iter().for_each(|fact| bytes.extend(constraint(fact)));
    question.extended.iter().for_each(|constraint| bytes.extend(extended(constraint)));
    bytes
}

/// The claim record.
pub fn claim(number: u16) -> Vec<u8> {
    Body::default().u16(usize::from(number)).record(5)
}

/// A step record.
pub fn step(rule: &Rule, child: usize) -> Vec<u8> {
    let body = |number: usize| Body::default().u16(number).u16(child);
    let body = match rule {
        Rule::Sum { divisor, pairs } => {
            pairs.iter().fold(body(1).i32(*divisor), |body, (fact, multiplier)| body.u16(*fact).i32(*multiplier))
        }
        Rule::Branch(row) => body(2).form(row),
        Rule::Apart(fact) => body(3).u16(*fact),
        Rule::AConf(fact) => body(4).u16(*fact),
        Rule::SConf => body(5),
        Rule::SProp { function, x, y } => body(6).u16(*function).u16(*x).u16(*y),
        Rule::LIntro(x) => body(7).u16(*x),
        Rule::LValid(x) => body(8).u16(*x),
        Rule::CCollapse(x) => body(9).u16(*x),
        Rule::CValid(x) => body(10).u16(*x),
        Rule::CInj(x, y) => body(11).u16(*x).u16(*y),
        Rule::Card(variables) => variables.iter().fold(body(12), |body, x| body.u16(*x)),
        Rule::Join(first, second) => body(13).u16(*first).u16(*second),
    };
    body.record(6)
}

/// The model record.
pub fn model(values: &[i128]) -> Vec<u8> {
    values.iter().fold(Body::default(), |body, value| body.i32(*value)).record(7)
}

/// The end record.
pub fn end() -> Vec<u8> {
    record(8, &[])
}
