//! Values as records. A number that its field cannot hold becomes the field's greatest or least, which is outside every range of document 01, so that
//! nothing is ever written that means something else.

use crate::{Claim, Constraint, Extended, Form, Function, Placed, Question, Relation, Step, Ticket};

/// The record of kind 8.
pub const END: [u8; 6] = [0, 0, 0, 0, 8, 0];

/// The fields of one record.
#[derive(Default)]
struct Body(Vec<u8>);

impl Body {
    fn u16(mut self, value: usize) -> Body {
        self.0.extend(u16::try_from(value).unwrap_or(u16::MAX).to_le_bytes());
        self
    }

    fn u32(mut self, value: u32) -> Body {
        self.0.extend(value.to_le_bytes());
        self
    }

    fn i32(mut self, value: i64) -> Body {
        let nearest = if value < 0 { i32::MIN } else { i32::MAX };
        self.0.extend(i32::try_from(value).unwrap_or(nearest).to_le_bytes());
        self
    }

    fn pairs(self, pairs: &[(usize, i64)]) -> Body {
        pairs.iter().fold(self, |body, (number, value)| body.u16(*number).i32(*value))
    }

    fn form(self, form: &Form) -> Body {
        self.i32(form.constant).pairs(&form.terms)
    }

    fn record(self, kind: u16) -> Vec<u8> {
        let length = u32::try_from(self.0.len()).unwrap_or(u32::MAX);
        [&length.to_le_bytes()[..], &kind.to_le_bytes(), &self.0].concat()
    }
}

fn characters(string: &[u32], kind: u16) -> Vec<u8> {
    string.iter().fold(Body::default(), |body, character| body.u32(*character)).record(kind)
}

fn constraint(constraint: &Constraint) -> Vec<u8> {
    let strings = |relation: usize, a: usize, b: usize| Body::default().u16(relation).u16(a).u16(b).record(3);
    match constraint {
        Constraint::Same(a, b) => strings(0, *a, *b),
        Constraint::NotSame(a, b) => strings(1, *a, *b),
        Constraint::IsLiteral(a, b) => strings(2, *a, *b),
        Constraint::Arithmetic(relation, form) => {
            let relation = match relation {
                Relation::Ge => 0,
                Relation::Eq => 1,
                Relation::Ne => 2,
            };
            Body::default().u16(relation).form(form).record(4)
        }
    }
}

fn extended(constraint: &Extended) -> Vec<u8> {
    let (function, a, b) = match constraint {
        Extended::Upper(a, b) => (0, a, b),
        Extended::Lower(a, b) => (1, a, b),
        Extended::Value(a, b) => (2, a, b),
        Extended::Decimal(a, b) => (3, a, b),
        Extended::InOrder(a, b) => (4, a, b),
    };
    Body::default().u16(function).u16(*a).u16(*b).record(11)
}

fn step(placed: &Placed) -> Vec<u8> {
    let rule = |number: usize| Body::default().u16(number).u16(usize::from(placed.child));
    let body = match &placed.step {
        Step::Sum { divisor, pairs } => rule(1).i32(i64::from(*divisor)).pairs(pairs),
        Step::Branch(form) => rule(2).form(form),
        Step::Apart(fact) => rule(3).u16(*fact),
        Step::AConf(fact) => rule(4).u16(*fact),
        Step::SConf => rule(5),
        Step::SProp(Function::Len, x, y) => rule(6).u16(0).u16(*x).u16(*y),
        Step::SProp(Function::Code, x, y) => rule(6).u16(1).u16(*x).u16(*y),
        Step::LIntro(x) => rule(7).u16(*x),
        Step::LValid(x) => rule(8).u16(*x),
        Step::CCollapse(x) => rule(9).u16(*x),
        Step::CValid(x) => rule(10).u16(*x),
        Step::CInj(x, y) => rule(11).u16(*x).u16(*y),
        Step::Card(variables) => variables.iter().fold(rule(12), |body, x| body.u16(*x)),
        Step::Join(first, second) => rule(13).u16(*first).u16(*second),
    };
    body.record(6)
}

impl Question {
    /// The records of kinds 1 to 4 and 11.
    pub fn to_bytes(&self) -> Vec<u8> {
        let mut bytes = Body::default().u32(self.n).u16(self.p).u16(self.q).record(1);
        bytes.extend(self.literals.iter().flat_map(|literal| characters(literal, 2)));
        bytes.extend(self.constraints.iter().flat_map(constraint));
        bytes.extend(self.extended.iter().flat_map(extended));
        bytes
    }
}

impl Ticket {
    pub fn to_bytes(&self) -> Vec<u8> {
        let mut bytes = self.question.to_bytes();
        let (claim, steps) = match &self.claim {
            Claim::NoSolution(steps) => (1, steps),
            Claim::Strings { steps, .. } => (2, steps),
        };
        bytes.extend(Body::default().u16(claim).record(5));
        bytes.extend(steps.iter().flat_map(step));
        if let Claim::Strings { model, .. } = &self.claim {
            bytes.extend(model.iter().fold(Body::default(), |body, value| body.i32(*value)).record(7));
        }
        bytes.extend(END);
        bytes
    }
}

/// An answer: "one record of kind 9 for each string variable, one of kind 10, one of kind 8".
pub fn answer_bytes(strings: &[Vec<u32>], integers: &[i64]) -> Vec<u8> {
    let mut bytes: Vec<u8> = strings.iter().flat_map(|string| characters(string, 9)).collect();
    bytes.extend(integers.iter().fold(Body::default(), |body, value| body.i32(*value)).record(10));
    bytes.extend(END);
    bytes
}
