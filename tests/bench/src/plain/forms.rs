//! Steps as they are written: their forms and ranges, and the child field.

use super::question::{within_limit, Question};
use super::records::{i32_at, index_at, pair};
use super::{demand, Checked};

/// Least operand length, stride and greatest count beyond it, by rule number.
const FORMS: [(usize, usize, usize); 14] = [
    (0, 1, 0),
    (10, 6, 7),
    (4, 6, 48),
    (2, 1, 0),
    (2, 1, 0),
    (0, 1, 0),
    (6, 1, 0),
    (2, 1, 0),
    (2, 1, 0),
    (2, 1, 0),
    (2, 1, 0),
    (4, 1, 0),
    (4, 2, 14),
    (4, 1, 0),
];

/// A step whose fields are in their ranges.
pub struct Step<'a> {
    pub rule: usize,
    /// The child taken, from 1; 0 under claim 1.
    pub child: usize,
    /// How many children the rule has; 1 for a rule with one conclusion or none.
    pub children: usize,
    pub operands: &'a [u8],
}

/// What reads the steps of a ticket one by one. Each such type has these functions compiled for itself.
pub trait StepReader<'a> {
    fn question(&self) -> &Question<'a>;

    fn claim(&self) -> u16;

    fn read_step<'b>(&self, body: &'b [u8]) -> Result<Step<'b>, u64> {
        demand(body.len() >= 4, 5)?;
        let (rule, child, operands) = (index_at(body, 0), index_at(body, 2), &body[4..]);
        demand((1..=13).contains(&rule), 6)?;
        let (least, stride, most) = FORMS[rule];
        let more = operands.len().wrapping_sub(least);
        demand(more <= stride * most && more % stride == 0, 5)?;
        self.operands_in_range(rule, operands)?;
        let children = self.children(rule, operands.len());
        demand(if self.claim() == 1 { child == 0 } else { (1..=children).contains(&child) }, 6)?;
        Ok(Step { rule, child, children, operands })
    }

    fn operands_in_range(&self, rule: usize, operands: &[u8]) -> Checked {
        let variables = |from: usize| {
            let fields = operands[from..].as_chunks().0.iter();
            fields.fold(true, |good, field| good & (usize::from(u16::from_le_bytes(*field)) < self.question().p))
        };
        let good = match rule {
            1 => {
                let pairs = operands[4..].as_chunks().0.iter();
                i32_at(operands, 0) >= 1 && pairs.fold(true, |good, field| good & within_limit(pair(field).1))
            }
            2 => self.question().form_in_range(operands),
            3..=5 | 13 => true,
            6 => index_at(operands, 0) <= 1 && variables(2),
            _ => variables(0),
        };
        demand(good, 6)
    }

    fn children(&self, rule: usize, operands_len: usize) -> usize {
        match rule {
            2 | 3 | 8 | 10 => 2,
            11 => 3,
            12 => {
                let m = operands_len / 2;
                m * (m - 1) / 2 + usize::from(self.question().n > 1)
            }
            _ => 1,
        }
    }
}
