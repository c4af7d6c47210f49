//! Checking: a whole ticket to its verdict or refusal.

use super::branch::{Branch, Set};
use super::forms::StepReader;
use super::leaf::{read_model, Leaf};
use super::question::Question;
use super::records::{u16_at, Records, LONGEST_TICKET};
use super::splits::Split;
use super::{demand, reply, Checked};
use compare::operation::Reply;

/// The least number of bytes in the answer buffer.
const ANSWER_BUFFER: usize = 4_268;

/// What has been read of a ticket.
#[derive(Default)]
pub struct Checker<'a> {
    pub question: Question<'a>,
    pub branch: Branch,
    pub claim: u16,
    pub pending: Vec<Split<'a>>,
    /// Whether every branch is closed.
    pub closed: bool,
    /// What the closing steps rest on.
    pub core: Set,
    /// The model's values, once it has settled the leaf.
    model: Option<Vec<i32>>,
}

pub fn check(ticket: &[u8], answer: &mut [u8]) -> Reply {
    if answer.len() < ANSWER_BUFFER {
        return reply(1, 0);
    }
    if ticket.len() > LONGEST_TICKET {
        return reply(2, 0);
    }
    let mut checker = Checker::default();
    let mut records = Records::new(ticket);
    for number in 0.. {
        let Some((kind, body)) = records.next() else { return reply(3, number) };
        if let Err(refusal) = checker.take(kind, body, records.is_empty()) {
            return reply(refusal, number);
        }
        if kind == 8 {
            break;
        }
    }
    if let Some(model) = &checker.model {
        checker.leaf(model).write_answer(answer);
    }
    let Set([low, high]) = checker.core;
    [0, u64::from(checker.claim), low, high, 0]
}

impl<'a> StepReader<'a> for Checker<'a> {
    fn question(&self) -> &Question<'a> {
        &self.question
    }

    fn claim(&self) -> u16 {
        self.claim
    }
}

impl<'a> Checker<'a> {
    /// Takes one whole record.
    fn take(&mut self, kind: u16, body: &'a [u8], is_last: bool) -> Checked {
        match kind {
            1..=4 => self.take_question(kind, body),
            5 => self.take_claim(body),
            6 => {
                demand(self.claim != 0 && !self.closed && self.model.is_none(), 4)?;
                self.take_step(body)
            }
            7 => {
                demand(self.claim == 2 && self.model.is_none(), 4)?;
                let model = read_model(&self.question, body)?;
                self.leaf(&model).settle()?;
                self.model = Some(model);
                Ok(())
            }
            8 => {
                demand(self.claim != 0 && is_last, 4)?;
                demand(body.is_empty(), 5)?;
                demand(self.closed || self.model.is_some(), 11)
            }
            _ => Err(4),
        }
    }

    fn leaf<'b>(&'b self, model: &'b [i32]) -> Leaf<'b> {
        Leaf { question: &self.question, branch: &self.branch, model }
    }

    fn take_question(&mut self, kind: u16, body: &'a [u8]) -> Checked {
        demand(self.claim == 0, 4)?;
        self.question.take_limited(kind, body)?;
        match kind {
            1 => self.branch = Branch::new(self.question.columns()),
            3 | 4 => self.branch.add_constraint(kind, body),
            _ => {}
        }
        Ok(())
    }

    fn take_claim(&mut self, body: &[u8]) -> Checked {
        demand(self.question.has_head() && self.claim == 0, 4)?;
        demand(body.len() == 2, 5)?;
        self.claim = u16_at(body, 0);
        if self.claim == 1 {
            self.branch.set_roots();
        }
        demand(self.claim == 1 || self.claim == 2, 6)
    }
}
