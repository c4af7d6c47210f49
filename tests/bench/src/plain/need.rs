//! What checking a ticket needs: its steps, the most facts on a branch and the most pending splits.

use super::forms::{Step, StepReader};
use super::leaf::read_model;
use super::question::Question;
use super::records::{u16_at, Records, LONGEST_TICKET};
use super::{demand, reply, Checked};
use compare::operation::Reply;

/// A split with so many children not yet begun.
struct Split {
    facts_before: usize,
    facts_added: usize,
    left: usize,
}

/// What has been read of a ticket.
#[derive(Default)]
struct Reading<'a> {
    question: Question<'a>,
    claim: u16,
    facts: usize,
    pending: Vec<Split>,
    /// Whether every branch is closed.
    closed: bool,
    has_model: bool,
    steps: usize,
    most_facts: usize,
    most_pending: usize,
}

pub fn need(ticket: &[u8]) -> Reply {
    if ticket.len() > LONGEST_TICKET {
        return reply(2, 0);
    }
    let mut reading = Reading::default();
    let mut records = Records::new(ticket);
    for number in 0.. {
        let Some((kind, body)) = records.next() else { return reply(3, number) };
        if let Err(refusal) = reading.take(kind, body, records.is_empty()) {
            return reply(refusal, number);
        }
        if kind == 8 {
            break;
        }
    }
    [0, 0, reading.steps as u64, reading.most_facts as u64, reading.most_pending as u64]
}

impl<'a> StepReader<'a> for Reading<'a> {
    fn question(&self) -> &Question<'a> {
        &self.question
    }

    fn claim(&self) -> u16 {
        self.claim
    }
}

impl<'a> Reading<'a> {
    /// Takes one whole record.
    fn take(&mut self, kind: u16, body: &'a [u8], is_last: bool) -> Checked {
        match kind {
            1..=4 => {
                demand(self.claim == 0, 4)?;
                self.question.take(kind, body)
            }
            5 => self.take_claim(body),
            6 => {
                demand(self.claim != 0 && !self.closed && !self.has_model, 4)?;
                self.take_step(body)
            }
            7 => {
                demand(self.claim == 2 && !self.has_model, 4)?;
                self.has_model = true;
                read_model(&self.question, body).map(|_| ())
            }
            8 => {
                demand(self.claim != 0 && is_last, 4)?;
                demand(body.is_empty(), 5)?;
                demand(self.closed || self.has_model, 11)
            }
            _ => Err(4),
        }
    }

    fn take_claim(&mut self, body: &[u8]) -> Checked {
        demand(self.question.has_head() && self.claim == 0, 4)?;
        demand(body.len() == 2, 5)?;
        self.claim = u16_at(body, 0);
        demand(self.claim == 1 || self.claim == 2, 6)?;
        self.facts = self.question.constraint_count;
        self.most_facts = self.facts;
        Ok(())
    }

    fn take_step(&mut self, body: &[u8]) -> Checked {
        let Step { rule, child, children, .. } = self.read_step(body)?;
        self.steps += 1;
        match (rule, self.claim) {
            (4 | 5, 1) => self.close(),
            (4 | 5, _) => {}
            (10, _) => self.split(children, if child == 2 { 3 } else { 2 }, 3),
            _ => self.split(children, 1, 1),
        }
        self.most_facts = self.most_facts.max(self.facts);
        self.most_pending = self.most_pending.max(self.pending.len());
        Ok(())
    }

    /// Adds the facts of the child that begins; the others, under claim 1, wait.
    fn split(&mut self, children: usize, facts_first: usize, facts_later: usize) {
        if self.claim == 1 && children > 1 {
            self.pending.push(Split { facts_before: self.facts, facts_added: facts_later, left: children - 1 });
        }
        self.facts += facts_first;
    }

    /// Begins the next child of the last pending split.
    fn close(&mut self) {
        let Some(split) = self.pending.last_mut() else {
            self.closed = true;
            return;
        };
        self.facts = split.facts_before + split.facts_added;
        split.left -= 1;
        if split.left == 0 {
            self.pending.pop();
        }
    }
}
