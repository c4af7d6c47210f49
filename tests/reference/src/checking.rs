//! Checking: a whole ticket to its verdict or refusal.

use crate::answer::{write_answer, Answer};
use crate::cores::Set;
use crate::derivation::Derivation;
use crate::leaf::{read_model, strings_of};
use crate::question::Question;
use crate::records::{record_at, u16_at, Record};
use crate::rules::Rules;
use crate::steps::read_step;
use crate::{demand, Refusal};

/// The least number of signed 64-bit numbers in the work area.
pub const WORK_AREA: usize = 6_400;

/// The least number of bytes in the answer buffer.
pub const ANSWER_BUFFER: usize = 4_268;

/// "a ticket has at most 32,768 bytes"
pub const LONGEST_TICKET: usize = 32_768;

/// What checking answers. "With "no solution" the checker returns the union over all closing steps, with every other outcome
/// the empty set."
#[derive(Clone, Debug, PartialEq)]
pub enum Outcome {
    Refused { number: Refusal, record: usize },
    NoSolution { core: Set },
    Strings { answer: Vec<u8> },
}

/// What has been read of a ticket; claim 0 stands for none yet.
#[derive(Clone, Default)]
pub struct Ticket {
    pub rules: Rules,
    pub question: Question,
    pub claim: u16,
    pub derivation: Option<Derivation>,
    pub answer: Option<Vec<u8>>,
}

/// "Checking names the first faulty record from 0 (0 for 1 and 2)."
pub fn check(ticket: &[u8], work_len: usize, answer_len: usize) -> Outcome {
    if work_len < WORK_AREA || answer_len < ANSWER_BUFFER {
        return Outcome::Refused { number: 1, record: 0 };
    }
    check_watched(Rules::Now, ticket, &mut |_, _| {})
}

/// Checking with buffers that are large enough; `watch` is shown each record that is taken, and what has been read with it.
pub fn check_watched(rules: Rules, ticket: &[u8], watch: &mut dyn FnMut(&Record, &Ticket)) -> Outcome {
    if ticket.len() > LONGEST_TICKET {
        return Outcome::Refused { number: 2, record: 0 };
    }
    check_records(rules, ticket, watch)
}

/// "Records are read one after another from the lent bytes."
fn check_records(rules: Rules, bytes: &[u8], watch: &mut dyn FnMut(&Record, &Ticket)) -> Outcome {
    let mut ticket = Ticket { rules, ..Ticket::default() };
    let mut start = 0;
    for number in 0.. {
        let Some(record) = record_at(bytes, start) else {
            return Outcome::Refused { number: 3, record: number };
        };
        if let Err(refusal) = ticket.take(&record, bytes.len()) {
            return Outcome::Refused { number: refusal, record: number };
        }
        watch(&record, &ticket);
        if record.kind == 8 {
            break;
        }
        start = record.end;
    }
    ticket.accepted()
}

/// "5 claim, once: u16, 1 for no solution, 2 for strings", behind a question and the claim before it, 0 for none.
pub fn read_claim(question: &Question, before: u16, body: &[u8]) -> Result<u16, Refusal> {
    demand(question.has_head() && before == 0, 4)?;
    demand(body.len() == 2, 5)?;
    let claim = u16_at(body, 0);
    demand(claim == 1 || claim == 2, 6)?;
    Ok(claim)
}

impl Ticket {
    /// The outcome of a ticket whose end was taken.
    pub fn accepted(self) -> Outcome {
        match self.answer {
            Some(answer) => Outcome::Strings { answer },
            None => Outcome::NoSolution { core: self.derivation.expect("an end stands behind a claim").core },
        }
    }

    /// Whether every branch is closed.
    pub fn is_closed(&self) -> bool {
        self.derivation.as_ref().is_some_and(|derivation| derivation.closed)
    }

    /// Takes one whole record; 4 to 14 in this order.
    pub fn take(&mut self, record: &Record, ticket_length: usize) -> Result<(), Refusal> {
        match record.kind {
            5 => self.take_claim(record.body),
            6 => self.take_step(record.body),
            7 => self.take_model(record.body),
            8 => self.take_end(record.body, record.end < ticket_length),
            _ if self.claim != 0 => Err(4),
            kind => self.question.take(kind, record.body),
        }
    }

    fn take_claim(&mut self, body: &[u8]) -> Result<(), Refusal> {
        self.claim = read_claim(&self.question, self.claim, body)?;
        self.derivation = Some(Derivation { rules: self.rules, ..Derivation::new(&self.question) });
        Ok(())
    }

    /// "6 step: u16 rule, u16 child, operands"; "a step follows the last closed branch" is 4.
    fn take_step(&mut self, body: &[u8]) -> Result<(), Refusal> {
        let derivation = self.derivation.as_mut().ok_or(4u64)?;
        demand(self.answer.is_none() && !derivation.closed, 4)?;
        let step = read_step(&self.question, self.claim, body)?;
        derivation.take(&self.question, self.claim, &step)
    }

    /// "7 model, claim 2 only, once".
    fn take_model(&mut self, body: &[u8]) -> Result<(), Refusal> {
        let derivation = self.derivation.as_ref().ok_or(4u64)?;
        demand(self.claim == 2 && self.answer.is_none(), 4)?;
        let model = read_model(&self.question, body)?;
        let integers = model[..self.question.q].to_vec();
        let strings = strings_of(&self.question, &derivation.branch, model)?;
        self.answer = Some(write_answer(&Answer { strings, integers }));
        Ok(())
    }

    /// "8 end, empty"; "11 when the end comes before every branch closed, or before a model".
    fn take_end(&self, body: &[u8], bytes_follow: bool) -> Result<(), Refusal> {
        let derivation = self.derivation.as_ref().ok_or(4u64)?;
        demand(!bytes_follow, 4)?;
        demand(body.is_empty(), 5)?;
        demand(derivation.closed || self.answer.is_some(), 11)
    }
}
