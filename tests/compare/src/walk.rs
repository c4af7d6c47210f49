//! Reads a ticket record by record with the reference, and shows each step before it is taken.

use nuldwich_reference::checking::{Outcome, Ticket, LONGEST_TICKET};
use nuldwich_reference::classes::Classes;
use nuldwich_reference::records::{record_at, Record};
use nuldwich_reference::rules::{Conclusion, Place};
use nuldwich_reference::steps::{read_step, Rule};

/// A step of a claim where it stands, and what it does; nothing where it does not fit.
pub struct Shown<'a> {
    pub claim: u16,
    pub place: &'a Place<'a>,
    pub rule: &'a Rule,
    pub conclusion: Option<&'a Conclusion>,
    /// The number of facts at the mark of the last pending split; 0 without one.
    pub mark: usize,
}

/// What has been read of a ticket, and its outcome with buffers that are large enough.
pub struct Walked {
    pub ticket: Ticket,
    pub outcome: Outcome,
}

/// Reads a ticket up to its end or the first record that is refused.
pub fn walk(bytes: &[u8], show: &mut dyn FnMut(&Shown)) -> Walked {
    let mut ticket = Ticket::default();
    if bytes.len() > LONGEST_TICKET {
        return Walked { ticket, outcome: Outcome::Refused { number: 2, record: 0 } };
    }
    let mut start = 0;
    for number in 0.. {
        let record = record_at(bytes, start);
        record.iter().for_each(|record| show_step(&ticket, record, show));
        let taken = record.as_ref().map_or(Err(3), |record| ticket.take(record, bytes.len()));
        if let Err(refusal) = taken {
            return Walked { ticket, outcome: Outcome::Refused { number: refusal, record: number } };
        }
        match record {
            Some(record) if record.kind != 8 => start = record.end,
            _ => break,
        }
    }
    let outcome = ticket.clone().accepted();
    Walked { ticket, outcome }
}

/// Shows a record that is a step of proper form on an open branch.
fn show_step(ticket: &Ticket, record: &Record, show: &mut dyn FnMut(&Shown)) {
    let is_open = record.kind == 6 && ticket.answer.is_none() && !ticket.is_closed();
    let Some(derivation) = ticket.derivation.as_ref().filter(|_| is_open) else { return };
    let Ok(step) = read_step(&ticket.question, ticket.claim, record.body) else { return };
    let classes = Classes::of(&ticket.question, &derivation.branch);
    let place = Place { question: &ticket.question, branch: &derivation.branch, classes: &classes };
    let conclusion = place.conclude(&step.rule);
    let mark = derivation.pending.last().map_or(0, |split| split.mark);
    show(&Shown { claim: ticket.claim, place: &place, rule: &step.rule, conclusion: conclusion.as_ref(), mark });
}
