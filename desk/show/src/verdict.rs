//! The verdict of the proved checker.

use nuldwich_reference::cores::Set;
use nuldwich_reference::records::{i32_at, record_at, u32_at};
use nuldwich_reference::Outcome;

/// What `check` returns.
#[derive(Clone, Copy, PartialEq)]
pub struct Reply {
    pub number: u64,
    pub record: u64,
}

/// The replies to a ticket that is accepted as without a solution, and to one that is accepted with strings.
pub const NONE: Reply = Reply { number: 0, record: 1 };
const STRINGS: Reply = Reply { number: 0, record: 2 };

/// What the library's `check` returned, the constraints that took part among it, and the answer buffer after it.
pub struct Verdict {
    pub reply: Reply,
    pub core: Set,
    answer: Vec<u8>,
}

/// Calls the library's `check` on a ticket.
pub fn verdict(ticket: &[u8]) -> Verdict {
    let checked = library::check(ticket);
    let reply = Reply { number: checked.number, record: checked.record };
    Verdict { reply, core: checked.core.into_iter().collect(), answer: checked.answer }
}

impl Verdict {
    /// The program's first line for it.
    pub fn words(&self) -> String {
        match (self.reply.number, self.reply.record) {
            (0, 1) => "verdict none".to_string(),
            (0, _) => "verdict strings".to_string(),
            (number, record) => format!("refused {number} at {record}"),
        }
    }

    /// The strings and integers of the answer; none without one.
    pub fn values(&self) -> (Vec<Vec<u32>>, Vec<i128>) {
        let (mut strings, mut integers, mut start) = (Vec::new(), Vec::new(), 0);
        while let Some(record) = record_at(&self.answer, start).filter(|_| self.reply == STRINGS) {
            let fields = record.body.chunks_exact(4);
            match record.kind {
                9 => strings.push(fields.map(|field| u32_at(field, 0)).collect()),
                10 => integers.extend(fields.map(|field| i32_at(field, 0))),
                _ => break,
            }
            start = record.end;
        }
        (strings, integers)
    }

    /// Whether the reference comes to the same, to the bytes of the answer and the constraints that took part.
    pub fn agrees(&self, outcome: &Outcome) -> bool {
        let none = self.core.is_empty();
        match outcome {
            Outcome::Refused { number, record } => {
                self.reply == Reply { number: *number, record: *record as u64 } && none
            }
            Outcome::NoSolution { core } => self.reply == NONE && self.core == *core,
            Outcome::Strings { answer } => self.reply == STRINGS && self.answer.starts_with(answer) && none,
        }
    }
}
