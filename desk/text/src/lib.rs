//! The text form of questions, tickets and answers, both ways, as docs/TEXT.md has it.

mod answer;
mod conditions;
mod gather;
mod read;
mod sides;
mod steps;
mod strays;
mod tokens;
mod write;

pub use answer::{read_answer, Answer};
pub use conditions::relations;
pub use read::read;
pub use tokens::Place;
pub use write::{answer_text, column_text, constraint_text, form_text, question_text, quoted, ticket_text};

use std::fmt;
use ticket::{Claim, Question, Ticket};

/// What stands wrong in a text: line and column, both from 1.
#[derive(Clone, Debug, PartialEq, Eq)]
pub struct Mistake {
    pub line: usize,
    pub column: usize,
    pub reason: String,
}

impl fmt::Display for Mistake {
    fn fmt(&self, to: &mut fmt::Formatter) -> fmt::Result {
        write!(to, "{}:{}: {}", self.line, self.column, self.reason)
    }
}

/// The names of the variables. Helpers stand behind the strings that the writer declared, and are named by their texts, as `"J"`.
#[derive(Clone, Debug, Default, PartialEq, Eq)]
pub struct Names {
    pub strings: Vec<String>,
    pub integers: Vec<String>,
}

impl Names {
    /// The names of a question that was read from bytes: x0, x1, .. and i0, i1, ..
    pub fn plain(question: &Question) -> Names {
        let named = |letter: char, count: usize| (0..count).map(|number| format!("{letter}{number}")).collect();
        Names { strings: named('x', question.p), integers: named('i', question.q) }
    }
}

/// A question as it was written, or a whole ticket.
#[derive(Clone, Debug, PartialEq, Eq)]
pub struct Written {
    pub question: Question,
    pub names: Names,
    /// How many strings the writer declared; those behind them are helpers.
    pub declared: usize,
    /// The line of each constraint, by its number over kinds 3, 4 and 11.
    pub lines: Vec<usize>,
    /// The claim of a whole ticket.
    pub claim: Option<Claim>,
}

impl Written {
    /// A question that was read from bytes: no helpers, no lines.
    pub fn plain(question: Question) -> Written {
        let (names, declared) = (Names::plain(&question), question.p);
        Written { question, names, declared, lines: Vec::new(), claim: None }
    }

    /// The bytes of the question, closed by an end record, or of the whole ticket.
    pub fn to_bytes(&self) -> Vec<u8> {
        let question = self.question.clone();
        match &self.claim {
            Some(claim) => Ticket { question, claim: claim.clone() }.to_bytes(),
            None => [question.to_bytes(), ticket::END.to_vec()].concat(),
        }
    }

    /// The strings that a helper has: of each, its variable and its text.
    pub fn helpers(&self) -> Vec<(usize, Vec<u32>)> {
        let literals = self.question.constraints.iter().filter_map(|constraint| match constraint {
            ticket::Constraint::IsLiteral(x, literal) if *x >= self.declared => Some((*x, *literal)),
            _ => None,
        });
        literals.map(|(x, literal)| (x, self.question.literal(literal).unwrap_or_default().to_vec())).collect()
    }
}
