//! What a question takes of the limits before anything is derived.

use std::fmt;
use ticket::{Question, MOST_BYTES, MOST_FACTS, MOST_LITERALS, MOST_VARIABLES};

/// Counts of a question; helpers are strings that the text form adds.
#[derive(Clone, Copy, Debug, PartialEq, Eq)]
pub struct Demand {
    pub strings: usize,
    pub integers: usize,
    pub literals: usize,
    /// Constraints, each of them a fact.
    pub facts: usize,
    pub bytes: usize,
}

pub fn demand(question: &Question) -> Demand {
    Demand {
        strings: question.p,
        integers: question.q,
        literals: question.literals.len(),
        facts: question.constraints.len() + question.extended.len(),
        bytes: question.to_bytes().len(),
    }
}

impl Demand {
    /// Whether a limit is passed, so that no ticket can have the question.
    pub fn is_too_much(&self) -> bool {
        self.strings > MOST_VARIABLES
            || self.integers > MOST_VARIABLES
            || self.literals > MOST_LITERALS
            || self.facts > MOST_FACTS
            || self.bytes > MOST_BYTES
    }
}

impl fmt::Display for Demand {
    fn fmt(&self, to: &mut fmt::Formatter) -> fmt::Result {
        write!(
            to,
            "{} of {MOST_VARIABLES} strings, {} of {MOST_VARIABLES} integers, {} of {MOST_LITERALS} texts in quotes, {} of {MOST_FACTS} facts",
            self.strings, self.integers, self.literals, self.facts
        )
    }
}
