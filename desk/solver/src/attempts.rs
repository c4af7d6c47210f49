//! Several attempts, each with other ties and more patience, until a ticket fits the limits.

use crate::clock::Clock;
use crate::search::{Effort, Found, Search};
use crate::tree::Stuck;
use crate::writer::{no_solution, strings, TooLarge};
use std::fmt;
use std::time::Duration;
use ticket::{Constraint, Question, Ticket, MOST_FACTS};

/// How long to look, and in how many ways at most.
#[derive(Clone, Debug)]
pub struct Options {
    pub time: Duration,
    pub attempts: usize,
}

impl Default for Options {
    fn default() -> Options {
        Options { time: Duration::from_secs(10), attempts: 16 }
    }
}

/// Why no ticket was written.
#[derive(Clone, Copy, Debug, PartialEq, Eq)]
pub enum Reason {
    /// Over 128 facts on a branch.
    Facts,
    /// Over 64 splits pending, or a search too deep to be a ticket.
    Splits,
    /// Over 32,768 bytes.
    Bytes,
    /// Coefficients past 1,000,000,000, or values of a model past 100,000,000.
    Numbers,
    /// Only texts over 64 characters were found.
    Length,
    Time,
    /// Every attempt came to the end of its nodes or facts.
    Work,
    /// The question has conditions of kind 11, which tickets do not know.
    Extended,
}

#[derive(Clone, Debug)]
pub enum Answer {
    Ticket(Ticket),
    GaveUp(Reason),
}

/// A ticket and, of one that claims no solution, the constraints that the derivation rests on.
pub struct Solved {
    pub ticket: Ticket,
    pub rests: Vec<usize>,
}

impl fmt::Display for Reason {
    fn fmt(&self, to: &mut fmt::Formatter) -> fmt::Result {
        to.write_str(match self {
            Reason::Facts => "no derivation or model was found that keeps to 128 facts on a branch",
            Reason::Splits => "no derivation was found that keeps to 64 pending splits",
            Reason::Bytes => "no derivation or model was found that keeps to 32,768 bytes",
            Reason::Numbers => "no derivation or model was found whose numbers keep to their limits",
            Reason::Length => "only texts of over 64 characters were found",
            Reason::Time => "the time is over",
            Reason::Work => "no derivation or model was found within the nodes and facts of an attempt",
            Reason::Extended => "conditions on case, digits and order can be judged, not solved",
        })
    }
}

impl From<TooLarge> for Reason {
    fn from(limit: TooLarge) -> Reason {
        match limit {
            TooLarge::Facts => Reason::Facts,
            TooLarge::Splits => Reason::Splits,
            TooLarge::Bytes => Reason::Bytes,
            TooLarge::Numbers => Reason::Numbers,
        }
    }
}

impl From<Stuck> for Reason {
    fn from(stuck: Stuck) -> Reason {
        match stuck {
            Stuck::Time => Reason::Time,
            Stuck::Nodes => Reason::Work,
            Stuck::Depth => Reason::Splits,
            Stuck::Numbers => Reason::Numbers,
            Stuck::Length => Reason::Length,
        }
    }
}

/// A ticket for the question, or why there is none. Constraints are numbered as in the ticket: those on strings first. `progress` is told of each attempt.
pub fn solve(question: &Question, options: &Options, progress: &mut dyn FnMut(&str)) -> Answer {
    match solved(&in_order(question), options, progress) {
        Ok(solved) => Answer::Ticket(solved.ticket),
        Err(reason) => Answer::GaveUp(reason),
    }
}

/// The question with its constraints in the order of their bytes.
pub fn in_order(question: &Question) -> Question {
    let mut question = question.clone();
    question.constraints.sort_by_key(|constraint| matches!(constraint, Constraint::Arithmetic(..)));
    question
}

pub fn solved(question: &Question, options: &Options, progress: &mut dyn FnMut(&str)) -> Result<Solved, Reason> {
    if !question.extended.is_empty() {
        return Err(Reason::Extended);
    }
    if question.constraints.len() > MOST_FACTS {
        return Err(Reason::Facts);
    }
    let clock = Clock::new(options.time);
    let mut reason = None;
    for number in 0..options.attempts {
        if clock.is_over() {
            break;
        }
        if number > 0 {
            progress(&format!("attempt {} of {}", number + 1, options.attempts));
        }
        match attempt(question, number, clock) {
            Ok(solved) => return Ok(solved),
            Err(Reason::Length) => return Err(Reason::Length),
            // A limit says more than the time that ran out over it.
            Err(Reason::Time | Reason::Work) => {}
            Err(why) => reason = Some(why),
        }
    }
    Err(reason.unwrap_or(if clock.is_over() { Reason::Time } else { Reason::Work }))
}

fn attempt(question: &Question, number: usize, clock: Clock) -> Result<Solved, Reason> {
    let effort = Effort {
        seed: number as u64,
        nodes: 300 << number.min(10),
        cut_rounds: [1, 3, 0][number % 3],
        forms: [3, 3, 0][number % 3],
        by_length: number % 2 == 1,
        looks: 48,
        patience: [6, 12, 6][number % 3],
    };
    let mut search = Search::new(question, effort, clock);
    match search.run() {
        Found::Closed(closed) => {
            let rests = closed.rests.iter().copied().filter(|id| *id < question.constraints.len()).collect();
            Ok(Solved { ticket: no_solution(question, &search.facts, &closed.tree)?, rests })
        }
        Found::Strings { model, classes } => {
            Ok(Solved { ticket: strings(question, model, &classes)?, rests: Vec::new() })
        }
        Found::Stuck(stuck) => Err(stuck.into()),
    }
}
