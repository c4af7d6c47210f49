//! A smaller set of constraints that has no solution either.

use crate::attempts::{in_order, solved, Options, Solved};
use crate::clock::Clock;
use std::time::Duration;
use ticket::{Claim, Question, Ticket};

/// The longest time that one set is tried for.
const TRIAL: Duration = Duration::from_millis(500);

/// Constraints that have no solution by themselves, by their numbers in the question, and the ticket for these alone.
#[derive(Clone, Debug)]
pub struct Smaller {
    pub kept: Vec<usize>,
    pub ticket: Ticket,
}

/// Leaves out constraints of a set that has no solution, one after another, while a derivation for the rest is found. None where no smaller set was found.
/// The numbers are those of the ticket: constraints on strings first. No variable and no literal is left out, so that names and numbers stay.
pub fn smaller(
    question: &Question,
    set: &[usize],
    options: &Options,
    progress: &mut dyn FnMut(&str),
) -> Option<Smaller> {
    let question = in_order(question);
    let clock = Clock::new(options.time);
    let mut kept: Vec<usize> = set.iter().copied().filter(|number| *number < question.constraints.len()).collect();
    let mut best = without_solution(&question, &kept, options, &clock);
    let mut next = 0;
    loop {
        if let Some(best) = &best {
            kept.clone_from(&best.kept);
        }
        if next >= kept.len() || clock.is_over() {
            break;
        }
        progress(&format!("{} conditions clash; looking for fewer", kept.len()));
        let mut fewer = kept.clone();
        fewer.remove(next);
        match without_solution(&question, &fewer, options, &clock) {
            Some(found) => best = Some(found),
            None => next += 1,
        }
    }
    best.filter(|best| best.kept.len() < set.len())
}

/// A derivation for these constraints alone; the numbers kept are those that it rests on, and the ticket is for these.
fn without_solution(question: &Question, numbers: &[usize], options: &Options, clock: &Clock) -> Option<Smaller> {
    let first = trial(question, numbers, options, clock)?;
    let rests: Vec<usize> = first.rests.iter().filter_map(|place| numbers.get(*place).copied()).collect();
    if rests.len() < numbers.len() {
        if let Some(again) = trial(question, &rests, options, clock) {
            return Some(Smaller { kept: rests, ticket: again.ticket });
        }
    }
    Some(Smaller { kept: numbers.to_vec(), ticket: first.ticket })
}

fn trial(question: &Question, numbers: &[usize], options: &Options, clock: &Clock) -> Option<Solved> {
    let mut part = question.clone();
    part.constraints = numbers.iter().filter_map(|number| question.constraints.get(*number).cloned()).collect();
    let options = Options { time: clock.left().min(TRIAL), ..options.clone() };
    let solved = solved(&part, &options, &mut |_| {}).ok()?;
    matches!(solved.ticket.claim, Claim::NoSolution(_)).then_some(solved)
}
