//! One question: solved, its ticket checked, its verdict compared.

use crate::brute::{decide, meets, Decision};
use crate::otherwise::rechosen;
use compare::report::Report;
use library::{Judgement, Verdict};
use solver::{solve, Answer, Options};
use std::time::Duration;
use ticket::{Claim, Question, Ticket};

/// The time that a question is given.
const TIME: Duration = Duration::from_millis(1500);

/// Counts a question under what it comes to, and under what the brute force says of it.
pub fn examine(question: &Question, name: &str, report: &mut Report) {
    let options = Options { time: TIME, ..Options::default() };
    let decision = decide(question);
    let ticket = match solve(question, &options, &mut |_| {}) {
        Answer::GaveUp(reason) => return report.count(format!("gave up: {reason:?}"), None),
        Answer::Ticket(ticket) => ticket,
    };
    let bytes = ticket.to_bytes();
    let verdict = library::check(&bytes).verdict();
    if decision != Decision::Open {
        report.reach(format!("the brute force decides: {decision:?}"));
    }
    let fault = fault(question, &ticket, &verdict, decision);
    report.count(label(&ticket, &verdict), fault.map(|fault| format!("{name}: {fault}\n  {question:?}")));
}

fn label(ticket: &Ticket, verdict: &Verdict) -> String {
    match (&ticket.claim, verdict) {
        (_, Verdict::Refused(refusal)) => format!("refused {}", refusal.number),
        (Claim::NoSolution(_), _) => "no solution".into(),
        (Claim::Strings { .. }, _) => "strings".into(),
    }
}

/// What is wrong with a ticket, by the library and by the brute force.
fn fault(question: &Question, ticket: &Ticket, verdict: &Verdict, decision: Decision) -> Option<String> {
    if ticket.question != *question {
        return Some("the ticket is for another question".into());
    }
    match verdict {
        Verdict::Refused(refusal) => Some(format!("refused {} at {}", refusal.number, refusal.record)),
        Verdict::NoSolution { .. } if decision == Decision::Solution => Some("no solution, and there is one".into()),
        Verdict::NoSolution { core } if core.iter().any(|number| *number >= question.constraints.len()) => {
            Some("a constraint took part that is not there".into())
        }
        Verdict::NoSolution { .. } => None,
        Verdict::Strings { .. } if decision == Decision::NoSolution => Some("strings, and there are none".into()),
        Verdict::Strings { strings, integers } => {
            let integers: Vec<i64> = integers.iter().map(|integer| i64::from(*integer)).collect();
            let otherwise = || unmet(question, &rechosen(question, strings), &integers);
            let said_free = |fault| format!("free texts chosen otherwise: {fault}");
            unmet(question, strings, &integers).or_else(|| otherwise().map(said_free))
        }
    }
}

/// A constraint that the strings do not meet, by a plain look or by the library's judging.
fn unmet(question: &Question, strings: &[Vec<u32>], integers: &[i64]) -> Option<String> {
    let met = |constraint| meets(question, constraint, strings, integers) == Some(true);
    if let Some(number) = question.constraints.iter().position(|constraint| !met(constraint)) {
        return Some(format!("constraint {number} is not met"));
    }
    let asked = [question.to_bytes(), ticket::END.to_vec()].concat();
    let answer = ticket::answer_bytes(strings, integers);
    match library::judge(&asked, &answer) {
        Judgement::Met => None,
        other => Some(format!("judged {other:?}")),
    }
}
