//! Tickets that are deep or long, and one with any text in it.

use ticket::{Claim, Constraint, Form, Placed, Question, Relation, Step, Ticket, MOST_BYTES};

/// How many splits stand within each other in a deep ticket and in a long one.
const DEEP: usize = 120;
const LONG: usize = 50;

/// x0 is a text; the constraints are given.
fn question(literals: &[&str], constraints: Vec<Constraint>) -> Question {
    let literals = literals.iter().map(|text| text.chars().map(u32::from).collect()).collect();
    Question { n: 128, p: 1, q: 0, literals, constraints, extended: Vec::new() }
}

fn no_solution(question: Question, steps: Vec<Step>) -> Vec<u8> {
    let steps = steps.into_iter().map(|step| Placed { step, child: 0 }).collect();
    Ticket { question, claim: Claim::NoSolution(steps) }.to_bytes()
}

/// x0 is "a" and its length is 0 at most: each split's first child closes at once, and the last child is worked to the end.
pub fn deep() -> Vec<u8> {
    let form = Form { constant: 0, terms: vec![(0, -1)] };
    let constraints = vec![Constraint::IsLiteral(0, 1), Constraint::Arithmetic(Relation::Ge, form)];
    let mut steps: Vec<Step> = (0..DEEP).flat_map(|_| [Step::LValid(0), Step::SConf]).collect();
    let last = 1 + DEEP;
    steps.push(Step::Sum { divisor: 1, pairs: vec![(1, 1), (last, 1)] });
    steps.push(Step::AConf(last + 1));
    no_solution(question(&["a"], constraints), steps)
}

/// x0 is "a" and "b": every branch closes, and as many are made as a ticket holds.
pub fn long() -> Vec<u8> {
    let question = question(&["a", "b"], vec![Constraint::IsLiteral(0, 1), Constraint::IsLiteral(0, 2)]);
    let mut steps = Vec::new();
    // Children left of each split that encloses the branch.
    let mut left: Vec<usize> = Vec::new();
    let mut room = MOST_BYTES - question.to_bytes().len() - 64;
    loop {
        let splits = left.len() < LONG && room > 22 * (LONG + 2);
        room = room.saturating_sub(if splits { 12 } else { 10 });
        steps.push(if splits { Step::LValid(0) } else { Step::SConf });
        if splits {
            left.push(1);
            continue;
        }
        while left.last() == Some(&0) {
            left.pop();
        }
        match left.last_mut() {
            Some(more) => *more -= 1,
            None => return no_solution(question, steps),
        }
    }
}

/// Strings with a text among them.
pub fn with_text(text: &str) -> Vec<u8> {
    let question = question(&[text], vec![Constraint::IsLiteral(0, 1)]);
    let model = vec![text.chars().count() as i64, -1];
    Ticket { question, claim: Claim::Strings { steps: Vec::new(), model } }.to_bytes()
}
