//! What a step names, why it fits, and its children.

use crate::account::{Note, Scene};
use crate::{standing, words};
use nuldwich_reference::checking::Ticket;
use nuldwich_reference::classes::Classes;
use nuldwich_reference::facts::Fact;
use nuldwich_reference::question::Question;
use nuldwich_reference::records::u16_at;
use nuldwich_reference::rules::{Conclusion, Place};
use nuldwich_reference::steps::{read_step, Rule, Step};

/// Up to this many variables Card's children are shown one by one.
const FEW: usize = 4;

/// Whether the step in a body is one of a closing rule.
pub fn closes(body: &[u8]) -> bool {
    [4, 5].contains(&u16_at(body, 0))
}

/// Does something with the branch of a ticket, its classes computed.
pub fn on_branch<T>(ticket: &Ticket, branch: &[Fact], look: impl Fn(&Place) -> T) -> T {
    let classes = Classes::of(&ticket.question, branch);
    look(&Place { question: &ticket.question, branch, classes: &classes })
}

/// The step in a body of proper form.
pub fn step_in(ticket: &Ticket, body: &[u8]) -> Option<Step> {
    read_step(&ticket.question, ticket.claim, body).ok()
}

/// The children of the step in a body, on the branch where it stands; none for a closing step or one that does not fit.
pub fn children(ticket: &Ticket, body: &[u8]) -> Vec<Vec<Fact>> {
    let (Some(step), Some(derivation)) = (step_in(ticket, body), &ticket.derivation) else {
        return Vec::new();
    };
    match on_branch(ticket, &derivation.branch, |place| place.conclude(&step.rule)) {
        Some(Conclusion::Children(children)) => children,
        _ => Vec::new(),
    }
}

/// The facts that a step names or needs, its premise, and its children where there are several.
pub fn notes(scene: &Scene, body: &[u8]) -> Vec<Note> {
    let Some(step) = step_in(scene.ticket, body) else {
        return Vec::new();
    };
    on_branch(scene.ticket, scene.branch(), |place| {
        let mut notes = facts_used(scene, place, &step.rule);
        notes.extend(premise(scene, place, &step.rule).map(Note::words));
        notes
    })
    .into_iter()
    .chain(children_notes(scene.ticket, &step, &children(scene.ticket, body)))
    .collect()
}

/// The facts that a step names, and those that Card finds.
fn facts_used(scene: &Scene, place: &Place, rule: &Rule) -> Vec<Note> {
    let plain = |facts: Vec<usize>| facts.into_iter().map(|fact| (fact, String::new())).collect();
    let used: Vec<(usize, String)> = match rule {
        Rule::Sum { pairs, .. } => {
            pairs.iter().map(|(fact, times)| (*fact, format!(", times {}", words::number(*times)))).collect()
        }
        Rule::Card(variables) => {
            plain(variables.windows(2).filter_map(|pair| place.equal_lengths(pair[0], pair[1])).collect())
        }
        _ => plain(facts_named(rule)),
    };
    let there = used.into_iter().filter(|(fact, _)| *fact < scene.branch().len());
    there.map(|(fact, times)| fact_used(scene, fact, &times)).collect()
}

/// The facts that a step names by number.
pub fn facts_named(rule: &Rule) -> Vec<usize> {
    match rule {
        Rule::Sum { pairs, .. } => pairs.iter().map(|(fact, _)| *fact).collect(),
        Rule::Apart(fact) | Rule::AConf(fact) => vec![*fact],
        Rule::Join(first, second) => vec![*first, *second],
        _ => Vec::new(),
    }
}

/// `uses fact 3 of record 7: .., times 2`
fn fact_used(scene: &Scene, number: usize, times: &str) -> Note {
    let mut note = standing::fact(scene, "uses fact", number);
    note.text += times;
    note
}

/// Why a rule that looks at classes or divides fits; nothing for the others and for one that does not fit.
fn premise(scene: &Scene, place: &Place, rule: &Rule) -> Option<String> {
    let question = &scene.ticket.question;
    let class = |x: usize| words::class(question, place.classes, x);
    match rule {
        Rule::SConf => conflict(scene, place),
        Rule::SProp { x, y, .. } if x != y && place.classes.together(*x, *y) => {
            Some(format!("{} and {} are in one class: {}", words::variable(*x), words::variable(*y), class(*x)))
        }
        Rule::LIntro(x) | Rule::CCollapse(x) => {
            let literal = words::literal(question, place.classes.literal(*x)?);
            Some(format!("the class of {} holds {literal}: {}", words::variable(*x), class(*x)))
        }
        Rule::Sum { divisor, pairs } => division(question, place, *divisor, pairs),
        _ => None,
    }
}

/// How a sum is divided by more than 1, and whether that leaves a sum of equations an equation.
fn division(question: &Question, place: &Place, divisor: i128, pairs: &[(usize, i128)]) -> Option<String> {
    let total = place.total(pairs).filter(|_| divisor > 1)?;
    let how = match (place.are_equations(pairs), total.constant % divisor == 0) {
        (true, true) => " exactly, the constant too",
        (true, false) => " with the constant rounded down, so the new fact is ≥",
        (false, _) => " with the constant rounded down",
    };
    let (total, divisor) = (words::form(question, &total), words::number(divisor));
    Some(format!("the sum is {total}, to be divided by {divisor}{how}"))
}

/// What makes S-Conf fit: "two different literals share a class, or a ≉ fact has both sides in one".
pub fn conflict(scene: &Scene, place: &Place) -> Option<String> {
    let question = &scene.ticket.question;
    if let Some((low, high)) = place.classes.clash() {
        let (low, high) = (words::literal(question, low), words::literal(question, high));
        return Some(format!("different literals share a class: {low} and {high}"));
    }
    let number = place.classes.broken_difference(place.branch)?;
    let Fact::Differ(a, _) = place.branch[number] else {
        return None;
    };
    let class = words::class(question, place.classes, a);
    Some(format!("{}, {}, has both sides in one class: {class}", scene.fact_name(number), scene.fact_words(number)))
}

/// The children of a split, and which of them are worked.
fn children_notes(ticket: &Ticket, step: &Step, children: &[Vec<Fact>]) -> Vec<Note> {
    if children.len() < 2 {
        return Vec::new();
    }
    let head = match ticket.claim {
        1 => format!("splits into {} children, worked in this order", children.len()),
        _ => format!("has {} children, of which child {} is taken", children.len(), step.child),
    };
    let mut notes = vec![Note::words(head)];
    let first = match &step.rule {
        Rule::Card(variables) if variables.len() > FEW => {
            let pairs = pairs(variables.len());
            let named = words::variables(variables);
            let text = format!("children 1 to {pairs}, each: ≈ between a pair of {named}, in this order");
            notes.push(Note { what: "child", ..Note::words(text) });
            pairs
        }
        _ => 0,
    };
    notes.extend(
        children.iter().enumerate().skip(first).map(|(place, child)| child_note(&ticket.question, place, child)),
    );
    notes
}

/// How many pairs there are of so many variables.
pub fn pairs(variables: usize) -> usize {
    variables * (variables - 1) / 2
}

fn child_note(question: &Question, place: usize, child: &[Fact]) -> Note {
    Note::numbered("child", place + 1, words::facts(question, child))
}
