//! What a record that was read says.

use crate::account::{Note, Scene};
use crate::{steps, words};
use nuldwich_reference::answer::read_answer;
use nuldwich_reference::checking::Ticket;
use nuldwich_reference::classes::Classes;
use nuldwich_reference::leaf::read_model;
use nuldwich_reference::question::Question;
use nuldwich_reference::records::{u32_at, Record};

/// The lines about a record that was read; `after` has it.
pub fn notes(scene: &Scene, after: &Ticket, record: &Record) -> Vec<Note> {
    match record.kind {
        1 => vec![Note::words(head(&after.question))],
        2 => vec![literal(scene, record.body)],
        3 | 4 => vec![constraint(&after.question)],
        5 => vec![Note::words(claim(after.claim))],
        6 => steps::notes(scene, record.body),
        7 => [columns(&scene.ticket.question, record.body), strings(scene, after, record.body)].concat(),
        _ => vec![Note::words(end(after))],
    }
}

/// The lines about a refused record: a literal's text, what a step uses, what a model says.
pub fn notes_of_refused(scene: &Scene, refusal: u64, record: &Record) -> Vec<Note> {
    match (record.kind, refusal) {
        (2, 6..) => vec![literal(scene, record.body)],
        (6, 8..) => steps::notes(scene, record.body),
        (7, 8..) => columns(&scene.ticket.question, record.body),
        _ => Vec::new(),
    }
}

/// The alphabet, the variables and the columns.
fn head(question: &Question) -> String {
    let greatest = words::number(i128::from(question.n) - 1);
    let strings = words::count(question.p, "string variable");
    let integers = words::count(question.q, "integer variable");
    let columns = (0..question.columns()).map(|place| format!("{place}:{}", words::column(question, place)));
    let columns = columns.collect::<Vec<_>>().join(", ");
    let columns = if columns.is_empty() { "no columns".to_string() } else { format!("columns: {columns}") };
    format!("code points 0 to {greatest}, {strings}, {integers}; {columns}")
}

/// The literal in a body, with the next number.
fn literal(scene: &Scene, body: &[u8]) -> Note {
    let number = scene.ticket.question.literals.len();
    let text: Vec<u32> = body.chunks_exact(4).map(|field| u32_at(field, 0)).collect();
    Note::numbered("literal", number, format!("{}, {}", words::text(&text), words::count(text.len(), "character")))
}

fn constraint(question: &Question) -> Note {
    let number = question.constraints.len() - 1;
    Note::numbered("fact", number, words::fact(question, &question.constraints[number]))
}

fn claim(claim: u16) -> &'static str {
    match claim {
        1 => "claimed: no strings and no integers meet the question; the steps are to close every branch",
        _ => "claimed: strings and integers meet the question; a model is to give them",
    }
}

/// The model by columns.
fn columns(question: &Question, body: &[u8]) -> Vec<Note> {
    let model = read_model(question, body).unwrap_or_default();
    let line = |(place, value): (usize, &i128)| {
        Note::numbered("column", place, format!("{} = {}", words::column(question, place), words::number(*value)))
    };
    model.iter().enumerate().map(line).collect()
}

/// The strings of the answer, and where each comes from.
fn strings(scene: &Scene, after: &Ticket, body: &[u8]) -> Vec<Note> {
    let question = &after.question;
    let (Ok(model), Some(bytes)) = (read_model(question, body), &after.answer) else {
        return Vec::new();
    };
    let Ok(answer) = read_answer(question, bytes) else {
        return Vec::new();
    };
    let classes = Classes::of(question, scene.branch());
    let line = |(x, string): (usize, &Vec<u32>)| {
        let source = source(question, &classes, &model, x);
        value(format!("{} = {}, {source}", words::variable(x), words::text(string)))
    };
    let strings = answer.strings.iter().enumerate().map(line);
    let integers = answer
        .integers
        .iter()
        .enumerate()
        .map(|(i, number)| value(format!("{} = {}", words::integer(i), words::number(*number))));
    let head = match model.len() {
        0 => "the model settles the leaf; with p = 0 and q = 0 it has no values, and neither has the answer",
        _ => "the model settles the leaf; the answer:",
    };
    [Note::words(head)].into_iter().chain(strings).chain(integers).collect()
}

/// A value of the answer.
fn value(text: String) -> Note {
    Note { what: "value", ..Note::words(text) }
}

/// "a class with a literal gets it; a class of length 1 gets the character of its code; then each other class, by lowest variable, .."
fn source(question: &Question, classes: &Classes, model: &[i128], x: usize) -> String {
    let length = model[question.len_column(x)];
    match (classes.literal(x), classes.lowest(x)) {
        (Some(literal), _) => format!("literal {literal}, which its class holds"),
        (_, lowest) if lowest < x => format!("in one class with {}", words::variable(lowest)),
        _ if length == 1 => {
            format!("the character of its code point {}", words::number(model[question.code_column(x)]))
        }
        _ => format!("the smallest string of length {length} by code points not yet given"),
    }
}

fn end(after: &Ticket) -> &'static str {
    match after.answer {
        Some(_) => "the ticket ends with strings",
        None => "the ticket ends with every branch closed",
    }
}
