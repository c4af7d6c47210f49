//! Judging: whether an answer meets the constraints of a question.

use super::branch::Relation;
use super::leaf::VALUE_LIMIT;
use super::question::{all_below, code_of, Question};
use super::records::{i32_at, index_at, pair, words, Records, LONGEST_TICKET};
use super::{demand, reply};
use compare::operation::Reply;

/// The number of a reply for a constraint that is not met.
const UNMET: u64 = 255;

/// Whose part a reply shows.
const QUESTION: u64 = 0;
const ANSWER: u64 = 1;

/// The bytes of a record before its body.
const LEADING: usize = 6;

/// A constraint: its record's kind and body, and where the record starts in the question.
pub struct Constraint<'a> {
    pub kind: u16,
    pub body: &'a [u8],
    start: usize,
}

/// The bytes of an answer's strings and its value in every column.
struct Answer<'a> {
    strings: [&'a [u8]; 16],
    values: Vec<i32>,
}

pub fn judge(question: &[u8], answer: &[u8]) -> Reply {
    let mut constraints = Vec::new();
    let judged = read_question(question, &mut constraints).and_then(|question| {
        let answer = read_answer(&question, answer)?;
        Ok(constraints.iter().position(|constraint| !meets(&question, &answer, constraint)))
    });
    match judged {
        Err(refused) => refused,
        Ok(None) => reply(0, 0),
        Ok(Some(number)) => {
            let Constraint { body, start, .. } = constraints[number];
            showing(reply(UNMET, number as u64), QUESTION, start, LEADING + body.len())
        }
    }
}

/// A reply with the part that it shows; without it that is the empty part of the question.
fn showing([number, record, ..]: Reply, side: u64, offset: usize, length: usize) -> Reply {
    [number, record, side, offset as u64, length as u64]
}

/// Reads a question and keeps its constraints; it ends at the six leading bytes of the first claim or end record.
pub fn read_question<'a>(bytes: &'a [u8], constraints: &mut Vec<Constraint<'a>>) -> Result<Question<'a>, Reply> {
    demand(bytes.len() <= LONGEST_TICKET, 2).map_err(|refusal| reply(refusal, 0))?;
    let mut question = Question::default();
    let mut records = Records::new(bytes);
    let mut number = 0;
    loop {
        let refused = |refusal| reply(refusal, number);
        if matches!(records.kind(), Some(5 | 8)) {
            demand(question.has_head(), 4).map_err(refused)?;
            return Ok(question);
        }
        let start = bytes.len() - records.left();
        let (kind, body) = records.next().ok_or(refused(3))?;
        question.take_limited(kind, body).map_err(refused)?;
        if kind > 2 {
            constraints.push(Constraint { kind, body, start });
        }
        number += 1;
    }
}

/// The answer's form, 15, then its ranges, 16.
fn read_answer<'a>(question: &Question, bytes: &'a [u8]) -> Result<Answer<'a>, Reply> {
    let wrong_form = || showing(reply(15, 0), ANSWER, 0, bytes.len());
    let (strings, integers) = read_form(question, bytes).ok_or_else(wrong_form)?;
    let strings_used = &strings[..question.p];
    if let Some(number) = strings_used.iter().position(|text| !all_below(question.n, text)) {
        return Err(out_of_range(&strings[..number], strings[number]));
    }
    let mut values = Vec::with_capacity(question.columns());
    values.extend(words(integers).map(|word| word as i32));
    if !values.iter().all(|value| (-VALUE_LIMIT..=VALUE_LIMIT).contains(value)) {
        return Err(out_of_range(strings_used, integers));
    }
    values.extend(strings_used.iter().map(|text| text.len() as i32 / 4));
    values.extend(strings_used.iter().map(|text| code_of(text)));
    Ok(Answer { strings, values })
}

/// The reply for the answer's record with this body, behind those with the bodies before.
fn out_of_range(before: &[&[u8]], body: &[u8]) -> Reply {
    let start = before.iter().map(|text| LEADING + text.len()).sum();
    showing(reply(16, before.len() as u64), ANSWER, start, LEADING + body.len())
}

/// The strings and the integers of an answer that is exactly of its form.
fn read_form<'a>(question: &Question, bytes: &'a [u8]) -> Option<([&'a [u8]; 16], &'a [u8])> {
    let mut records = Records::new(bytes);
    let mut body_of = |due: u16| records.next().filter(|(kind, _)| *kind == due).map(|(_, body)| body);
    let mut strings: [&[u8]; 16] = Default::default();
    for string in &mut strings[..question.p] {
        *string = body_of(9).filter(|body| body.len() % 4 == 0 && body.len() <= 256)?;
    }
    let integers = body_of(10).filter(|body| body.len() == 4 * question.q)?;
    body_of(8).filter(|body| body.is_empty())?;
    records.is_empty().then_some((strings, integers))
}

fn meets(question: &Question, answer: &Answer, &Constraint { kind, body, .. }: &Constraint) -> bool {
    let relation = index_at(body, 0);
    if kind == 11 {
        return meets_extended(answer, relation, index_at(body, 2), index_at(body, 4));
    }
    if kind == 4 {
        let pairs = body[6..].as_chunks().0.iter().map(pair);
        let products = pairs.map(|(column, coefficient)| i64::from(coefficient) * i64::from(answer.values[column]));
        return Relation::of(relation).holds(i64::from(i32_at(body, 2)) + products.sum::<i64>());
    }
    let (text, b) = (answer.strings[index_at(body, 2)], index_at(body, 4));
    match relation {
        0 => text == answer.strings[b],
        1 => text != answer.strings[b],
        _ => text == question.literals[b],
    }
}

/// Case, digits and order. A numeric text is the decimal of its own value alone, so both functions on digits read the text.
fn meets_extended(answer: &Answer, function: usize, a: usize, b: usize) -> bool {
    let text = |number: usize| answer.strings[number];
    match function {
        0 => same_turned(text(a), text(b), |character| character - 32 * u32::from((97..=122).contains(&character))),
        1 => same_turned(text(a), text(b), |character| character + 32 * u32::from((65..=90).contains(&character))),
        2 => answer.values[a] == number(text(b)).unwrap_or(-1),
        3 if answer.values[b] < 0 => text(a).is_empty(),
        3 => number(text(a)) == Some(answer.values[b]),
        _ => words(text(a)).le(words(text(b))),
    }
}

/// Whether a text is another one with its characters turned.
fn same_turned(text: &[u8], other: &[u8], turned: impl Fn(u32) -> u32) -> bool {
    let pairs = words(text).zip(words(other));
    text.len() == other.len() && pairs.fold(true, |good, (mine, theirs)| good & (mine == turned(theirs)))
}

/// The value of a numeric text, or one that no answer has where it has more than nine digits; nothing for other texts.
fn number(text: &[u8]) -> Option<i32> {
    let leads_with_0 = text.len() > 4 && words(text).next() == Some(48);
    let digits = words(text).fold(true, |good, character| good & (48..=57).contains(&character));
    if text.is_empty() || leads_with_0 || !digits {
        return None;
    }
    if text.len() > 4 * 9 {
        return Some(i32::MAX);
    }
    Some(words(text).fold(0, |value, character| 10 * value + (character as i32 - 48)))
}
