//! The answer's records, written and read.

use crate::leaf::VALUE_LIMIT;
use crate::question::Question;
use crate::records::{i32_at, record, record_at, u32_at};
use crate::Refusal;

/// Strings and integers for the variables of a question.
#[derive(Clone)]
pub struct Answer {
    pub strings: Vec<Vec<u32>>,
    pub integers: Vec<i128>,
}

/// "one record of kind 9 for each string variable (its characters, u32 each, 0 to 64), one of kind 10 (q i32 values), one of kind 8"
pub fn write_answer(answer: &Answer) -> Vec<u8> {
    let mut bytes = Vec::new();
    for text in &answer.strings {
        let body: Vec<u8> = text.iter().flat_map(|character| character.to_le_bytes()).collect();
        bytes.extend(record(9, &body));
    }
    let body: Vec<u8> = answer.integers.iter().flat_map(|value| (*value as i32).to_le_bytes()).collect();
    bytes.extend(record(10, &body));
    bytes.extend(record(8, &[]));
    bytes
}

/// Reads an answer: 15 at record 0, else 16 at "the answer's first such record".
pub fn read_answer(question: &Question, bytes: &[u8]) -> Result<Answer, (Refusal, usize)> {
    let answer = read_form(question, bytes).ok_or((15u64, 0usize))?;
    for (number, text) in answer.strings.iter().enumerate() {
        if text.iter().any(|character| *character >= question.n) {
            return Err((16, number));
        }
    }
    if answer.integers.iter().any(|value| !(-VALUE_LIMIT..=VALUE_LIMIT).contains(value)) {
        return Err((16, question.p));
    }
    Ok(answer)
}

/// Nothing "when the answer is not exactly of its form".
fn read_form(question: &Question, bytes: &[u8]) -> Option<Answer> {
    let mut start = 0;
    let mut strings = Vec::new();
    for _ in 0..question.p {
        let body = body_of(bytes, &mut start, 9)?;
        if body.len() % 4 != 0 || body.len() > 256 {
            return None;
        }
        strings.push(body.chunks(4).map(|field| u32_at(field, 0)).collect());
    }
    let integers = body_of(bytes, &mut start, 10)?;
    let end = body_of(bytes, &mut start, 8)?;
    if integers.len() != 4 * question.q || !end.is_empty() || start != bytes.len() {
        return None;
    }
    Some(Answer { strings, integers: integers.chunks(4).map(|field| i32_at(field, 0)).collect() })
}

/// The body of the next record if it is of this kind; `start` moves behind it.
fn body_of<'a>(bytes: &'a [u8], start: &mut usize, kind: u16) -> Option<&'a [u8]> {
    let record = record_at(bytes, *start)?;
    *start = record.end;
    (record.kind == kind).then_some(record.body)
}
