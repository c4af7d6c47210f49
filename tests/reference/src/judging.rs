//! Judging: whether an answer meets the constraints of a question, and what is shown of the two.

use crate::answer::{read_answer, Answer};
use crate::checking::LONGEST_TICKET;
use crate::facts::Fact;
use crate::question::Question;
use crate::records::{kind_at, record_at, whole_records, Record};
use crate::rules::code_of;
use crate::{demand, Refusal};

/// What judging answers; `Unmet` has the number of "the lowest-numbered constraint that is not met".
#[derive(Clone, Copy, Debug, PartialEq)]
pub enum Judgement {
    AllMet,
    Unmet(usize),
    Refused { number: Refusal, record: usize },
}

/// Which of the two a part is "taken from".
#[derive(Clone, Copy, Debug, PartialEq)]
pub enum Side {
    Question,
    Answer,
}

/// A part of the question's or the answer's bytes.
#[derive(Clone, Copy, Debug, PartialEq)]
pub struct Part {
    pub side: Side,
    pub offset: usize,
    pub length: usize,
}

impl Part {
    /// A whole record, "a u32 body length, a u16 kind, a body".
    fn of(side: Side, record: &Record) -> Part {
        let length = 6 + record.body.len();
        Part { side, offset: record.end - length, length }
    }

    /// "the very bytes"
    pub fn bytes<'a>(&self, question: &'a [u8], answer: &'a [u8]) -> &'a [u8] {
        let whole = match self.side {
            Side::Question => question,
            Side::Answer => answer,
        };
        &whole[self.offset..self.offset + self.length]
    }
}

/// "2 to 7 and 10 for the question, then 15 .., 16 .. Otherwise it says all met", or names "the lowest-numbered constraint
/// that is not met. It also shows the very bytes of the record concerned".
pub fn judge(question: &[u8], answer: &[u8]) -> (Judgement, Part) {
    let judgement = match unmet(question, answer) {
        Err((number, record)) => Judgement::Refused { number, record },
        Ok(numbers) => numbers.first().map_or(Judgement::AllMet, |lowest| Judgement::Unmet(*lowest)),
    };
    (judgement, shown(question, answer, judgement))
}

/// The numbers of all constraints that the answer does not meet, the lowest first; else the refusal and its record.
pub fn unmet(question: &[u8], answer: &[u8]) -> Result<Vec<usize>, (Refusal, usize)> {
    let question = read_question(question)?;
    let answer = read_answer(&question, answer)?;
    let values = column_values(&answer);
    let facts = question.constraints.iter().map(|fact| meets(&question, &answer, &values, fact));
    let met = facts.chain(question.extended.iter().map(|extended| extended.holds(&answer)));
    Ok(met.enumerate().filter(|(_, met)| !met).map(|(number, _)| number).collect())
}

/// "the record concerned, taken from the question for an unmet constraint or from the answer for 15 and 16. For 15 that part
/// is the whole answer, and for every other outcome an empty part of the question."
fn shown(question: &[u8], answer: &[u8], judgement: Judgement) -> Part {
    match judgement {
        Judgement::Unmet(number) => Part::of(Side::Question, &constraint_records(question)[number]),
        Judgement::Refused { number: 15, .. } => Part { side: Side::Answer, offset: 0, length: answer.len() },
        Judgement::Refused { number: 16, record } => Part::of(Side::Answer, &whole_records(answer)[record]),
        _ => Part { side: Side::Question, offset: 0, length: 0 },
    }
}

/// "3 string constraint", "4 arithmetic constraint", "kind 11 .., counted as constraints": their records in order; any behind
/// the question's end come last.
fn constraint_records(question: &[u8]) -> Vec<Record<'_>> {
    whole_records(question).into_iter().filter(|record| [3, 4, 11].contains(&record.kind)).collect()
}

/// "reading ends at the six leading bytes of the first claim or end record; one with no head before it gives 4"
pub fn read_question(bytes: &[u8]) -> Result<Question, (Refusal, usize)> {
    demand(bytes.len() <= LONGEST_TICKET, 2).map_err(|refusal| (refusal, 0))?;
    let mut question = Question::default();
    let mut start = 0;
    let mut number = 0;
    loop {
        let refused = |refusal: Refusal| (refusal, number);
        let kind = kind_at(bytes, start).ok_or(refused(3))?;
        if kind == 5 || kind == 8 {
            demand(question.has_head(), 4).map_err(refused)?;
            return Ok(question);
        }
        let record = record_at(bytes, start).ok_or(refused(3))?;
        question.take_judged(kind, record.body).map_err(refused)?;
        start = record.end;
        number += 1;
    }
}

/// "Columns: the q integer variables, then len of each string variable, then code of each", by the answer.
pub fn column_values(answer: &Answer) -> Vec<i128> {
    let mut values = answer.integers.clone();
    values.extend(answer.strings.iter().map(|text| text.len() as i128));
    values.extend(answer.strings.iter().map(|text| code_of(text)));
    values
}

/// "it meets a constraint when the relation holds for those values with their len and code"
pub fn meets(question: &Question, answer: &Answer, values: &[i128], fact: &Fact) -> bool {
    match fact {
        Fact::Same(a, b) => answer.strings[*a] == answer.strings[*b],
        Fact::Differ(a, b) => answer.strings[*a] != answer.strings[*b],
        Fact::IsLiteral(a, literal) => answer.strings[*a] == question.literals[*literal],
        Fact::Arithmetic(relation, row) => relation.holds(row.value(values)),
    }
}

#[cfg(test)]
mod tests {
    use super::*;
    use crate::records::record;

    /// n = 128, two string variables, one integer variable, a literal of one character.
    fn front() -> Vec<u8> {
        [record(1, &[128, 0, 0, 0, 2, 0, 1, 0]), record(2, &[97, 0, 0, 0])].concat()
    }

    /// x0 ≉ x1, x0 ≈ literal 1, i0 − 5 ≥ 0, 0 = 0, behind a front of 24 bytes; and another constraint behind the end.
    fn question() -> Vec<u8> {
        let differ = record(3, &[1, 0, 0, 0, 1, 0]);
        let literal = record(3, &[2, 0, 0, 0, 1, 0]);
        let at_least = record(4, &[0, 0, 251, 255, 255, 255, 0, 0, 1, 0, 0, 0]);
        let equal = record(4, &[1, 0, 0, 0, 0, 0]);
        [front(), differ.clone(), literal, at_least, equal, record(8, &[]), differ].concat()
    }

    /// x0 of one character, x1 of two, of which the second is given, and i0.
    fn answer(x0: u8, x1: u8, i0: i32) -> Vec<u8> {
        let strings = [record(9, &[x0, 0, 0, 0]), record(9, &[0, 0, 0, 0, x1, 0, 0, 0])];
        [strings.concat(), record(10, &i0.to_le_bytes()), record(8, &[])].concat()
    }

    /// What is judged and shown of an answer to the question.
    fn judged(answer: &[u8]) -> (Judgement, Side, usize, usize) {
        let (judgement, part) = judge(&question(), answer);
        (judgement, part.side, part.offset, part.length)
    }

    #[test]
    fn the_lowest_unmet_constraint_is_named_and_its_record_shown() {
        assert_eq!(judged(&answer(97, 0, 5)), (Judgement::AllMet, Side::Question, 0, 0));
        assert_eq!(judged(&answer(98, 0, 5)), (Judgement::Unmet(1), Side::Question, 36, 12));
        assert_eq!(judged(&answer(98, 0, 4)), (Judgement::Unmet(1), Side::Question, 36, 12));
        assert_eq!(judged(&answer(97, 0, 4)), (Judgement::Unmet(2), Side::Question, 48, 18));
        assert_eq!(unmet(&question(), &answer(98, 0, 4)), Ok(vec![1, 2]));
    }

    #[test]
    fn a_refused_answer_is_shown_whole_or_by_the_record_named() {
        let refused = |number, record| Judgement::Refused { number, record };
        assert_eq!(judged(&[]), (refused(15, 0), Side::Answer, 0, 0));
        assert_eq!(judged(&answer(97, 0, 5)[..39]), (refused(15, 0), Side::Answer, 0, 39));
        assert_eq!(judged(&answer(128, 128, 5)), (refused(16, 0), Side::Answer, 0, 10));
        assert_eq!(judged(&answer(97, 128, -100_000_001)), (refused(16, 1), Side::Answer, 10, 14));
        assert_eq!(judged(&answer(97, 0, 100_000_001)), (refused(16, 2), Side::Answer, 24, 10));
    }

    #[test]
    fn of_a_refused_question_nothing_is_shown() {
        let cut = question()[..70].to_vec();
        let nothing = Part { side: Side::Question, offset: 0, length: 0 };
        assert_eq!(judge(&cut, &[]), (Judgement::Refused { number: 3, record: 5 }, nothing));
    }
    /// The front, x0 ≈ literal 1, the records given and an end.
    fn ended(records: &[Vec<u8>]) -> Vec<u8> {
        [front(), record(3, &[2, 0, 0, 0, 1, 0]), records.concat(), record(8, &[])].concat()
    }

    /// Kind 11: function, a and b.
    fn extended(function: u8, a: u8, b: u8) -> Vec<u8> {
        record(11, &[function, 0, a, 0, b, 0])
    }

    #[test]
    fn kind_11_is_counted_behind_the_other_constraints() {
        let equal = record(4, &[1, 0, 0, 0, 0, 0]);
        let question = ended(&[equal, extended(4, 1, 0), extended(4, 0, 1), extended(2, 0, 0)]);
        let part = |offset| Part { side: Side::Question, offset, length: 12 };
        assert_eq!(judge(&question, &answer(97, 0, -1)), (Judgement::Unmet(3), part(60)));
        assert_eq!(unmet(&question, &answer(97, 0, 5)), Ok(vec![3, 4]));
        let only = [front(), extended(0, 0, 0), record(5, &[1, 0])].concat();
        assert_eq!(judge(&only, &answer(97, 0, 5)), (Judgement::Unmet(0), part(24)));
        assert_eq!(unmet(&only, &answer(65, 0, 5)), Ok(vec![]));
    }

    #[test]
    fn kind_11_is_refused_by_its_place_length_and_ranges() {
        let refusal = |records: &[Vec<u8>]| unmet(&ended(records), &answer(97, 0, 5));
        let behind = [record(2, &[9, 0, 0, 0]), record(3, &[0; 6]), record(4, &[0; 6]), record(9, &[])];
        for other in behind {
            assert_eq!(refusal(&[extended(4, 0, 0), other]), Err((4, 4)));
        }
        for length in [0, 4, 5, 7, 12] {
            assert_eq!(refusal(&[record(11, &vec![255; length])]), Err((5, 3)));
        }
        let outside = [
            (0, 2, 0),
            (0, 0, 2),
            (1, 2, 0),
            (1, 0, 2),
            (2, 1, 0),
            (2, 0, 2),
            (3, 2, 0),
            (3, 0, 1),
            (4, 2, 0),
            (4, 0, 2),
            (5, 0, 0),
        ];
        for (function, a, b) in outside {
            assert_eq!(refusal(&[extended(function, a, b)]), Err((6, 3)));
        }
        assert_eq!(judge(&[extended(4, 0, 0), front()].concat(), &[]).0, Judgement::Refused { number: 4, record: 0 });
        assert!(refusal(&vec![extended(4, 0, 0); 127]).is_ok());
        assert_eq!(refusal(&vec![extended(4, 0, 0); 128]), Err((10, 130)));
    }
}
