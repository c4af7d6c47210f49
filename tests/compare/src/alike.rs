//! "Two questions found the same must have the same solutions": answers that both questions judge.

use crate::attempts::least_unmet;
use crate::judge::{Judge, UNMET};
use crate::library::linked;
use crate::operation::{Buffers, Operation};
use crate::random::Random;
use crate::report::hex;
use nuldwich_reference::answer::{write_answer, Answer};
use nuldwich_reference::leaf::{LONGEST, VALUE_LIMIT};
use nuldwich_reference::question::Question;
use nuldwich_reference::Refusal;

/// What is to be reached: an answer that meets both questions, also with constraints of kind 11, and one that meets neither.
pub const TO_BE_REACHED: [&str; 3] = [ALL_MET, EXTENDED_MET, NOT_MET];
const ALL_MET: &str = "judged alike: all met";
const EXTENDED_MET: &str = "judged alike: all met, kind 11 too";
const NOT_MET: &str = "judged alike: not all met";

/// Of some answers both questions or none are all met, by the reference and by the library's judging, where it is linked: what they reach.
/// Else what is wrong, in words.
pub fn judged_alike(
    parts: &[Vec<u8>],
    read: &[Result<Question, (Refusal, usize)>; 2],
) -> Result<Vec<&'static str>, String> {
    let bytes = parts.iter().flatten();
    let seed = bytes.fold(0, |seed: u64, byte| seed.wrapping_mul(31).wrapping_add(u64::from(*byte)));
    let Ok(question) = &read[(seed % 2) as usize] else { return Ok(Vec::new()) };
    let judged_by_both = |answer: Vec<u8>| match [0, 1].map(|side| judged(&parts[side], &answer)) {
        [Ok(0), Ok(0)] if question.extended.is_empty() => Ok(ALL_MET),
        [Ok(0), Ok(0)] => Ok(EXTENDED_MET),
        [Ok(UNMET), Ok(UNMET)] => Ok(NOT_MET),
        numbers => Err(format!("the same, and answer {} is judged {numbers:?}", hex(&answer))),
    };
    answers(question, seed).into_iter().map(judged_by_both).collect()
}

/// The number that an answer is judged with; where the library is linked, and gives another one, both.
fn judged(question: &[u8], answer: &[u8]) -> Result<u64, [u64; 2]> {
    let parts = [question.to_vec(), answer.to_vec()];
    let (entry, mut none) = (&Judge.entries()[0], Buffers { work: Vec::new(), answer: Vec::new() });
    let due = (entry.reference)(&parts, &mut none)[0];
    let number = linked(entry).map_or(due, |judge| judge(&parts, &mut none)[0]);
    if number == due {
        Ok(number)
    } else {
        Err([due, number])
    }
}

/// Answers to a question: one that leaves few constraints unmet, that with another value, and the one that meets every constraint of
/// kind 11.
fn answers(question: &Question, seed: u64) -> Vec<Vec<u8>> {
    let mut random = Random::new(seed);
    let (mut best, _) = least_unmet(question, seed);
    best.strings.iter_mut().for_each(|text| text.truncate(LONGEST as usize));
    best.integers.iter_mut().for_each(|value| *value = (*value).clamp(-VALUE_LIMIT, VALUE_LIMIT));
    let mut other = best.clone();
    if question.p > 0 && random.chance(50) {
        let (x, length) = (random.below(question.p), random.below(3));
        other.strings[x] = (0..length).map(|_| random.below(question.n as usize) as u32).collect();
    } else if question.q > 0 {
        other.integers[random.below(question.q)] = random.between(-3, 3);
    }
    let empty = Answer { strings: vec![Vec::new(); question.p], integers: vec![-1; question.q] };
    [best, other, empty].iter().map(write_answer).collect()
}
