//! Judging: questions and answers, grown and damaged.

use crate::assignments::{grow_constraints, grow_variables, small_or_edge, Grown, Wish};
use crate::damage::damage;
use crate::extended;
use crate::operation::{Buffers, Entry, Input, Operation, Reply, Sizes};
use crate::random::Random;
use crate::report::{hex, refused, Report};
use crate::writer;
use nuldwich_reference::judging::unmet;
use nuldwich_reference::records::{record, u16_at, whole_records};
use nuldwich_reference::{judge as reference, Judgement, Side};

/// How many questions with answers are grown.
const GROWN: u64 = 60_000;

/// For how many of a hundred questions constraints of kind 11 are grown; a third has some, as they need variables.
const WITH_EXTENDED: usize = 45;

/// How many of a hundred inputs have several unmet constraints at the least; there the lowest one is not the only choice.
const LEAST_SEVERAL: usize = 20;

/// The number of a reply for a constraint that is not met.
pub const UNMET: u64 = 255;

pub struct Judge;

impl Operation for Judge {
    fn name(&self) -> &'static str {
        "judge"
    }

    fn title(&self) -> &'static str {
        "judging"
    }

    fn entries(&self) -> &'static [Entry] {
        const { &[Entry { name: "judge", lends_work: false, reference: judge }] }
    }

    fn endings(&self) -> &'static [&'static str] {
        &["question", "answer"]
    }

    fn sizes(&self, _: &[String]) -> Sizes {
        Sizes::default()
    }

    /// The outcome, the bytes shown in hexadecimal, and the outcome with every unmet constraint in the lowest one's place.
    fn columns(&self, input: &Input) -> Vec<String> {
        let (question, answer) = (&input.parts[0], &input.parts[1]);
        let (judgement, part) = reference(question, answer);
        let outcome = match judgement {
            Judgement::AllMet => "all met".to_string(),
            Judgement::Unmet(lowest) => format!("unmet {lowest}"),
            Judgement::Refused { number, record } => format!("refused {number} at {record}"),
        };
        let every = match unmet(question, answer).as_deref() {
            Ok([]) | Err(_) => outcome.clone(),
            Ok(numbers) => numbers.iter().fold("unmet".to_string(), |text, number| format!("{text} {number}")),
        };
        vec![outcome, hex(part.bytes(question, answer)), every]
    }

    /// A vector of the first level has one column, with every unmet constraint.
    fn fits(&self, expected: &[String], columns: &[String]) -> bool {
        match expected {
            [every] => *every == columns[2],
            _ => *expected == columns[..2],
        }
    }

    /// The outcome; where the constraint named, or the last one of those met, is of kind 11, with its function.
    fn label(&self, parts: &[Vec<u8>], due: &Reply) -> String {
        match *due {
            [0, ..] => format!("all met{}", with_function(last_constraint(&parts[0]))),
            [UNMET, _, _, offset, _] => {
                let several = unmet(&parts[0], &parts[1]).is_ok_and(|numbers| numbers.len() > 1);
                let function = with_function(&parts[0][offset as usize..]);
                format!("unmet {}{function}", if several { "several" } else { "one" })
            }
            [number, ..] => refused(number),
        }
    }

    fn seeds(&self) -> u64 {
        GROWN
    }

    fn grow(&self, random: &mut Random, hand_on: &mut dyn FnMut(&mut Random, Input)) {
        let (question, answer) = grow_case(random);
        hand_on(random, Input { parts: vec![question, answer], ..Input::default() });
    }

    fn demand_coverage(&self, report: &mut Report) {
        if 100 * report.counted("unmet several") < LEAST_SEVERAL * report.total() {
            report.fail("too few inputs with several unmet constraints");
        }
        for outcome in ["all met", "unmet one", "unmet several"] {
            report.demand_met(&[outcome.to_string()]);
            report.demand_met(&[0, 1, 2, 3, 4].map(|function| format!("{outcome}, function {function}")));
        }
        report.demand_met(&[2, 3, 4, 5, 6, 7, 10, 15, 16].map(refused));
    }
}

/// The reference in the place of `judge`.
fn judge(parts: &[Vec<u8>], _: &mut Buffers) -> Reply {
    let (judgement, part) = reference(&parts[0], &parts[1]);
    let (number, record) = match judgement {
        Judgement::AllMet => (0, 0),
        Judgement::Unmet(number) => (UNMET, number),
        Judgement::Refused { number, record } => (number, record),
    };
    let side = match part.side {
        Side::Question => 0,
        Side::Answer => 1,
    };
    [number, record as u64, side, part.offset as u64, part.length as u64]
}

/// The function of a record of kind 11, as words behind an outcome; nothing for other bytes.
fn with_function(record: &[u8]) -> String {
    if record.len() >= 12 && u16_at(record, 4) == 11 {
        format!(", function {}", u16_at(record, 6))
    } else {
        String::new()
    }
}

/// The last record of a question before its claim or end.
fn last_constraint(question: &[u8]) -> &[u8] {
    let records = whole_records(question).into_iter().take_while(|record| ![5, 8].contains(&record.kind));
    records.last().map_or(&[], |record| &question[record.end - 6 - record.body.len()..record.end])
}

/// A question and an answer, right or wrong in one of many ways.
fn grow_case(random: &mut Random) -> (Vec<u8>, Vec<u8>) {
    let constraints = match random.below(40) {
        0 => 126 + random.below(5),
        1..=3 => random.below(100),
        4..=19 => 8 + random.below(16),
        _ => random.below(8),
    };
    let true_percent = random.pick(&[100, 100, 95, 80, 50]);
    let mut grown = grow_values(random, &Wish { constraints, true_percent, longest: 64 });
    let mut question = writer::question(&grown.question);
    end_question(random, &mut question);
    let mut answer = grown.answer();
    match random.below(100) {
        0..=34 => {}
        35..=54 => answer = other_values(random, &mut grown),
        55..=65 => answer = damage(random, &answer),
        66 => answer = other_length(random, answer),
        67..=69 => answer = long_string(random, &mut grown),
        70..=79 => answer = out_of_range(random, &mut grown),
        _ => question = damage(random, &question),
    }
    (question, answer)
}

/// A question with its assignment. Constraints of kind 11 come first, as values are changed for them; they are the lowest that are
/// not met only where all others are.
pub fn grow_values(random: &mut Random, wish: &Wish) -> Grown {
    let mut grown = grow_variables(random, wish.longest);
    if !random.chance(WITH_EXTENDED) {
        grow_constraints(random, &mut grown, wish);
        return grown;
    }
    let many = 1 + random.below(wish.constraints + 1);
    let count = random.pick(&[1, 2, 3, 4, many]);
    let extended_true = random.pick(&[100, 100, 70, 0]);
    extended::grow(random, &mut grown, count, extended_true);
    let constraints = wish.constraints.saturating_sub(grown.question.extended.len());
    let true_percent = if random.chance(40) { 100 } else { wish.true_percent };
    grow_constraints(random, &mut grown, &Wish { constraints, true_percent, ..*wish });
    grown
}

/// Ends a question at a claim or an end record, whole or not, with or without bytes behind it.
pub fn end_question(random: &mut Random, question: &mut Vec<u8>) {
    match random.below(12) {
        0..=3 => question.extend(writer::claim(1)),
        4 | 5 => question.extend(writer::end()),
        6 => question.extend(record(5, &[9; 7])),
        7 => question.extend([255, 255, 255, 255, 5, 0]),
        8 => question.extend([1, 0, 0, 0, 8, 0]),
        9 => question.extend([writer::claim(2), writer::model(&[0; 3]), vec![7; 5]].concat()),
        10 => question.extend([writer::end(), vec![0; random.below(50)]].concat()),
        _ => {
            question.extend(writer::claim(2));
            let length = 32_766 + random.below(4);
            if random.chance(30) && question.len() < length {
                question.resize(length, 0);
            }
        }
    }
}

/// The answer with one value changed, still of its form and in its range.
fn other_values(random: &mut Random, grown: &mut Grown) -> Vec<u8> {
    let (p, q) = (grown.question.p, grown.question.q);
    if p > 0 && (q == 0 || random.chance(60)) {
        let x = random.below(p);
        match random.below(5) {
            0 => grown.strings[x] = grown.strings[random.below(p)].clone(),
            1 => grown.strings[x] = grown.question.literals[random.below(grown.question.literals.len())].clone(),
            2 => drop(grown.strings[x].pop()),
            3 => turn_character(random, &mut grown.strings[x], grown.question.n),
            _ => {
                grown.strings[x].truncate(63);
                grown.strings[x].push(random.below(grown.question.n as usize) as u32);
            }
        }
    } else if q > 0 {
        let step = random.pick(&[1, -1, 2, 1000]);
        let i = random.below(q);
        grown.integers[i] = (grown.integers[i] + step).clamp(-100_000_000, 100_000_000);
    }
    grown.answer()
}

/// Changes a character by one, or by what is between a letter's cases.
fn turn_character(random: &mut Random, text: &mut [u32], n: u32) {
    if !text.is_empty() {
        let character = &mut text[random.below(text.len())];
        *character = character.saturating_add_signed(random.pick(&[1, -1, 32, -32])).min(n - 1);
    }
}

/// No answer at all, or one with many bytes behind it.
fn other_length(random: &mut Random, mut answer: Vec<u8>) -> Vec<u8> {
    let length = random.pick(&[0, 0, 4_269, 32_769, 65_536, 70_000]);
    answer.resize(length, 0);
    answer
}

/// An answer with a string around the greatest length.
fn long_string(random: &mut Random, grown: &mut Grown) -> Vec<u8> {
    if grown.question.p > 0 {
        let x = random.below(grown.question.p);
        grown.strings[x] = vec![0; 63 + random.below(3)];
    }
    grown.answer()
}

/// An answer with a character that is not below n, or an integer outside its range; now and then with a fault of form too.
fn out_of_range(random: &mut Random, grown: &mut Grown) -> Vec<u8> {
    let (p, q) = (grown.question.p, grown.question.q);
    if p > 0 && (q == 0 || random.chance(60)) {
        let text = &mut grown.strings[random.below(p)];
        let character = grown.question.n + random.pick(&[0, 0, 1, 4_000_000_000]);
        match text.len() {
            0 => text.push(character),
            length => text[random.below(length)] = character,
        }
    } else if q > 0 {
        let i = random.below(q);
        grown.integers[i] = random.pick(&[1, -1]) * (100_000_001 + small_or_edge(random, 2_000_000_000).max(0));
    }
    let answer = grown.answer();
    if random.chance(10) {
        damage(random, &answer)
    } else {
        answer
    }
}
