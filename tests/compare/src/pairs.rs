//! Grows pairs of questions.

use crate::assignments::Wish;
use crate::changes::{any_fact, change};
use crate::damage::damage;
use crate::judge::{end_question, grow_values};
use crate::operation::Input;
use crate::random::Random;
use crate::rewriting::{add, constraint_count, rewrite};
use crate::{extended, writer};
use nuldwich_reference::checking::LONGEST_TICKET;
use nuldwich_reference::facts::{Fact, Relation, Row};
use nuldwich_reference::question::{Question, MOST_FACTS};

/// Two small questions that have nothing to do with each other.
pub const ANY_TWO: &str = "any two";

/// How many rows of 48 columns a question holds.
const FULL: usize = 109;

/// A question beside itself rewritten, twice beside that changed, and spoilt; and two others.
pub fn grow(random: &mut Random, hand_on: &mut dyn FnMut(&mut Random, Input)) {
    let first = grow_question(random);
    let mut second = first.clone();
    let made = rewrite(random, &mut second);
    let input = beside(random, &first, &second, made);
    hand_on(random, input);
    for _ in 0..2 {
        let mut changed = second.clone();
        let made = change(random, &mut changed).into_iter().collect();
        let input = beside(random, &first, &changed, made);
        hand_on(random, input);
    }
    let input = spoilt(random, &first, second);
    hand_on(random, input);
    let input = any_two(random);
    hand_on(random, input);
}

/// A question of few or many constraints, some of which say the same now and then.
fn grow_question(random: &mut Random) -> Question {
    if random.below(200) == 0 {
        return full_question(random);
    }
    let constraints = match random.below(60) {
        0 => 124 + random.below(5),
        1..=3 => random.below(100),
        4..=19 => 8 + random.below(12),
        _ => random.below(8),
    };
    let mut question = grow_values(random, &Wish { constraints, true_percent: 50, longest: 8 }).question;
    if random.chance(40) {
        rewrite(random, &mut question);
    }
    question
}

/// As many rows of 48 columns as a question holds, alike but for a few numbers.
fn full_question(random: &mut Random) -> Question {
    let mut question = Question { n: 128, p: 16, q: 16, literals: vec![Vec::new()], ..Question::default() };
    let mut row = Row::constant(question.columns(), 0);
    row.coefficients.iter_mut().for_each(|coefficient| *coefficient = random.pick(&[2, -4, 6, 700, -100_000_000]));
    for _ in 0..FULL {
        let relation = random.pick(&[Relation::AtLeast, Relation::Equal, Relation::NotEqual]);
        row.coefficients[random.below(48)] = random.pick(&[2, -4, 500_000_000]);
        row.constant = 2 * random.between(-4, 4);
        question.constraints.push(Fact::Arithmetic(relation, row.clone()));
    }
    question
}

/// Two questions in either order, each with an end of its own.
fn beside(random: &mut Random, first: &Question, second: &Question, made: Vec<&'static str>) -> Input {
    let mut parts = vec![ended(random, writer::question(first)), ended(random, writer::question(second))];
    if random.chance(50) {
        parts.reverse();
    }
    Input { parts, made, ..Input::default() }
}

/// A question with its end, behind which a constraint may stand.
fn ended(random: &mut Random, mut question: Vec<u8>) -> Vec<u8> {
    end_question(random, &mut question);
    if random.chance(10) {
        let row = Row::constant(0, random.between(-9, 9));
        question.extend(writer::constraint(&Fact::Arithmetic(Relation::Equal, row)));
    }
    question
}

/// Two questions of which one or both are spoilt; now and then their heads differ.
fn spoilt(random: &mut Random, first: &Question, mut second: Question) -> Input {
    if random.chance(30) {
        second.n = if second.n < 196_608 { second.n + 1 } else { 196_607 };
    }
    let sides = random.pick(&[[true, false], [false, true], [false, true], [true, true]]);
    let question = |random: &mut Random, question: &Question, is_spoilt: bool| match is_spoilt {
        true => spoil(random, question),
        false => ended(random, writer::question(question)),
    };
    let parts = vec![question(random, first, sides[0]), question(random, &second, sides[1])];
    Input { parts, ..Input::default() }
}

/// The bytes of a question with a fault, most of the time.
fn spoil(random: &mut Random, question: &Question) -> Vec<u8> {
    let mut question = question.clone();
    match random.below(12) {
        0 if question.literals.len() > 1 => {
            let literal = 1 + random.below(question.literals.len() - 1);
            question.literals.push(question.literals[literal].clone());
        }
        1 => {
            let missing = (MOST_FACTS + 1).saturating_sub(constraint_count(&question));
            let row = Row::constant(question.columns(), 1);
            question.constraints.extend(vec![Fact::Arithmetic(Relation::AtLeast, row); missing]);
        }
        2 => {
            let mut bytes = ended(random, writer::question(&question));
            bytes.resize(LONGEST_TICKET + random.pick(&[0, 1, 1, 2, 40_000]), 0);
            return bytes;
        }
        3 => {
            let head = writer::head(question.n, question.p, question.q).len();
            return ended(random, writer::question(&question).split_off(head));
        }
        _ => {
            let bytes = ended(random, writer::question(&question));
            return damage(random, &bytes);
        }
    }
    ended(random, writer::question(&question))
}

/// Two small questions, each grown by itself.
fn any_two(random: &mut Random) -> Input {
    let (first, second) = (small(random), small(random));
    let parts = vec![ended(random, writer::question(&first)), ended(random, writer::question(&second))];
    Input { parts, made: vec![ANY_TWO], ..Input::default() }
}

/// One of a few heads, and up to three constraints with small numbers.
fn small(random: &mut Random) -> Question {
    let (p, q) = random.pick(&[(2, 1), (2, 1), (2, 1), (2, 1), (1, 1), (2, 2)]);
    let mut literals = vec![vec![0], vec![1]];
    random.shuffle(&mut literals);
    literals.truncate(random.below(3));
    literals.insert(0, Vec::new());
    let mut question = Question { n: 2, p, q, literals, ..Question::default() };
    for _ in 0..random.below(3) {
        let fact = match any_fact(random, &question) {
            Fact::Arithmetic(relation, _) => {
                let (constant, coefficient) = (random.between(-2, 2), random.between(-2, 2));
                let row = Row::constant(question.columns(), constant).with(random.below(2), coefficient);
                Fact::Arithmetic(relation, row)
            }
            fact => fact,
        };
        add(&mut question, fact);
    }
    if random.chance(20) {
        question.extended.extend(extended::any(random, &question));
    }
    question
}

/// Whether a question has as many rows of 48 columns as any.
pub fn is_full(question: &Question) -> bool {
    let wide = |fact: &&Fact| match fact {
        Fact::Arithmetic(_, row) => row.coefficients.len() == 48 && !row.coefficients.contains(&0),
        _ => false,
    };
    question.constraints.iter().filter(wide).count() == FULL
}
