//! Rewrites a question as one that is the same.

use crate::random::Random;
use crate::wander::greatest_common_divisor;
use nuldwich_reference::facts::{Fact, Relation, Row};
use nuldwich_reference::question::{Question, MOST_FACTS};
use nuldwich_reference::same::forms;

/// What is done to a question; false where it stays as it is.
pub type Doing = fn(&mut Random, &mut Question) -> bool;

/// All rewritings, in the order in which they are done: none undoes an earlier one, and later ones write repeats in different ways.
pub const REWRITINGS: [(&str, Doing); 14] = [
    ("rewritten: repeats left out", leave_out_repeats),
    ("rewritten: repeats added", add_repeats),
    ("rewritten: sides of ≈", turn_same),
    ("rewritten: sides of ≉", turn_differ),
    ("rewritten: rows divided", divide),
    ("rewritten: rows multiplied", multiply),
    ("rewritten: sign of =", |random, question| turn_sign(random, question, Relation::Equal)),
    ("rewritten: sign of ≠", |random, question| turn_sign(random, question, Relation::NotEqual)),
    ("rewritten: unused literal left out", leave_out_literal),
    ("rewritten: unused literal added", add_literal),
    ("rewritten: literals renumbered", renumber),
    ("rewritten: order of kind 3", |random, question| shuffled(random, by_kind(question).0)),
    ("rewritten: order of kind 4", |random, question| shuffled(random, by_kind(question).1)),
    ("rewritten: order of kind 11", |random, question| shuffled(random, &mut question.extended)),
];

/// Rewrites a question in one way or in many, and says in which.
pub fn rewrite(random: &mut Random, question: &mut Question) -> Vec<&'static str> {
    let only = random.chance(30).then(|| random.below(REWRITINGS.len()));
    let percent = random.pick(&[40, 70, 100]);
    let mut done = Vec::new();
    for (number, (label, rewriting)) in REWRITINGS.iter().enumerate() {
        let wanted = only.map_or_else(|| random.chance(percent), |only| only == number);
        if wanted && rewriting(random, question) {
            done.push(*label);
        }
    }
    done
}

/// How many constraints a question has.
pub fn constraint_count(question: &Question) -> usize {
    question.constraints.len() + question.extended.len()
}

/// Adds a constraint among those of its kind.
pub fn add(question: &mut Question, fact: Fact) {
    let place = if is_row(&fact) { question.constraints.len() } else { 0 };
    question.constraints.insert(place, fact);
}

pub fn is_row(fact: &Fact) -> bool {
    matches!(fact, Fact::Arithmetic(..))
}

/// The constraints of kind 3 and those of kind 4.
fn by_kind(question: &mut Question) -> (&mut [Fact], &mut [Fact]) {
    let strings = question.constraints.iter().filter(|fact| !is_row(fact)).count();
    question.constraints.split_at_mut(strings)
}

/// Puts items in another order, unless that is the one they have.
fn shuffled<T: Clone + PartialEq>(random: &mut Random, items: &mut [T]) -> bool {
    let before = items.to_vec();
    random.shuffle(items);
    before != items
}

/// Repeats some constraints, now and then as many as a question may have.
fn add_repeats(random: &mut Random, question: &mut Question) -> bool {
    let room = MOST_FACTS.saturating_sub(constraint_count(question));
    let count = if random.chance(3) { room } else { room.min(1 + random.below(4)) };
    let (facts, extended) = (question.constraints.len(), question.extended.len());
    for _ in 0..if facts + extended > 0 { count } else { 0 } {
        let at = random.below(facts + extended);
        if at < facts {
            add(question, question.constraints[at].clone());
        } else {
            question.extended.push(question.extended[at - facts]);
        }
    }
    facts + extended > 0 && count > 0
}

/// Leaves out what another constraint says already.
fn leave_out_repeats(_: &mut Random, question: &mut Question) -> bool {
    let (forms, facts) = (forms(question), question.constraints.len());
    let is_first = |at: usize| !forms[..at].contains(&forms[at]);
    let mut numbers = 0..;
    question.constraints.retain(|_| numbers.next().is_some_and(is_first));
    let mut numbers = facts..;
    question.extended.retain(|_| numbers.next().is_some_and(is_first));
    constraint_count(question) < forms.len()
}

/// Does something to some of the constraints of kinds 3 and 4.
fn to_some(random: &mut Random, question: &mut Question, doing: impl Fn(&mut Random, &mut Fact) -> bool) -> bool {
    let mut done = false;
    for fact in &mut question.constraints {
        done |= random.chance(60) && doing(random, fact);
    }
    done
}

fn turn_same(random: &mut Random, question: &mut Question) -> bool {
    to_some(random, question, |_, fact| match fact {
        Fact::Same(a, b) => turned(a, b),
        _ => false,
    })
}

fn turn_differ(random: &mut Random, question: &mut Question) -> bool {
    to_some(random, question, |_, fact| match fact {
        Fact::Differ(a, b) => turned(a, b),
        _ => false,
    })
}

/// Exchanges two operands.
pub fn turned(a: &mut usize, b: &mut usize) -> bool {
    std::mem::swap(a, b);
    a != b
}

fn multiply(random: &mut Random, question: &mut Question) -> bool {
    to_some(random, question, |random, fact| match fact {
        Fact::Arithmetic(_, row) => {
            let factor = any_factor(random, greatest(row));
            *row = times(row, factor);
            factor > 1
        }
        _ => false,
    })
}

/// The greatest number of a row, signs aside.
pub fn greatest(row: &Row) -> i128 {
    row.coefficients.iter().chain([&row.constant]).map(|number| number.abs()).max().expect("a constant")
}

/// A factor for numbers up to the greatest of some; 1 where there is no other.
pub fn any_factor(random: &mut Random, greatest: i128) -> i128 {
    let most = if greatest == 0 { 1 } else { 1_000_000_000 / greatest };
    let any = random.between(1, most);
    random.pick(&[2, 2, 3, 6, 7, most, any]).min(most)
}

/// A row with all its numbers multiplied.
pub fn times(row: &Row, factor: i128) -> Row {
    Row::constant(row.coefficients.len(), 0).plus(factor, row)
}

fn divide(random: &mut Random, question: &mut Question) -> bool {
    to_some(random, question, |_, fact| match fact {
        Fact::Arithmetic(_, row) => {
            let numbers = row.coefficients.iter().chain([&row.constant]);
            let divisor = numbers.fold(0, |divisor, number| greatest_common_divisor(divisor, *number)).max(1);
            row.coefficients.iter_mut().for_each(|coefficient| *coefficient /= divisor);
            row.constant /= divisor;
            divisor > 1
        }
        _ => false,
    })
}

fn turn_sign(random: &mut Random, question: &mut Question, wanted: Relation) -> bool {
    to_some(random, question, |_, fact| match fact {
        Fact::Arithmetic(relation, row) if *relation == wanted => {
            *row = row.negative();
            greatest(row) > 0
        }
        _ => false,
    })
}

/// Whether a constraint names a literal.
pub fn is_named(question: &Question, literal: usize) -> bool {
    question.constraints.iter().any(|fact| matches!(fact, Fact::IsLiteral(_, named) if *named == literal))
}

/// Gives the literals other numbers; nothing is done unless one that is named gets another.
fn renumber(random: &mut Random, question: &mut Question) -> bool {
    let mut order: Vec<usize> = (1..question.literals.len()).collect();
    random.shuffle(&mut order);
    order.insert(0, 0);
    let new_number = |old: usize| order.iter().position(|number| *number == old).expect("every literal has a place");
    if !(1..order.len()).any(|literal| new_number(literal) != literal && is_named(question, literal)) {
        return false;
    }
    question.literals = order.iter().map(|old| question.literals[*old].clone()).collect();
    move_names(question, new_number);
    true
}

/// A text that no literal has, of few or many characters.
fn new_text(random: &mut Random, question: &Question) -> Option<Vec<u32>> {
    let length = random.pick(&[1, 1, 2, 3, 64]);
    let text: Vec<u32> = (0..length).map(|_| random.below(question.n as usize) as u32).collect();
    (!question.literals.contains(&text)).then_some(text)
}

/// Adds a literal in any place.
fn add_literal(random: &mut Random, question: &mut Question) -> bool {
    let Some(text) = new_text(random, question).filter(|_| question.literals.len() < 16) else { return false };
    let number = 1 + random.below(question.literals.len());
    question.literals.insert(number, text);
    move_names(question, |literal| literal + usize::from(literal >= number));
    true
}

fn leave_out_literal(random: &mut Random, question: &mut Question) -> bool {
    let unused: Vec<usize> = (1..question.literals.len()).filter(|literal| !is_named(question, *literal)).collect();
    if unused.is_empty() {
        return false;
    }
    let number = random.pick(&unused);
    question.literals.remove(number);
    move_names(question, |literal| literal - usize::from(literal > number));
    true
}

/// Names literals by other numbers.
fn move_names(question: &mut Question, new_number: impl Fn(usize) -> usize) {
    for fact in &mut question.constraints {
        if let Fact::IsLiteral(_, literal) = fact {
            *literal = new_number(*literal);
        }
    }
}
