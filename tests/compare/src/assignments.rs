//! Grows questions around an assignment, so that it is known which constraints hold.

use crate::random::Random;
use nuldwich_reference::answer::{write_answer, Answer};
use nuldwich_reference::facts::{within_limit, Fact, Relation, Row};
use nuldwich_reference::question::Question;
use nuldwich_reference::rules::code_of;

/// What is asked of a grown question.
pub struct Wish {
    /// How many constraints.
    pub constraints: usize,
    /// How many of a hundred constraints hold for the assignment.
    pub true_percent: usize,
    /// The longest string of the assignment.
    pub longest: usize,
}

/// A question with strings and integers for its variables.
pub struct Grown {
    pub question: Question,
    pub strings: Vec<Vec<u32>>,
    pub integers: Vec<i128>,
}

impl Grown {
    /// The assignment's value in every column.
    pub fn values(&self) -> Vec<i128> {
        let mut values = self.integers.clone();
        values.extend(self.strings.iter().map(|text| text.len() as i128));
        values.extend(self.strings.iter().map(|text| code_of(text)));
        values
    }

    /// The assignment by itself.
    pub fn assignment(&self) -> Answer {
        Answer { strings: self.strings.clone(), integers: self.integers.clone() }
    }

    /// The assignment as an answer.
    pub fn answer(&self) -> Vec<u8> {
        write_answer(&self.assignment())
    }

    /// Whether a fact holds for the assignment.
    pub fn meets(&self, fact: &Fact) -> bool {
        match fact {
            Fact::Same(a, b) => self.strings[*a] == self.strings[*b],
            Fact::Differ(a, b) => self.strings[*a] != self.strings[*b],
            Fact::IsLiteral(a, l) => self.strings[*a] == self.question.literals[*l],
            Fact::Arithmetic(relation, row) => relation.holds(row.value(&self.values())),
        }
    }
}

/// A question with its assignment.
pub fn grow(random: &mut Random, wish: &Wish) -> Grown {
    let mut grown = grow_variables(random, wish.longest);
    grow_constraints(random, &mut grown, wish);
    grown
}

/// Adds constraints of kinds 3 and 4 to a question.
pub fn grow_constraints(random: &mut Random, grown: &mut Grown, wish: &Wish) {
    let strings = if grown.question.p > 0 { random.below(wish.constraints + 1) } else { 0 };
    for _ in 0..strings {
        let truth = random.chance(wish.true_percent);
        let fact = string_fact(random, grown, truth);
        grown.question.constraints.extend(fact);
    }
    for _ in strings..wish.constraints {
        let truth = random.chance(wish.true_percent);
        let fact = arithmetic_fact(random, &grown.values(), truth);
        grown.question.constraints.push(fact);
    }
}

/// A question without constraints, with its assignment.
pub fn grow_variables(random: &mut Random, longest: usize) -> Grown {
    let n = match random.below(8) {
        0 => random.between(1, 196_608) as u32,
        _ => random.pick(&[1, 2, 3, 3, 128, 128, 196_608]),
    };
    let (p, q) = (count(random, 16), count(random, 16));
    let literals = grow_literals(random, n);
    let mut strings: Vec<Vec<u32>> = Vec::new();
    for _ in 0..p {
        let string = grow_string(random, n, longest, &literals, &strings);
        strings.push(string);
    }
    let integers = (0..q).map(|_| small_or_edge(random, 100_000_000)).collect();
    Grown { question: Question { n, p, q, literals, ..Question::default() }, strings, integers }
}

/// A number from 0 to `most`, small more often than not, and now and then the greatest.
fn count(random: &mut Random, most: usize) -> usize {
    match random.below(10) {
        0 => most,
        1 => random.below(most + 1),
        _ => random.below(5),
    }
}

/// Up to 15 different literals behind the empty one.
fn grow_literals(random: &mut Random, n: u32) -> Vec<Vec<u32>> {
    let wanted = count(random, 15);
    let mut literals = vec![Vec::new()];
    for _ in 0..3 * wanted {
        let text = random_text(random, n, 64);
        if literals.len() <= wanted && !literals.contains(&text) {
            literals.push(text);
        }
    }
    literals
}

/// A text that is not empty, short more often than not.
fn random_text(random: &mut Random, n: u32, longest: usize) -> Vec<u32> {
    let length = match random.below(12) {
        0 => longest,
        1 => 1 + random.below(longest),
        2..=6 => 1,
        _ => 2 + random.below(3),
    };
    let few = if random.chance(50) { n.min(3) } else { n };
    (0..length).map(|_| random.below(few as usize) as u32).collect()
}

/// A string for a variable: an earlier one, a literal, the empty one or another.
fn grow_string(random: &mut Random, n: u32, longest: usize, literals: &[Vec<u32>], earlier: &[Vec<u32>]) -> Vec<u32> {
    match random.below(8) {
        0 | 1 if !earlier.is_empty() => earlier[random.below(earlier.len())].clone(),
        2 | 3 => literals[random.below(literals.len())].clone(),
        _ => random_text(random, n, longest),
    }
}

/// A number within ± `limit`: small, an end, or any.
pub fn small_or_edge(random: &mut Random, limit: i128) -> i128 {
    match random.below(8) {
        0 => limit,
        1 => -limit,
        2 => random.between(-limit, limit),
        _ => random.between(-5, 5),
    }
}

/// A string constraint that holds, or does not; nothing when a few tries find none.
pub fn string_fact(random: &mut Random, grown: &Grown, truth: bool) -> Option<Fact> {
    let (p, literals) = (grown.question.p, grown.question.literals.len());
    (0..12).find_map(|_| {
        let (a, b) = (random.below(p), random.below(p));
        let fact = match random.below(3) {
            0 => Fact::Same(a, b),
            1 => Fact::Differ(a, b),
            _ => Fact::IsLiteral(a, random.below(literals)),
        };
        (grown.meets(&fact) == truth).then_some(fact)
    })
}

/// An arithmetic constraint that holds for the values, or does not.
pub fn arithmetic_fact(random: &mut Random, values: &[i128], truth: bool) -> Fact {
    let relation = random.pick(&[Relation::AtLeast, Relation::AtLeast, Relation::Equal, Relation::NotEqual]);
    for _ in 0..6 {
        let mut row = random_row(random, values.len());
        let wanted = random.pick(&[0, 0, 0, 1, -1]) + if random.chance(30) { random.between(-5, 5) } else { 0 };
        let value = row.value(values);
        if random.chance(80) && within_limit(wanted - value) {
            row.constant = wanted - value;
        }
        if relation.holds(row.value(values)) == truth {
            return Fact::Arithmetic(relation, row);
        }
    }
    let constant = (-1..=1).find(|constant| relation.holds(*constant) == truth).expect("one of three numbers does");
    Fact::Arithmetic(relation, Row::constant(values.len(), constant))
}

/// A form with few or many coefficients, small or large.
pub fn random_row(random: &mut Random, columns: usize) -> Row {
    let mut row = Row::constant(columns, 0);
    let pairs = match random.below(10) {
        0 => columns,
        1 => random.below(columns + 1),
        _ => random.below(4),
    };
    let large = random.chance(15);
    for _ in 0..if columns > 0 { pairs } else { 0 } {
        let coefficient = if large { small_or_edge(random, 1_000_000_000) } else { random.between(-3, 3) };
        row.coefficients[random.below(columns)] = coefficient;
    }
    row
}
