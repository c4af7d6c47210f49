//! Random steps that fit on a branch.

use crate::assignments::random_row;
use crate::random::Random;
use nuldwich_reference::facts::{Fact, Relation, Row};
use nuldwich_reference::question::MOST_FACTS;
use nuldwich_reference::rules::{Conclusion, Place};
use nuldwich_reference::steps::Rule;

/// A rule that fits on the branch, stays within the limits and has children, with these; nothing when a few tries find none.
pub fn random_split(random: &mut Random, place: &Place) -> Option<(Rule, Vec<Vec<Fact>>)> {
    (0..6).find_map(|_| {
        let rule = random_rule(random, place)?;
        match place.conclude(&rule) {
            Some(Conclusion::Children(children)) if within_limits(place, &children) => Some((rule, children)),
            _ => None,
        }
    })
}

/// Whether neither 9 nor the number of facts stands against the children.
fn within_limits(place: &Place, children: &[Vec<Fact>]) -> bool {
    let numbers = children.iter().flatten().all(Fact::within_limit);
    numbers && children.iter().all(|child| place.branch.len() + child.len() <= MOST_FACTS)
}

/// A rule with operands that are likely to fit.
fn random_rule(random: &mut Random, place: &Place) -> Option<Rule> {
    let p = place.question.p;
    let number = if p == 0 {
        random.pick(&[1, 1, 2, 3, 13])
    } else {
        random.pick(&[1, 1, 2, 3, 6, 7, 8, 9, 10, 11, 12, 12, 13])
    };
    match number {
        1 => random_sum(random, place),
        2 => {
            let mut row = random_row(random, place.question.columns());
            row.constant = random.between(-9, 9);
            Some(Rule::Branch(row))
        }
        3 => random_fact(random, place, |relation| relation == Relation::NotEqual).map(Rule::Apart),
        6 => Some(Rule::SProp { function: random.below(2), x: random.below(p), y: random.below(p) }),
        7 => Some(Rule::LIntro(random.below(p))),
        8 => Some(Rule::LValid(random.below(p))),
        9 => Some(Rule::CCollapse(random.below(p))),
        10 => Some(Rule::CValid(random.below(p))),
        11 => Some(Rule::CInj(random.below(p), random.below(p))),
        12 => random_card(random, place),
        _ => random_join(random, place),
    }
}

/// The number of an arithmetic fact whose relation is wanted.
fn random_fact(random: &mut Random, place: &Place, wanted: fn(Relation) -> bool) -> Option<usize> {
    let mut numbers: Vec<usize> = Vec::new();
    for (number, fact) in place.branch.iter().enumerate() {
        if matches!(fact, Fact::Arithmetic(relation, _) if wanted(*relation)) {
            numbers.push(number);
        }
    }
    (!numbers.is_empty()).then(|| random.pick(&numbers))
}

/// A Sum of 1 to 8 pairs, at times of equations alone, with a divisor that divides all columns.
pub fn random_sum(random: &mut Random, place: &Place) -> Option<Rule> {
    let count = random.pick(&[1, 1, 2, 2, 3, 8]);
    let wanted: fn(Relation) -> bool = match random.chance(30) {
        true => |relation| relation == Relation::Equal,
        false => |relation| relation != Relation::NotEqual,
    };
    let mut total = Row::constant(place.question.columns(), 0);
    let mut pairs = Vec::new();
    for _ in 0..count {
        let number = random_fact(random, place, wanted)?;
        let Fact::Arithmetic(relation, row) = &place.branch[number] else { return None };
        let sign = if *relation == Relation::Equal { random.pick(&[1, -1]) } else { 1 };
        let multiplier = sign * random.between(1, 3);
        total = total.plus(multiplier, row);
        pairs.push((number, multiplier));
    }
    let common =
        total.coefficients.iter().fold(0, |divisor, coefficient| greatest_common_divisor(divisor, *coefficient));
    let divisor = match common {
        0 => random.pick(&[1, 2, 2_147_483_647]),
        1.. if random.chance(70) => common.min(2_147_483_647),
        _ => 1,
    };
    Some(Rule::Sum { divisor, pairs })
}

/// The greatest common divisor, at least 0.
pub fn greatest_common_divisor(a: i128, b: i128) -> i128 {
    if b == 0 {
        a.abs()
    } else {
        greatest_common_divisor(b, a % b)
    }
}

/// A Card over variables whose lengths are equal by facts, in a chain.
fn random_card(random: &mut Random, place: &Place) -> Option<Rule> {
    let p = place.question.p;
    let most = random.pick(&[2, 3, 4, 4, 5]);
    let mut chain = vec![random.below(p)];
    for _ in 0..4 * p {
        let (x, y) = (chain[chain.len() - 1], random.below(p));
        let equal = x != y && place.conclude(&Rule::Card(vec![x, y])).is_some();
        if chain.len() < most && equal && !chain.contains(&y) {
            chain.push(y);
        }
    }
    (chain.len() > 1).then_some(Rule::Card(chain))
}

/// A Join of a ≥ fact or an equation with its negative, which is either as well.
fn random_join(random: &mut Random, place: &Place) -> Option<Rule> {
    let first = random_fact(random, place, |relation| relation != Relation::NotEqual)?;
    let joins = |second: &usize| place.conclude(&Rule::Join(first, *second)).is_some();
    let seconds: Vec<usize> = (0..place.branch.len()).filter(joins).collect();
    (!seconds.is_empty()).then(|| Rule::Join(first, random.pick(&seconds)))
}
