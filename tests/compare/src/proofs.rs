//! Grows tickets that claim no solution: a contradictory question and a derivation that closes every branch.

use crate::random::Random;
use crate::templates::draft;
use crate::wander::{greatest_common_divisor, random_split};
use crate::writer;
use nuldwich_reference::classes::Classes;
use nuldwich_reference::facts::{Fact, Relation, Row};
use nuldwich_reference::question::Question;
use nuldwich_reference::rules::{Conclusion, Place};
use nuldwich_reference::steps::Rule;

/// The most steps of a grown derivation.
const MOST_STEPS: usize = 250;

/// A ticket that claims no solution; most of them are accepted.
pub fn grow(random: &mut Random) -> Vec<u8> {
    let draft = draft(random);
    let question = draft.question();
    let plan = draft.plan();
    let detours = random.pick(&[0, 1, 2, 4, 8, 16]);
    let mut prover = Prover { random, question: &question, steps: Vec::new(), detours };
    if !prover.prove(&question.constraints, &plan) {
        prover.steps.clear();
        prover.detours = 0;
        prover.prove(&question.constraints, &plan);
    }
    ticket(&question, &prover.steps)
}

/// The bytes of a ticket that claims no solution.
pub fn ticket(question: &Question, steps: &[Rule]) -> Vec<u8> {
    let mut bytes = writer::question(question);
    bytes.extend(writer::claim(1));
    steps.iter().for_each(|rule| bytes.extend(writer::step(rule, 0)));
    bytes.extend(writer::end());
    bytes
}

/// A derivation in the making.
struct Prover<'a> {
    random: &'a mut Random,
    question: &'a Question,
    steps: Vec<Rule>,
    detours: usize,
}

impl Prover<'_> {
    /// Closes the branch: at once, after a detour, by the plan, or by splitting a ≠ fact.
    fn prove(&mut self, branch: &[Fact], plan: &[Rule]) -> bool {
        if self.steps.len() > MOST_STEPS {
            return false;
        }
        let classes = Classes::of(self.question, branch);
        let place = Place { question: self.question, branch, classes: &classes };
        if self.detours > 0 && self.random.chance(50) {
            self.detours -= 1;
            if let Some((rule, children)) = random_split(self.random, &place) {
                return self.split(branch, rule, children, plan);
            }
        }
        if let Some(closing) = self.closing(&place) {
            self.steps.extend(closing);
            return true;
        }
        if let Some((rule, rest)) = plan.split_first() {
            return match place.conclude(rule) {
                Some(Conclusion::Children(children)) => self.split(branch, rule.clone(), children, rest),
                _ => self.prove(branch, rest),
            };
        }
        match unsplit_difference(&place) {
            Some((rule, children)) => self.split(branch, rule, children, plan),
            None => false,
        }
    }

    /// Takes a step, then closes each of its children.
    fn split(&mut self, branch: &[Fact], rule: Rule, children: Vec<Vec<Fact>>, plan: &[Rule]) -> bool {
        self.steps.push(rule);
        children.iter().all(|child| self.prove(&[branch, child].concat(), plan))
    }

    /// Steps that close the branch at once, if there are any: S-Conf, A-Conf, or a Sum of two facts and A-Conf.
    fn closing(&mut self, place: &Place) -> Option<Vec<Rule>> {
        if place.classes.conflict(place.branch) {
            return Some(vec![Rule::SConf]);
        }
        let number = (0..place.branch.len()).rev().find(|number| place.conclude(&Rule::AConf(*number)).is_some());
        if let Some(number) = number {
            return Some(vec![Rule::AConf(number)]);
        }
        let pairs = contradiction(place)?;
        let constant = place.total(&pairs)?.constant;
        let divisor = self.random.pick(&[1, 1, 2, 7]);
        let divisor = if constant < 0 || constant % divisor == 0 { divisor } else { 1 };
        Some(vec![Rule::Sum { divisor, pairs }, Rule::AConf(place.branch.len())])
    }
}

/// An Apart on a ≠ fact neither of whose children stands on the branch.
fn unsplit_difference(place: &Place) -> Option<(Rule, Vec<Vec<Fact>>)> {
    (0..place.branch.len()).find_map(|number| match place.conclude(&Rule::Apart(number)) {
        Some(Conclusion::Children(children)) if !children.iter().any(|child| place.branch.contains(&child[0])) => {
            Some((Rule::Apart(number), children))
        }
        _ => None,
    })
}

/// Two facts and multipliers whose Sum is a false constant, the newest facts first.
fn contradiction(place: &Place) -> Option<Vec<(usize, i128)>> {
    let mut facts: Vec<(usize, Relation, &Row, usize)> = Vec::new();
    for (number, fact) in place.branch.iter().enumerate().rev() {
        if let Fact::Arithmetic(relation, row) = fact {
            let leading = row.coefficients.iter().position(|coefficient| *coefficient != 0);
            if let (true, Some(column)) = (*relation != Relation::NotEqual, leading) {
                facts.push((number, *relation, row, column));
            }
        }
    }
    for (place, (number, relation, row, column)) in facts.iter().enumerate() {
        for (other_number, other_relation, other, other_column) in &facts[place + 1..] {
            let found = (column == other_column).then(|| refute((*relation, row), (*other_relation, other), *column));
            if let Some((first, second)) = found.flatten() {
                return Some(vec![(*number, first), (*other_number, second)]);
            }
        }
    }
    None
}

/// Multipliers that make two rows with the same leading column a false constant.
fn refute(first: (Relation, &Row), second: (Relation, &Row), column: usize) -> Option<(i128, i128)> {
    let (a, b) = (first.1.coefficients[column], second.1.coefficients[column]);
    let divisor = greatest_common_divisor(a, b);
    let equations = first.0 == Relation::Equal && second.0 == Relation::Equal;
    for sign in [1, -1] {
        let multipliers = (sign * b / divisor, -sign * a / divisor);
        let fits = (first.0 == Relation::Equal || multipliers.0 > 0)
            && (second.0 == Relation::Equal || multipliers.1 > 0)
            && multipliers.0.abs().max(multipliers.1.abs()) <= 1_000_000_000;
        let total =
            Row::constant(first.1.coefficients.len(), 0).plus(multipliers.0, first.1).plus(multipliers.1, second.1);
        let is_false = total.constant < 0 || (equations && total.constant > 0);
        if fits && total.is_constant() && is_false && total.within_limit() {
            return Some(multipliers);
        }
    }
    None
}
