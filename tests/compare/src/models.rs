//! Grows tickets that claim strings: a question around an assignment, steps along the branch that it follows, its model.

use crate::assignments::{grow as grow_question, Grown, Wish};
use crate::random::Random;
use crate::wander::random_split;
use crate::writer;
use nuldwich_reference::classes::Classes;
use nuldwich_reference::facts::{Fact, Relation, Row};
use nuldwich_reference::question::MOST_FACTS;
use nuldwich_reference::rules::{Conclusion, Place};
use nuldwich_reference::steps::Rule;

/// A ticket that claims strings; most of them are accepted.
pub fn grow(random: &mut Random) -> Vec<u8> {
    let constraints = match random.below(20) {
        0 => 90 + random.below(38),
        1..=4 => random.below(50),
        _ => random.below(10),
    };
    let longest = random.pick(&[64, 64, 64, 64, 64, 64, 64, 65]);
    let mut grown = grow_question(random, &Wish { constraints, true_percent: 100, longest });
    if random.chance(40) {
        state_equal_lengths(random, &mut grown);
    }
    if random.chance(40) {
        state_negatives(random, &mut grown);
    }
    let detours = random.pick(&[0, 1, 3, 8, 20]);
    let mut path = Path { grown: &grown, branch: grown.question.constraints.clone(), steps: Vec::new() };
    path.wander(random, detours);
    path.join_equal_strings(random);
    path.wander(random, detours / 2);
    path.ticket()
}

/// Adds constraints that state equal lengths, in a chain through all variables of a length: what Card asks for, or a multiple
/// of it, from which a Sum makes that.
fn state_equal_lengths(random: &mut Random, grown: &mut Grown) {
    for y in 1..grown.question.p {
        let before = (0..y).rev().find(|x| grown.strings[*x].len() == grown.strings[y].len());
        if let Some(x) = before {
            let (x, y) = if random.chance(50) { (x, y) } else { (y, x) };
            let row = Row::constant(grown.question.columns(), 0);
            let multiple = random.pick(&[1, 1, 1, 2, 3]);
            let row = row.with(grown.question.len_column(x), multiple).with(grown.question.len_column(y), -multiple);
            grown.question.constraints.push(Fact::Arithmetic(Relation::Equal, row));
        }
    }
}

/// Adds the negatives of forms whose value is 0, each as a ≥ fact or as an equation, as far as there is room: what Join asks for.
fn state_negatives(random: &mut Random, grown: &mut Grown) {
    let values = grown.values();
    for number in 0..grown.question.constraints.len() {
        let negative = match &grown.question.constraints[number] {
            Fact::Arithmetic(_, row) if row.value(&values) == 0 => row.negative(),
            _ => continue,
        };
        if grown.question.constraints.len() < MOST_FACTS {
            let relation = random.pick(&[Relation::AtLeast, Relation::Equal]);
            grown.question.constraints.push(Fact::Arithmetic(relation, negative));
        }
    }
}

/// The branch that the assignment follows.
struct Path<'a> {
    grown: &'a Grown,
    branch: Vec<Fact>,
    steps: Vec<(Rule, usize)>,
}

impl Path<'_> {
    /// Takes a step with a child that holds for the assignment, if there is one.
    fn take(&mut self, random: &mut Random, rule: Rule, children: &[Vec<Fact>]) {
        let holds = |child: &usize| children[*child].iter().all(|fact| self.grown.meets(fact));
        let holding: Vec<usize> = (0..children.len()).filter(holds).collect();
        if !holding.is_empty() {
            let child = random.pick(&holding);
            self.branch.extend_from_slice(&children[child]);
            self.steps.push((rule, child + 1));
        }
    }

    /// Takes random steps.
    fn wander(&mut self, random: &mut Random, count: usize) {
        for _ in 0..count {
            let classes = Classes::of(&self.grown.question, &self.branch);
            let place = Place { question: &self.grown.question, branch: &self.branch, classes: &classes };
            if let Some((rule, children)) = random_split(random, &place) {
                self.take(random, rule, &children);
            }
        }
    }

    /// Joins variables with equal strings, and variables with the empty string to literal 0, where no facts do so yet.
    fn join_equal_strings(&mut self, random: &mut Random) {
        for x in 0..self.grown.question.p {
            for y in 0..x {
                let classes = Classes::of(&self.grown.question, &self.branch);
                if self.grown.strings[x] == self.grown.strings[y] && !classes.together(x, y) {
                    self.take_child(random, Rule::CInj(x, y), 3);
                }
            }
            let classes = Classes::of(&self.grown.question, &self.branch);
            if self.grown.strings[x].is_empty() && !classes.holds(x, 0) {
                self.take_child(random, Rule::LValid(x), 1);
            }
        }
    }

    /// Takes a step with a given child, now and then leaving it out.
    fn take_child(&mut self, random: &mut Random, rule: Rule, child: usize) {
        let classes = Classes::of(&self.grown.question, &self.branch);
        let place = Place { question: &self.grown.question, branch: &self.branch, classes: &classes };
        if let (Some(Conclusion::Children(children)), false) = (place.conclude(&rule), random.chance(1)) {
            self.branch.extend_from_slice(&children[child - 1]);
            self.steps.push((rule, child));
        }
    }

    /// The bytes of the ticket.
    fn ticket(&self) -> Vec<u8> {
        let mut bytes = writer::question(&self.grown.question);
        bytes.extend(writer::claim(2));
        self.steps.iter().for_each(|(rule, child)| bytes.extend(writer::step(rule, *child)));
        bytes.extend(writer::model(&self.grown.values()));
        bytes.extend(writer::end());
        bytes
    }
}
