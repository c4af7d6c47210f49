//! Grows tickets at the edges of the limits: facts, pending splits, numbers, bytes, lengths.

use crate::assignments::{grow as grow_question, Wish};
use crate::proofs;
use crate::random::Random;
use crate::wander::{random_split, random_sum};
use crate::writer;
use nuldwich_reference::classes::Classes;
use nuldwich_reference::derivation::Derivation;
use nuldwich_reference::facts::Relation::{AtLeast, Equal, NotEqual};
use nuldwich_reference::facts::{Fact, Relation, Row};
use nuldwich_reference::question::Question;
use nuldwich_reference::rules::Place;
use nuldwich_reference::steps::{Rule, Step};

/// All edges.
const EDGES: [fn(&mut Random) -> Vec<u8>; 10] = [
    many_facts, many_pending, large_sums, chained_sums, chained_sums, two_sums_and_a_join, large_constants,
    full_ticket, many_steps, full_lengths,
];

/// A ticket at some edge, accepted or refused by a little.
pub fn grow(random: &mut Random) -> Vec<u8> {
    random.pick(&EDGES)(random)
}

/// A question without literals.
fn frame(n: u32, p: usize, q: usize) -> Question {
    Question { n, p, q, literals: vec![Vec::new()], ..Question::default() }
}

/// A number at an end of ±`limit`, or next to it.
fn near(random: &mut Random, limit: i128) -> i128 {
    random.pick(&[1, -1]) * (limit - 2 + random.between(0, 3))
}

/// The bytes of a ticket that claims strings.
fn strings_ticket(question: &Question, steps: &[(Rule, usize)], model: &[i128]) -> Vec<u8> {
    let mut bytes = writer::question(question);
    bytes.extend(writer::claim(2));
    steps.iter().for_each(|(rule, child)| bytes.extend(writer::step(rule, *child)));
    bytes.extend(writer::model(model));
    bytes.extend(writer::end());
    bytes
}

/// 126 to 130 facts by constraints and Sums, then a C-Valid or not, under either claim.
fn many_facts(random: &mut Random) -> Vec<u8> {
    let mut question = frame(128, 1, 1);
    let claim = 1 + random.below(2);
    let first = Row::constant(3, if claim == 1 { -1 } else { 1 });
    question.constraints.push(Fact::Arithmetic(AtLeast, first));
    for _ in 0..random.pick(&[20, 99, 124, 125, 126, 127, 128]) {
        let row = Row::constant(3, random.between(0, 9)).with(0, 1);
        question.constraints.push(Fact::Arithmetic(AtLeast, row));
    }
    let facts = 124 + random.below(7);
    let mut steps = Vec::new();
    while question.constraints.len() + steps.len() < facts {
        let pairs = vec![(random.below(question.constraints.len() + steps.len()), 1)];
        steps.push(Rule::Sum { divisor: 1, pairs });
    }
    let valid = random.chance(50);
    steps.extend(valid.then_some(Rule::CValid(0)));
    if claim == 1 {
        steps.extend(vec![Rule::AConf(0); 1 + usize::from(valid)]);
        return proofs::ticket(&question, &steps);
    }
    let child = if valid { 1 + random.below(2) } else { 1 };
    let model = if valid && child == 2 { [5, 1, 7] } else { [5, 2, -1] };
    let mut taken: Vec<(Rule, usize)> = steps.into_iter().map(|rule| (rule, 1)).collect();
    taken.last_mut().into_iter().for_each(|last| last.1 = child);
    strings_ticket(&question, &taken, &model)
}

/// A derivation that the reference follows while it grows; a refused step is the last one.
struct Growing {
    question: Question,
    derivation: Derivation,
    steps: Vec<Rule>,
    refused: bool,
    falsehood: usize,
}

impl Growing {
    /// A derivation from a question whose constraint `falsehood` is without coefficients and false.
    fn new(question: Question, falsehood: usize) -> Growing {
        Growing { derivation: Derivation::new(&question), question, steps: Vec::new(), refused: false, falsehood }
    }

    /// Takes a step, unless the derivation is at its end.
    fn take(&mut self, rule: Rule) {
        if !self.derivation.closed && !self.refused {
            self.refused = self.derivation.take(&self.question, 1, &Step { rule: rule.clone(), child: 0 }).is_err();
            self.steps.push(rule);
        }
    }

    /// Takes a random step, of those that `choose` finds on the branch.
    fn wander(&mut self, choose: impl FnOnce(&Place) -> Option<Rule>) {
        let classes = Classes::of(&self.question, &self.derivation.branch);
        let rule = choose(&Place { question: &self.question, branch: &self.derivation.branch, classes: &classes });
        rule.into_iter().for_each(|rule| self.take(rule));
    }

    /// Takes a Sum of the newest step's fact of these relations times −1, which fits an equation alone.
    fn turn(&mut self, relations: &[Relation]) {
        let wanted = |fact: &Fact| matches!(fact, Fact::Arithmetic(relation, _) if relations.contains(relation));
        let before = self.question.constraints.len();
        if let Some(place) = self.derivation.branch[before..].iter().rposition(wanted) {
            self.take(Rule::Sum { divisor: 1, pairs: vec![(before + place, -1)] });
        }
    }

    /// Closes the branch.
    fn close(&mut self) {
        self.take(Rule::AConf(self.falsehood));
    }

    /// Closes all branches.
    fn ticket(mut self) -> Vec<u8> {
        while !self.derivation.closed && !self.refused {
            self.close();
        }
        proofs::ticket(&self.question, &self.steps)
    }
}

/// A split with one new fact in its first child.
fn small_split(random: &mut Random, columns: usize) -> Rule {
    match random.below(4) {
        0 => Rule::CInj(0, 1),
        1 => Rule::LValid(random.below(2)),
        _ => Rule::Branch(Row::constant(columns, random.between(-5, 5)).with(random.below(columns), 1)),
    }
}

/// Up to 64 or 65 pending splits, some ended and begun again.
fn many_pending(random: &mut Random) -> Vec<u8> {
    let mut question = frame(random.pick(&[1, 3]), 2, 1);
    question.constraints.push(Fact::Arithmetic(AtLeast, Row::constant(5, -1)));
    question.constraints.push(Fact::Arithmetic(Equal, Row::constant(5, 0).with(1, 1).with(2, -1)));
    let mut growing = Growing::new(question, 0);
    let most = random.pick(&[62, 63, 64, 64, 65]);
    while growing.derivation.pending.len() < most && !growing.refused {
        growing.take(small_split(random, 5));
    }
    for _ in 0..random.below(12) {
        growing.take(match random.below(4) {
            0 => small_split(random, 5),
            1 => Rule::Card(vec![0, 1]),
            _ => Rule::AConf(0),
        });
    }
    growing.ticket()
}

/// A Sum whose numbers come to an end of their range or pass it, with products up to 8 · 10^18.
fn large_sums(random: &mut Random) -> Vec<u8> {
    let mut question = frame(1, 0, 2);
    let fact = |constant, coefficient| Fact::Arithmetic(Equal, Row::constant(2, constant).with(1, coefficient));
    question.constraints =
        vec![fact(1, 0), fact(1_000_000_000, 0), fact(0, 1), fact(0, 1_000_000_000), fact(-1_000_000_000, 1)];
    let divisor = random.pick(&[1, 2, 3, 1_000, 999_999_999, 1_000_000_000, 2_147_483_647]);
    let mut pairs = Vec::new();
    for unit in [0, 2] {
        let remainder = if unit == 0 && random.chance(60) { random.between(0, divisor - 1) } else { 0 };
        let total = near(random, 1_000_000_000) * divisor + remainder;
        let high = total.div_euclid(1_000_000_000);
        pairs.extend([(unit, total - high * 1_000_000_000), (unit + 1, high)]);
    }
    if random.chance(40) {
        let number = random.pick(&[1, 3]);
        let multiplier = random.pick(&[1_000_000_000, 999_999_999]);
        pairs.extend([(number, multiplier), (number, -multiplier), (number, multiplier), (number, -multiplier)]);
    }
    pairs.retain(|(_, multiplier)| *multiplier != 0 || random.chance(2));
    random.shuffle(&mut pairs);
    let mut growing = Growing::new(question, 0);
    growing.take(Rule::Sum { divisor, pairs });
    if random.chance(30) {
        growing.turn(&[AtLeast, Equal]);
    }
    growing.ticket()
}

/// Sums of equations and of such Sums, under either claim; some equations have no integer solution, and the last Sum turns a fact.
fn chained_sums(random: &mut Random) -> Vec<u8> {
    let claim = 1 + random.below(2);
    let model = [random.between(-3, 3), random.between(-3, 3)];
    let mut question = frame(1, 0, 2);
    question.constraints.push(Fact::Arithmetic(Equal, Row::constant(2, if claim == 1 { -1 } else { 0 })));
    for _ in 0..1 + random.below(3) {
        let divisor = random.between(2, 6);
        let mut coefficient = || divisor * random.between(-2, 2);
        let row = Row::constant(2, 0).with(0, coefficient()).with(1, coefficient());
        let remainder = if random.chance(50) { random.between(1, divisor - 1) } else { 0 };
        let constant = remainder - row.value(&model);
        question.constraints.push(Fact::Arithmetic(Equal, row.raised(constant)));
    }
    let mut growing = Growing::new(question, 0);
    for _ in 0..1 + random.below(5) {
        growing.wander(|place| random_sum(random, place));
    }
    growing.turn(&[random.pick(&[AtLeast, AtLeast, Equal])]);
    if claim == 1 {
        return growing.ticket();
    }
    let steps: Vec<(Rule, usize)> = growing.steps.into_iter().map(|rule| (rule, 1)).collect();
    strings_ticket(&growing.question, &steps, &model)
}

/// "The solver spends two Sums and a Join on each length equation": so for two of them, or with a ≥ constraint in a Sum's place, then a Card,
/// under either claim.
fn two_sums_and_a_join(random: &mut Random) -> Vec<u8> {
    let claim = 1 + random.below(2);
    let mut question = frame(random.pick(&[2, 3, 128]), 3, 0);
    let divisors = [random.between(1, 4), random.between(1, 4)];
    let difference = |x: usize, times: i128| Row::constant(6, 0).with(x, times).with(x + 1, -times);
    question.constraints = vec![
        Fact::Arithmetic(Equal, difference(0, divisors[0])),
        Fact::Arithmetic(Equal, difference(1, divisors[1])),
        Fact::Arithmetic(AtLeast, difference(0, -1)),
        Fact::Arithmetic(AtLeast, difference(1, -1)),
        Fact::Arithmetic(AtLeast, Row::constant(6, if claim == 1 { -1 } else { 1 })),
    ];
    let mut steps = Vec::new();
    for (equation, divisor) in divisors.into_iter().enumerate() {
        let mut joined = [question.constraints.len() + steps.len(), equation + 2];
        steps.push(Rule::Sum { divisor, pairs: vec![(equation, 1)] });
        if random.chance(60) {
            joined[1] = question.constraints.len() + steps.len();
            steps.push(Rule::Sum { divisor, pairs: vec![(equation, -1)] });
        }
        random.shuffle(&mut joined);
        steps.push(Rule::Join(joined[0], joined[1]));
    }
    let card = Rule::Card(vec![0, 1, 2]);
    if claim == 1 {
        return proofs::ticket(&question, &[steps, vec![card], vec![Rule::AConf(4); 4]].concat());
    }
    let mut steps: Vec<(Rule, usize)> = steps.into_iter().map(|rule| (rule, 1)).collect();
    steps.push((card, 4));
    strings_ticket(&question, &steps, &[3, 3, 3, -1, -1, -1])
}

/// Branch and Apart with constants and coefficients at the ends of their range, under either claim.
fn large_constants(random: &mut Random) -> Vec<u8> {
    let limit = 1_000_000_000;
    let number = |random: &mut Random| near(random, limit).clamp(-limit, limit);
    let row = Row::constant(1, number(random)).with(0, number(random));
    let mut question = frame(1, 0, 1);
    let claim = 1 + random.below(2);
    question.constraints.push(Fact::Arithmetic(AtLeast, Row::constant(1, if claim == 1 { -1 } else { 1 })));
    question.constraints.push(Fact::Arithmetic(NotEqual, row.clone()));
    let rule = if random.chance(50) { Rule::Apart(1) } else { Rule::Branch(row.clone()) };
    if claim == 1 {
        let mut growing = Growing::new(question, 0);
        growing.take(rule);
        return growing.ticket();
    }
    let value = random.between(-2, 2);
    let child = if row.value(&[value]) >= 0 { 1 } else { 2 };
    strings_ticket(&question, &[(rule, child)], &[value])
}

/// A ticket of about 32,768 bytes, most of them constraints.
fn full_ticket(random: &mut Random) -> Vec<u8> {
    let claim = 1 + random.below(2);
    let model: Vec<i128> = [vec![0; 16], vec![2; 16], vec![-1; 16]].concat();
    let write = |question: &Question| match claim {
        1 => proofs::ticket(question, &[Rule::AConf(0)]),
        _ => strings_ticket(question, &[], &model),
    };
    let mut question = frame(128, 16, 16);
    let first = Row::constant(48, if claim == 1 { -1 } else { 1 });
    question.constraints.push(Fact::Arithmetic(AtLeast, first));
    let length = random.pick(&[32_760, 32_766, 32_768, 32_768, 32_768, 32_770]);
    question.literals.push(Vec::new());
    while question.literals[1].is_empty() || (length - write(&question).len()) % 6 != 0 {
        question.literals[1].push(5);
    }
    let rest = length - write(&question).len();
    fill(random, &mut question, &model, rest);
    let mut bytes = write(&question);
    bytes.resize(bytes.len() + random.pick(&[0, 0, 0, 0, 1]), 0);
    bytes
}

/// Adds constraints that the model meets, of `bytes` bytes in all, a multiple of 6; one has 12 to 300.
fn fill(random: &mut Random, question: &mut Question, model: &[i128], bytes: usize) {
    let mut rest = bytes / 6;
    while rest > 0 {
        let taken = if rest == 51 { 49 } else { rest.min(50) };
        let mut row = Row::constant(48, 0);
        (0..taken - 2).for_each(|column| row.coefficients[column] = random.pick(&[1, -1, 1_000_000, -1_000_000_000]));
        let row = if row.value(model) < 0 { row.negative() } else { row };
        question.constraints.push(Fact::Arithmetic(AtLeast, row));
        rest -= taken;
    }
}

/// A derivation of many steps of all kinds.
fn many_steps(random: &mut Random) -> Vec<u8> {
    let constraints = random.below(8);
    let mut question = grow_question(random, &Wish { constraints, true_percent: 80, longest: 64 }).question;
    let falsehood = question.constraints.len();
    question.constraints.push(Fact::Arithmetic(AtLeast, Row::constant(question.columns(), -1)));
    let mut growing = Growing::new(question, falsehood);
    let most = random.pick(&[50, 100, 200, 400]);
    while growing.steps.len() < most && !growing.refused && !growing.derivation.closed {
        let pending = growing.derivation.pending.len();
        let room = pending < 50 && growing.derivation.branch.len() < 120;
        if room && (pending < 6 || random.chance(55)) {
            growing.wander(|place| random_split(random, place).map(|(rule, _)| rule));
        } else {
            growing.close();
        }
    }
    growing.ticket()
}

/// About as many classes of one length as there are strings of that length.
fn full_lengths(random: &mut Random) -> Vec<u8> {
    let n = random.pick(&[1, 2, 2, 3, 3, 128]);
    let length = random.pick(&[1, 2, 2, 3, 4, 63, 64, 65]);
    let most = (0..length).fold(1usize, |power, _| (power * n as usize).min(16));
    let p = (most + random.below(2)).min(16);
    let mut question = frame(n, p, 0);
    let mut model = vec![length as i128; p];
    model.extend((0..p as i128).map(|x| if length == 1 { x % i128::from(n) } else { -1 }));
    for (x, code) in model[p..].iter().enumerate() {
        let text: Vec<u32> = match length {
            1 => vec![*code as u32],
            _ => (0..length).map(|_| random.below(n as usize) as u32).collect(),
        };
        if text.len() <= 64 && question.literals.len() < 16 && !question.literals.contains(&text) && random.chance(30) {
            question.constraints.push(Fact::IsLiteral(x, question.literals.len()));
            question.literals.push(text);
        } else if x > 0 && random.chance(5) {
            question.constraints.push(Fact::Same(x, x - 1));
        }
    }
    strings_ticket(&question, &[], &model)
}
