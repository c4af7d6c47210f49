//! Grows tickets whose steps are of proper form, whatever they rest on: trees of many shapes and sizes, paths with closing
//! rules in them, questions with more constraints than checking takes.

use crate::assignments::{random_row, small_or_edge};
use crate::random::Random;
use crate::writer;
use nuldwich_reference::checking::LONGEST_TICKET;
use nuldwich_reference::facts::{Fact, Relation, Row};
use nuldwich_reference::question::Question;
use nuldwich_reference::steps::{conclusions, Rule};

/// All shapes.
const SHAPES: [fn(&mut Random) -> Vec<u8>; 5] = [many_constraints, many_facts, many_pending, tree, path];

/// A ticket of some shape; most of them end as they are due to.
pub fn grow(random: &mut Random) -> Vec<u8> {
    random.pick(&SHAPES)(random)
}

/// A ticket in the making, and how many of its branches are open.
struct Draft {
    question: Question,
    claim: u16,
    bytes: Vec<u8>,
    open: usize,
}

impl Draft {
    fn new(question: Question, claim: u16) -> Draft {
        let bytes = [writer::question(&question), writer::claim(claim)].concat();
        Draft { question, claim, bytes, open: 1 }
    }

    /// How many branches are open behind a step.
    fn open_behind(&self, rule: &Rule) -> usize {
        match rule {
            _ if self.claim == 2 => self.open,
            Rule::AConf(_) | Rule::SConf => self.open - 1,
            _ => self.open + conclusions(&self.question, rule) - 1,
        }
    }

    /// Adds a step. Under claim 2 any child is taken.
    fn add(&mut self, random: &mut Random, rule: &Rule) {
        let child = match self.claim {
            1 => 0,
            _ => 1 + random.below(conclusions(&self.question, rule)),
        };
        self.open = self.open_behind(rule);
        self.bytes.extend(writer::step(rule, child));
    }

    /// Whether a step leaves room for what is due behind it: the smallest closing step for every open branch, or the model;
    /// and the end.
    fn has_room(&self, rule: &Rule) -> bool {
        let due = match self.claim {
            1 => self.open_behind(rule) * writer::step(&Rule::SConf, 0).len(),
            _ => writer::model(&vec![0; self.question.columns()]).len(),
        };
        self.bytes.len() + writer::step(rule, 0).len() + due + writer::end().len() <= LONGEST_TICKET
    }

    /// Adds a step if there is room.
    fn take(&mut self, random: &mut Random, rule: &Rule) {
        if self.has_room(rule) {
            self.add(random, rule);
        }
    }

    /// Closes the branch under claim 1.
    fn close(&mut self, random: &mut Random) {
        let rule = closing(random);
        let rule = if self.has_room(&rule) { rule } else { Rule::SConf };
        self.add(random, &rule);
    }

    /// Closes branches until so many are open. Under claim 2 the only one gets a model unless it is to stay open.
    fn settle(&mut self, random: &mut Random, left_open: usize) {
        while self.claim == 1 && self.open > left_open {
            self.close(random);
        }
        if self.claim == 2 && left_open == 0 {
            let columns = 0..self.question.columns();
            let values: Vec<i128> = columns.map(|_| small_or_edge(random, 100_000_000)).collect();
            self.bytes.extend(writer::model(&values));
        }
    }

    /// The ticket with what is due behind its steps; now and then something is missing or too much.
    fn ticket(mut self, random: &mut Random) -> Vec<u8> {
        let fault = random.below(30);
        let left_open = if fault == 0 { 1 + random.below(self.open) } else { 0 };
        self.settle(random, left_open);
        let (step, end) = (writer::step(&closing(random), usize::from(self.claim - 1)), writer::end());
        let rest = match fault {
            1 => [step, end].concat(),
            2 => Vec::new(),
            3 => [end, vec![0; random.pick(&[1, 5, 6])]].concat(),
            _ => end,
        };
        [self.bytes, rest].concat()
    }
}

/// A question without constraints. With n = 1 Card lacks its last child.
fn frame(random: &mut Random) -> Question {
    let (n, p, q) = (random.pick(&[1, 1, 2, 3, 196_608]), random.pick(&[1, 2, 5, 16]), random.pick(&[0, 1, 16]));
    Question { n, p, q, literals: vec![Vec::new()], ..Question::default() }
}

/// A question with so many constraints of the smallest size.
fn posed(random: &mut Random, constraints: usize) -> Question {
    let mut question = frame(random);
    let strings = random.below(constraints + 1);
    question.constraints = vec![Fact::Differ(0, question.p - 1); strings];
    let row = Row::constant(question.columns(), random.between(-9, 9));
    question.constraints.resize(constraints, Fact::Arithmetic(Relation::NotEqual, row));
    question
}

/// A number of things: few, about as many as a limit or a narrow counter takes, or about as many as a ticket holds.
fn count(random: &mut Random) -> usize {
    match random.below(40) {
        0 => 2_700 + random.below(30),
        1 => random.below(2_700),
        2..=4 => random.below(600),
        5..=9 => random.pick(&[254, 255, 256, 257, 300]),
        10..=19 => random.pick(&[126, 127, 128, 129, 130]),
        20..=29 => random.pick(&[62, 63, 64, 65, 66]),
        _ => random.below(20),
    }
}

/// A rule that closes.
fn closing(random: &mut Random) -> Rule {
    match random.below(3) {
        0 => Rule::AConf(any_fact(random)),
        _ => Rule::SConf,
    }
}

/// The number of a fact, on the branch or not.
fn any_fact(random: &mut Random) -> usize {
    random.pick(&[0, 0, 1, 2, 7, 127, 128, 65_535])
}

/// A rule with one conclusion or several, with operands in their ranges.
fn any_rule(random: &mut Random, question: &Question) -> Rule {
    let p = question.p;
    match random.below(13) {
        0 => any_sum(random),
        1 => Rule::Branch(random_row(random, question.columns())),
        2 => Rule::Apart(any_fact(random)),
        3 => Rule::SProp { function: random.below(2), x: random.below(p), y: random.below(p) },
        4 => Rule::LIntro(random.below(p)),
        5 => Rule::LValid(random.below(p)),
        6 => Rule::CCollapse(random.below(p)),
        7 | 8 => Rule::CValid(random.below(p)),
        9 => Rule::CInj(random.below(p), random.below(p)),
        10 => any_card(random, question),
        11 => Rule::Card(vec![0, random.below(p)]),
        _ => Rule::Join(any_fact(random), any_fact(random)),
    }
}

fn any_sum(random: &mut Random) -> Rule {
    let divisor = random.pick(&[1, 2, 2_147_483_647]);
    let pairs = (0..1 + random.below(8)).map(|_| (any_fact(random), small_or_edge(random, 1_000_000_000))).collect();
    Rule::Sum { divisor, pairs }
}

/// A Card over few or many variables, which may repeat.
fn any_card(random: &mut Random, question: &Question) -> Rule {
    let variables = random.pick(&[2, 2, 3, 3, 4, 16]);
    Rule::Card((0..variables).map(|_| random.below(question.p)).collect())
}

/// A small split with one fact in each child.
fn small_split(random: &mut Random, question: &Question) -> Rule {
    match random.below(10) {
        0 => Rule::Apart(any_fact(random)),
        1 => Rule::CInj(0, random.below(question.p)),
        2 => Rule::Branch(Row::constant(question.columns(), random.between(-9, 9))),
        _ => Rule::LValid(random.below(question.p)),
    }
}

/// More than 128 or 255 constraints, and a few steps.
fn many_constraints(random: &mut Random) -> Vec<u8> {
    let constraints = count(random);
    let question = posed(random, constraints);
    let mut draft = Draft::new(question, random.pick(&[1, 2]));
    for _ in 0..random.below(4) {
        let rule = any_rule(random, &draft.question);
        draft.take(random, &rule);
    }
    draft.ticket(random)
}

/// More than 128 or 255 facts by steps: with one conclusion, or by C-Valid, whose children have two and three.
fn many_facts(random: &mut Random) -> Vec<u8> {
    let question = posed(random, 2);
    let mut draft = Draft::new(question, random.pick(&[1, 2]));
    let valid_percent = random.pick(&[0, 10, 100]);
    for _ in 0..count(random) {
        if random.chance(valid_percent) {
            draft.take(random, &Rule::CValid(0));
            if draft.claim == 1 && draft.open > 1 && random.chance(50) {
                draft.close(random);
            }
        } else {
            draft.take(random, &Rule::LIntro(0));
        }
    }
    draft.ticket(random)
}

/// More than 64 pending splits, some ended and begun again.
fn many_pending(random: &mut Random) -> Vec<u8> {
    let question = posed(random, 1);
    let mut draft = Draft::new(question, 1);
    for _ in 0..count(random) {
        let rule = small_split(random, &draft.question);
        draft.take(random, &rule);
        if random.chance(3) && draft.open > 1 {
            draft.close(random);
        }
    }
    while draft.open > 1 && random.chance(95) {
        let rule = if random.chance(60) { closing(random) } else { small_split(random, &draft.question) };
        draft.take(random, &rule);
    }
    draft.ticket(random)
}

/// A tree of any rules, with many branches that are short or few that are long.
fn tree(random: &mut Random) -> Vec<u8> {
    let question = posed(random, 3);
    let mut draft = Draft::new(question, 1);
    let closing_percent = random.pick(&[10, 40, 60, 75]);
    for _ in 0..random.pick(&[5, 20, 60, 250]) {
        if draft.open > 1 && random.chance(closing_percent) {
            draft.close(random);
        } else {
            let rule = any_rule(random, &draft.question);
            draft.take(random, &rule);
        }
    }
    draft.ticket(random)
}

/// A path of any rules under claim 2, closing ones among them.
fn path(random: &mut Random) -> Vec<u8> {
    let question = posed(random, 3);
    let mut draft = Draft::new(question, 2);
    for _ in 0..random.pick(&[1, 5, 20, 60, 250]) {
        let rule = if random.chance(30) { closing(random) } else { any_rule(random, &draft.question) };
        draft.take(random, &rule);
    }
    draft.ticket(random)
}
