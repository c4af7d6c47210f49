//! Splits, and trees of closed branches.

use crate::facts::{arithmetic, less, negative, FactId, Facts};
use std::collections::BTreeSet;
use std::rc::Rc;
use ticket::{Constraint, Form, Question, Relation};

/// A split. Card keeps the facts by which it fits.
#[derive(Clone, Debug)]
pub enum Split {
    Branch(Form),
    Apart(FactId),
    LValid(usize),
    CValid(usize),
    CInj(usize, usize),
    Card { variables: Vec<usize>, equal: Vec<FactId> },
}

/// A closed branch: the closing step, or a split with each child's facts.
#[derive(Debug)]
pub enum Tree {
    AConf(FactId),
    SConf,
    Split { split: Split, children: Vec<(Vec<FactId>, Rc<Tree>)> },
}

/// A tree with the constraints and the splits' facts that it rests on, and about how many steps it takes.
#[derive(Clone)]
pub struct Closed {
    pub tree: Rc<Tree>,
    pub rests: Rc<BTreeSet<FactId>>,
    pub size: usize,
}

/// Why a branch was left open.
#[derive(Clone, Copy, Debug, PartialEq, Eq)]
pub enum Stuck {
    Time,
    Nodes,
    Depth,
    Numbers,
    Length,
}

/// How a branch ends before it is split.
pub enum End {
    Closed(Closed),
    Stuck(Stuck),
}

impl Closed {
    /// Closed by A-Conf on a fact.
    pub fn by_arithmetic(facts: &Facts, id: FactId) -> Closed {
        Closed { tree: Rc::new(Tree::AConf(id)), rests: Rc::new(facts.base([id])), size: 2 }
    }

    /// Closed by S-Conf, for these facts.
    pub fn by_strings(facts: &Facts, why: Vec<FactId>) -> Closed {
        Closed { tree: Rc::new(Tree::SConf), rests: Rc::new(facts.base(why)), size: 1 }
    }

    /// Whether it rests on none of these.
    pub fn is_free_of(&self, ids: &[FactId]) -> bool {
        ids.iter().all(|id| !self.rests.contains(id))
    }
}

impl Split {
    /// What each child's facts say.
    pub fn children(&self, question: &Question, facts: &Facts) -> Vec<Vec<Constraint>> {
        use Relation::{Eq, Ge, Ne};
        match self {
            Split::Branch(form) => either_side(form.constant, -form.constant - 1, &form.terms),
            Split::Apart(id) => {
                let form = facts.form(*id);
                either_side(form.constant - 1, -form.constant - 1, &form.terms)
            }
            Split::LValid(x) => {
                let not_empty = arithmetic(Ge, -1, vec![(question.len_column(*x), 1)]);
                vec![vec![Constraint::IsLiteral(*x, 0)], vec![not_empty]]
            }
            Split::CValid(x) => {
                let (len, code) = (question.len_column(*x), question.code_column(*x));
                let other = vec![arithmetic(Ne, -1, vec![(len, 1)]), arithmetic(Eq, 1, vec![(code, 1)])];
                let top = arithmetic(Ge, i64::from(question.n) - 1, vec![(code, -1)]);
                vec![other, vec![arithmetic(Eq, -1, vec![(len, 1)]), arithmetic(Ge, 0, vec![(code, 1)]), top]]
            }
            Split::CInj(x, y) => {
                let (first, second) = (question.code_column(*x), question.code_column(*y));
                let none = arithmetic(Eq, 1, vec![(first, 1)]);
                vec![vec![none], vec![arithmetic(Ne, 0, less(first, second))], vec![Constraint::Same(*x, *y)]]
            }
            Split::Card { variables, .. } => card_children(question, variables),
        }
    }

    /// The facts that the split names or fits by.
    pub fn premises(&self) -> Vec<FactId> {
        match self {
            Split::Apart(id) => vec![*id],
            Split::Card { equal, .. } => equal.clone(),
            _ => Vec::new(),
        }
    }
}

/// Two children, a form and its negative with these constants.
fn either_side(first: i64, second: i64, terms: &[(usize, i64)]) -> Vec<Vec<Constraint>> {
    let one = arithmetic(Relation::Ge, first, terms.to_vec());
    vec![vec![one], vec![arithmetic(Relation::Ge, second, negative(terms))]]
}

/// "Children, for each pair i < j in lexicographic order, x_i ≈ x_j; last, len(x_1) ≥ L. With n = 1 the last child is left out."
fn card_children(question: &Question, variables: &[usize]) -> Vec<Vec<Constraint>> {
    let mut out = Vec::new();
    for (place, x) in variables.iter().enumerate() {
        out.extend(variables[place + 1..].iter().map(|y| vec![Constraint::Same(*x, *y)]));
    }
    if let (Some(length), Some(first)) = (least_length(question.n, variables.len()), variables.first()) {
        out.push(vec![arithmetic(Relation::Ge, -length, vec![(question.len_column(*first), 1)])]);
    }
    out
}

/// "the smallest number such that n to the power L is at least m"; none with one character.
fn least_length(n: u32, m: usize) -> Option<i64> {
    let enough = |length: &u32| u64::from(n).saturating_pow(*length) >= m as u64;
    (n > 1).then(|| (0..=64).find(enough)).flatten().map(i64::from)
}
