//! The search: splits that the candidate calls for, each tried one step ahead; closed branches with the facts they rest on, or a model.

use crate::arithmetic::Known;
use crate::branch::Branch;
use crate::calls::Calls;
use crate::candidate::Candidate;
use crate::clock::Clock;
use crate::facts::{FactId, Facts, Origin};
use crate::scores::Scores;
use crate::strings::Classes;
use crate::tree::{Closed, End, Split, Stuck, Tree};
use std::collections::{BTreeSet, HashMap};
use std::rc::Rc;
use ticket::{Constraint, Question, Relation, LONGEST_STRING, VALUE_LIMIT};

/// Splits above a node, at most: a ticket holds fewer.
const DEEPEST: usize = 200;

/// Facts that an attempt keeps, at most: they bound its memory.
const MOST_KEPT: usize = 400_000;

/// How one attempt goes about it.
#[derive(Clone, Debug)]
pub struct Effort {
    pub seed: u64,
    /// Nodes after which the attempt ends.
    pub nodes: usize,
    pub cut_rounds: usize,
    /// Lattice forms that are tried at a node.
    pub forms: usize,
    /// Whether lengths are split one by one before Card, and not by differences alone.
    pub by_length: bool,
    /// Splits tried at a node, and those after which a split with two open children is good enough.
    pub looks: usize,
    pub patience: usize,
}

pub struct Search<'q> {
    pub question: &'q Question,
    pub facts: Facts,
    pub effort: Effort,
    pub clock: Clock,
    pub scores: Scores,
    /// Facts of S-Prop, L-Intro and C-Collapse by what makes them.
    pub strings: HashMap<String, FactId>,
    /// What sets of equations come to, and the newest fact among them.
    pub known: HashMap<Vec<FactId>, Rc<Known>>,
    pub newest_known: FactId,
    nodes: usize,
}

pub enum Found {
    Closed(Closed),
    Strings { model: Vec<i64>, classes: Classes },
    Stuck(Stuck),
}

/// A child of a split: its facts, the branch until it is worked on, and how it closed.
struct Child {
    facts: Vec<FactId>,
    open: Option<Branch>,
    closed: Option<Closed>,
}

/// A split tried one step ahead.
struct Look {
    split: Split,
    children: Vec<Child>,
}

impl From<End> for Found {
    fn from(end: End) -> Found {
        match end {
            End::Closed(closed) => Found::Closed(closed),
            End::Stuck(stuck) => Found::Stuck(stuck),
        }
    }
}

impl Look {
    fn open(&self) -> usize {
        self.children.iter().filter(|child| child.closed.is_none()).count()
    }
}

impl<'q> Search<'q> {
    pub fn new(question: &'q Question, effort: Effort, clock: Clock) -> Search<'q> {
        let scores = Scores::new(question.columns(), effort.seed);
        let (strings, known) = (HashMap::new(), HashMap::new());
        Search { question, facts: Facts::default(), effort, clock, scores, strings, known, newest_known: 0, nodes: 0 }
    }

    pub fn run(&mut self) -> Found {
        let question = self.question;
        let ids: Vec<FactId> = question
            .constraints
            .iter()
            .map(|constraint| self.facts.add(constraint.clone(), Origin::Question))
            .collect();
        let mut branch = Branch::new(question);
        for id in ids {
            if let Err(end) = self.take(&mut branch, id) {
                return end.into();
            }
        }
        match self.check(&mut branch) {
            Ok(()) => self.solve(branch, 0),
            Err(end) => end.into(),
        }
    }

    /// A branch closed, or a model in it.
    fn solve(&mut self, mut branch: Branch, depth: usize) -> Found {
        self.nodes += 1;
        if let Some(stuck) = self.spent(depth) {
            return Found::Stuck(stuck);
        }
        if let Err(end) = self.cut(&mut branch) {
            return end.into();
        }
        let candidate = Candidate::new(self.question, &branch);
        let splits = match self.calls(&mut branch, &candidate) {
            Err(end) => return end.into(),
            Ok(Calls::Blocked(stuck)) => return Found::Stuck(stuck),
            Ok(Calls::Settled(classes)) => return settled(&candidate, classes),
            Ok(Calls::Splits(splits)) => splits,
        };
        match self.best(&branch, splits) {
            Err(closed) => Found::Closed(closed),
            Ok(Some(look)) => self.descend(look, depth),
            Ok(None) if self.clock.is_over() => Found::Stuck(Stuck::Time),
            Ok(None) => Found::Stuck(Stuck::Numbers),
        }
    }

    fn spent(&self, depth: usize) -> Option<Stuck> {
        match () {
            _ if self.clock.is_over() => Some(Stuck::Time),
            _ if self.nodes > self.effort.nodes || self.facts.count() > MOST_KEPT => Some(Stuck::Nodes),
            _ if depth > DEEPEST => Some(Stuck::Depth),
            _ => None,
        }
    }

    /// The split with the fewest open children among those tried; at once the closed branch, where one closes it.
    fn best(&mut self, branch: &Branch, splits: Vec<Split>) -> Result<Option<Look>, Closed> {
        let mut best: Option<Look> = None;
        for (tried, split) in self.by_score(splits).into_iter().enumerate() {
            let least = best.as_ref().map_or(usize::MAX, Look::open);
            if least <= 1 || (tried >= self.effort.patience && least == 2) || self.clock.is_over() {
                break;
            }
            let mark = self.facts.count();
            let Some(look) = self.look(branch, split) else {
                self.forget(mark);
                continue;
            };
            if let Some(closed) = self.close(&look) {
                return Err(closed);
            }
            if look.open() < least {
                best = Some(look);
            } else {
                self.forget(mark);
            }
        }
        Ok(best)
    }

    /// Nothing of these facts is kept.
    fn forget(&mut self, mark: usize) {
        self.facts.cut_back(mark);
        if self.newest_known >= mark {
            self.known.retain(|key, _| key.iter().all(|id| *id < mark));
            self.newest_known = 0;
        }
    }

    fn by_score(&mut self, splits: Vec<Split>) -> Vec<Split> {
        let mut keyed: Vec<(i64, Split)> = Vec::with_capacity(splits.len());
        for split in splits {
            let noise = if self.effort.seed == 0 { 0 } else { self.scores.below(2000) };
            keyed.push((-self.score(&split) - noise, split));
        }
        keyed.sort_by_key(|entry| entry.0);
        keyed.into_iter().map(|entry| entry.1).take(self.effort.looks).collect()
    }

    fn score(&self, split: &Split) -> i64 {
        let greatest = |terms: &[(usize, i64)]| terms.iter().map(|term| self.scores.of(term.0)).max().unwrap_or(0);
        let len = |x: &usize| self.scores.of(self.question.len_column(*x));
        let code = |x: &usize| self.scores.of(self.question.code_column(*x));
        match split {
            Split::Branch(form) if form.terms.len() > 1 => greatest(&form.terms) + 500,
            Split::Branch(form) => greatest(&form.terms) - 500,
            Split::Apart(id) => greatest(&self.facts.form(*id).terms) + 200,
            Split::LValid(x) => len(x),
            Split::CValid(x) => len(x).max(code(x)) + 100,
            Split::CInj(x, y) => code(x).max(code(y)) - 200,
            Split::Card { .. } => 0,
        }
    }

    /// A split's children; none where numbers grew too large or time ran out.
    fn look(&mut self, branch: &Branch, split: Split) -> Option<Look> {
        let mut children = Vec::new();
        for says in split.children(self.question, &self.facts) {
            children.push(self.child(branch, &split, says).ok()?);
        }
        Some(Look { split, children })
    }

    /// One child, as far as what follows at once takes it.
    fn child(&mut self, branch: &Branch, split: &Split, says: Vec<Constraint>) -> Result<Child, Stuck> {
        let mut branch = branch.clone();
        match split {
            Split::CValid(x) => branch.valid |= 1 << x,
            Split::CInj(x, y) => branch.injected.push((*x, *y)),
            _ => {}
        }
        let facts: Vec<FactId> = says.into_iter().map(|says| self.facts.add(says, Origin::Child)).collect();
        match self.follow(&mut branch, &facts) {
            Ok(()) => Ok(Child { facts, open: Some(branch), closed: None }),
            Err(End::Closed(closed)) => Ok(Child { facts, open: None, closed: Some(closed) }),
            Err(End::Stuck(stuck)) => Err(stuck),
        }
    }

    /// Takes a child's facts; a fact e ≠ 0 that does not hold is tried by Apart.
    fn follow(&mut self, branch: &mut Branch, facts: &[FactId]) -> Result<(), End> {
        for id in facts {
            self.take(branch, *id)?;
        }
        self.check(branch)?;
        for id in facts {
            if !self.is_broken(branch, *id) {
                continue;
            }
            let split = Split::Apart(*id);
            let mut children = Vec::new();
            for says in split.children(self.question, &self.facts) {
                children.push(self.child(branch, &split, says).map_err(End::Stuck)?);
            }
            if let Some(closed) = self.close(&Look { split, children }) {
                return Err(End::Closed(closed));
            }
        }
        Ok(())
    }

    /// Whether a fact says e ≠ 0 and e is 0 by the branch's values.
    fn is_broken(&self, branch: &Branch, id: FactId) -> bool {
        let Constraint::Arithmetic(Relation::Ne, form) = &self.facts.get(id).says else { return false };
        let values = branch.simplex.values();
        let start = crate::rational::Rational::from(form.constant);
        form.terms.iter().fold(start, |sum, (column, factor)| &sum + &values[*column].times(*factor)).is_zero()
    }

    /// The split closed, where one child closes without its own facts or all children close.
    fn close(&self, look: &Look) -> Option<Closed> {
        let closed = look.children.iter().filter_map(|child| child.closed.as_ref().map(|closed| (child, closed)));
        let alone = closed.clone().filter(|(child, closed)| closed.is_free_of(&child.facts));
        if let Some((_, closed)) = alone.min_by_key(|(_, closed)| closed.size) {
            return Some(closed.clone());
        }
        if look.open() > 0 {
            return None;
        }
        let mut rests: BTreeSet<FactId> = self.facts.base(look.split.premises());
        let mut size = 1;
        let mut children = Vec::new();
        for (child, closed) in closed {
            rests.extend(closed.rests.iter().filter(|id| !child.facts.contains(id)));
            size += closed.size;
            children.push((child.facts.clone(), closed.tree.clone()));
        }
        let tree = Tree::Split { split: look.split.clone(), children };
        Some(Closed { tree: Rc::new(tree), rests: Rc::new(rests), size })
    }

    /// Works on the open children one after another, one first that a model is likely in.
    fn descend(&mut self, mut look: Look, depth: usize) -> Found {
        let mut stuck = None;
        for place in order(&look) {
            let child = &mut look.children[place];
            let Some(branch) = child.open.take() else { continue };
            match self.solve(branch, depth + 1) {
                Found::Closed(closed) if closed.is_free_of(&child.facts) => return Found::Closed(closed),
                Found::Closed(closed) => child.closed = Some(closed),
                Found::Stuck(why @ (Stuck::Time | Stuck::Nodes)) => return Found::Stuck(why),
                Found::Stuck(why) => stuck = Some(why),
                found => return found,
            }
        }
        match (stuck, self.close(&look)) {
            (None, Some(closed)) => Found::Closed(closed),
            (stuck, _) => Found::Stuck(stuck.unwrap_or(Stuck::Numbers)),
        }
    }
}

/// The open children in the order of work: what is not empty, equal texts, short texts and small numbers first.
fn order(look: &Look) -> Vec<usize> {
    let mut order: Vec<usize> = (0..look.children.len()).filter(|place| look.children[*place].open.is_some()).collect();
    match &look.split {
        Split::LValid(_) | Split::Card { .. } => order.reverse(),
        Split::CInj(..) => order.sort_by_key(|place| [2, 0, 1].get(*place).copied()),
        Split::Branch(form) if -form.constant - 1 == LONGEST_STRING as i64 || -form.constant - 1 == VALUE_LIMIT => {
            order.reverse()
        }
        _ => {}
    }
    order
}

fn settled(candidate: &Candidate, classes: Classes) -> Found {
    let model: Option<Vec<i64>> = candidate.values.iter().map(|value| value.small()).collect();
    match model {
        Some(model) => Found::Strings { model, classes },
        None => Found::Stuck(Stuck::Numbers),
    }
}
