//! The walk over the steps: the branch, the pending splits, the limits 8 to 10, and what facts and closing steps rest on.

use crate::classes::Classes;
use crate::cores::{roots, Set};
use crate::facts::Fact;
use crate::question::{Question, MOST_FACTS};
use crate::rules::{Conclusion, Place, Rules};
use crate::steps::Step;
use crate::{demand, Refusal};

/// "at most 64 splits have children pending, that is, not yet begun"
pub const MOST_PENDING: usize = 64;

/// A split with children not yet begun, the number of facts at its mark, and what it rests on.
#[derive(Clone)]
pub struct Split {
    pub mark: usize,
    waiting: Vec<Vec<Fact>>,
    set: Set,
}

/// The branch where the next step stands.
#[derive(Clone)]
pub struct Derivation {
    pub rules: Rules,
    pub branch: Vec<Fact>,
    /// "Every fact shall carry the set of question constraints that it rests on": that of each fact of the branch.
    pub sets: Vec<Set>,
    pub pending: Vec<Split>,
    pub closed: bool,
    /// "the union over all closing steps" so far
    pub core: Set,
}

impl Derivation {
    /// "Its constraints are facts 0, 1 and on."
    pub fn new(question: &Question) -> Derivation {
        Derivation {
            rules: Rules::default(),
            branch: question.constraints.clone(),
            sets: roots(question.constraints.len()),
            pending: Vec::new(),
            closed: false,
            core: Set::new(),
        }
    }

    /// Takes one step: 8, 9 and 10, in this order.
    pub fn take(&mut self, question: &Question, claim: u16, step: &Step) -> Result<(), Refusal> {
        let classes = Classes::of(question, &self.branch);
        let place = Place { question, branch: &self.branch, classes: &classes };
        let conclusion = match self.rules {
            Rules::Before => place.conclude_before(&step.rule),
            Rules::Now => place.conclude(&step.rule),
        };
        let Some(conclusion) = conclusion else { return Err(8) };
        let set = place.rests_on(&self.sets, &step.rule);
        match (conclusion, claim) {
            (Conclusion::Closes, 1) => {
                self.core.extend(set);
                self.close();
                Ok(())
            }
            (Conclusion::Closes, _) => Err(8),
            (Conclusion::Children(children), 1) => self.split(children, set),
            (Conclusion::Children(children), _) => self.follow(&children[step.child - 1], &set),
        }
    }

    /// Adds facts to the branch, all of which rest on one set.
    fn add(&mut self, facts: &[Fact], set: &Set) {
        self.branch.extend_from_slice(facts);
        self.sets.resize(self.branch.len(), set.clone());
    }

    /// "a closed branch is cut back to the mark of its last pending split"
    fn close(&mut self) {
        let Some(mut split) = self.pending.pop() else {
            self.closed = true;
            return;
        };
        self.branch.truncate(split.mark);
        self.sets.truncate(split.mark);
        self.add(&split.waiting.remove(0), &split.set);
        if !split.waiting.is_empty() {
            self.pending.push(split);
        }
    }

    /// "Under claim 1 all children of a split are tried for 9 and 10 at the split's own record."
    fn split(&mut self, mut children: Vec<Vec<Fact>>, set: Set) -> Result<(), Refusal> {
        demand(children.iter().flatten().all(Fact::within_limit), 9)?;
        let room = children.iter().all(|child| self.has_room(child));
        let pends = children.len() > 1;
        demand(room && !(pends && self.pending.len() == MOST_PENDING), 10)?;
        let (mark, first) = (self.branch.len(), children.remove(0));
        self.add(&first, &set);
        if pends {
            self.pending.push(Split { mark, waiting: children, set });
        }
        Ok(())
    }

    /// "under claim 2 only the one taken"
    fn follow(&mut self, child: &[Fact], set: &Set) -> Result<(), Refusal> {
        demand(child.iter().all(Fact::within_limit), 9)?;
        demand(self.has_room(child), 10)?;
        self.add(child, set);
        Ok(())
    }

    /// "At most 128 facts stand on a branch."
    fn has_room(&self, child: &[Fact]) -> bool {
        self.branch.len() + child.len() <= MOST_FACTS
    }
}
