//! Facts as the search knows them: what each says, and which step adds it.

use std::collections::BTreeSet;
use ticket::{Constraint, Form, Function, Relation};

pub type FactId = usize;

/// Where a fact comes from. `why` has the facts that put the variables into one class.
#[derive(Clone, Debug, PartialEq, Eq)]
pub enum Origin {
    Question,
    Child,
    Sum { divisor: i64, pairs: Vec<(FactId, i64)> },
    Agree { function: Function, x: usize, y: usize, why: Vec<FactId> },
    Literal { function: Function, x: usize, why: Vec<FactId> },
    Join(FactId, FactId),
}

#[derive(Clone, Debug)]
pub struct Fact {
    pub says: Constraint,
    pub origin: Origin,
}

/// All facts of a search, of every branch. A fact's premises have lower numbers.
pub struct Facts {
    list: Vec<Fact>,
    nothing: Form,
}

/// What an equation or an inequality of a form says.
pub fn arithmetic(relation: Relation, constant: i64, terms: Vec<(usize, i64)>) -> Constraint {
    Constraint::Arithmetic(relation, Form { constant, terms })
}

/// The form −e.
pub fn negative(terms: &[(usize, i64)]) -> Vec<(usize, i64)> {
    terms.iter().map(|(column, factor)| (*column, -factor)).collect()
}

/// The terms of the first column minus the second, columns rising.
pub fn less(first: usize, second: usize) -> Vec<(usize, i64)> {
    let mut terms = vec![(first, 1), (second, -1)];
    terms.sort_unstable();
    terms
}

impl Fact {
    /// The facts that its step names.
    pub fn premises(&self) -> Vec<FactId> {
        match &self.origin {
            Origin::Sum { pairs, .. } => pairs.iter().map(|pair| pair.0).collect(),
            Origin::Join(first, second) => vec![*first, *second],
            _ => Vec::new(),
        }
    }

    /// Whether a step adds it that is no split.
    pub fn is_derived(&self) -> bool {
        !matches!(self.origin, Origin::Question | Origin::Child)
    }
}

impl Default for Facts {
    fn default() -> Facts {
        Facts { list: Vec::new(), nothing: Form { constant: 0, terms: Vec::new() } }
    }
}

impl Facts {
    pub fn add(&mut self, says: Constraint, origin: Origin) -> FactId {
        self.list.push(Fact { says, origin });
        self.list.len() - 1
    }

    pub fn get(&self, id: FactId) -> &Fact {
        &self.list[id]
    }

    pub fn count(&self) -> usize {
        self.list.len()
    }

    /// Forgets the facts from this number on.
    pub fn cut_back(&mut self, mark: usize) {
        self.list.truncate(mark);
    }

    /// The form of an arithmetic fact; of a string fact an empty one.
    pub fn form(&self, id: FactId) -> &Form {
        match &self.list[id].says {
            Constraint::Arithmetic(_, form) => form,
            _ => &self.nothing,
        }
    }

    pub fn is_equation(&self, id: FactId) -> bool {
        matches!(self.list[id].says, Constraint::Arithmetic(Relation::Eq, _))
    }

    /// The constraints and the facts of splits that these facts rest on.
    pub fn base(&self, roots: impl IntoIterator<Item = FactId>) -> BTreeSet<FactId> {
        let mut open: Vec<FactId> = roots.into_iter().collect();
        let (mut out, mut seen) = (BTreeSet::new(), BTreeSet::new());
        while let Some(id) = open.pop() {
            if !seen.insert(id) {
                continue;
            }
            match &self.list[id].origin {
                Origin::Question | Origin::Child => {
                    out.insert(id);
                }
                Origin::Agree { why, .. } | Origin::Literal { why, .. } => open.extend(why),
                _ => open.extend(self.list[id].premises()),
            }
        }
        out
    }
}
