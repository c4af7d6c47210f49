//! Classes of variables and literals.

use crate::facts::Fact;
use crate::question::Question;

/// A label for every variable and every literal; what a chain of ≈ facts joins has one label.
pub struct Classes {
    variables: Vec<usize>,
    literals: Vec<usize>,
}

impl Classes {
    /// "Two variables are in one class when a chain of the branch's ≈ facts joins them, through variables or literals."
    pub fn of(question: &Question, branch: &[Fact]) -> Classes {
        let count = question.literals.len();
        let mut classes =
            Classes { variables: (0..question.p).collect(), literals: (question.p..question.p + count).collect() };
        for fact in branch {
            match *fact {
                Fact::Same(a, b) => classes.join(classes.variables[a], classes.variables[b]),
                Fact::IsLiteral(a, l) => classes.join(classes.variables[a], classes.literals[l]),
                _ => {}
            }
        }
        classes
    }

    /// Gives everything labelled `other` the label `label`.
    fn join(&mut self, label: usize, other: usize) {
        for mine in self.variables.iter_mut().chain(self.literals.iter_mut()) {
            if *mine == other {
                *mine = label;
            }
        }
    }

    /// Whether two variables are "in one class".
    pub fn together(&self, x: usize, y: usize) -> bool {
        self.variables[x] == self.variables[y]
    }

    /// "a class holds a literal likewise"
    pub fn holds(&self, x: usize, literal: usize) -> bool {
        self.variables[x] == self.literals[literal]
    }

    /// "a class holds a literal likewise, and the lowest literal number counts"
    pub fn literal(&self, x: usize) -> Option<usize> {
        (0..self.literals.len()).find(|literal| self.holds(x, *literal))
    }

    /// "by lowest variable": the lowest variable in the class of `x`.
    pub fn lowest(&self, x: usize) -> usize {
        (0..x).find(|y| self.together(*y, x)).unwrap_or(x)
    }

    /// S-Conf "fits when two different literals share a class, or a ≉ fact has both sides in one".
    pub fn conflict(&self, branch: &[Fact]) -> bool {
        self.clash().is_some() || self.broken_difference(branch).is_some()
    }

    /// "two different literals share a class": the lower one first.
    pub fn clash(&self) -> Option<(usize, usize)> {
        let mut pairs = (0..self.literals.len()).flat_map(|l| (0..l).map(move |k| (k, l)));
        pairs.find(|(k, l)| self.literals[*k] == self.literals[*l])
    }

    /// "a ≉ fact has both sides in one": the number of the first one.
    pub fn broken_difference(&self, branch: &[Fact]) -> Option<usize> {
        branch.iter().position(|fact| match *fact {
            Fact::Differ(a, b) => self.together(a, b),
            _ => false,
        })
    }
}
