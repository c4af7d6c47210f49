//! Classes of string variables and literals, with the facts that make them.

use crate::facts::FactId;

/// The nodes are the p variables, then the literals from 0 on.
#[derive(Clone)]
pub struct Classes {
    p: usize,
    label: Vec<usize>,
    links: Vec<(usize, usize, FactId)>,
    apart: Vec<(usize, usize, FactId)>,
}

impl Classes {
    /// Every node alone; `literals` counts literal 0.
    pub fn new(p: usize, literals: usize) -> Classes {
        Classes { p, label: (0..p + literals).collect(), links: Vec::new(), apart: Vec::new() }
    }

    /// The node of a literal.
    pub fn literal(&self, number: usize) -> usize {
        self.p + number
    }

    pub fn same(&self, a: usize, b: usize) -> bool {
        self.label[a] == self.label[b]
    }

    /// Joins two classes without a fact: whether they were different.
    pub fn join(&mut self, a: usize, b: usize) -> bool {
        let (keep, drop) = (self.label[a], self.label[b]);
        self.label.iter_mut().filter(|label| **label == drop).for_each(|label| *label = keep);
        keep != drop
    }

    /// Takes a fact a ≈ b: whether it joins two classes.
    pub fn link(&mut self, a: usize, b: usize, fact: FactId) -> bool {
        self.links.push((a, b, fact));
        self.join(a, b)
    }

    /// Takes a fact a ≉ b.
    pub fn part(&mut self, a: usize, b: usize, fact: FactId) {
        self.apart.push((a, b, fact));
    }

    /// The pairs that ≉ facts name.
    pub fn parted(&self) -> impl Iterator<Item = (usize, usize)> + '_ {
        self.apart.iter().map(|(a, b, _)| (*a, *b))
    }

    /// The lowest literal in the class of a variable.
    pub fn literal_of(&self, x: usize) -> Option<usize> {
        (self.p..self.label.len()).find(|node| self.same(*node, x)).map(|node| node - self.p)
    }

    /// Whether the classes of two variables cannot become one.
    pub fn differ(&self, x: usize, y: usize) -> bool {
        let parted =
            |(a, b): (usize, usize)| (self.same(a, x) && self.same(b, y)) || (self.same(a, y) && self.same(b, x));
        (self.literal_of(x).is_some() && self.literal_of(y).is_some()) || self.parted().any(parted)
    }

    /// The variables of each class.
    pub fn groups(&self) -> Vec<Vec<usize>> {
        let mut out: Vec<Vec<usize>> = Vec::new();
        for x in 0..self.p {
            match out.iter_mut().find(|group| self.same(group[0], x)) {
                Some(group) => group.push(x),
                None => out.push(vec![x]),
            }
        }
        out
    }

    /// The facts of a shortest chain between two nodes of a class.
    pub fn chain(&self, from: usize, to: usize) -> Vec<FactId> {
        let mut back: Vec<Option<(usize, FactId)>> = vec![None; self.label.len()];
        let mut reached = vec![from];
        let mut next = 0;
        while next < reached.len() && back[to].is_none() {
            let at = reached[next];
            next += 1;
            for (node, fact) in self.neighbours(at) {
                if node != from && back[node].is_none() {
                    back[node] = Some((at, fact));
                    reached.push(node);
                }
            }
        }
        let (mut out, mut at) = (Vec::new(), to);
        while let Some((node, fact)) = back[at] {
            out.push(fact);
            at = node;
        }
        out
    }

    fn neighbours(&self, at: usize) -> impl Iterator<Item = (usize, FactId)> + '_ {
        let other = move |(a, b, fact): &(usize, usize, FactId)| match at {
            _ if *a == at => Some((*b, *fact)),
            _ if *b == at => Some((*a, *fact)),
            _ => None,
        };
        self.links.iter().filter_map(other)
    }

    /// Facts by which S-Conf fits: those of the clash with the fewest.
    pub fn clash(&self) -> Option<Vec<FactId>> {
        let literals = self.p..self.label.len();
        let pairs = literals.clone().flat_map(|a| literals.clone().map(move |b| (a, b))).filter(|(a, b)| a < b);
        let of_literals = pairs.filter(|(a, b)| self.same(*a, *b)).map(|(a, b)| self.chain(a, b));
        let of_parted = self.apart.iter().filter(|(a, b, _)| self.same(*a, *b)).map(|(a, b, fact)| {
            let mut facts = self.chain(*a, *b);
            facts.push(*fact);
            facts
        });
        of_literals.chain(of_parted).min_by_key(Vec::len)
    }
}
