//! Certificates and cuts as Sums.

use crate::branch::Branch;
use crate::facts::{negative, FactId, Origin};
use crate::lattice::{Equation, Lattice, Terms};
use crate::search::Search;
use crate::simplex::{Certificate, Outcome};
use crate::sums::{cleared, lowered, Multiples};
use crate::tree::{Closed, End, Stuck};
use crate::whole::{Whole, ZERO};
use std::collections::{BTreeMap, BTreeSet};
use std::rc::Rc;
use ticket::{Constraint, Form, Function, Relation};

/// Cuts with larger numbers, or of more facts, are left out.
const LARGEST_MULTIPLIER: i64 = 1_000_000;
const LARGEST_COEFFICIENT: i64 = 100_000;
const MOST_FACTS_OF_A_CUT: usize = 14;
/// Cuts of one round.
const MOST_CUTS: usize = 4;
/// Columns up to which lattices are worked out, and rounds of their reduction.
const MOST_LATTICE_COLUMNS: usize = 32;
const LATTICE_ROUNDS: usize = 600;
/// The weight of a column with room for one value alone, and of one without bounds.
const FULL_WEIGHT: i64 = 1 << 16;
const OPEN_WEIGHT: i64 = 6;

/// What the equations of a branch come to: forms to branch on, and multipliers of equations that have no whole solution.
#[derive(Default)]
pub struct Known {
    pub forms: Vec<Terms>,
    impossible: Option<(Multiples, Whole)>,
}

impl Search<'_> {
    /// Brings the branch's values within their bounds, or closes it.
    pub fn check(&mut self, branch: &mut Branch) -> Result<(), End> {
        match branch.simplex.check(&self.clock) {
            Outcome::Fine => Ok(()),
            Outcome::Conflict(certificate) => Err(self.closed_by(branch, &certificate)),
            Outcome::OutOfTime => Err(End::Stuck(Stuck::Time)),
        }
    }

    /// Closes a branch by a sum that is impossible or, where its numbers are too large, by bounds.
    pub fn closed_by(&mut self, branch: &Branch, certificate: &Certificate) -> End {
        match self.summed(branch, certificate) {
            Some(closed) => End::Closed(closed),
            None => self.closed_by_bounds(branch),
        }
    }

    /// The sum that a certificate makes, where one is found within the limits.
    pub fn summed(&mut self, branch: &Branch, certificate: &Certificate) -> Option<Closed> {
        let pairs = lowered(cleared(certificate).0);
        self.scores.bump(pairs.iter().flat_map(|pair| &self.facts.form(pair.0).terms).map(|term| term.0));
        let pairs = self.gathered(branch, pairs);
        let id = self.facts.combined(&pairs, &Whole::from(1i64))?;
        self.is_impossible(id).then(|| Closed::by_arithmetic(&self.facts, id))
    }

    fn is_impossible(&self, id: FactId) -> bool {
        let form = self.facts.form(id);
        form.terms.is_empty() && (form.constant < 0 || (self.facts.is_equation(id) && form.constant != 0))
    }

    /// The same sum with the fewest facts of S-Prop, L-Intro and C-Collapse.
    fn gathered(&mut self, branch: &Branch, pairs: Multiples) -> Multiples {
        let of_strings = |pair: &(FactId, Whole)| {
            matches!(self.facts.get(pair.0).origin, Origin::Agree { .. } | Origin::Literal { .. })
        };
        let (strings, mut out): (Multiples, Multiples) = pairs.into_iter().partition(of_strings);
        if strings.len() < 2 {
            out.extend(strings);
            return out;
        }
        let mut columns: BTreeMap<usize, Whole> = BTreeMap::new();
        for (id, factor) in &strings {
            for (column, coefficient) in &self.facts.form(*id).terms {
                let entry = columns.entry(*column).or_insert(ZERO);
                *entry = &*entry + &(factor * &Whole::from(*coefficient));
            }
        }
        columns.retain(|_, factor| !factor.is_zero());
        for function in [Function::Len, Function::Code] {
            for group in branch.classes.groups() {
                self.gather_group(branch, function, &group, &columns, &mut out);
            }
        }
        out
    }

    /// A class's share: each column by the literal, or by the first of its columns.
    fn gather_group(
        &mut self,
        branch: &Branch,
        function: Function,
        group: &[usize],
        columns: &BTreeMap<usize, Whole>,
        out: &mut Multiples,
    ) {
        let mut first = None;
        for x in group {
            let Some(factor) = columns.get(&self.column(function, *x)) else { continue };
            let fact = match (branch.classes.literal_of(*x), first) {
                (Some(number), _) => {
                    let why = branch.classes.chain(*x, branch.classes.literal(number));
                    self.value_of_literal(function, *x, number, why)
                }
                (None, Some(first)) => self.agreement(function, *x, first, branch.classes.chain(*x, first)),
                (None, None) => {
                    first = Some(*x);
                    continue;
                }
            };
            out.push((fact, factor.clone()));
        }
    }

    /// Cuts off values with fractions: by equations without whole solutions, then by Gomory's cuts.
    pub fn cut(&mut self, branch: &mut Branch) -> Result<(), End> {
        if branch.simplex.values().iter().all(|value| value.is_whole()) {
            return Ok(());
        }
        self.divide_equations(branch)?;
        for _ in 0..self.effort.cut_rounds {
            let mut any = false;
            for certificate in branch.simplex.cuts(MOST_CUTS) {
                any |= self.take_cut(branch, &certificate)?;
            }
            if !any {
                return Ok(());
            }
            self.check(branch)?;
        }
        Ok(())
    }

    /// Takes a cut, where its numbers are small.
    fn take_cut(&mut self, branch: &mut Branch, certificate: &Certificate) -> Result<bool, End> {
        let (pairs, divisor) = cleared(certificate);
        let large = |number: &Whole| number.size() > Whole::from(LARGEST_MULTIPLIER);
        if large(&divisor) || pairs.len() > MOST_FACTS_OF_A_CUT || pairs.iter().any(|pair| large(&pair.1)) {
            return Ok(false);
        }
        let Some(id) = self.facts.combined(&pairs, &divisor) else { return Ok(false) };
        if self.facts.form(id).terms.iter().any(|term| term.1.abs() > LARGEST_COEFFICIENT) {
            return Ok(false);
        }
        self.take(branch, id)?;
        Ok(true)
    }

    /// Closes a branch whose equations have no whole solution.
    fn divide_equations(&mut self, branch: &mut Branch) -> Result<(), End> {
        let known = self.known(branch);
        let Some((pairs, divisor)) = &known.impossible else { return Ok(()) };
        match self.indivisible(pairs, divisor) {
            Some(closed) => Err(End::Closed(closed)),
            None => Ok(()),
        }
    }

    /// Closed by equations whose sum has coefficients that the divisor divides and a constant that it does not, where that is found within the limits.
    pub fn indivisible(&mut self, pairs: &[(FactId, Whole)], divisor: &Whole) -> Option<Closed> {
        let sum = self.facts.combined(pairs, divisor)?;
        let closing = self.rounded_off(sum, pairs, divisor)?;
        self.is_impossible(closing).then(|| Closed::by_arithmetic(&self.facts, closing))
    }

    /// A sum divided and rounded down, with the equations taken off again; or, where that has large numbers, with their negative divided.
    fn rounded_off(&mut self, sum: FactId, pairs: &[(FactId, Whole)], divisor: &Whole) -> Option<FactId> {
        let one = Whole::from(1i64);
        let turned: Multiples = pairs.iter().map(|(id, factor)| (*id, -factor)).collect();
        let closing = [vec![(sum, divisor.clone())], turned.clone()].concat();
        if let Some(id) = self.facts.combined(&closing, &one) {
            return Some(id);
        }
        let other = self.facts.combined(&turned, divisor)?;
        self.facts.combined(&[(sum, one.clone()), (other, one.clone())], &one)
    }

    /// What the branch's equations come to, kept for each set of them.
    pub fn known(&mut self, branch: &Branch) -> Rc<Known> {
        let equations = branch.arithmetic.iter().copied().filter(|id| self.facts.is_equation(*id));
        let key: Vec<FactId> = equations.collect();
        if let Some(known) = self.known.get(&key) {
            return known.clone();
        }
        let known = Rc::new(self.work_out(branch, &key));
        self.newest_known = key.iter().copied().fold(self.newest_known, FactId::max);
        self.known.insert(key, known.clone());
        known
    }

    fn work_out(&self, branch: &Branch, equations: &[FactId]) -> Known {
        let forms: Vec<&Form> = equations.iter().map(|id| self.facts.form(*id)).collect();
        let columns: BTreeSet<usize> = forms.iter().flat_map(|form| &form.terms).map(|term| term.0).collect();
        if columns.len() > MOST_LATTICE_COLUMNS || forms.iter().all(|form| form.terms.len() < 2) {
            return Known::default();
        }
        let columns: Vec<usize> = columns.into_iter().collect();
        let place = |column: &usize| columns.binary_search(column).unwrap_or(0);
        let narrow = |form: &&Form| Equation {
            constant: form.constant,
            terms: form.terms.iter().map(|(column, factor)| (place(column), *factor)).collect(),
        };
        let lattice = Lattice::new(columns.len(), &forms.iter().map(narrow).collect::<Vec<_>>());
        let impossible = lattice.indivisible().map(|factors| {
            let pairs: Certificate = equations.iter().copied().zip(factors).collect();
            cleared(&pairs)
        });
        let plain = |form: &&Form| form.terms.len() < 3 && form.terms.iter().all(|term| term.1.abs() == 1);
        if impossible.is_some() || forms.iter().all(plain) {
            return Known { forms: Vec::new(), impossible };
        }
        let weights: Vec<i64> = columns.iter().map(|column| weight(branch, *column)).collect();
        let widen = |terms: Terms| terms.into_iter().map(|(place, factor)| (columns[place], factor)).collect();
        Known { forms: lattice.forms(&weights, LATTICE_ROUNDS).into_iter().map(widen).collect(), impossible }
    }

    /// A fact form ≥ 0, or form = 0, derived from the branch where fractions show it.
    pub fn implied(&mut self, branch: &Branch, terms: &Terms) -> Result<Option<FactId>, End> {
        let trial = branch.simplex.clone();
        let against = Form { constant: -1, terms: negative(terms) };
        let mark = self.facts.add(Constraint::Arithmetic(Relation::Ge, against.clone()), Origin::Child);
        let Some(certificate) = self.refuted(trial, mark, &against)? else { return Ok(None) };
        let pairs = cleared(&certificate).0;
        let Some((_, divisor)) = pairs.iter().find(|pair| pair.0 == mark).cloned() else {
            return Err(self.closed_by(branch, &certificate));
        };
        let rest = pairs.into_iter().filter(|pair| pair.0 != mark).collect();
        let rest = self.gathered(branch, rest);
        let sum = self.facts.combined(&rest, &divisor).ok_or(End::Stuck(Stuck::Numbers))?;
        let form = self.facts.form(sum);
        Ok((form.terms == *terms && form.constant == 0).then_some(sum))
    }

    /// The conflict that a further fact makes.
    fn refuted(&self, mut trial: crate::simplex::Simplex, id: FactId, form: &Form) -> Result<Option<Certificate>, End> {
        if let Err(certificate) = trial.take(id, false, form) {
            return Ok(Some(certificate));
        }
        match trial.check(&self.clock) {
            Outcome::Fine => Ok(None),
            Outcome::Conflict(certificate) => Ok(Some(certificate)),
            Outcome::OutOfTime => Err(End::Stuck(Stuck::Time)),
        }
    }
}

/// A column's weight in the lattice: the less room, the heavier.
fn weight(branch: &Branch, column: usize) -> i64 {
    match (branch.simplex.lower(column), branch.simplex.upper(column)) {
        (Some(low), Some(high)) => (FULL_WEIGHT / (high - low + 1).max(1)).max(1),
        _ => OPEN_WEIGHT,
    }
}
