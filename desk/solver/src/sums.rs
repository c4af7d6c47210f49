//! Sums of facts within the limits: eight pairs, numbers to 1,000,000,000. What passes them is written as several Sums.

use crate::facts::{FactId, Facts, Origin};
use crate::rational::Rational;
use crate::whole::{Whole, ONE, ZERO};
use std::collections::BTreeMap;
use ticket::{Constraint, Form, Relation, NUMBER_LIMIT};

/// Facts with multipliers.
pub type Multiples = Vec<(FactId, Whole)>;

/// The pairs that one Sum takes.
const MOST_PAIRS: usize = 8;

/// The greatest divisor that one Sum takes, an i32.
const MOST_DIVISOR: i64 = i32::MAX as i64;

/// A sum before it is divided.
pub struct Total {
    pub constant: Whole,
    pub terms: BTreeMap<usize, Whole>,
}

/// The number, where the limit allows it.
fn within(number: &Whole) -> Option<i64> {
    number.small().filter(|number| number.abs() <= NUMBER_LIMIT)
}

/// Whole multipliers from fractions, and what they were multiplied by.
pub fn cleared(pairs: &[(FactId, Rational)]) -> (Multiples, Whole) {
    let mut gathered: BTreeMap<FactId, Rational> = BTreeMap::new();
    for (id, factor) in pairs {
        let entry = gathered.entry(*id).or_insert_with(|| Rational::from(0));
        *entry = &*entry + factor;
    }
    let bottom = gathered.values().fold(ONE, |bottom, factor| bottom.multiple(factor.bottom()));
    let whole = |factor: &Rational| factor.top() * &bottom.over(factor.bottom());
    let multiples = gathered.iter().filter(|pair| !pair.1.is_zero()).map(|(id, factor)| (*id, whole(factor))).collect();
    (multiples, bottom)
}

/// The multipliers without their common divisor.
pub fn lowered(mut pairs: Multiples) -> Multiples {
    let common = pairs.iter().fold(ZERO, |common, pair| common.common(&pair.1));
    if !common.is_zero() {
        pairs.iter_mut().for_each(|pair| pair.1 = pair.1.over(&common));
    }
    pairs
}

impl Total {
    /// The greatest common divisor of the coefficients; 1 where there are none.
    fn common(&self) -> Whole {
        let common = self.terms.values().fold(ZERO, |common, factor| common.common(factor));
        if common.is_zero() {
            ONE
        } else {
            common
        }
    }

    /// The size of the greatest coefficient.
    fn greatest(&self) -> Whole {
        self.terms.values().map(Whole::size).max().unwrap_or(ZERO)
    }

    /// The form divided, the constant rounded down; none where a coefficient does not divide or a number passes the limit.
    fn divided(&self, by: &Whole) -> Option<Form> {
        let mut terms = Vec::with_capacity(self.terms.len());
        for (column, factor) in &self.terms {
            let (factor, rest) = factor.divided(by);
            if !rest.is_zero() {
                return None;
            }
            terms.push((*column, within(&factor)?));
        }
        Some(Form { constant: within(&self.constant.over(by))?, terms })
    }
}

impl Facts {
    fn total(&self, pairs: &[(FactId, Whole)]) -> Total {
        let mut total = Total { constant: ZERO, terms: BTreeMap::new() };
        for (id, factor) in pairs {
            let form = self.form(*id);
            total.constant = &total.constant + &(factor * &Whole::from(form.constant));
            for (column, coefficient) in &form.terms {
                let entry = total.terms.entry(*column).or_insert(ZERO);
                *entry = &*entry + &(factor * &Whole::from(*coefficient));
            }
        }
        total.terms.retain(|_, factor| !factor.is_zero());
        total
    }

    /// One Sum of at most eight pairs. An impossible constant is divided down to -1, or as far as the limit allows.
    fn sum(&mut self, pairs: &[(FactId, Whole)], divisor: &Whole) -> Option<FactId> {
        let total = self.total(pairs);
        let mut divisor = divisor.clone();
        if total.terms.is_empty() && total.constant.is_negative() && divisor == ONE {
            divisor = (-&total.constant).min(Whole::from(MOST_DIVISOR));
        }
        let form = total.divided(&divisor)?;
        let equation = pairs.iter().all(|pair| self.is_equation(pair.0)) && divisor.divides(&total.constant);
        let relation = if equation { Relation::Eq } else { Relation::Ge };
        let written: Option<Vec<(FactId, i64)>> =
            pairs.iter().map(|(id, factor)| Some((*id, within(factor)?))).collect();
        let divisor = divisor.small().filter(|divisor| *divisor <= MOST_DIVISOR)?;
        let origin = Origin::Sum { divisor, pairs: written? };
        Some(self.add(Constraint::Arithmetic(relation, form), origin))
    }

    /// The facts multiplied, added and divided, or a stronger fact; none where no way was found within the limits.
    pub fn combined(&mut self, pairs: &[(FactId, Whole)], divisor: &Whole) -> Option<FactId> {
        let mark = self.count();
        for way in [Facts::in_eights, Facts::in_twos] {
            if let Some(id) = way(self, pairs, divisor) {
                return Some(id);
            }
            self.cut_back(mark);
        }
        None
    }

    /// Eight pairs at a time, and the last Sum divided.
    fn in_eights(&mut self, pairs: &[(FactId, Whole)], divisor: &Whole) -> Option<FactId> {
        let mut pairs = pairs.to_vec();
        while pairs.len() > MOST_PAIRS {
            let part = self.sum(&pairs[..MOST_PAIRS], &ONE)?;
            pairs.drain(..MOST_PAIRS);
            pairs.push((part, ONE));
        }
        self.sum(&pairs, divisor)
    }

    /// Two facts at a time, each Sum divided by what its coefficients have in common; always the two whose sum has the smallest coefficients. For
    /// multipliers past the limit. What is left has no common divisor, so that it is no weaker than the sum divided.
    fn in_twos(&mut self, pairs: &[(FactId, Whole)], _: &Whole) -> Option<FactId> {
        let mut open = pairs.to_vec();
        while open.len() > 1 {
            let (i, j) = self.closest(&open)?;
            let (second, first) = (open.remove(j), open.remove(i));
            open.push(self.merged(&first, &second)?);
        }
        open.first().map(|pair| pair.0)
    }

    /// The two whose sum has the smallest coefficients, among those that one Sum can add.
    fn closest(&self, open: &[(FactId, Whole)]) -> Option<(usize, usize)> {
        let mut best: Option<(Whole, usize, usize)> = None;
        for j in 1..open.len() {
            for i in 0..j {
                let Some(size) = self.size_of_two(&open[i], &open[j]) else { continue };
                if best.as_ref().is_none_or(|best| size < best.0) {
                    best = Some((size, i, j));
                }
            }
        }
        best.map(|(_, i, j)| (i, j))
    }

    /// The greatest coefficient of two facts' sum, where one Sum can add them.
    fn size_of_two(&self, first: &(FactId, Whole), second: &(FactId, Whole)) -> Option<Whole> {
        let pairs = lowered(vec![first.clone(), second.clone()]);
        within(&pairs[0].1).and(within(&pairs[1].1))?;
        let total = self.total(&pairs);
        let common = total.common();
        if !total.terms.is_empty() {
            total.divided(&common)?;
        }
        Some(total.greatest().over(&common))
    }

    /// Two facts as one, with the multiplier that it has in the whole.
    fn merged(&mut self, first: &(FactId, Whole), second: &(FactId, Whole)) -> Option<(FactId, Whole)> {
        let scale = first.1.common(&second.1);
        let pairs = lowered(vec![first.clone(), second.clone()]);
        let common = self.total(&pairs).common();
        let id = self.sum(&pairs, &common)?;
        Some((id, &scale * &common))
    }
}

#[cfg(test)]
mod tests {
    use super::{Facts, Origin, Whole};
    use crate::facts::arithmetic;
    use ticket::Relation::{Eq, Ge};

    /// The constant of a fact without columns.
    fn left(facts: &mut Facts, pairs: &[(usize, i64)]) -> Option<i64> {
        let pairs: Vec<(usize, Whole)> = pairs.iter().map(|(id, factor)| (*id, Whole::from(*factor))).collect();
        let id = facts.combined(&pairs, &Whole::from(1i64))?;
        facts.form(id).terms.is_empty().then_some(facts.form(id).constant)
    }

    /// Multipliers past the limit are written as several Sums, each divided.
    #[test]
    fn large_multipliers_are_chained() {
        let mut facts = Facts::default();
        let big = 999_999_937;
        let ids = [
            facts.add(arithmetic(Ge, -7, vec![(0, big), (1, -3)]), Origin::Question),
            facts.add(arithmetic(Ge, 0, vec![(1, big), (2, -5)]), Origin::Question),
            facts.add(arithmetic(Ge, 0, vec![(2, 1)]), Origin::Question),
            facts.add(arithmetic(Ge, 0, vec![(0, -1)]), Origin::Question),
        ];
        let constant = left(&mut facts, &[(ids[0], big), (ids[1], 3), (ids[2], 15), (ids[3], big * big)]);
        assert!(constant.is_some_and(|constant| constant < 0));
        assert!(facts.count() > 5);
    }

    /// More than eight facts take two Sums; equations alone make an equation.
    #[test]
    fn nine_facts_take_two_sums() {
        let mut facts = Facts::default();
        let ids: Vec<usize> =
            (0..9).map(|column| facts.add(arithmetic(Eq, -1, vec![(column, 1)]), Origin::Question)).collect();
        let pairs: Vec<(usize, Whole)> = ids.iter().map(|id| (*id, Whole::from(2i64))).collect();
        let id = facts.combined(&pairs, &Whole::from(2i64)).expect("the numbers are small");
        assert_eq!(facts.count(), 11);
        assert!(facts.is_equation(id));
        assert_eq!((facts.form(id).constant, facts.form(id).terms.len()), (-9, 9));
    }
}
