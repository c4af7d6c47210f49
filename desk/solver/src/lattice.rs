//! The whole solutions of equations form a shifted lattice. Its reduced coordinates are forms over the columns: good forms for Branch where the columns
//! themselves lead nowhere, as in check sums. Where there are no whole solutions, a sum of the equations says so.

use crate::rational::{Rational, NOUGHT};
use crate::reduction::Basis;
use crate::whole::{Whole, ZERO};

/// A form over the columns, without a constant.
pub type Terms = Vec<(usize, i64)>;

/// An equation: constant plus terms is 0.
pub struct Equation {
    pub constant: i64,
    pub terms: Terms,
}

/// Coefficients of lattice forms stay below this.
const LARGEST: i64 = 100_000_000;

/// Column operations on the equations: what they become, the solutions' basis, and its inverse.
pub struct Lattice {
    rows: Vec<Vec<Whole>>,
    constants: Vec<i64>,
    basis: Basis,
    /// The row and the column of each pivot.
    pivots: Vec<(usize, usize)>,
    free: Vec<usize>,
}

impl Lattice {
    /// The equations in echelon form.
    pub fn new(columns: usize, equations: &[Equation]) -> Lattice {
        let dense = |equation: &Equation| {
            let mut row = vec![ZERO; columns];
            equation.terms.iter().for_each(|(column, factor)| row[*column] = Whole::from(*factor));
            row
        };
        let mut lattice = Lattice {
            rows: equations.iter().map(dense).collect(),
            constants: equations.iter().map(|equation| equation.constant).collect(),
            basis: Basis::new(columns),
            pivots: Vec::new(),
            free: (0..columns).collect(),
        };
        for row in 0..equations.len() {
            lattice.clear(row);
        }
        lattice
    }

    /// Clears a row but for one entry among the free columns.
    fn clear(&mut self, row: usize) {
        loop {
            let entries = self.free.iter().copied().filter(|column| !self.rows[row][*column].is_zero());
            let entries: Vec<usize> = entries.collect();
            let Some(pivot) = entries.iter().copied().min_by_key(|column| self.rows[row][*column].size()) else {
                return;
            };
            if entries.len() == 1 {
                self.free.retain(|column| *column != pivot);
                self.pivots.push((row, pivot));
                return;
            }
            for column in entries.into_iter().filter(|column| *column != pivot) {
                let times = self.rows[row][column].over(&self.rows[row][pivot]);
                self.take_off(column, pivot, &times);
            }
        }
    }

    /// Takes a multiple of one column off another.
    fn take_off(&mut self, column: usize, pivot: usize, times: &Whole) {
        for row in &mut self.rows {
            row[column] = &row[column] - &(&row[pivot] * times);
        }
        self.basis.take_off(column, pivot, times);
    }

    /// Multipliers of the equations whose sum has whole coefficients and a constant with a fraction, where the equations have no whole solution for this
    /// reason.
    pub fn indivisible(&self) -> Option<Vec<Rational>> {
        let mut solved: Vec<Rational> = Vec::new();
        for (place, (row, column)) in self.pivots.iter().enumerate() {
            let mut rest = Rational::from(-self.constants[*row]);
            for (value, (_, earlier)) in solved.iter().zip(&self.pivots) {
                let factor = Rational::new(self.rows[*row][*earlier].clone(), Whole::from(1i64));
                rest = &rest - &(&factor * value);
            }
            let value = &rest * &Rational::new(Whole::from(1i64), self.rows[*row][*column].clone());
            if !value.is_whole() {
                return Some(self.multipliers(place));
            }
            solved.push(value);
        }
        None
    }

    /// A row of the inverse of the pivots' triangle, as multipliers of all equations.
    fn multipliers(&self, place: usize) -> Vec<Rational> {
        let mut out = vec![NOUGHT; self.rows.len()];
        for at in (0..=place).rev() {
            let (row, column) = self.pivots[at];
            let due = Rational::from(i64::from(at == place));
            let later = self.pivots[at + 1..=place].iter();
            let sum = later.fold(NOUGHT, |sum, (later, _)| {
                let factor = Rational::new(self.rows[*later][column].clone(), Whole::from(1i64));
                &sum + &(&factor * &out[*later])
            });
            out[row] = &(&due - &sum) * &Rational::new(Whole::from(1i64), self.rows[row][column].clone());
        }
        out
    }

    /// Coordinates of the lattice, longest direction first; none where there is nothing to gain. A heavier column is one with less room.
    pub fn forms(mut self, weights: &[i64], most_rounds: usize) -> Vec<Terms> {
        if self.pivots.is_empty() || self.free.is_empty() {
            return Vec::new();
        }
        self.basis.reduce(&mut self.free, weights, most_rounds);
        let fixed: Vec<usize> = self.pivots.iter().map(|pivot| pivot.1).collect();
        self.free.iter().rev().filter_map(|column| terms(&self.basis.shortened(*column, &fixed))).collect()
    }
}

/// The form of a coordinate, where it has several columns, no common divisor and small coefficients.
fn terms(coordinate: &[Whole]) -> Option<Terms> {
    let common = coordinate.iter().fold(ZERO, |common, entry| common.common(entry));
    let small = |entry: &Whole| entry.small().filter(|entry| entry.abs() < LARGEST);
    let entries: Option<Vec<i64>> = coordinate.iter().map(small).collect();
    let terms: Terms = entries?.into_iter().enumerate().filter(|entry| entry.1 != 0).collect();
    (common == Whole::from(1i64) && terms.len() > 1).then_some(terms)
}

#[cfg(test)]
mod tests {
    use super::{Equation, Lattice, Terms};
    use crate::rational::{Rational, NOUGHT};

    fn equation(constant: i64, terms: &[(usize, i64)]) -> Equation {
        Equation { constant, terms: terms.to_vec() }
    }

    /// a + b = 2k + 1 and a − b = 2m: the sum is even on one side alone.
    #[test]
    fn parity_is_indivisible() {
        let equations = [equation(-1, &[(0, 1), (1, 1), (2, -2)]), equation(0, &[(0, 1), (1, -1), (3, -2)])];
        let factors = Lattice::new(4, &equations).indivisible().expect("there is no whole solution");
        for column in 0..4 {
            let of = |equation: &Equation| equation.terms.iter().find(|term| term.0 == column).map_or(0, |term| term.1);
            let sum = factors.iter().zip(&equations).fold(NOUGHT, |sum, (factor, one)| &sum + &factor.times(of(one)));
            assert!(sum.is_whole());
        }
        let constant =
            factors.iter().zip(&equations).fold(NOUGHT, |sum, (factor, one)| &sum + &factor.times(one.constant));
        assert!(!constant.is_whole());
    }

    /// Whole solutions have whole coordinates, and a solution with fractions has one with a fraction.
    #[test]
    fn coordinates_tell_fractions() {
        let equations = [equation(-5, &[(0, 3), (1, 7), (2, 11)])];
        let lattice = Lattice::new(3, &equations);
        assert!(lattice.indivisible().is_none());
        let forms = lattice.forms(&[1, 1, 1], 100);
        assert_eq!(forms.len(), 2);
        let value = |terms: &Terms, point: [Rational; 3]| {
            terms.iter().fold(NOUGHT, |sum, (column, factor)| &sum + &point[*column].times(*factor))
        };
        let whole = [-3i64, 2, 0].map(Rational::from);
        assert!(forms.iter().all(|form| value(form, whole.clone()).is_whole()));
        let third = &Rational::from(5) * &Rational::from(3).inverse();
        assert!(forms.iter().any(|form| !value(form, [third.clone(), NOUGHT, NOUGHT]).is_whole()));
    }
}
