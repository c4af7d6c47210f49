//! The general simplex method of Dutertre and de Moura over exact fractions. Bounds are whole and remember their fact, so that a conflict is a list of
//! facts with multipliers, and a row with a fraction a list for a cut.

use crate::clock::Clock;
use crate::facts::FactId;
use crate::rational::{Rational, NOUGHT};
use crate::whole::common;
use std::collections::HashMap;
use std::rc::Rc;
use ticket::Form;

/// Facts with multipliers whose sum is impossible, or a cut before it is rounded.
pub type Certificate = Vec<(FactId, Rational)>;

/// A bound of a variable; its inequality is the fact divided by the divisor, which has the fact's sign for an equation used the other way.
#[derive(Clone, Copy)]
pub struct Bound {
    pub at: i64,
    fact: FactId,
    divisor: i64,
}

/// Where a variable stands: a row of its own, or a column of the rows.
#[derive(Clone, Copy)]
enum Place {
    Row(usize),
    Column(usize),
}

/// The variables are the question's columns, then one for each form of several columns that has a bound.
#[derive(Clone)]
pub struct Simplex {
    columns: usize,
    lower: Vec<Option<Bound>>,
    upper: Vec<Option<Bound>>,
    values: Vec<Rational>,
    rows: Vec<Rc<Vec<Rational>>>,
    basis: Vec<usize>,
    others: Vec<usize>,
    places: Vec<Place>,
    forms: Rc<HashMap<Vec<(usize, i64)>, usize>>,
}

pub enum Outcome {
    Fine,
    Conflict(Certificate),
    OutOfTime,
}

impl Bound {
    /// The fact with the multiplier that makes it this bound, times a factor.
    fn times(&self, factor: &Rational) -> (FactId, Rational) {
        (self.fact, factor * &Rational::from(self.divisor).inverse())
    }
}

impl Simplex {
    pub fn new(columns: usize) -> Simplex {
        Simplex {
            columns,
            lower: vec![None; columns],
            upper: vec![None; columns],
            values: vec![NOUGHT; columns],
            rows: Vec::new(),
            basis: Vec::new(),
            others: (0..columns).collect(),
            places: (0..columns).map(Place::Column).collect(),
            forms: Rc::default(),
        }
    }

    /// The values of the question's columns.
    pub fn values(&self) -> &[Rational] {
        &self.values[..self.columns]
    }

    pub fn lower(&self, column: usize) -> Option<i64> {
        self.lower[column].map(|bound| bound.at)
    }

    pub fn upper(&self, column: usize) -> Option<i64> {
        self.upper[column].map(|bound| bound.at)
    }

    /// The bound that removes a column with this coefficient from a sum of facts e ≥ 0: the column's value there, and the fact with its multiplier.
    pub fn clearing(&self, column: usize, factor: i64) -> Option<(i64, (FactId, Rational))> {
        let bound = if factor > 0 { self.upper[column] } else { self.lower[column] }?;
        Some((bound.at, bound.times(&Rational::from(factor.abs()))))
    }

    /// Takes a fact form >= 0, or form = 0; the common divisor of the coefficients divides its constant.
    pub fn take(&mut self, fact: FactId, equation: bool, form: &Form) -> Result<(), Certificate> {
        let Some((_, leading)) = form.terms.first() else { return Ok(()) };
        let divisor = form.terms.iter().fold(0, |divisor, term| common(divisor, term.1.abs()));
        let sign = leading.signum();
        let terms: Vec<(usize, i64)> =
            form.terms.iter().map(|(column, factor)| (*column, sign * factor / divisor)).collect();
        let variable = self.variable(terms);
        let at = -sign * (form.constant / divisor);
        if sign > 0 || equation {
            self.raise(variable, Bound { at, fact, divisor: sign * divisor })?;
        }
        if sign < 0 || equation {
            self.lower_to(variable, Bound { at, fact, divisor: -sign * divisor })?;
        }
        Ok(())
    }

    /// The variable of a form without common divisor whose first coefficient is positive.
    fn variable(&mut self, form: Vec<(usize, i64)>) -> usize {
        if form.len() == 1 {
            return form[0].0;
        }
        if let Some(variable) = self.forms.get(&form) {
            return *variable;
        }
        let variable = self.values.len();
        let (row, value) = self.row_of(&form);
        self.values.push(value);
        self.lower.push(None);
        self.upper.push(None);
        self.places.push(Place::Row(self.rows.len()));
        self.basis.push(variable);
        self.rows.push(Rc::new(row));
        Rc::make_mut(&mut self.forms).insert(form, variable);
        variable
    }

    /// A form over the variables that have no row, and its value.
    fn row_of(&self, form: &[(usize, i64)]) -> (Vec<Rational>, Rational) {
        let mut row = vec![NOUGHT; self.columns];
        let mut value = NOUGHT;
        for (column, factor) in form {
            let factor = Rational::from(*factor);
            value = &value + &(&factor * &self.values[*column]);
            match self.places[*column] {
                Place::Column(place) => row[place] = &row[place] + &factor,
                Place::Row(place) => add_multiple(&mut row, &factor, &self.rows[place]),
            }
        }
        (row, value)
    }

    /// Takes a lower bound; a conflict with the upper one is two facts.
    fn raise(&mut self, variable: usize, bound: Bound) -> Result<(), Certificate> {
        if self.lower[variable].is_some_and(|mine| mine.at >= bound.at) {
            return Ok(());
        }
        if let Some(other) = self.upper[variable].filter(|other| bound.at > other.at) {
            return Err(both(bound, other));
        }
        self.lower[variable] = Some(bound);
        self.bring_within(variable, bound.at, |value, at| value < at);
        Ok(())
    }

    /// Takes an upper bound, likewise.
    fn lower_to(&mut self, variable: usize, bound: Bound) -> Result<(), Certificate> {
        if self.upper[variable].is_some_and(|mine| mine.at <= bound.at) {
            return Ok(());
        }
        if let Some(other) = self.lower[variable].filter(|other| bound.at < other.at) {
            return Err(both(bound, other));
        }
        self.upper[variable] = Some(bound);
        self.bring_within(variable, bound.at, |value, at| value > at);
        Ok(())
    }

    /// A variable without a row stands within its bounds always.
    fn bring_within(&mut self, variable: usize, at: i64, outside: fn(&Rational, &Rational) -> bool) {
        let at = Rational::from(at);
        if let Place::Column(place) = self.places[variable] {
            if outside(&self.values[variable], &at) {
                self.set(place, at);
            }
        }
    }

    /// Gives the variable of a column another value.
    fn set(&mut self, place: usize, value: Rational) {
        let variable = self.others[place];
        let step = &value - &self.values[variable];
        for (row, basic) in self.rows.iter().zip(&self.basis) {
            if !row[place].is_zero() {
                self.values[*basic] = &self.values[*basic] + &(&row[place] * &step);
            }
        }
        self.values[variable] = value;
    }

    /// Brings all values within their bounds, or says why there are none.
    pub fn check(&mut self, clock: &Clock) -> Outcome {
        loop {
            let Some((row, low)) = self.outside() else { return Outcome::Fine };
            let Some(place) = self.entering(row, low) else { return Outcome::Conflict(self.conflict(row, low)) };
            if clock.is_over() {
                return Outcome::OutOfTime;
            }
            self.move_to_bound(row, place, low);
            self.exchange(row, place);
        }
    }

    /// The row of the lowest variable that is out of its bounds, and whether it is too low (Bland's rule).
    fn outside(&self) -> Option<(usize, bool)> {
        let mut best: Option<(usize, usize, bool)> = None;
        for (row, variable) in self.basis.iter().enumerate() {
            let value = &self.values[*variable];
            let low = self.lower[*variable].is_some_and(|bound| *value < Rational::from(bound.at));
            let high = self.upper[*variable].is_some_and(|bound| *value > Rational::from(bound.at));
            if (low || high) && best.is_none_or(|best| *variable < best.0) {
                best = Some((*variable, row, low));
            }
        }
        best.map(|(_, row, low)| (row, low))
    }

    /// The column of the lowest variable that can move the row's value the way it is due.
    fn entering(&self, row: usize, low: bool) -> Option<usize> {
        let movable = |place: &usize| {
            let factor = &self.rows[row][*place];
            let variable = self.others[*place];
            let value = &self.values[variable];
            match factor.is_positive() == low {
                _ if factor.is_zero() => false,
                true => self.upper[variable].is_none_or(|bound| *value < Rational::from(bound.at)),
                false => self.lower[variable].is_none_or(|bound| *value > Rational::from(bound.at)),
            }
        };
        (0..self.columns).filter(movable).min_by_key(|place| self.others[*place])
    }

    /// The row's own bound and the bounds at which its columns stand.
    fn conflict(&self, row: usize, low: bool) -> Certificate {
        let own = if low { self.lower[self.basis[row]] } else { self.upper[self.basis[row]] };
        let mut out: Certificate = own.iter().map(|bound| bound.times(&Rational::from(1))).collect();
        for (factor, variable) in self.rows[row].iter().zip(&self.others) {
            let up = factor.is_positive() == low;
            let bound = if up { self.upper[*variable] } else { self.lower[*variable] };
            if let Some(bound) = bound.filter(|_| !factor.is_zero()) {
                out.push(bound.times(&factor.size()));
            }
        }
        out
    }

    /// Brings the row's value to its bound by moving the column's variable.
    fn move_to_bound(&mut self, row: usize, place: usize, low: bool) {
        let (basic, variable) = (self.basis[row], self.others[place]);
        let bound = if low { self.lower[basic] } else { self.upper[basic] };
        let Some(bound) = bound else { return };
        let way = &Rational::from(bound.at) - &self.values[basic];
        let step = &way * &self.rows[row][place].inverse();
        let value = &self.values[variable] + &step;
        self.set(place, value);
    }

    /// The row's variable and the column's change places.
    fn exchange(&mut self, row: usize, place: usize) {
        let (basic, variable) = (self.basis[row], self.others[place]);
        let inverse = self.rows[row][place].inverse();
        let mut solved: Vec<Rational> = self.rows[row].iter().map(|factor| -&(factor * &inverse)).collect();
        solved[place] = inverse;
        for other in (0..self.rows.len()).filter(|other| *other != row) {
            let factor = self.rows[other][place].clone();
            if factor.is_zero() {
                continue;
            }
            let target = Rc::make_mut(&mut self.rows[other]);
            target[place] = NOUGHT;
            add_multiple(target, &factor, &solved);
        }
        self.rows[row] = Rc::new(solved);
        self.basis[row] = variable;
        self.others[place] = basic;
        self.places[variable] = Place::Row(row);
        self.places[basic] = Place::Column(place);
    }

    /// Gomory's cuts of rows whose value has a fraction, at most so many: facts with multipliers whose sum has whole coefficients and a constant that is
    /// to be rounded down.
    pub fn cuts(&self, most: usize) -> Vec<Certificate> {
        let fractional = |row: &usize| self.basis[*row] < self.columns && !self.values[self.basis[*row]].is_whole();
        let rows = (0..self.rows.len()).filter(fractional);
        rows.filter_map(|row| self.cuts_of(row)).flatten().filter(|cut| !cut.is_empty()).take(most).collect()
    }

    /// The two cuts of a row; none where a column stands at no bound.
    fn cuts_of(&self, row: usize) -> Option<[Certificate; 2]> {
        let (mut plus, mut minus) = (Certificate::new(), Certificate::new());
        for (factor, variable) in self.rows[row].iter().zip(&self.others) {
            if factor.is_zero() {
                continue;
            }
            let value = &self.values[*variable];
            let at = |bound: &Option<Bound>| bound.filter(|bound| value.is(bound.at));
            let (factor, bound) = match (at(&self.lower[*variable]), at(&self.upper[*variable])) {
                (Some(bound), _) => (factor.clone(), bound),
                (_, Some(bound)) => (-factor, bound),
                _ if factor.is_whole() && value.is_whole() => continue,
                _ => return None,
            };
            if !factor.is_whole() {
                plus.push(bound.times(&factor.fraction()));
                minus.push(bound.times(&(-&factor).fraction()));
            }
        }
        Some([plus, minus])
    }
}

/// The two facts of bounds that exclude each other.
fn both(bound: Bound, other: Bound) -> Certificate {
    let one = Rational::from(1);
    vec![bound.times(&one), other.times(&one)]
}

/// Adds a multiple of one row to another.
fn add_multiple(target: &mut [Rational], factor: &Rational, row: &[Rational]) {
    for (entry, other) in target.iter_mut().zip(row) {
        if !other.is_zero() {
            *entry = &*entry + &(factor * other);
        }
    }
}
