//! Bounds of single columns that follow from one fact and the bounds of its other columns, rounded to whole numbers. They close branches whose certificates
//! pass the limit of numbers: each of these Sums is small.

use crate::branch::Branch;
use crate::facts::FactId;
use crate::rational::Rational;
use crate::search::Search;
use crate::simplex::Certificate;
use crate::sums::cleared;
use crate::tree::{End, Stuck};
use crate::whole::Whole;

/// Facts that are derived for one branch, at most.
const MOST_DERIVED: usize = 40;

impl Search<'_> {
    /// Closes a branch by bounds alone, or says that numbers stood in the way.
    pub fn closed_by_bounds(&mut self, branch: &Branch) -> End {
        let mut branch = branch.clone();
        let mark = self.facts.count();
        while self.facts.count() < mark + MOST_DERIVED {
            let before = self.facts.count();
            if let Err(end) = self.bound_all(&mut branch) {
                return end;
            }
            if self.facts.count() == before {
                break;
            }
        }
        End::Stuck(Stuck::Numbers)
    }

    /// Bounds by each fact for each of its columns, both ways of an equation.
    fn bound_all(&mut self, branch: &mut Branch) -> Result<(), End> {
        for id in branch.arithmetic.clone() {
            let signs: &[i64] = if self.facts.is_equation(id) { &[1, -1] } else { &[1] };
            for sign in signs {
                for place in 0..self.facts.form(id).terms.len() {
                    self.bound_one(branch, id, *sign, place)?;
                }
            }
        }
        Ok(())
    }

    /// The bound of one column, where it is better than the one there.
    fn bound_one(&mut self, branch: &mut Branch, id: FactId, sign: i64, place: usize) -> Result<(), End> {
        let terms = self.facts.form(id).terms.clone();
        let (column, factor) = (terms[place].0, sign * terms[place].1);
        let mut pairs: Certificate = vec![(id, Rational::from(sign))];
        let mut rest = Rational::from(sign * self.facts.form(id).constant);
        for (other, factor) in terms.iter().filter(|term| term.0 != column) {
            let Some((at, pair)) = branch.simplex.clearing(*other, sign * factor) else { return Ok(()) };
            rest = &rest + &Rational::from(sign * factor).times(at);
            pairs.push(pair);
        }
        let room = &rest * &Rational::from(factor.abs()).inverse();
        if !is_better(branch, column, factor > 0, &room.floor()) {
            return Ok(());
        }
        let (pairs, scale) = cleared(&pairs);
        match self.facts.combined(&pairs, &(&scale * &Whole::from(factor.abs()))) {
            Some(sum) => self.take_bound(branch, sum),
            None => Ok(()),
        }
    }

    fn take_bound(&mut self, branch: &mut Branch, id: FactId) -> Result<(), End> {
        let Err(certificate) = branch.simplex.take(id, false, self.facts.form(id)) else { return Ok(()) };
        let closed = self.summed(branch, &certificate);
        Err(closed.map_or(End::Stuck(Stuck::Numbers), End::Closed))
    }
}

/// Whether a column is at least −room, or at most room, by more than is known.
fn is_better(branch: &Branch, column: usize, is_lower: bool, room: &Whole) -> bool {
    let known = if is_lower { branch.simplex.lower(column).map(|low| -low) } else { branch.simplex.upper(column) };
    known.is_none_or(|known| *room < Whole::from(known))
}
