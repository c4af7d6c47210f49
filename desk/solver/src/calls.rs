//! The splits that a candidate calls for: those of which no child holds by its values. Classes of one value are joined, not split, unless a ≉ stands
//! between them.

use crate::branch::Branch;
use crate::candidate::Candidate;
use crate::rational::Rational;
use crate::search::Search;
use crate::strings::Classes;
use crate::tree::{End, Split, Stuck};
use crate::whole::Whole;
use std::collections::BTreeSet;
use ticket::{Form, LONGEST_STRING, NUMBER_LIMIT, VALUE_LIMIT};

pub enum Calls {
    Splits(Vec<Split>),
    /// A leaf that can be settled when these classes are joined.
    Settled(Classes),
    /// Only lengths or values past their limits stand in the way.
    Blocked(Stuck),
}

impl Search<'_> {
    pub fn calls(&mut self, branch: &mut Branch, candidate: &Candidate) -> Result<Calls, End> {
        let mut splits = Vec::new();
        self.call_apart(branch, candidate, &mut splits);
        self.call_valid(branch, candidate, &mut splits);
        self.call_different(branch, candidate, &mut splits);
        self.call_whole(branch, candidate, &mut splits);
        let mut classes = joined(branch, candidate);
        self.call_cards(branch, candidate, &mut classes, &mut splits)?;
        if !splits.is_empty() {
            return Ok(Calls::Splits(splits));
        }
        let blocked = self.call_limits(branch, candidate, &mut splits);
        Ok(match blocked {
            _ if !splits.is_empty() => Calls::Splits(splits),
            Some(stuck) => Calls::Blocked(stuck),
            None => Calls::Settled(classes),
        })
    }

    /// Facts e ≠ 0 that do not hold.
    fn call_apart(&self, branch: &Branch, candidate: &Candidate, splits: &mut Vec<Split>) {
        for id in &branch.unequal {
            let form = self.facts.form(*id);
            if candidate.value(form.constant, &form.terms).is_zero() {
                splits.push(Split::Apart(*id));
            }
        }
    }

    /// Lengths and codes that do not fit together.
    fn call_valid(&self, branch: &Branch, candidate: &Candidate, splits: &mut Vec<Split>) {
        let top = Rational::from(i64::from(self.question.n) - 1);
        for x in candidate.heads.iter().filter(|x| branch.classes.literal_of(**x).is_none()) {
            let (length, code) = (candidate.len(*x), candidate.code(*x));
            let fits = if length.is(1) { !code.is_negative() && *code <= top } else { code.is(-1) };
            let split = (0..self.question.p).any(|y| branch.classes.same(y, *x) && branch.valid >> y & 1 == 1);
            if !fits && !split {
                splits.push(Split::CValid(*x));
            }
            if *length < Rational::from(1) && !length.is_zero() {
                splits.push(Split::LValid(*x));
            }
        }
    }

    /// Texts that are told apart and have one value.
    fn call_different(&self, branch: &Branch, candidate: &Candidate, splits: &mut Vec<Split>) {
        let head = |x: usize| candidate.heads.iter().copied().find(|head| branch.classes.same(*head, x)).unwrap_or(x);
        let mut asked = BTreeSet::new();
        for (a, b) in branch.classes.parted() {
            let (x, y) = (head(a), head(b));
            if !asked.insert((x.min(y), x.max(y))) {
                continue;
            }
            let code = candidate.code(x);
            if code == candidate.code(y) && !code.is(-1) {
                splits.extend(self.injection(branch, x, y));
            } else if candidate.len(x).is_zero() && candidate.len(y).is_zero() {
                let empty = branch.classes.literal(0);
                splits.extend([x, y].into_iter().filter(|x| !branch.classes.same(*x, empty)).map(Split::LValid));
            }
        }
    }

    /// C-Inj where it was not split yet, the variable first whose code is surely not -1.
    fn injection(&self, branch: &Branch, x: usize, y: usize) -> Option<Split> {
        let same = |a: usize, b: usize| branch.classes.same(a, b);
        let of_these = |(a, b): &(usize, usize)| (same(*a, x) && same(*b, y)) || (same(*a, y) && same(*b, x));
        if branch.injected.iter().any(of_these) {
            return None;
        }
        let sure = |x: usize| branch.simplex.lower(self.question.code_column(x)).is_some_and(|low| low >= 0);
        Some(if sure(y) && !sure(x) { Split::CInj(y, x) } else { Split::CInj(x, y) })
    }

    /// Values with a fraction: of the lattice's forms, then of the columns.
    fn call_whole(&mut self, branch: &Branch, candidate: &Candidate, splits: &mut Vec<Split>) {
        if candidate.values.iter().all(Rational::is_whole) {
            return;
        }
        let known = self.known(branch);
        let of_forms = known.forms.iter().filter_map(|terms| rounded(&candidate.value(0, terms), terms.clone()));
        splits.extend(of_forms.take(self.effort.forms));
        let columns = candidate.values.iter().enumerate();
        splits.extend(columns.filter_map(|(column, value)| rounded(value, vec![(column, 1)])));
    }

    /// Lengths over 64 and values past a model's limit: the near side first; what is surely past them.
    fn call_limits(&self, branch: &Branch, candidate: &Candidate, splits: &mut Vec<Split>) -> Option<Stuck> {
        let mut blocked = None;
        let lengths = self.question.len_column(0)..self.question.len_column(self.question.p);
        for (column, value) in candidate.values.iter().enumerate() {
            let is_length = lengths.contains(&column);
            let top = if is_length { LONGEST_STRING as i64 } else { VALUE_LIMIT };
            let (low, high) = (branch.simplex.lower(column), branch.simplex.upper(column));
            if *value > Rational::from(top) {
                match low {
                    Some(low) if low > top => blocked = Some(if is_length { Stuck::Length } else { Stuck::Numbers }),
                    _ => splits.push(Split::Branch(Form { constant: -top - 1, terms: vec![(column, 1)] })),
                }
            } else if *value < Rational::from(-VALUE_LIMIT) {
                match high {
                    Some(high) if high < -VALUE_LIMIT => blocked = Some(Stuck::Numbers),
                    _ => splits.push(Split::Branch(Form { constant: VALUE_LIMIT, terms: vec![(column, 1)] })),
                }
            }
        }
        blocked
    }
}

/// Branch at a form's value, where that has a fraction and is within the limits.
fn rounded(value: &Rational, terms: Vec<(usize, i64)>) -> Option<Split> {
    if value.is_whole() {
        return None;
    }
    let above = (&value.floor() + &Whole::from(1i64)).small()?;
    (above.abs() < NUMBER_LIMIT).then_some(Split::Branch(Form { constant: -above, terms }))
}

/// The classes after empty texts, and texts of one character, are joined by their values.
fn joined(branch: &Branch, candidate: &Candidate) -> Classes {
    let mut classes = branch.classes.clone();
    let empty = classes.literal(0);
    for (place, x) in candidate.heads.iter().enumerate() {
        if candidate.len(*x).is_zero() {
            classes.join(empty, *x);
        }
        for y in &candidate.heads[..place] {
            if candidate.len(*x).is(1) && candidate.len(*y).is(1) && candidate.code(*x) == candidate.code(*y) {
                classes.join(*x, *y);
            }
        }
    }
    classes
}
