//! More texts of one length than there are strings: joined where nothing tells them apart, else Card.

use crate::branch::Branch;
use crate::candidate::{room, Candidate};
use crate::facts::{less, negative, FactId, Origin};
use crate::search::Search;
use crate::strings::Classes;
use crate::tree::{End, Split};
use std::collections::BTreeMap;
use ticket::{Constraint, Form, Relation};

/// Over more characters than variables every length from 1 on has a string for each.
const ENOUGH_CHARACTERS: u32 = 16;

impl Search<'_> {
    /// Card, or what brings its premise nearer, for each length with too many texts.
    pub fn call_cards(
        &mut self,
        branch: &mut Branch,
        candidate: &Candidate,
        classes: &mut Classes,
        splits: &mut Vec<Split>,
    ) -> Result<(), End> {
        if self.question.n >= ENOUGH_CHARACTERS {
            return Ok(());
        }
        let mut groups: BTreeMap<i64, Vec<usize>> = BTreeMap::new();
        for x in &candidate.heads {
            if let Some(length) = candidate.len(*x).small().filter(|length| *length >= 1) {
                groups.entry(length).or_default().push(*x);
            }
        }
        for (length, group) in groups {
            let room = room(self.question.n, length);
            if group.len() as u64 > room {
                self.call_card(branch, length, group, room as usize, classes, splits)?;
            }
        }
        Ok(())
    }

    /// Joins texts that may be one, or calls for Card where too many may not.
    fn call_card(
        &mut self,
        branch: &mut Branch,
        length: i64,
        mut group: Vec<usize>,
        room: usize,
        classes: &mut Classes,
        splits: &mut Vec<Split>,
    ) -> Result<(), End> {
        let differ = |x: &usize, y: &usize| branch.classes.differ(*x, *y);
        let all = group.clone();
        group.sort_by_key(|x| std::cmp::Reverse(all.iter().filter(|y| differ(x, y)).count()));
        let mut bins: Vec<Vec<usize>> = Vec::new();
        let mut apart: Vec<usize> = Vec::new();
        for x in &group {
            if apart.iter().all(|y| differ(x, y)) {
                apart.push(*x);
            }
            match bins.iter_mut().find(|bin| bin.iter().all(|y| !differ(x, y))) {
                Some(bin) => bin.push(*x),
                None => bins.push(vec![*x]),
            }
        }
        if bins.len() > room {
            group.sort_by_key(|x| !apart.contains(x));
            group.truncate(room + 1);
            group.sort_unstable();
            return self.card(branch, length, group, splits);
        }
        for bin in bins.iter().filter(|_| length > 1) {
            bin.iter().for_each(|x| {
                classes.join(bin[0], *x);
            });
        }
        Ok(())
    }

    /// Card for these variables; where their lengths are not known to be equal, Branch on a length or on a difference.
    fn card(
        &mut self,
        branch: &mut Branch,
        length: i64,
        variables: Vec<usize>,
        splits: &mut Vec<Split>,
    ) -> Result<(), End> {
        let mut equal = Vec::new();
        for pair in variables.windows(2) {
            let terms = less(self.question.len_column(pair[0]), self.question.len_column(pair[1]));
            match self.equality(branch, &terms)? {
                Ok(id) => equal.push(id),
                Err(open) => {
                    if self.effort.by_length {
                        splits.extend(variables.iter().filter_map(|x| self.at_length(branch, *x, length)));
                    }
                    splits.push(Split::Branch(open));
                    return Ok(());
                }
            }
        }
        splits.push(Split::Card { variables, equal });
        Ok(())
    }

    /// Branch that sets a length apart from greater ones, or from smaller ones where there are no greater ones.
    fn at_length(&self, branch: &Branch, x: usize, length: i64) -> Option<Split> {
        let column = self.question.len_column(x);
        let (low, high) = (branch.simplex.lower(column), branch.simplex.upper(column));
        let from = |least: i64| Some(Split::Branch(Form { constant: -least, terms: vec![(column, 1)] }));
        match (low, high) {
            _ if high != Some(length) => from(length + 1),
            _ if low != Some(length) => from(length),
            _ => None,
        }
    }

    /// A fact form = 0 on the branch, or the form whose sign is open.
    fn equality(&mut self, branch: &mut Branch, terms: &Vec<(usize, i64)>) -> Result<Result<FactId, Form>, End> {
        let turned = negative(terms);
        let fits = |form: &Form| form.constant == 0 && (form.terms == *terms || form.terms == turned);
        let known = branch.arithmetic.iter().copied();
        if let Some(id) = known.filter(|id| self.facts.is_equation(*id)).find(|id| fits(self.facts.form(*id))) {
            return Ok(Ok(id));
        }
        let mut sides = Vec::new();
        for side in [terms, &turned] {
            match self.implied(branch, side)? {
                Some(id) if self.facts.is_equation(id) => return self.taken(branch, id),
                Some(id) => sides.push(id),
                None => return Ok(Err(Form { constant: 0, terms: side.clone() })),
            }
        }
        let says = Constraint::Arithmetic(Relation::Eq, Form { constant: 0, terms: terms.clone() });
        let id = self.facts.add(says, Origin::Join(sides[0], sides[1]));
        self.taken(branch, id)
    }

    fn taken(&mut self, branch: &mut Branch, id: FactId) -> Result<Result<FactId, Form>, End> {
        self.take(branch, id)?;
        Ok(Ok(id))
    }
}
