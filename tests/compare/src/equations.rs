//! Request L4, "Sums that remain equations": what tickets reach of it, and that all that was accepted before is accepted still.

use crate::walk::Shown;
use nuldwich_reference::checking::{check_watched, Outcome};
use nuldwich_reference::facts::Relation::{AtLeast, Equal};
use nuldwich_reference::facts::{Fact, Relation};
use nuldwich_reference::rules::{Conclusion, Place, Rules};
use nuldwich_reference::steps::Rule;
use std::collections::BTreeSet;

/// What a step does by request L4. A Sum's equation or ≥ fact is one that a Sum of equations has added.
#[derive(Clone, Copy, PartialEq)]
enum Case {
    EquationAdded,
    BoundAdded,
    EquationTurned,
    BoundTurned,
    CardServed,
    Joined(Relation, Relation),
    EquationJoined,
    ClosedAboveZero,
    ClosedBelowZero,
}

/// What is to be reached under either claim.
const UNDER_BOTH: [Case; 10] = [
    Case::EquationAdded,
    Case::BoundAdded,
    Case::EquationTurned,
    Case::BoundTurned,
    Case::CardServed,
    Case::Joined(AtLeast, AtLeast),
    Case::Joined(AtLeast, Equal),
    Case::Joined(Equal, AtLeast),
    Case::Joined(Equal, Equal),
    Case::EquationJoined,
];

/// What is to be reached under claim 1 alone: "Closing rules do not fit under claim 2."
const UNDER_CLAIM_1: [Case; 2] = [Case::ClosedAboveZero, Case::ClosedBelowZero];

/// Acceptances to be reached that the rules before give as well, with a Join of what is now a Sum's equation.
const NONE_AS_BEFORE: &str = "accepted none as before, with a Sum joined";
const STRINGS_AS_BEFORE: &str = "accepted strings as before, with a Sum joined";

/// Acceptances to be reached that the rules before do not give.
const NONE_BY_L4: &str = "accepted none by L4 alone";
const STRINGS_BY_L4: &str = "accepted strings by L4 alone";

impl Case {
    fn words(self) -> &'static str {
        match self {
            Case::EquationAdded => "Sum of equations is an equation",
            Case::BoundAdded => "Sum of equations is a ≥ fact",
            Case::EquationTurned => "Sum's equation, multiplier below 0",
            Case::BoundTurned => "Sum's ≥ fact, multiplier below 0 (8)",
            Case::CardServed => "Sum's equation serves Card",
            Case::Joined(AtLeast, AtLeast) => "Join of ≥ and ≥",
            Case::Joined(AtLeast, _) => "Join of ≥ and =",
            Case::Joined(_, AtLeast) => "Join of = and ≥",
            Case::Joined(..) => "Join of = and =",
            Case::EquationJoined => "Join of a Sum's equation",
            Case::ClosedAboveZero => "A-Conf on a Sum's c = 0, c over 0",
            Case::ClosedBelowZero => "A-Conf on a Sum's c = 0, c below 0",
        }
    }

    /// The label to count by.
    fn under(self, claim: u16) -> String {
        format!("claim {claim}: {}", self.words())
    }
}

/// The labels of all that is to be reached.
pub fn to_be_reached() -> Vec<String> {
    let both = UNDER_BOTH.iter().flat_map(|case| [case.under(1), case.under(2)]);
    let closing = UNDER_CLAIM_1.iter().map(|case| case.under(1));
    let accepted = [NONE_AS_BEFORE, STRINGS_AS_BEFORE, NONE_BY_L4, STRINGS_BY_L4];
    both.chain(closing).chain(accepted.map(str::to_string)).collect()
}

/// What the steps of a ticket do.
#[derive(Default)]
pub struct Seen {
    /// The facts of the branch that are Sums of equations, by number.
    sums: Vec<usize>,
    reached: BTreeSet<String>,
}

impl Seen {
    /// Notes what a step does where it stands, if it fits.
    pub fn look_at(&mut self, shown: &Shown) {
        let cases = self.cases(shown.claim, shown.place, shown.rule, shown.conclusion);
        self.reached.extend(cases.iter().map(|case| case.under(shown.claim)));
        if shown.conclusion == Some(&Conclusion::Closes) {
            self.sums.retain(|fact| *fact < shown.mark);
        } else if cases.contains(&Case::EquationAdded) || cases.contains(&Case::BoundAdded) {
            self.sums.push(shown.place.branch.len());
        }
    }

    /// The labels of all that is reached by a ticket whose outcome now is known. "A ticket accepted before is accepted now", with the
    /// same answer, though the set of L5 may be another; else what has become of it, in words.
    pub fn examine(mut self, ticket: &[u8], now: &Outcome) -> Result<BTreeSet<String>, String> {
        let before = check_watched(Rules::Before, ticket, &mut |_, _| {});
        let joins = [1, 2].iter().any(|claim| self.reached.contains(&Case::EquationJoined.under(*claim)));
        let accepted = match (&before, now) {
            (Outcome::Refused { .. }, Outcome::Refused { .. }) => None,
            (Outcome::Refused { .. }, Outcome::NoSolution { .. }) => Some(NONE_BY_L4),
            (Outcome::Refused { .. }, Outcome::Strings { .. }) => Some(STRINGS_BY_L4),
            (Outcome::NoSolution { .. }, Outcome::NoSolution { .. }) => joins.then_some(NONE_AS_BEFORE),
            _ if before == *now => joins.then_some(STRINGS_AS_BEFORE),
            _ => return Err(format!("accepted before as {before:?}, now {now:?}")),
        };
        self.reached.extend(accepted.map(str::to_string));
        Ok(self.reached)
    }

    /// What a step does; one that does not fit may turn a Sum's ≥ fact.
    fn cases(&self, claim: u16, place: &Place, rule: &Rule, conclusion: Option<&Conclusion>) -> Vec<Case> {
        let is_sum = |fact: usize| self.sums.contains(&fact) && place.relation(fact) == Some(Equal);
        let cases = match (rule, conclusion) {
            (Rule::Sum { pairs, .. }, None) => [self.turns(place, pairs, AtLeast).then_some(Case::BoundTurned), None],
            (Rule::Sum { pairs, .. }, Some(conclusion)) => {
                let turned = self.turns(place, pairs, Equal).then_some(Case::EquationTurned);
                [turned, place.are_equations(pairs).then(|| added(conclusion))]
            }
            (Rule::Card(variables), Some(_)) => {
                let mut facts = variables.windows(2).filter_map(|pair| place.equal_lengths(pair[0], pair[1]));
                [facts.any(is_sum).then_some(Case::CardServed), None]
            }
            (Rule::Join(first, second), Some(_)) => {
                let relations = place.relation(*first).zip(place.relation(*second));
                let joined = relations.map(|(first, second)| Case::Joined(first, second));
                [joined, (is_sum(*first) || is_sum(*second)).then_some(Case::EquationJoined)]
            }
            (Rule::AConf(fact), Some(_)) if is_sum(*fact) && claim == 1 => [closed(place, *fact), None],
            _ => [None, None],
        };
        cases.into_iter().flatten().collect()
    }

    /// Whether a Sum's fact of this relation has a multiplier below 0.
    fn turns(&self, place: &Place, pairs: &[(usize, i128)], relation: Relation) -> bool {
        let mut turned = pairs.iter().filter(|(fact, multiplier)| self.sums.contains(fact) && *multiplier < 0);
        turned.any(|(fact, _)| place.relation(*fact) == Some(relation))
    }
}

/// What a Sum of equations adds.
fn added(conclusion: &Conclusion) -> Case {
    match conclusion {
        Conclusion::Children(children) if matches!(children[0][0], Fact::Arithmetic(Equal, _)) => Case::EquationAdded,
        _ => Case::BoundAdded,
    }
}

/// By which constant an equation closes.
fn closed(place: &Place, fact: usize) -> Option<Case> {
    let (_, row) = place.arithmetic(fact)?;
    Some(if row.constant > 0 { Case::ClosedAboveZero } else { Case::ClosedBelowZero })
}

#[cfg(test)]
mod tests {
    use super::*;
    use crate::check::{columns, Check};
    use crate::operation::Operation;
    use crate::vectors;

    /// But for what L4 itself changes, the vectors of document 01 have the outcome of the rules before.
    #[test]
    fn the_rules_before_give_what_the_base_expects() {
        let mut of_base = vectors::load_but("L4", &vectors::directory(), "check", &Check.folders(), &["ticket"]);
        of_base.retain(|vector| vector.name.starts_with("base/"));
        assert!(of_base.len() > 400);
        for vector in of_base {
            let outcome = check_watched(Rules::Before, &vector.input.parts[0], &mut |_, _| {});
            assert!(Check.fits(&vector.columns, &columns(&outcome)), "{}: {outcome:?}", vector.name);
        }
    }
}
