//! Request L5, "Which conditions took part": the question's constraints that a step rests on.

use crate::facts::Fact;
use crate::rules::Place;
use crate::steps::Rule;
use std::collections::BTreeSet;

/// "the set of question constraints that it rests on", by their numbers
pub type Set = BTreeSet<usize>;

impl Place<'_> {
    /// What a step that fits rests on, where `sets` has the set of each fact of the branch: so does every fact that it adds, and
    /// so does the closing of a branch.
    pub fn rests_on(&self, sets: &[Set], rule: &Rule) -> Set {
        self.grounds(rule).into_iter().flat_map(|fact| &sets[fact]).copied().collect()
    }

    /// The facts whose sets a step that fits uses, by their numbers.
    ///
    /// "Sum, Join, Apart and A-Conf use the sets of the facts they name. S-Prop, L-Intro and C-Collapse use the sets of all ≈ facts
    /// on the branch; S-Conf uses those and the sets of all ≉ facts. .. Branch, L-Valid, C-Valid and C-Inj rest on nothing."
    pub fn grounds(&self, rule: &Rule) -> Vec<usize> {
        match rule {
            Rule::Sum { pairs, .. } => pairs.iter().map(|(fact, _)| *fact).collect(),
            Rule::Join(first, second) => vec![*first, *second],
            Rule::Apart(fact) | Rule::AConf(fact) => vec![*fact],
            Rule::SProp { .. } | Rule::LIntro(_) | Rule::CCollapse(_) => self.numbers_of(is_same),
            Rule::SConf => self.numbers_of(|fact| is_same(fact) || matches!(fact, Fact::Differ(..))),
            Rule::Card(variables) => self.lengths_of(variables),
            Rule::Branch(_) | Rule::LValid(_) | Rule::CValid(_) | Rule::CInj(..) => Vec::new(),
        }
    }

    /// The numbers of "all" facts of a kind "on the branch".
    pub fn numbers_of(&self, wanted: impl Fn(&Fact) -> bool) -> Vec<usize> {
        (0..self.branch.len()).filter(|number| wanted(&self.branch[*number])).collect()
    }

    /// "Card uses the lowest matching fact for each neighbouring pair."
    fn lengths_of(&self, variables: &[usize]) -> Vec<usize> {
        variables.windows(2).filter_map(|pair| self.equal_lengths(pair[0], pair[1])).collect()
    }
}

/// "A root constraint rests on itself": the sets of so many constraints.
pub fn roots(constraints: usize) -> Vec<Set> {
    (0..constraints).map(|number| Set::from([number])).collect()
}

/// "all ≈ facts": x ≈ y and x ≈ literal.
pub fn is_same(fact: &Fact) -> bool {
    matches!(fact, Fact::Same(..) | Fact::IsLiteral(..))
}

#[cfg(test)]
mod tests {
    use crate::checking::{check, Outcome, ANSWER_BUFFER, WORK_AREA};
    use crate::records::record;

    /// x0 ≉ x1
    const DIFFER: [u8; 6] = [1, 0, 0, 0, 1, 0];

    /// A constraint on len(x0) and len(x1): the relation, and whether the coefficients are 1 and −1 or −1 and 1.
    fn lengths(relation: u8, turned: bool) -> Vec<u8> {
        let (one, minus_one) = (1i32.to_le_bytes(), (-1i32).to_le_bytes());
        let [first, second] = if turned { [minus_one, one] } else { [one, minus_one] };
        let pairs = [&[0, 0][..], &first, &[1, 0], &second].concat();
        record(4, &[&[relation, 0, 0, 0, 0, 0][..], &pairs].concat())
    }

    /// A step with operands of two bytes, of which the second is 0.
    fn step(rule: u8, operands: &[u8]) -> Vec<u8> {
        let operands = operands.iter().flat_map(|operand| [*operand, 0]);
        record(6, &[rule, 0, 0, 0].into_iter().chain(operands).collect::<Vec<u8>>())
    }

    /// x0 ≉ x1 and other constraints with n = 1, where Card on both has one child, x0 ≈ x1, which S-Conf closes; the end's body.
    fn outcome(constraints: &[Vec<u8>], before: &[Vec<u8>], end: &[u8]) -> Outcome {
        let question = [record(1, &[1, 0, 0, 0, 2, 0, 0, 0]), record(3, &DIFFER), constraints.concat()].concat();
        let steps = [before.concat(), step(12, &[0, 1]), step(5, &[])].concat();
        let ticket = [question, record(5, &[1, 0]), steps, record(8, end)].concat();
        check(&ticket, WORK_AREA, ANSWER_BUFFER)
    }

    fn core(numbers: &[usize]) -> Outcome {
        Outcome::NoSolution { core: numbers.iter().copied().collect() }
    }

    #[test]
    fn card_rests_on_the_lowest_match_of_either_order() {
        let (plain, turned) = (lengths(1, false), lengths(1, true));
        assert_eq!(outcome(&[plain.clone(), turned.clone()], &[], &[]), core(&[0, 1]));
        assert_eq!(outcome(&[lengths(0, false), turned, plain], &[], &[]), core(&[0, 2]));
    }

    #[test]
    fn a_join_serves_card_unless_a_constraint_does() {
        let bounds = [lengths(0, false), lengths(0, true)];
        assert_eq!(outcome(&bounds, &[step(13, &[1, 2])], &[]), core(&[0, 1, 2]));
        let with_equation = [&bounds[..], &[lengths(1, false)]].concat();
        assert_eq!(outcome(&with_equation, &[step(13, &[1, 2])], &[]), core(&[0, 3]));
    }

    #[test]
    fn all_closing_steps_count_but_not_those_of_a_refused_ticket() {
        let constraints = [lengths(1, false), record(4, &[0, 0, 255, 255, 255, 255])];
        let closed_first = [step(8, &[0]), step(4, &[2])];
        assert_eq!(outcome(&constraints, &closed_first, &[]), core(&[0, 1, 2]));
        assert_eq!(outcome(&constraints, &closed_first, &[0]), Outcome::Refused { number: 5, record: 9 });
    }
}
