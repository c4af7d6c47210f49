//! What checking a ticket needs: its steps, the most facts on any branch and the most pending splits.

use crate::checking::{check_watched, read_claim, Outcome, LONGEST_TICKET};
use crate::leaf::read_model;
use crate::question::Question;
use crate::records::{record_at, Record};
use crate::rules::Rules;
use crate::steps::{read_step, Rule};
use crate::{demand, Refusal};

/// "the number of steps, the most facts on any branch and the most pending splits"
#[derive(Clone, Copy, Debug, Default, PartialEq)]
pub struct Needs {
    pub steps: usize,
    pub facts: usize,
    pub pending: usize,
}

/// A branch as it begins: how many facts stand on it, and how many splits "have children pending, that is, not yet begun".
#[derive(Clone, Copy, Default)]
struct Branch {
    facts: usize,
    pending: usize,
}

/// What has been read of a ticket; claim 0 stands for none yet.
#[derive(Default)]
struct Reading {
    question: Question,
    claim: u16,
    has_model: bool,
    /// Every branch that is not closed, in the order from right to left: the last one is where the next step stands, those
    /// before it are not yet begun.
    open: Vec<Branch>,
    needs: Needs,
}

/// "reads a ticket's records and, judging no premise and treating every step as if it fitted, reports" three numbers; else
/// the refusal and its record. "The operation gives 2 to 7, ..; a tree not closed at its end, .., gives 11. .. It never gives
/// 10."
pub fn need(ticket: &[u8]) -> Result<Needs, (Refusal, usize)> {
    demand(ticket.len() <= LONGEST_TICKET, 2).map_err(|refusal| (refusal, 0))?;
    let mut reading = Reading::default();
    let mut start = 0;
    for number in 0.. {
        let record = record_at(ticket, start).ok_or((3, number))?;
        reading.take(&record, ticket.len()).map_err(|refusal| (refusal, number))?;
        if record.kind == 8 {
            break;
        }
        start = record.end;
    }
    Ok(reading.needs)
}

/// "Every ticket that checking accepts must meet exactly these three numbers on its way": what checking's own walk meets,
/// behind the question and behind every step; nothing for a ticket that checking refuses.
pub fn met(ticket: &[u8]) -> Option<Needs> {
    let mut met = Needs::default();
    let outcome = check_watched(Rules::Now, ticket, &mut |record, read| {
        met.steps += usize::from(record.kind == 6);
        if let Some(derivation) = &read.derivation {
            met.facts = met.facts.max(derivation.branch.len());
            met.pending = met.pending.max(derivation.pending.len());
        }
    });
    match outcome {
        Outcome::Refused { .. } => None,
        Outcome::NoSolution { .. } | Outcome::Strings { .. } => Some(met),
    }
}

impl Reading {
    /// Takes one whole record; 4 to 7 and 11, in this order.
    fn take(&mut self, record: &Record, ticket_length: usize) -> Result<(), Refusal> {
        match record.kind {
            5 => self.take_claim(record.body),
            6 => self.take_step(record.body),
            7 => self.take_model(record.body),
            8 => self.take_end(record.body, record.end < ticket_length),
            _ if self.claim != 0 => Err(4),
            kind => self.question.read(kind, record.body),
        }
    }

    /// The constraints are the facts of the first branch.
    fn take_claim(&mut self, body: &[u8]) -> Result<(), Refusal> {
        self.claim = read_claim(&self.question, self.claim, body)?;
        self.open.push(Branch { facts: self.question.constraints.len(), pending: 0 });
        self.count_begun();
        Ok(())
    }

    /// "4 also for a step after the last branch closed"; "Under claim 2 no split is ever pending, and a closing rule counts
    /// as a step, adds no fact and closes nothing."
    fn take_step(&mut self, body: &[u8]) -> Result<(), Refusal> {
        demand(self.claim != 0 && !self.open.is_empty() && !self.has_model, 4)?;
        let step = read_step(&self.question, self.claim, body)?;
        self.needs.steps += 1;
        match (self.claim, added_facts(&self.question, &step.rule)) {
            (1, children) => self.follow(&children),
            (_, children) if children.is_empty() => {}
            (_, children) => self.follow(&[children[step.child - 1]]),
        }
        Ok(())
    }

    /// "7 model, claim 2 only, once"; of its values only their form and range are looked at.
    fn take_model(&mut self, body: &[u8]) -> Result<(), Refusal> {
        demand(self.claim == 2 && !self.has_model, 4)?;
        self.has_model = true;
        read_model(&self.question, body).map(|_| ())
    }

    /// "8 end, empty"; "a tree not closed at its end, or claim 2 without a model, gives 11"
    fn take_end(&self, body: &[u8], bytes_follow: bool) -> Result<(), Refusal> {
        demand(self.claim != 0 && !bytes_follow, 4)?;
        demand(body.is_empty(), 5)?;
        demand(if self.claim == 1 { self.open.is_empty() } else { self.has_model }, 11)
    }

    /// Puts the children, "worked left to right", in the place of the branch where the step stands; without any that branch
    /// is closed. While a child is worked that is not the last one, one split more is pending.
    fn follow(&mut self, children: &[usize]) {
        let before = self.open.pop().expect("a branch is open");
        for (place, added) in children.iter().enumerate().rev() {
            let pends = usize::from(place + 1 < children.len());
            self.open.push(Branch { facts: before.facts + added, pending: before.pending + pends });
        }
        self.count_begun();
    }

    /// Counts the branch that has just begun, if any is open.
    fn count_begun(&mut self) {
        let begun = self.open.last().copied().unwrap_or_default();
        self.needs.facts = self.needs.facts.max(begun.facts);
        self.needs.pending = self.needs.pending.max(begun.pending);
    }
}

/// How many facts each child of a rule adds; a closing rule has no child. Of operands only their number matters.
fn added_facts(question: &Question, rule: &Rule) -> Vec<usize> {
    match rule {
        Rule::AConf(_) | Rule::SConf => vec![],
        Rule::Sum { .. } | Rule::SProp { .. } | Rule::LIntro(_) | Rule::CCollapse(_) | Rule::Join(..) => vec![1],
        Rule::Branch(_) | Rule::Apart(_) | Rule::LValid(_) => vec![1, 1],
        Rule::CValid(_) => vec![2, 3],
        Rule::CInj(..) => vec![1, 1, 1],
        Rule::Card(variables) => {
            let last = usize::from(question.n > 1);
            vec![1; variables.len() * (variables.len() - 1) / 2 + last]
        }
    }
}

#[cfg(test)]
mod tests {
    use super::*;
    use crate::records::record;

    /// n, three string variables, no integer variables, and so many constraints x0 ≈ x0.
    fn question(n: u8, constraints: usize) -> Vec<u8> {
        [record(1, &[n, 0, 0, 0, 3, 0, 0, 0]), record(3, &[0; 6]).repeat(constraints)].concat()
    }

    /// A step with operands of two bytes, of which the second is 0.
    fn step(rule: u8, child: u8, operands: &[u8]) -> Vec<u8> {
        let operands = operands.iter().flat_map(|operand| [*operand, 0]);
        record(6, &[rule, 0, child, 0].into_iter().chain(operands).collect::<Vec<u8>>())
    }

    fn s_conf() -> Vec<u8> {
        step(5, 0, &[])
    }

    fn l_valid() -> Vec<u8> {
        step(8, 0, &[0])
    }

    /// A ticket that claims no solution.
    fn none(question: Vec<u8>, steps: &[Vec<u8>]) -> Vec<u8> {
        [question, record(5, &[1, 0]), steps.concat(), record(8, &[])].concat()
    }

    /// A ticket that claims strings, all of length 0.
    fn strings(question: Vec<u8>, steps: &[Vec<u8>]) -> Vec<u8> {
        [question, record(5, &[2, 0]), steps.concat(), record(7, &[0; 24]), record(8, &[])].concat()
    }

    fn report(steps: usize, facts: usize, pending: usize) -> Result<Needs, (Refusal, usize)> {
        Ok(Needs { steps, facts, pending })
    }

    #[test]
    fn a_split_is_pending_until_its_last_child_begins() {
        let c_inj = || step(11, 0, &[0, 1]);
        let ticket = none(question(2, 1), &[l_valid(), s_conf(), c_inj(), s_conf(), s_conf(), s_conf()]);
        assert_eq!(need(&ticket), report(6, 3, 1));
        let ticket = none(question(2, 1), &[c_inj(), s_conf(), l_valid(), s_conf(), s_conf(), s_conf()]);
        assert_eq!(need(&ticket), report(6, 3, 2));
        let ticket = none(question(2, 1), &[c_inj(), s_conf(), s_conf(), l_valid(), s_conf(), s_conf()]);
        assert_eq!(need(&ticket), report(6, 3, 1));
    }

    #[test]
    fn facts_are_counted_as_a_child_begins_and_fall_after_a_cut_back() {
        let c_valid = || step(10, 0, &[0]);
        assert_eq!(need(&none(question(2, 0), &[c_valid(), s_conf(), s_conf()])), report(3, 3, 1));
        let steps = [c_valid(), step(7, 0, &[0]), step(7, 0, &[0]), s_conf(), s_conf()];
        assert_eq!(need(&none(question(2, 0), &steps)), report(5, 4, 1));
    }

    #[test]
    fn card_with_one_child_never_pends() {
        let steps = [l_valid(), step(12, 0, &[0, 0]), s_conf(), s_conf()];
        assert_eq!(need(&none(question(1, 0), &steps)), report(4, 2, 1));
        assert_eq!(need(&none(question(2, 0), &steps)), Err((11, 6)));
        let card = step(12, 0, &[0, 1, 2]);
        assert_eq!(need(&none(question(1, 0), &[vec![card], vec![s_conf(); 3]].concat())), report(4, 1, 1));
    }

    #[test]
    fn under_claim_2_a_closing_rule_closes_nothing_and_nothing_pends() {
        let steps = [step(5, 1, &[]), step(4, 1, &[9]), step(10, 2, &[0]), step(5, 1, &[]), step(10, 1, &[0])];
        assert_eq!(need(&strings(question(2, 1), &steps)), report(5, 6, 0));
        assert_eq!(need(&strings(question(2, 7), &[])), report(0, 7, 0));
    }

    #[test]
    fn limits_are_counted_on() {
        assert_eq!(need(&strings(question(2, 300), &[])), report(0, 300, 0));
        let steps = [vec![l_valid(); 300], vec![s_conf(); 301]].concat();
        assert_eq!(need(&none(question(2, 1), &steps)), report(601, 301, 300));
    }

    #[test]
    fn a_step_behind_the_last_closed_branch_is_4_before_its_5_and_6() {
        for behind in [s_conf(), record(6, &[]), step(99, 9, &[]), record(6, &[8, 0, 0])] {
            assert_eq!(need(&none(question(2, 0), &[s_conf(), behind])), Err((4, 3)));
        }
    }

    #[test]
    fn the_end_gives_4_then_5_then_11() {
        assert_eq!(need(&none(question(2, 0), &[])), Err((11, 2)));
        assert_eq!(need(&none(question(2, 0), &[l_valid(), s_conf()])), Err((11, 4)));
        let open = |claim: u8, body: &[u8]| [question(2, 0), record(5, &[claim, 0]), record(8, body)].concat();
        assert_eq!(need(&open(2, &[])), Err((11, 2)));
        assert_eq!(need(&open(2, &[0])), Err((5, 2)));
        assert_eq!(need(&[open(1, &[0]), vec![0]].concat()), Err((4, 2)));
        assert_eq!(need(&none(question(2, 0), &[s_conf()])[..37]), Err((3, 3)));
    }

    #[test]
    fn an_accepted_ticket_meets_these_numbers() {
        let differ = [question(2, 2), record(3, &[1, 0, 1, 0, 1, 0])].concat();
        let ticket = none(differ, &[l_valid(), step(10, 0, &[1]), s_conf(), s_conf(), s_conf()]);
        assert_eq!(need(&ticket), report(5, 7, 2));
        assert_eq!(met(&ticket), need(&ticket).ok());
        let empty = [question(2, 0), record(3, &[2, 0, 0, 0, 0, 0]), record(3, &[2, 0, 1, 0, 0, 0])].concat();
        let lengths_0_codes_minus_1 = [[0; 12], [255; 12]].concat();
        let model = [record(7, &lengths_0_codes_minus_1), record(8, &[])].concat();
        let ticket = [empty, record(5, &[2, 0]), step(8, 1, &[2]), model].concat();
        assert_eq!(met(&ticket), Some(Needs { steps: 1, facts: 3, pending: 0 }));
        assert_eq!(met(&ticket), need(&ticket).ok());
    }

    #[test]
    fn what_checking_refuses_meets_nothing() {
        assert_eq!(met(&none(question(2, 0), &[s_conf()])), None);
        assert_eq!(met(&strings(question(2, 300), &[])), None);
        assert_eq!(met(&[]), None);
        assert_eq!(need(&[]), Err((3, 0)));
        assert_eq!(need(&[0; LONGEST_TICKET + 1]), Err((2, 0)));
    }
}
