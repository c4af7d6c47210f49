//! Request L5, "Which conditions took part": what tickets reach of it, and that "the constraints in that set, without the others,
//! must have no solution either".

use crate::attempts::least_unmet;
use crate::judge::{Judge, UNMET};
use crate::library::linked;
use crate::operation::{Buffers, Operation};
use crate::walk::{Shown, Walked};
use crate::ways::{Resting, Way, WAYS};
use crate::writer;
use nuldwich_reference::answer::{write_answer, Answer};
use nuldwich_reference::checking::Outcome;
use nuldwich_reference::cores::{is_same, Set};
use nuldwich_reference::leaf::{LONGEST, VALUE_LIMIT};
use nuldwich_reference::question::Question;
use nuldwich_reference::steps::Rule;
use std::collections::{BTreeMap, BTreeSet};

/// What else is to be reached by tickets accepted as "no solution".
const SOME_LEFT_OUT: &str = "core without some constraint";
const ONE_UNMET: &str = "core met by strings but for one constraint";
const SEVERAL_CLOSINGS: &str = "closing steps with several sets";
const CLASSES_ON_NOTHING: &str = "S-Prop and the like, ≈ facts on nothing";
const S_CONF_OF_SAME: &str = "S-Conf where there is no ≉ fact";
const BOTH_WORDS: &str = "core in both words";
const EDGES: [usize; 5] = [0, 62, 63, 64, 127];

/// Refusals to be reached behind the last closed branch.
const BEHIND: [u64; 3] = [3, 4, 5];

/// The label of a core that has a constraint.
fn with(constraint: usize) -> String {
    format!("core with constraint {constraint}")
}

/// The label of a refusal behind the last closed branch.
fn closed_and_refused(number: u64) -> String {
    format!("closed, then refused {number:>2}")
}

/// The label of a core that is another by a way with these words.
fn told(wrong: &str) -> String {
    format!("told: {wrong}")
}

/// The label of such a core for which there is an assignment.
fn met(wrong: &str) -> String {
    format!("met: {wrong}")
}

/// The labels of all that is to be reached.
pub fn to_be_reached() -> Vec<String> {
    let cases = [SOME_LEFT_OUT, ONE_UNMET, SEVERAL_CLOSINGS, CLASSES_ON_NOTHING, S_CONF_OF_SAME, BOTH_WORDS];
    let edges = EDGES.map(with).into_iter().chain(BEHIND.map(closed_and_refused));
    let others = WAYS[1..].iter().map(|(_, wrong)| told(wrong));
    let unsound = WAYS[1..].iter().filter(|(way, _)| way.is_unsound()).map(|(_, wrong)| met(wrong));
    cases.map(str::to_string).into_iter().chain(edges).chain(others).chain(unsound).collect()
}

/// What the steps of a ticket rest on.
#[derive(Default)]
pub struct Seen {
    resting: Option<Resting>,
    reached: BTreeSet<String>,
}

impl Seen {
    /// Notes what a step rests on where it stands, if it fits. "With every other outcome the empty set": claim 2 has none.
    pub fn look_at(&mut self, shown: &Shown) {
        let (place, rule) = (shown.place, shown.rule);
        let Some(conclusion) = shown.conclusion.filter(|_| shown.claim == 1) else { return };
        let resting = self.resting.get_or_insert_with(|| Resting::new(place.question.constraints.len()));
        let set = resting.take(place, rule, conclusion);
        match rule {
            Rule::SProp { .. } | Rule::LIntro(_) | Rule::CCollapse(_) if set == 0 => {
                self.reached.insert(CLASSES_ON_NOTHING.to_string());
            }
            Rule::SConf if place.grounds(rule).iter().all(|fact| is_same(&place.branch[*fact])) => {
                self.reached.insert(S_CONF_OF_SAME.to_string());
            }
            _ => {}
        }
    }

    /// The labels of all that a ticket reaches, accepted as "no solution" or refused behind its last closed branch; what is wrong with
    /// its core, in words.
    pub fn examine(self, bytes: &[u8], walked: &Walked) -> Result<BTreeSet<String>, String> {
        match (&walked.outcome, self.resting) {
            (Outcome::NoSolution { core }, Some(resting)) => {
                let seed = bytes.iter().fold(0, |seed: u64, byte| seed.wrapping_mul(31).wrapping_add(u64::from(*byte)));
                let refuted = Refuted { question: &walked.ticket.question, resting, seed, reached: self.reached };
                refuted.examine(core)
            }
            (Outcome::Refused { number, .. }, _) if walked.ticket.is_closed() => {
                Ok(BTreeSet::from([closed_and_refused(*number)]))
            }
            _ => Ok(BTreeSet::new()),
        }
    }
}

/// A question that an accepted ticket says to have no solution, and what its steps rest on.
struct Refuted<'a> {
    question: &'a Question,
    resting: Resting,
    seed: u64,
    reached: BTreeSet<String>,
}

impl Refuted<'_> {
    /// What the core reaches; none of the assignments that are tried may meet its constraints.
    fn examine(mut self, core: &Set) -> Result<BTreeSet<String>, String> {
        let bits = core.iter().fold(0, |bits, number| bits | 1 << number);
        let asked = self.resting.cores[Way::AsAsked as usize];
        if bits != asked {
            return Err(format!("the core by sets is {core:?}, by bits {asked:#x}"));
        }
        let chosen = self.chosen(bits);
        let (assignment, unmet) = least_unmet(&chosen, self.seed);
        if unmet == 0 {
            return Err(format!("an assignment meets all constraints of the core {core:?}"));
        }
        judge(&chosen, assignment)?;
        let closings = &self.resting.closings;
        let cases = [
            (ONE_UNMET, unmet == 1),
            (SOME_LEFT_OUT, core.len() < self.question.constraints.len()),
            (SEVERAL_CLOSINGS, closings.iter().any(|set| *set != closings[0])),
            (BOTH_WORDS, bits as u64 != 0 && bits >> 64 != 0),
        ];
        let cases = cases.iter().filter(|(_, reached)| *reached).map(|(label, _)| label.to_string());
        self.reached.extend(cases.chain(EDGES.into_iter().filter(|number| core.contains(number)).map(with)));
        self.look_at_ways(bits);
        Ok(self.reached)
    }

    /// By which ways the core is another one, and of which of those some assignment meets all constraints.
    fn look_at_ways(&mut self, core: u128) {
        let mut unmet: BTreeMap<u128, usize> = BTreeMap::new();
        for (way, wrong) in &WAYS[1..] {
            let other = self.resting.cores[*way as usize];
            if other == core {
                continue;
            }
            self.reached.insert(told(wrong));
            if way.is_unsound()
                && *unmet.entry(other).or_insert_with(|| least_unmet(&self.chosen(other), self.seed).1) == 0
            {
                self.reached.insert(met(wrong));
            }
        }
    }

    /// The question with the constraints of a set, "without the others".
    fn chosen(&self, bits: u128) -> Question {
        let mut question = self.question.clone();
        let mut number = 0..;
        question.constraints.retain(|_| number.next().is_some_and(|k: usize| bits >> k & 1 == 1));
        question
    }
}

/// The library's judging, where it is linked, says as the reference's does that an assignment, brought within the limits of an answer,
/// leaves a constraint of the question unmet.
fn judge(question: &Question, mut assignment: Answer) -> Result<(), String> {
    assignment.strings.iter_mut().for_each(|text| text.truncate(LONGEST as usize));
    assignment.integers.iter_mut().for_each(|value| *value = (*value).clamp(-VALUE_LIMIT, VALUE_LIMIT));
    let parts = [[writer::question(question), writer::end()].concat(), write_answer(&assignment)];
    let (entry, mut none) = (&Judge.entries()[0], Buffers { work: Vec::new(), answer: Vec::new() });
    let due = (entry.reference)(&parts, &mut none);
    let judged = linked(entry).map_or(due, |judge| judge(&parts, &mut none));
    match due[0] == UNMET && judged == due {
        true => Ok(()),
        false => Err(format!("judging by the core alone: reference {due:?}, library {judged:?}")),
    }
}

#[cfg(test)]
mod tests {
    use super::*;
    use crate::check::Check;
    use crate::operation::Operation;
    use crate::vectors::{directory, load};
    use crate::walk::walk;

    /// What no vector tells: it is left to grown inputs.
    const UNTOLD: [Way; 13] = [
        Way::ApartFirstChild,
        Way::SPropOfQuestion,
        Way::LIntroOfQuestion,
        Way::CCollapseOfQuestion,
        Way::SameAndDiffer,
        Way::CardOfQuestion,
        Way::CardJoins,
        Way::CardFirstChild,
        Way::LValidOnAll,
        Way::CValidOnAll,
        Way::CInjOnAll,
        Way::UnionKept,
        Way::CountKept,
    ];

    /// Every other wrong way gives another core than is expected of some vector.
    #[test]
    fn vectors_tell_the_ways_apart() {
        let mut told: BTreeSet<usize> = BTreeSet::new();
        for vector in load(&directory(), "check", &Check.folders(), &["ticket"]) {
            let mut seen = Seen::default();
            walk(&vector.input.parts[0], &mut |shown| seen.look_at(shown));
            if let (Some(resting), "verdict none", 3) = (seen.resting, &vector.columns[0][..], vector.columns.len()) {
                told.extend((0..WAYS.len()).filter(|way| resting.cores[*way] != resting.cores[0]));
            }
        }
        let untold: Vec<Way> = (1..WAYS.len()).filter(|way| !told.contains(way)).map(|way| WAYS[way].0).collect();
        assert_eq!(untold, UNTOLD);
    }

    /// From L5 on every vector of checking has a core on file.
    #[test]
    fn vectors_from_l5_on_have_a_core() {
        let before = ["base/", "L1/", "L2/", "L3/", "L4/"];
        let mut later = load(&directory(), "check", &Check.folders(), &["ticket"]);
        later.retain(|vector| !before.iter().any(|level| vector.name.starts_with(level)));
        assert!(later.len() >= 50);
        for vector in later {
            assert!(vector.columns.len() == 3 && vector.columns[2].starts_with("core"), "{}", vector.name);
        }
    }
}
