//! Sameness: a question beside itself rewritten, beside that changed in one place, beside another one; and spoilt ones on either side.

use crate::alike::{self, judged_alike};
use crate::changes::CHANGES;
use crate::notions::{Notion, Pair, Said, NOTIONS};
use crate::operation::{Buffers, Entry, Input, Operation, Reply, Sizes};
use crate::pairs::{self, is_full, ANY_TWO};
use crate::random::Random;
use crate::report::{hex, refused, Report};
use crate::rewriting::{constraint_count, REWRITINGS};
use nuldwich_reference::question::MOST_FACTS;
use nuldwich_reference::same::{form_set, heads_agree};
use nuldwich_reference::{same as reference, Which};

/// How many questions are grown; each comes beside several others.
const GROWN: u64 = 14_000;

/// The least number of pairs, and how many have each outcome and are made in each way at the least.
const LEAST_PAIRS: usize = 60_000;
const LEAST_REACHED: usize = 50;

/// The refusals of a question "by judging's rules".
const REFUSALS: [u64; 7] = [2, 3, 4, 5, 6, 7, 10];

/// Outcomes to be reached besides the refusals of either question.
const OUTCOMES: [&str; 5] = [
    "same",
    "different: heads",
    "different: the first has more",
    "different: the second has more",
    "different: each has more",
];

/// What else is to be reached.
const BOTH_REFUSED: &str = "both refused";
const OTHER_HEAD_REFUSED: &str = "the second refused, heads differ";
const MOST_CONSTRAINTS: &str = "same, 128 constraints";
const MOST_BYTES: &str = "read, 109 rows of 48 columns each";

/// Up to so many constraints all wrong notions are asked, and answers judged by both questions.
const FEW: usize = 8;

pub struct Same;

impl Operation for Same {
    fn name(&self) -> &'static str {
        "same"
    }

    fn title(&self) -> &'static str {
        "sameness"
    }

    fn entries(&self) -> &'static [Entry] {
        const { &[Entry { name: "same", lends_work: false, reference: same }] }
    }

    fn endings(&self) -> &'static [&'static str] {
        &["first", "second"]
    }

    fn sizes(&self, _: &[String]) -> Sizes {
        Sizes::default()
    }

    fn columns(&self, input: &Input) -> Vec<String> {
        vec![match reference(&input.parts[0], &input.parts[1]) {
            Ok(true) => "same".to_string(),
            Ok(false) => "different".to_string(),
            Err((number, record, Which::First)) => format!("refused {number} at {record} of first"),
            Err((number, record, Which::Second)) => format!("refused {number} at {record} of second"),
        }]
    }

    /// The outcome; of different questions, in what they differ.
    fn label(&self, parts: &[Vec<u8>], due: &Reply) -> String {
        match *due {
            [0, _, _, 1, _] => "same".to_string(),
            [0, ..] => difference(&Pair::new(parts)).to_string(),
            [number, _, which, ..] => refused_of(number, which),
        }
    }

    /// A refusal has one of the operation's own numbers and a side, and says nothing of sameness; any other reply has neither record nor side.
    fn fault(&self, _: &[Vec<u8>], reply: &Reply) -> Option<String> {
        let good = match *reply {
            [0, record, which, same, rest] => [record, which, rest] == [0; 3] && same <= 1,
            [number, _, which, same, rest] => {
                REFUSALS.contains(&number) && [1, 2].contains(&which) && [same, rest] == [0; 2]
            }
        };
        (!good).then(|| format!("no reply of this operation: {reply:?}"))
    }

    fn examine(&self, input: &Input, report: &mut Report) {
        let pair = Pair::new(&input.parts);
        let examined = Examined { input, pair: &pair, said: reference(&input.parts[0], &input.parts[1]) };
        match examined.reached() {
            Ok(reached) => reached.into_iter().for_each(|label| report.reach(label)),
            Err(wrong) => {
                report.fail(&format!("input {}\n      {}\n{wrong}", hex(&input.parts[0]), hex(&input.parts[1])))
            }
        }
    }

    fn seeds(&self) -> u64 {
        GROWN
    }

    fn grow(&self, random: &mut Random, hand_on: &mut dyn FnMut(&mut Random, Input)) {
        pairs::grow(random, hand_on);
    }

    fn demand_coverage(&self, report: &mut Report) {
        if report.total() < LEAST_PAIRS {
            report.fail("too few pairs");
        }
        let refusals = [1, 2].map(|which| REFUSALS.map(|number| refused_of(number, which))).concat();
        for outcome in OUTCOMES.map(str::to_string).iter().chain(&refusals) {
            if report.counted(outcome) < LEAST_REACHED {
                report.fail(&format!("fewer than {LEAST_REACHED} pairs have the outcome: {outcome}"));
            }
        }
        report.demand_reached(&to_be_reached(), LEAST_REACHED);
    }
}

/// The label of a refusal of one question, 1 or 2.
fn refused_of(number: u64, which: u64) -> String {
    format!("{} of {}", refused(number), if which == 1 { "first" } else { "second" })
}

/// The label of a pair that a wrong notion says another thing of.
fn told(wrong: &str) -> String {
    format!("told: {wrong}")
}

/// The labels of all that is to be reached.
fn to_be_reached() -> Vec<String> {
    let cases = [BOTH_REFUSED, OTHER_HEAD_REFUSED, MOST_CONSTRAINTS, MOST_BYTES];
    let cases = cases.into_iter().chain(alike::TO_BE_REACHED).map(str::to_string);
    let rewritten = REWRITINGS.iter().map(|(label, _)| format!("{label}, same"));
    let changed = CHANGES.iter().map(|(label, _)| format!("{label}, different"));
    let others = NOTIONS[1..].iter().map(|(_, wrong)| told(wrong));
    let any = ["same", "different"].map(|outcome| format!("{ANY_TWO}, {outcome}"));
    cases.chain(rewritten).chain(changed).chain(others).chain(any).collect()
}

/// In what two questions differ.
fn difference(pair: &Pair) -> &'static str {
    let [Ok(first), Ok(second)] = &pair.read else { return "different: not read" };
    if !heads_agree(first, second) {
        return OUTCOMES[1];
    }
    let (first, second) = (form_set(first), form_set(second));
    match (second.is_subset(&first), first.is_subset(&second)) {
        (true, _) => OUTCOMES[2],
        (_, true) => OUTCOMES[3],
        _ => OUTCOMES[4],
    }
}

/// The reference in the place of `nuldwich_same`.
fn same(parts: &[Vec<u8>], _: &mut Buffers) -> Reply {
    match reference(&parts[0], &parts[1]) {
        Ok(same) => [0, 0, 0, u64::from(same), 0],
        Err((number, record, Which::First)) => [number, record as u64, 1, 0, 0],
        Err((number, record, Which::Second)) => [number, record as u64, 2, 0, 0],
    }
}

/// A pair, and what the reference says of it.
struct Examined<'a> {
    input: &'a Input,
    pair: &'a Pair<'a>,
    said: Said,
}

impl Examined<'_> {
    /// The labels of all that the pair reaches besides its outcome; what is wrong with it, in words.
    fn reached(&self) -> Result<Vec<String>, String> {
        let outcome = match self.said {
            Ok(true) => "same",
            Ok(false) => "different",
            Err(_) => "refused",
        };
        let made = &self.input.made;
        let is_rewriting = |label: &&str| REWRITINGS.iter().any(|(rewriting, _)| rewriting == label);
        if outcome == "different" && made.iter().any(is_rewriting) {
            return Err(format!("a question that was only rewritten is not the same: {made:?}"));
        }
        let by_numbers = self.pair.said(Notion::AsAsked);
        if by_numbers != self.said {
            return Err(format!("by lists of numbers: {by_numbers:?}, by forms: {:?}", self.said));
        }
        let mut reached: Vec<String> = made.iter().map(|label| format!("{label}, {outcome}")).collect();
        reached.extend(self.told());
        reached.extend(self.refused_or_full());
        if self.said == Ok(true) && self.has_few() {
            reached.extend(judged_alike(&self.input.parts, &self.pair.read)?.into_iter().map(str::to_string));
        }
        Ok(reached)
    }

    fn has_few(&self) -> bool {
        self.pair.read.iter().flatten().all(|question| constraint_count(question) <= FEW)
    }

    /// The wrong notions that say another thing; of many constraints those alone that see each of them as asked.
    fn told(&self) -> impl Iterator<Item = String> + '_ {
        let few = self.has_few();
        let looked_at = NOTIONS[1..].iter().filter(move |(notion, _)| few || !notion.has_own_keys());
        looked_at.filter(|(notion, _)| self.pair.said(*notion) != self.said).map(|(_, wrong)| told(wrong))
    }

    /// Refusals that have to do with both questions, the most constraints and the most bytes of them.
    fn refused_or_full(&self) -> Option<String> {
        let label = match (&self.pair.read, self.said) {
            ([Err(_), Err(_)], _) => BOTH_REFUSED,
            ([Ok(_), Err(_)], _) if self.pair.said(Notion::HeadsFirst) == Ok(false) => OTHER_HEAD_REFUSED,
            ([Ok(first), Ok(_)], Ok(true)) if constraint_count(first) == MOST_FACTS => MOST_CONSTRAINTS,
            ([Ok(first), Ok(second)], _) if is_full(first) && is_full(second) => MOST_BYTES,
            _ => return None,
        };
        Some(label.to_string())
    }
}
