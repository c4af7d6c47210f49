//! Request L7, "Work out the operand length of each rule": steps of every rule and length, with what document 01 says of each. "No
//! ticket's outcome may differ."

use crate::check::LARGE_ENOUGH;
use crate::operation::{Input, Series, Sizes};
use crate::report::refused;
use crate::vectors::Vector;
use crate::writer;
use nuldwich_reference::facts::Relation::{AtLeast, Equal, NotEqual};
use nuldwich_reference::facts::{Fact, Row};
use nuldwich_reference::question::Question;
use nuldwich_reference::records::record;
use nuldwich_reference::steps::Rule;

/// Up to where every length is tried; the longest that fits is Branch's, of 296 bytes.
const LONGEST: usize = 320;

/// Longer ones: whole pairs and whole variables, too many of them.
const LONG: [usize; 4] = [512, 4_100, 20_000, 30_002];

/// Of 22 rules with all these lengths, how many fit: Sum's, Branch's, Card's and one of each of the other ten rules; how many are
/// an unknown rule in at least 4 bytes; and how many are left for 5.
const FITTING: usize = 8 + 49 + 15 + 10;
const UNKNOWN: usize = 9 * (LONGEST + 1 - 4 + LONG.len());
const UNFITTING: usize = 22 * (LONGEST + 1 + LONG.len()) - FITTING - UNKNOWN;

/// How many fit and have nothing outside its range when all bits of their operands are set: S-Conf, a Branch on −1, and three rules that name
/// facts alone.
const IN_RANGE: usize = 5;

/// The number of constraints, and the numbers of those that steps name.
const CONSTRAINTS: usize = 36;
const NOT_ZERO: u16 = 17;
const AT_LEAST: u16 = 18;
const AT_MOST: u16 = 19;
const CONSTANT: u16 = 20;

/// The step's record: the head, the constraints and the claim stand before it.
const STEP: usize = 2 + CONSTRAINTS;

/// What stands behind a step's rule and child.
#[derive(Clone, Copy, PartialEq)]
enum Operands {
    /// Those with which it is an instance of its rule; cut short or continued where the length does not fit.
    Good,
    /// Bytes with all bits set: −1 where a field has a sign, else the greatest number.
    AllBits,
}

/// Every claim with either operands.
const KINDS: [(u16, Operands); 4] =
    [(1, Operands::Good), (1, Operands::AllBits), (2, Operands::Good), (2, Operands::AllBits)];

/// A ticket with a step of a rule, whose body has this length, and what is due behind it.
#[derive(Clone, Copy)]
struct Case {
    claim: u16,
    operands: Operands,
    rule: u16,
    length: usize,
}

/// All cases as they come out of checking.
pub fn checked() -> Vec<Series> {
    let (none, strings) = ("accepted none", "accepted strings");
    let (unfit, broken) = (&refused(8), &refused(12));
    let other = [
        vec![(none, FITTING)],
        vec![(none, 2), (unfit, 3)],
        vec![(strings, FITTING - 2), (unfit, 2)],
        vec![(unfit, 4), (broken, 1)],
    ];
    all_series(LARGE_ENOUGH, Case::checked, other)
}

/// All cases as they come out of the operation of L2.
pub fn needed() -> Vec<Series> {
    let (accepted, only) = ("accepted", "report only");
    let other = [
        vec![(accepted, FITTING)],
        vec![(accepted, 2), (only, 3)],
        vec![(accepted, FITTING - 2), (only, 2)],
        vec![(only, IN_RANGE)],
    ];
    all_series(Sizes::default(), Case::needed, other)
}

/// A series of each kind; `other` has, in the same order, the outcomes that are neither 5 nor 6.
fn all_series(sizes: Sizes, due: fn(&Case) -> String, other: [Vec<(&str, usize)>; 4]) -> Vec<Series> {
    let series = |((claim, operands), other): ((u16, Operands), Vec<(&str, usize)>)| {
        let out_of_range = if operands == Operands::Good { 0 } else { FITTING - IN_RANGE };
        let mut outcomes = vec![(refused(5), UNFITTING), (refused(6), UNKNOWN + out_of_range)];
        outcomes.extend(other.into_iter().map(|(label, count)| (label.to_string(), count)));
        let vectors = cases(claim, operands).map(|case| case.vector(sizes, due)).collect();
        Series { title: format!("steps of every length, {}", words(claim, operands)), vectors, outcomes }
    };
    KINDS.into_iter().zip(other).map(series).collect()
}

fn words(claim: u16, operands: Operands) -> String {
    let operands = if operands == Operands::Good { "good operands" } else { "operands with all bits set" };
    format!("claim {claim}, {operands}")
}

/// Every rule, unknown ones next to them and the greatest number, in bodies of every length.
fn cases(claim: u16, operands: Operands) -> impl Iterator<Item = Case> {
    let rules = (0..=20).chain([u16::MAX]);
    let lengths = || (0..=LONGEST).chain(LONG);
    rules.flat_map(move |rule| lengths().map(move |length| Case { claim, operands, rule, length }))
}

/// The lengths of a body that fit a rule, written out; "u16 rule, u16 child" count. None fits an unknown rule.
fn fitting(rule: u16) -> Vec<usize> {
    match rule {
        1 => vec![14, 20, 26, 32, 38, 44, 50, 56],
        2 => (8..=296).step_by(6).collect(),
        3 | 4 | 7 | 8 | 9 | 10 => vec![6],
        5 => vec![4],
        6 => vec![10],
        11 | 13 => vec![8],
        12 => vec![8, 10, 12, 14, 16, 18, 20, 22, 24, 26, 28, 30, 32, 34, 36],
        _ => vec![],
    }
}

/// The fields of good operands, of which an i32 is two; zeros follow. Rules without a line have no operand, or x0 alone.
fn good_operands(rule: u16) -> Vec<u16> {
    let form = |first, pair: fn(u16) -> [u16; 3]| [vec![first, 0], (0..64).flat_map(pair).collect()].concat();
    match rule {
        1 => form(1, |_| [AT_LEAST, 1, 0]),
        2 => form(48, |column| [column, 1, 0]),
        3 => vec![NOT_ZERO],
        4 => vec![CONSTANT],
        6 => vec![0, 0, 1],
        11 => vec![0, 1],
        12 => (0..64).collect(),
        13 => vec![AT_LEAST, AT_MOST],
        _ => vec![],
    }
}

/// A question on which a step of every rule fits: all strings are empty, facts state for Card that their lengths are equal, i0 is not 0 and i1
/// is. For claim 1 x0 ≉ x1 and −1 ≥ 0 serve the closing rules; for claim 2 x0 ≈ x1 and 1 ≥ 0 have their places.
fn question(claim: u16) -> Question {
    let zero = || Row::constant(48, 0);
    let (first, constant) = if claim == 1 { (Fact::Differ(0, 1), -1) } else { (Fact::Same(0, 1), 1) };
    let rows = [
        (NotEqual, zero().with(0, 1)),
        (AtLeast, zero().with(1, 1)),
        (AtLeast, zero().with(1, -1)),
        (AtLeast, zero().raised(constant)),
    ];
    let lengths = (16..31).map(|column| (Equal, zero().with(column, 1).with(column + 1, -1)));
    let arithmetic = rows.into_iter().chain(lengths).map(|(relation, row)| Fact::Arithmetic(relation, row));
    let strings = (0..16).map(|x| Fact::IsLiteral(x, 0));
    let constraints = [first].into_iter().chain(strings).chain(arithmetic).collect();
    Question { n: 2, p: 16, q: 16, literals: vec![Vec::new()], constraints, ..Question::default() }
}

/// A model by which every rule's first child holds: i0 is 1, the lengths are 0, the codes −1.
fn model() -> Vec<i128> {
    [vec![1], vec![0; 31], vec![-1; 16]].concat()
}

/// The verdict by that model: "`x0 1 0` (variable, length, code points)"; "Integers follow strings as `i0 -5`."
fn strings() -> String {
    let strings: String = (0..16).map(|x| format!("x{x} 0|")).collect();
    let integers: String = (0..16).map(|i| format!("i{i} {}|", u8::from(i == 0))).collect();
    format!("verdict strings|{strings}{integers}end")
}

impl Case {
    /// The case with what is due of an operation.
    fn vector(&self, sizes: Sizes, due: fn(&Case) -> String) -> Vector {
        let kind = words(self.claim, self.operands);
        Vector {
            name: format!("{kind}, rule {} in {} bytes", self.rule, self.length),
            input: Input { parts: vec![self.ticket()], sizes, ..Input::default() },
            columns: vec![due(self)],
        }
    }

    /// The step's body: rule, child and operands, as much as it holds of them. Under claim 2 the first child is taken.
    fn body(&self) -> Vec<u8> {
        let (operands, rest) = match self.operands {
            Operands::Good => (good_operands(self.rule), 0),
            Operands::AllBits => (vec![], u8::MAX),
        };
        let fields = [vec![self.rule, self.claim - 1], operands].concat();
        let mut body: Vec<u8> = fields.into_iter().flat_map(u16::to_le_bytes).collect();
        body.resize(self.length, rest);
        body
    }

    /// Behind the step stands what closes each of its children, or the model.
    fn ticket(&self) -> Vec<u8> {
        let rest = match self.claim {
            1 => writer::step(&Rule::SConf, 0).repeat(self.children().len()),
            _ => writer::model(&model()),
        };
        let front = [writer::question(&question(self.claim)), writer::claim(self.claim)].concat();
        [front, record(6, &self.body()), rest, writer::end()].concat()
    }

    /// How many facts each child of the step adds. Card has one for each pair of variables, and the last.
    fn children(&self) -> Vec<usize> {
        match self.rule {
            4 | 5 => vec![],
            2 | 3 | 8 => vec![1, 1],
            10 => vec![2, 3],
            11 => vec![1, 1, 1],
            12 => {
                let variables = (self.length.saturating_sub(4) / 2).min(16);
                vec![1; (0..variables).sum::<usize>() + 1]
            }
            _ => vec![1],
        }
    }

    /// What either operation gives for the form: "5 when the body length fits no form (for an unknown rule, only when under 4 bytes); 6 when
    /// a field is outside its range, an unknown rule .. included".
    fn malformed(&self) -> Option<u64> {
        match self.rule {
            _ if self.length < 4 => Some(5),
            1..=13 if !fitting(self.rule).contains(&self.length) => Some(5),
            1..=13 => self.is_out_of_range().then_some(6),
            _ => Some(6),
        }
    }

    /// All bits set are outside a field's range, but for numbers of facts, which have none, S-Conf, which has "no operand", and a Branch on −1.
    fn is_out_of_range(&self) -> bool {
        self.operands == Operands::AllBits && !matches!((self.rule, self.length), (3 | 4 | 5 | 13, _) | (2, 8))
    }

    /// What checking gives, as the program words it: 8 for "a fact not on the branch", and as "Closing rules do not fit under claim 2"; 12 at
    /// the model, which breaks the −1 ≥ 0 of a Branch on −1.
    fn checked(&self) -> String {
        match (self.malformed(), self.operands, self.rule, self.claim) {
            (Some(number), ..) => format!("refused {number} at {STEP}"),
            (_, Operands::AllBits, 3 | 4 | 13, _) | (_, _, 4 | 5, 2) => format!("refused 8 at {STEP}"),
            (_, Operands::AllBits, _, 2) => format!("refused 12 at {}", STEP + 1),
            (_, _, _, 1) => "verdict none".to_string(),
            _ => strings(),
        }
    }

    /// What the operation of L2 gives: "the number of steps, the most facts on any branch and the most pending splits".
    fn needed(&self) -> String {
        if let Some(number) = self.malformed() {
            return format!("refused {number} at {STEP}");
        }
        let children = self.children();
        let (steps, added, pending) = match self.claim {
            1 => (1 + children.len(), children.iter().max(), usize::from(children.len() > 1)),
            _ => (1, children.first(), 0),
        };
        format!("need {steps} {} {pending}", CONSTRAINTS + added.unwrap_or(&0))
    }
}

#[cfg(test)]
mod tests {
    use super::*;
    use crate::check::Check;
    use crate::need::Need;
    use crate::operation::Operation;
    use nuldwich_reference::records::whole_records;

    /// Lengths of a rule that may be mistaken for each other: the first is refused with 5, the second is not.
    const MISTAKEN: [(&str, u16, usize, usize); 10] = [
        ("Sum without a pair", 1, 8, 14),
        ("Sum of 9 pairs", 1, 62, 56),
        ("Branch without a constant", 2, 4, 8),
        ("Branch of 49 pairs", 2, 302, 296),
        ("S-Conf with a byte behind it", 5, 5, 4),
        ("Card of one variable", 12, 6, 8),
        ("Card of 17 variables", 12, 38, 36),
        ("Join of one fact", 13, 6, 8),
        ("S-Conf of 3 bytes", 5, 3, 4),
        ("unknown rule of 3 bytes", 14, 3, 4),
    ];

    /// What the reference gives.
    fn given(operation: &dyn Operation, case: &Case) -> String {
        operation.columns(&case.vector(LARGE_ENOUGH, Case::checked).input).remove(0)
    }

    /// What takes one for the other gives another outcome than is due.
    #[test]
    fn mistaken_lengths_are_told() {
        for (claim, operands) in KINDS {
            for (mistake, rule, one, other) in MISTAKEN {
                for (length, taken_for) in [(one, other), (other, one)] {
                    let case = Case { claim, operands, rule, length };
                    let mistaken = Case { length: taken_for, ..case };
                    assert_ne!(given(&Check, &mistaken), case.checked(), "{mistake}");
                    assert_ne!(given(&Need, &mistaken), case.needed(), "{mistake}");
                }
            }
        }
    }

    #[test]
    fn steps_have_their_rules_and_lengths() {
        for case in KINDS.into_iter().flat_map(|(claim, operands)| cases(claim, operands)) {
            let ticket = case.ticket();
            let step = &whole_records(&ticket)[STEP];
            assert_eq!((step.kind, step.body.len()), (6, case.length));
            assert!(step.body.starts_with(&case.rule.to_le_bytes()[..case.length.min(2)]));
        }
    }

    #[test]
    fn the_reference_gives_what_is_due() {
        let all: [(&dyn Operation, Vec<Series>); 2] = [(&Check, checked()), (&Need, needed())];
        for (operation, series) in all {
            for vector in series.iter().flat_map(|series| &series.vectors) {
                assert!(operation.fits(&vector.columns, &operation.columns(&vector.input)), "{}", vector.name);
            }
        }
    }
}
