//! Notions of sameness: that of request L6, and others that are wrong in one point each. Constraints are lists of numbers here.

use nuldwich_reference::extended::Extended;
use nuldwich_reference::facts::{Fact, Relation, Row};
use nuldwich_reference::judging::read_question;
use nuldwich_reference::question::Question;
use nuldwich_reference::records::{u16_at, u32_at, whole_records};
use nuldwich_reference::{Refusal, Which};
use std::borrow::Cow;

/// When two questions are the same.
#[derive(Clone, Copy, Debug, PartialEq)]
pub enum Notion {
    AsAsked,
    NIgnored,
    PIgnored,
    QIgnored,
    HeadsFirst,
    SecondFirst,
    WhichIgnored,
    ExtendedRefused,
    OneWay,
    OtherWay,
    AsManyAndOneWay,
    RepeatsCount,
    OrderCounts,
    LowWord,
    TablesCount,
    LiteralNumbers,
    LiteralLengths,
    LiteralStarts,
    LiteralsAsVariables,
    SameAsWritten,
    DifferAsWritten,
    SameAsDiffer,
    NotDivided,
    CoefficientsDivided,
    DividedWhereExact,
    AtLeastTurned,
    NotTurned,
    EqualAsWritten,
    NotEqualAsWritten,
    ConstantAsWritten,
    FirstColumnTurned,
    EqualAsAtLeast,
    EqualAsNotEqual,
    ConstantIgnored,
    FunctionIgnored,
    BeforeTurned,
    CaseTurned,
    ExtendedIgnored,
}

/// All notions in their order, that of the request first, each with what is wrong with it.
pub const NOTIONS: [(Notion, &str); 38] = [
    (Notion::AsAsked, "nothing"),
    (Notion::NIgnored, "n does not count"),
    (Notion::PIgnored, "p does not count"),
    (Notion::QIgnored, "q does not count"),
    (Notion::HeadsFirst, "heads compared, then the second read"),
    (Notion::SecondFirst, "the second's refusal comes first"),
    (Notion::WhichIgnored, "every refusal is the first's"),
    (Notion::ExtendedRefused, "kind 11 is refused"),
    (Notion::OneWay, "the second has all of the first"),
    (Notion::OtherWay, "the first has all of the second"),
    (Notion::AsManyAndOneWay, "as many, and all of the first"),
    (Notion::RepeatsCount, "repeats count"),
    (Notion::OrderCounts, "order counts"),
    (Notion::LowWord, "constraints over 63 are lost"),
    (Notion::TablesCount, "unused literals count"),
    (Notion::LiteralNumbers, "literals by number"),
    (Notion::LiteralLengths, "literals by length"),
    (Notion::LiteralStarts, "literals by first character"),
    (Notion::LiteralsAsVariables, "a literal as the variable"),
    (Notion::SameAsWritten, "≈ as written"),
    (Notion::DifferAsWritten, "≉ as written"),
    (Notion::SameAsDiffer, "≈ as ≉"),
    (Notion::NotDivided, "rows not divided"),
    (Notion::CoefficientsDivided, "divisor without the constant"),
    (Notion::DividedWhereExact, "divisor without the constant, if exact"),
    (Notion::AtLeastTurned, "≥ turned too"),
    (Notion::NotTurned, "= and ≠ not turned"),
    (Notion::EqualAsWritten, "= not turned"),
    (Notion::NotEqualAsWritten, "≠ not turned"),
    (Notion::ConstantAsWritten, "a constant alone not turned"),
    (Notion::FirstColumnTurned, "turned by column 0 alone"),
    (Notion::EqualAsAtLeast, "= as ≥"),
    (Notion::EqualAsNotEqual, "= as ≠"),
    (Notion::ConstantIgnored, "constants do not count"),
    (Notion::FunctionIgnored, "functions do not count"),
    (Notion::BeforeTurned, "function 4 symmetric"),
    (Notion::CaseTurned, "functions 0 and 1 symmetric"),
    (Notion::ExtendedIgnored, "kind 11 does not count"),
];

/// What is said of two questions.
pub type Said = Result<bool, (Refusal, usize, Which)>;

/// A constraint: its kind, then what it is compared by.
type Key = Vec<i128>;

/// Two questions as judging reads them, and their constraints as asked.
pub struct Pair<'a> {
    bytes: &'a [Vec<u8>],
    pub read: [Result<Question, (Refusal, usize)>; 2],
    keys: [Vec<Key>; 2],
}

impl<'a> Pair<'a> {
    pub fn new(bytes: &'a [Vec<u8>]) -> Pair<'a> {
        let read = [0, 1].map(|side| read_question(&bytes[side]));
        let keys = [0, 1].map(|side| read[side].as_ref().map_or(Vec::new(), |read| Notion::AsAsked.keys(read)));
        Pair { bytes, read, keys }
    }

    /// What is said of the two by a notion.
    pub fn said(&self, notion: Notion) -> Said {
        let of = |which| move |(number, record): (Refusal, usize)| (number, record, which);
        let [first, second] = [0, 1].map(|side| notion.taken(&self.read[side]));
        let second_which = if notion == Notion::WhichIgnored { Which::First } else { Which::Second };
        if notion == Notion::SecondFirst {
            second.map_err(of(second_which))?;
        }
        let first = first.map_err(of(Which::First))?;
        if notion == Notion::HeadsFirst && head_at(&self.bytes[1]).is_some_and(|head| head != head_of(first)) {
            return Ok(false);
        }
        let second = second.map_err(of(second_which))?;
        Ok(notion.heads_agree(first, second) && self.constraints_agree(notion, first, second))
    }

    fn constraints_agree(&self, notion: Notion, first: &Question, second: &Question) -> bool {
        let keys = |side: usize, question: &Question| match notion.has_own_keys() {
            true => Cow::Owned(notion.keys(question)),
            false => Cow::Borrowed(&self.keys[side][..]),
        };
        let tables = notion != Notion::TablesCount || sorted(&first.literals, true) == sorted(&second.literals, true);
        tables && notion.sets_agree(&keys(0, first), &keys(1, second))
    }
}

impl Notion {
    /// A question, if it is taken.
    fn taken(self, read: &Result<Question, (Refusal, usize)>) -> Result<&Question, (Refusal, usize)> {
        match read {
            Ok(question) if self == Notion::ExtendedRefused && !question.extended.is_empty() => {
                Err((4, question.literals.len() + question.constraints.len()))
            }
            Ok(question) => Ok(question),
            Err(refused) => Err(*refused),
        }
    }

    fn heads_agree(self, first: &Question, second: &Question) -> bool {
        let ignored = [Notion::NIgnored, Notion::PIgnored, Notion::QIgnored];
        let (first, second) = (head_of(first), head_of(second));
        (0..3).all(|field| first[field] == second[field] || self == ignored[field])
    }

    /// Whether it sees constraints in another way than is asked; those before it in the list of all do not.
    pub fn has_own_keys(self) -> bool {
        self as usize > Notion::TablesCount as usize
    }

    fn sets_agree(self, first: &[Key], second: &[Key]) -> bool {
        let has_all = |all: &[Key], of: &[Key]| of.iter().all(|key| all.contains(key));
        match self {
            Notion::OneWay => has_all(second, first),
            Notion::OtherWay => has_all(first, second),
            Notion::AsManyAndOneWay => first.len() == second.len() && has_all(second, first),
            Notion::RepeatsCount => sorted(first, false) == sorted(second, false),
            Notion::OrderCounts => first == second,
            Notion::LowWord => {
                let low = |keys: &[Key]| sorted(&keys[..keys.len().min(64)], true);
                low(first) == low(second)
            }
            _ => sorted(first, true) == sorted(second, true),
        }
    }

    /// The constraints of a question.
    fn keys(self, question: &Question) -> Vec<Key> {
        let facts = question.constraints.iter().map(|fact| self.of_fact(question, fact));
        let extended = question.extended.iter().filter(|_| self != Notion::ExtendedIgnored);
        facts.chain(extended.map(|extended| self.of_extended(extended))).collect()
    }

    fn of_fact(self, question: &Question, fact: &Fact) -> Key {
        match *fact {
            Fact::Same(a, b) => pair(0, a, b, self != Notion::SameAsWritten),
            Fact::Differ(a, b) if self == Notion::SameAsDiffer => pair(0, a, b, true),
            Fact::Differ(a, b) => pair(1, a, b, self != Notion::DifferAsWritten),
            Fact::IsLiteral(a, literal) => self.of_literal(a, literal, &question.literals[literal]),
            Fact::Arithmetic(relation, ref row) => self.of_row(relation, row),
        }
    }

    fn of_literal(self, variable: usize, literal: usize, text: &[u32]) -> Key {
        let by = |number: usize| vec![2, variable as i128, number as i128];
        match self {
            Notion::LiteralNumbers => by(literal),
            Notion::LiteralLengths => by(text.len()),
            Notion::LiteralStarts => by(text.first().map_or(0, |character| 1 + *character as usize)),
            Notion::LiteralsAsVariables => pair(0, variable, literal, true),
            _ => [2, variable as i128].into_iter().chain(text.iter().map(|character| i128::from(*character))).collect(),
        }
    }

    /// The relation, the constant, and columns with their coefficients.
    fn of_row(self, relation: Relation, row: &Row) -> Key {
        let mut row = self.divided(row);
        if self.turns(relation, &row) {
            row = row.negative();
        }
        let relation = match (self, relation) {
            (_, Relation::AtLeast) | (Notion::EqualAsAtLeast, Relation::Equal) => 3,
            (Notion::EqualAsNotEqual, _) | (_, Relation::Equal) => 4,
            _ => 5,
        };
        let constant = if self == Notion::ConstantIgnored { 0 } else { row.constant };
        let pairs = row.coefficients.iter().enumerate().filter(|(_, coefficient)| **coefficient != 0);
        [relation, constant].into_iter().chain(pairs.flat_map(|(column, number)| [column as i128, *number])).collect()
    }

    fn divided(self, row: &Row) -> Row {
        let of_coefficients = row.coefficients.iter().fold(0, |divisor, number| common_divisor(divisor, *number));
        let divisor = match self {
            Notion::NotDivided => 1,
            Notion::CoefficientsDivided => of_coefficients,
            Notion::DividedWhereExact if of_coefficients != 0 && row.constant % of_coefficients != 0 => 1,
            Notion::DividedWhereExact => of_coefficients,
            _ => common_divisor(of_coefficients, row.constant),
        };
        let divisor = divisor.max(1);
        let coefficients = row.coefficients.iter().map(|number| number / divisor).collect();
        Row { constant: row.constant.div_euclid(divisor), coefficients }
    }

    /// Whether the sign of a row is turned.
    fn turns(self, relation: Relation, row: &Row) -> bool {
        let column_0 = row.coefficients.first().copied().unwrap_or_default();
        let first = row.coefficients.iter().find(|number| **number != 0).copied();
        let sign = match self {
            Notion::ConstantAsWritten => first.unwrap_or_default(),
            Notion::FirstColumnTurned => column_0,
            _ => first.unwrap_or(row.constant),
        };
        let never = match relation {
            Relation::AtLeast => self != Notion::AtLeastTurned,
            Relation::Equal => [Notion::NotTurned, Notion::EqualAsWritten].contains(&self),
            Relation::NotEqual => [Notion::NotTurned, Notion::NotEqualAsWritten].contains(&self),
        };
        sign < 0 && !never
    }

    fn of_extended(self, extended: &Extended) -> Key {
        let (function, a, b) = match *extended {
            Extended::Upper { a, b } => (6, a, b),
            Extended::Lower { a, b } => (7, a, b),
            Extended::Read { integer: a, string: b } => (8, a, b),
            Extended::Written { string: a, integer: b } => (9, a, b),
            Extended::Before { a, b } => (10, a, b),
        };
        match self {
            Notion::FunctionIgnored => pair(6, a, b, false),
            Notion::BeforeTurned => pair(function, a, b, function == 10),
            Notion::CaseTurned => pair(function, a, b, function < 8),
            _ => pair(function, a, b, false),
        }
    }
}

/// A constraint between two operands, the smaller one first where sides do not count.
fn pair(kind: i128, a: usize, b: usize, symmetric: bool) -> Key {
    let (a, b) = if symmetric { (a.min(b), a.max(b)) } else { (a, b) };
    vec![kind, a as i128, b as i128]
}

/// The greatest number that divides both, 0 where both are 0: by halving and subtracting, so that a fault of the remainders that the others
/// take is not made here too.
fn common_divisor(a: i128, b: i128) -> i128 {
    let (mut a, mut b, mut common) = (a.abs(), b.abs(), 1);
    while a != 0 && b != 0 {
        match (a % 2, b % 2) {
            (0, 0) => (a, b, common) = (a / 2, b / 2, 2 * common),
            (0, _) => a /= 2,
            (_, 0) => b /= 2,
            _ if a < b => b -= a,
            _ => a -= b,
        }
    }
    common * a.max(b)
}

/// The items in order, each once where repeats do not count.
fn sorted<T: Clone + Ord>(items: &[T], once: bool) -> Vec<T> {
    let mut items = items.to_vec();
    items.sort();
    if once {
        items.dedup();
    }
    items
}

/// n, p and q.
fn head_of(question: &Question) -> [usize; 3] {
    [question.n as usize, question.p, question.q]
}

/// n, p and q of a first record that is a head.
fn head_at(bytes: &[u8]) -> Option<[usize; 3]> {
    let body = whole_records(bytes).first().filter(|record| record.kind == 1 && record.body.len() == 8)?.body;
    Some([u32_at(body, 0) as usize, usize::from(u16_at(body, 4)), usize::from(u16_at(body, 6))])
}

#[cfg(test)]
mod tests {
    use super::*;
    use crate::operation::Operation;
    use crate::same::Same;
    use crate::vectors::{directory, load};
    use nuldwich_reference::same;

    #[test]
    fn notions_stand_in_their_order() {
        NOTIONS.iter().enumerate().for_each(|(place, (notion, _))| assert_eq!(*notion as usize, place));
    }

    #[test]
    fn the_common_divisor_is_the_greatest_number_that_divides_both() {
        for a in -40..=40_i128 {
            for b in -40..=40_i128 {
                let tried = (1..=40).rev().find(|divisor| a % divisor == 0 && b % divisor == 0);
                assert_eq!(common_divisor(a, b), if (a, b) == (0, 0) { 0 } else { tried.expect("1 divides both") });
            }
        }
        assert_eq!(common_divisor(-999_999_936, 1_000_000_000), 64);
    }

    /// Every wrong notion says another thing than is expected of some vector; `--nocapture` shows of which.
    #[test]
    fn vectors_tell_the_notions_apart() {
        let vectors = load(&directory(), "same", &Same.folders(), Same.endings());
        let mut untold = Vec::new();
        for (notion, wrong) in &NOTIONS[1..] {
            let tells = |parts: &[Vec<u8>]| Pair::new(parts).said(*notion) != same(&parts[0], &parts[1]);
            let telling = vectors.iter().filter(|vector| tells(&vector.input.parts));
            let names: Vec<&str> = telling.map(|vector| &vector.name[..]).collect();
            println!("{wrong}: {}", names.join(", "));
            if names.is_empty() {
                untold.push(*notion);
            }
        }
        assert_eq!(untold, []);
    }
}
