//! Sameness: whether two questions are the same.

use crate::extended::Extended;
use crate::facts::{Fact, Relation, Row};
use crate::judging::read_question;
use crate::question::Question;
use crate::Refusal;
use std::collections::BTreeSet;

/// "a refusal says which of the two it concerns"
#[derive(Clone, Copy, Debug, PartialEq)]
pub enum Which {
    First,
    Second,
}

/// A constraint as it is compared: two that are written differently and have one form are the same.
#[derive(Clone, Debug, PartialEq, Eq, PartialOrd, Ord)]
pub enum Form {
    /// "x ≈ y is y ≈ x": the set of the two variables.
    Same(BTreeSet<usize>),
    /// "and so for ≉"
    Differ(BTreeSet<usize>),
    /// "Literals compare by their characters."
    IsLiteral(usize, Vec<u32>),
    /// The relation, a coefficient for each column, and the constant last.
    Arithmetic(Relation, Vec<i128>),
    /// "Kind 11 compares field by field."
    Extended(Extended),
}

/// "says whether they are the same", or refuses: number, record, and of which question. "The first question's refusal, by judging's
/// rules, comes before the second's".
pub fn same(first: &[u8], second: &[u8]) -> Result<bool, (Refusal, usize, Which)> {
    let first = read_question(first).map_err(|(number, record)| (number, record, Which::First))?;
    let second = read_question(second).map_err(|(number, record)| (number, record, Which::Second))?;
    Ok(heads_agree(&first, &second) && form_set(&first) == form_set(&second))
}

/// "n, p and q agree"
pub fn heads_agree(first: &Question, second: &Question) -> bool {
    (first.n, first.p, first.q) == (second.n, second.p, second.q)
}

/// "the sets of constraints .., order and repeats aside"
pub fn form_set(question: &Question) -> BTreeSet<Form> {
    forms(question).into_iter().collect()
}

/// The forms of a question's constraints as they stand.
pub fn forms(question: &Question) -> Vec<Form> {
    let facts = question.constraints.iter().map(|fact| form(question, fact));
    facts.chain(question.extended.iter().map(|extended| Form::Extended(*extended))).collect()
}

fn form(question: &Question, fact: &Fact) -> Form {
    match fact {
        Fact::Same(x, y) => Form::Same(BTreeSet::from([*x, *y])),
        Fact::Differ(x, y) => Form::Differ(BTreeSet::from([*x, *y])),
        Fact::IsLiteral(x, literal) => Form::IsLiteral(*x, question.literals[*literal].clone()),
        Fact::Arithmetic(relation, row) => Form::Arithmetic(*relation, numbers(*relation, row)),
    }
}

/// "An arithmetic constraint is first divided by the greatest common divisor of its coefficients and constant, if that is not 0. For =
/// and ≠ the sign is then turned so that the first coefficient, or the constant where there is none, is positive."
fn numbers(relation: Relation, row: &Row) -> Vec<i128> {
    let mut numbers = row.coefficients.clone();
    numbers.push(row.constant);
    let divisor = numbers.iter().fold(0, |divisor, number| greatest_common_divisor(divisor, *number));
    if divisor != 0 {
        numbers.iter_mut().for_each(|number| *number /= divisor);
    }
    let first = numbers.iter().find(|number| **number != 0);
    if relation != Relation::AtLeast && first.is_some_and(|number| *number < 0) {
        numbers.iter_mut().for_each(|number| *number = -*number);
    }
    numbers
}

/// The greatest number that divides both; 0 where both are 0.
fn greatest_common_divisor(a: i128, b: i128) -> i128 {
    if b == 0 {
        a.abs()
    } else {
        greatest_common_divisor(b, a % b)
    }
}

#[cfg(test)]
mod tests {
    use super::*;
    use crate::checking::LONGEST_TICKET;
    use crate::records::record;

    /// A head with two string variables and two integer variables, the records given and an end.
    fn question(n: u8, records: &[Vec<u8>]) -> Vec<u8> {
        [record(1, &[n, 0, 0, 0, 2, 0, 2, 0]), records.concat(), record(8, &[])].concat()
    }

    fn literal(character: u8) -> Vec<u8> {
        record(2, &[character, 0, 0, 0])
    }

    /// A record of three small fields, of kind 3 or 11.
    fn fields(kind: u16, function: u8, a: u8, b: u8) -> Vec<u8> {
        record(kind, &[function, 0, a, 0, b, 0])
    }

    /// A row of the two integer variables.
    fn row(relation: u8, constant: i32, coefficients: [i32; 2]) -> Vec<u8> {
        let mut body = vec![relation, 0];
        body.extend(constant.to_le_bytes());
        for (column, coefficient) in coefficients.iter().enumerate().filter(|(_, coefficient)| **coefficient != 0) {
            body.extend([column as u8, 0]);
            body.extend(coefficient.to_le_bytes());
        }
        record(4, &body)
    }

    /// Whether questions with these constraints are the same, asked both ways.
    fn alike(first: &[Vec<u8>], second: &[Vec<u8>]) -> bool {
        let (first, second) = (question(9, first), question(9, second));
        assert_eq!(same(&first, &second), same(&second, &first));
        same(&first, &second).expect("both are read")
    }

    #[test]
    fn order_and_repeats_do_not_matter() {
        let (one, other) = (fields(3, 0, 0, 0), fields(3, 1, 0, 1));
        assert!(alike(&[one.clone(), other.clone()], &[other.clone(), one.clone(), other.clone()]));
        assert!(!alike(&[one.clone(), other.clone()], &[one.clone(), one]) && !alike(&[], &[other]));
    }

    #[test]
    fn the_sides_of_relations_between_variables_do_not_matter() {
        for relation in [0, 1] {
            assert!(alike(&[fields(3, relation, 0, 1)], &[fields(3, relation, 1, 0)]));
            assert!(!alike(&[fields(3, relation, 0, 1)], &[fields(3, relation, 0, 0)]));
        }
        assert!(!alike(&[fields(3, 0, 0, 1)], &[fields(3, 1, 0, 1)]));
    }

    #[test]
    fn literals_are_their_characters() {
        let is = |x, literal| fields(3, 2, x, literal);
        assert!(alike(&[literal(5), literal(6), is(0, 2)], &[literal(6), is(0, 1)]));
        assert!(!alike(&[literal(5), is(0, 1)], &[literal(6), is(0, 1)]));
        assert!(!alike(&[literal(5), is(0, 1)], &[literal(5), is(1, 1)]));
        assert!(!alike(&[literal(5), is(0, 1)], &[fields(3, 0, 0, 1)]) && !alike(&[is(0, 0)], &[fields(3, 0, 0, 0)]));
    }

    #[test]
    fn rows_are_divided_by_all_their_numbers() {
        for relation in [0, 1, 2] {
            assert!(alike(&[row(relation, -6, [4, -10])], &[row(relation, -3, [2, -5])]));
            assert!(!alike(&[row(relation, 1, [2, 0])], &[row(relation, 0, [1, 0])]));
            assert!(!alike(&[row(relation, 0, [0, 0])], &[row(relation, 1, [0, 0])]));
            assert!(alike(&[row(relation, 7, [0, 0])], &[row(relation, 3, [0, 0])]));
        }
        assert!(alike(&[row(1, 1_000_000_000, [-1_000_000_000, 0])], &[row(1, -1, [1, 0])]));
    }

    #[test]
    fn the_sign_is_turned_for_equations_and_their_negations_alone() {
        for (relation, turned) in [(0, false), (1, true), (2, true)] {
            assert_eq!(alike(&[row(relation, 3, [-2, 5])], &[row(relation, -3, [2, -5])]), turned);
            assert_eq!(alike(&[row(relation, 3, [0, -5])], &[row(relation, -3, [0, 5])]), turned);
            assert_eq!(alike(&[row(relation, -3, [0, 0])], &[row(relation, 7, [0, 0])]), turned);
        }
        assert!(
            !alike(&[row(0, 1, [1, 0])], &[row(1, 1, [1, 0])]) && !alike(&[row(1, 1, [1, 0])], &[row(2, 1, [1, 0])])
        );
    }

    #[test]
    fn kind_11_compares_field_by_field() {
        for function in 0..5 {
            assert!(alike(&[fields(11, function, 0, 1)], &[fields(11, function, 0, 1)]));
            assert!(!alike(&[fields(11, function, 0, 1)], &[fields(11, function, 1, 0)]));
        }
        assert!(!alike(&[fields(11, 0, 0, 1)], &[fields(11, 1, 0, 1)]) && !alike(&[], &[fields(11, 4, 0, 0)]));
    }

    #[test]
    fn heads_must_agree() {
        let head = |n: u8, p: u8, q: u8| [record(1, &[n, 0, 0, 0, p, 0, q, 0]), record(5, &[1, 0])].concat();
        assert_eq!(same(&head(9, 2, 2), &question(9, &[])), Ok(true));
        for other in [head(8, 2, 2), head(9, 1, 2), head(9, 2, 3)] {
            assert_eq!(same(&other, &question(9, &[])), Ok(false));
        }
    }

    #[test]
    fn both_are_read_before_they_are_compared() {
        let (good, none) = (question(9, &[]), record(8, &[]));
        let cut = question(8, &[])[..17].to_vec();
        assert_eq!(same(&cut, &none), Err((3, 1, Which::First)));
        assert_eq!(same(&none, &cut), Err((4, 0, Which::First)));
        assert_eq!(same(&good, &cut), Err((3, 1, Which::Second)));
        assert_eq!(same(&good, &[0; LONGEST_TICKET + 1]), Err((2, 0, Which::Second)));
        let many = question(9, &vec![fields(11, 4, 0, 0); 129]);
        assert_eq!(same(&good, &many), Err((10, 129, Which::Second)));
        assert_eq!(same(&good, &[good.clone(), vec![7; 40]].concat()), Ok(true));
    }
}
