//! Conditions: sides with relations between them, a constraint for each relation.

use crate::gather::Draft;
use crate::sides::{side, Column, Side, Sum, Turn};
use crate::strays::misplaced;
use crate::tokens::{Line, Place};
use crate::Mistake;
use ticket::{Constraint, Extended, Relation};

/// `7 <= len(x) <= 12`
pub fn condition(draft: &mut Draft, line: &mut Line) -> Result<(), Mistake> {
    let mut left = side(&draft.names, line)?;
    let mut place = line.place();
    let mut relation = line.relation();
    if relation.is_none() {
        return Err(misplaced(line, "a relation is due here: = != < <= > >="));
    }
    let mut direction = None;
    while let Some(found) = relation {
        direction = one_way(place, direction, found)?;
        let right = side(&draft.names, line)?;
        compare(draft, place, &left, found, &right)?;
        left = right;
        place = line.place();
        relation = line.relation();
    }
    match line.is_done() {
        true => Ok(()),
        false => Err(misplaced(line, "the condition ends before this; a further condition goes on a line of its own")),
    }
}

/// The direction of a chain with one more sign, which may not point against it: `5 >= x <= 8` is often meant otherwise.
fn one_way(place: Place, before: Option<char>, relation: &str) -> Result<Option<char>, Mistake> {
    let now = relation.chars().next().filter(|sign| ['<', '>'].contains(sign));
    match (before, now) {
        (Some(before), Some(now)) if before != now => Err(place.mistake(format!(
            "{relation} points against a sign before it: the signs of a chain point in one direction, as 5 <= k <= 8"
        ))),
        _ => Ok(before.or(now)),
    }
}

/// The relations of a line as they are written: of `7 <= len(x) <= 12`, `7 <= len(x)` and `len(x) <= 12`.
pub fn relations(line: &str) -> Vec<String> {
    let characters: Vec<char> = line.chars().collect();
    let found = Line::of(1, &characters, 0).map_or(Vec::new(), |line| line.relations());
    found.into_iter().map(|(first, last)| characters[first - 1..last].iter().collect()).collect()
}

fn compare(draft: &mut Draft, place: Place, left: &Side, relation: &str, right: &Side) -> Result<(), Mistake> {
    match (left, right) {
        (Side::Sum(a), Side::Sum(b)) => arithmetic(draft, place, a, relation, b),
        (Side::Variable(x), Side::Variable(y)) => strings(draft, place, *x, relation, *y),
        (Side::Variable(x), Side::Text(text)) => with_text(draft, place, *x, relation, text),
        (Side::Text(text), Side::Variable(x)) => with_text(draft, place, *x, mirrored(relation), text),
        (Side::Turned(turn, of), other) | (other, Side::Turned(turn, of)) => {
            turned(draft, place, other, relation, *turn, *of)
        }
        (Side::Text(_), Side::Text(_)) => Err(place.mistake("one side at least is a variable")),
        _ => Err(place.mistake(
            "a string is compared with a number here; len(x), code(x) and 'A' are numbers, \"A\" is a string",
        )),
    }
}

fn mirrored(relation: &str) -> &str {
    match relation {
        "<=" => ">=",
        ">=" => "<=",
        "<" => ">",
        ">" => "<",
        other => other,
    }
}

/// Left minus right, or right minus left where the right is the greater one.
fn arithmetic(draft: &mut Draft, place: Place, a: &Sum, relation: &str, b: &Sum) -> Result<(), Mistake> {
    let one = Sum { constant: 1, ..Sum::default() };
    let (kind, difference) = match relation {
        ">=" => (Relation::Ge, a.minus(b)),
        "<=" => (Relation::Ge, b.minus(a)),
        ">" => (Relation::Ge, a.minus(b).and_then(|sum| sum.minus(&one))),
        "<" => (Relation::Ge, b.minus(a).and_then(|sum| sum.minus(&one))),
        "=" => (Relation::Eq, a.minus(b)),
        _ => (Relation::Ne, a.minus(b)),
    };
    let sum = difference.ok_or_else(|| place.mistake("a number becomes too large here"))?;
    draft.add_arithmetic(place, kind, sum);
    Ok(())
}

fn strings(draft: &mut Draft, place: Place, x: usize, relation: &str, y: usize) -> Result<(), Mistake> {
    match relation {
        "=" => draft.add(place, Constraint::Same(x, y)),
        "!=" => draft.add(place, Constraint::NotSame(x, y)),
        "<=" => draft.add_extended(place, Extended::InOrder(x, y)),
        ">=" => draft.add_extended(place, Extended::InOrder(y, x)),
        _ => return Err(strict(place)),
    }
    Ok(())
}

fn strict(place: Place) -> Mistake {
    place.mistake("strings are compared by = != <= >= alone")
}

/// A string with a text. One that is not empty has a length of at least 1: that takes no helper.
fn with_text(draft: &mut Draft, place: Place, x: usize, relation: &str, text: &[u32]) -> Result<(), Mistake> {
    let literal = draft.literal(place, text)?;
    match relation {
        "=" => draft.add(place, Constraint::IsLiteral(x, literal)),
        "!=" if literal == 0 => {
            let sum = Sum { constant: -1, terms: [(Column::Len(x), 1)].into() };
            draft.add_arithmetic(place, Relation::Ge, sum);
        }
        "!=" => draft.add_unlike(place, x, literal),
        "<=" | ">=" => draft.add_in_order(place, x, literal, relation == "<="),
        _ => return Err(strict(place)),
    }
    Ok(())
}

/// `x = upper(y)`, `x = lower(y)`, `k = number(y)`, `x = decimal(k)`
fn turned(draft: &mut Draft, place: Place, other: &Side, relation: &str, turn: Turn, of: usize) -> Result<(), Mistake> {
    let constraint = match (turn, other) {
        _ if relation != "=" => return Err(place.mistake("upper, lower, number and decimal take = alone")),
        (Turn::Upper, Side::Variable(x)) => Extended::Upper(*x, of),
        (Turn::Lower, Side::Variable(x)) => Extended::Lower(*x, of),
        (Turn::Decimal, Side::Variable(x)) => Extended::Decimal(*x, of),
        (Turn::Number, Side::Sum(sum)) if integer_alone(sum).is_some() => {
            Extended::Value(integer_alone(sum).unwrap_or_default(), of)
        }
        (Turn::Number, _) => return Err(place.mistake("number(..) is compared with an integer variable alone")),
        _ => {
            return Err(place.mistake("upper(..), lower(..) and decimal(..) are compared with a string variable alone"))
        }
    };
    draft.add_extended(place, constraint);
    Ok(())
}

/// The variable that a sum consists of.
fn integer_alone(sum: &Sum) -> Option<usize> {
    let mut terms = sum.terms.iter();
    match (sum.constant, terms.next(), terms.next()) {
        (0, Some((Column::Integer(i), 1)), None) => Some(*i),
        _ => None,
    }
}
