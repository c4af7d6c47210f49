//! Conditions of a question, and their text.

use crate::sums::Sum;
use crate::tokens::Term;
use text::{quoted, Mistake, Names, Place};

/// What a side of a condition may be.
#[derive(Clone, Debug, PartialEq, Eq)]
pub enum Side {
    Variable(usize),
    Text(Vec<u32>),
    Sum(Sum),
    /// An integer in decimal.
    Decimal(usize),
    /// A string read in decimal.
    Reading(usize),
}

#[derive(Clone, Debug, PartialEq, Eq)]
pub enum Condition {
    Compare {
        place: Place,
        left: Side,
        relation: &'static str,
        right: Side,
    },
    /// The characters of a string are below n.
    Within {
        place: Place,
        string: usize,
        n: u32,
    },
    False(Place),
}

impl Side {
    fn text(&self, names: &Names) -> String {
        match self {
            Side::Variable(x) => names.strings[*x].clone(),
            Side::Text(text) => quoted(text),
            Side::Sum(sum) => sum.text(names),
            Side::Decimal(i) => format!("decimal({})", names.integers[*i]),
            Side::Reading(x) => format!("number({})", names.strings[*x]),
        }
    }
}

impl Condition {
    /// The line of the text form, with its place; nothing for what the alphabet says.
    pub fn line(&self, names: &Names) -> Option<(Place, String)> {
        match self {
            Condition::Compare { place, left, relation, right } => {
                Some((*place, format!("{} {relation} {}", left.text(names), right.text(names))))
            }
            Condition::False(place) => Some((*place, "0 = 1".to_string())),
            Condition::Within { .. } => None,
        }
    }
}

pub fn unfit(term: &Term, why: &str) -> Mistake {
    term.mistake(format!("{} does not fit a question{why}", term.short()))
}

/// Compares two sides, where a question can; of two texts it is known whether they are the same.
pub fn compare(term: &Term, left: Side, relation: &'static str, right: Side) -> Result<Vec<Condition>, Mistake> {
    let (is_equation, compares_strings) = (relation == "=", ["=", "!="].contains(&relation));
    let fits = match (&left, &right) {
        (Side::Text(a), Side::Text(b)) if compares_strings => {
            return Ok(if (a == b) == is_equation { Vec::new() } else { vec![Condition::False(term.place)] });
        }
        (Side::Sum(_), Side::Sum(_)) => true,
        (Side::Variable(_), Side::Variable(_) | Side::Text(_)) | (Side::Text(_), Side::Variable(_)) => compares_strings,
        (Side::Variable(_), Side::Decimal(_)) | (Side::Decimal(_), Side::Variable(_)) => is_equation,
        (Side::Sum(sum), Side::Reading(_)) | (Side::Reading(_), Side::Sum(sum)) => {
            is_equation && sum.integer().is_some()
        }
        _ => false,
    };
    match fits {
        true => Ok(vec![Condition::Compare { place: term.place, left, relation, right }]),
        false => Err(unfit(term, ": these two are not compared so")),
    }
}

/// The relation that holds where another does not, where a question has it for these sides.
pub fn opposite(left: &Side, relation: &str, right: &Side) -> Option<&'static str> {
    match (left, right, relation) {
        (Side::Decimal(_) | Side::Reading(_), ..) | (_, Side::Decimal(_) | Side::Reading(_), _) => None,
        (.., "=") => Some("!="),
        (.., "!=") => Some("="),
        (Side::Sum(_), _, "<=") => Some(">"),
        (Side::Sum(_), _, "<") => Some(">="),
        (Side::Sum(_), _, ">=") => Some("<"),
        (Side::Sum(_), _, ">") => Some("<="),
        _ => None,
    }
}
