//! The sides of a condition: a variable, a text, a sum, or a function of judging alone.

use crate::strays::absent;
use crate::tokens::{Line, Place, Word};
use crate::{Mistake, Names};
use std::collections::BTreeMap;
use ticket::{Form, Question, NUMBER_LIMIT};

/// A column before it is known how many variables there are; the order is that of the columns.
#[derive(Clone, Copy, Debug, PartialEq, Eq, PartialOrd, Ord)]
pub enum Column {
    Integer(usize),
    Len(usize),
    Code(usize),
}

impl Column {
    pub fn number(self, question: &Question) -> usize {
        match self {
            Column::Integer(i) => i,
            Column::Len(x) => question.len_column(x),
            Column::Code(x) => question.code_column(x),
        }
    }
}

/// A sum of whole multiples of columns and a constant.
#[derive(Clone, Debug, Default, PartialEq, Eq)]
pub struct Sum {
    pub constant: i64,
    pub terms: BTreeMap<Column, i64>,
}

impl Sum {
    /// Adds a multiple of a column, or a constant; nothing where a number becomes too large.
    fn add(&mut self, column: Option<Column>, factor: i64) -> Option<()> {
        let number = match column {
            Some(column) => self.terms.entry(column).or_default(),
            None => &mut self.constant,
        };
        *number = number.checked_add(factor)?;
        Some(())
    }

    pub fn minus(&self, other: &Sum) -> Option<Sum> {
        let mut difference = self.clone();
        difference.add(None, other.constant.checked_neg()?)?;
        for (column, coefficient) in &other.terms {
            difference.add(Some(*column), coefficient.checked_neg()?)?;
        }
        Some(difference)
    }

    /// The form of the sum, within the limit of numbers.
    pub fn form(&self, question: &Question, place: Place) -> Result<Form, Mistake> {
        let kept = self.terms.iter().filter(|(_, coefficient)| **coefficient != 0);
        let terms: Vec<(usize, i64)> = kept.map(|(column, factor)| (column.number(question), *factor)).collect();
        let mut numbers = terms.iter().map(|(_, factor)| *factor).chain([self.constant]);
        match numbers.find(|number| number.unsigned_abs() > NUMBER_LIMIT.unsigned_abs()) {
            Some(number) => Err(place.mistake(format!("the number {} passes {NUMBER_LIMIT}", number.unsigned_abs()))),
            None => Ok(Form { constant: self.constant, terms }),
        }
    }
}

/// The functions of kind 11.
#[derive(Clone, Copy, Debug, PartialEq, Eq)]
pub enum Turn {
    Upper,
    Lower,
    Number,
    Decimal,
}

#[derive(Clone, Debug, PartialEq, Eq)]
pub enum Side {
    Variable(usize),
    Text(Vec<u32>),
    Sum(Sum),
    Turned(Turn, usize),
}

pub fn side(names: &Names, line: &mut Line) -> Result<Side, Mistake> {
    if let Some(Word::Text(text)) = line.next() {
        let text = text.clone();
        line.take();
        return Ok(Side::Text(text));
    }
    match line.named() {
        Some((name, true)) => match turn_of(name) {
            Some(turn) => turned(names, line, turn),
            None => sum(names, line).map(Side::Sum),
        },
        Some((name, false)) if names.strings.iter().any(|string| string == name) => variable(names, line),
        _ => sum(names, line).map(Side::Sum),
    }
}

fn turn_of(name: &str) -> Option<Turn> {
    match name {
        "upper" => Some(Turn::Upper),
        "lower" => Some(Turn::Lower),
        "number" => Some(Turn::Number),
        "decimal" => Some(Turn::Decimal),
        _ => None,
    }
}

/// `upper(x)`
fn turned(names: &Names, line: &mut Line, turn: Turn) -> Result<Side, Mistake> {
    line.take();
    line.due("(")?;
    let number = if turn == Turn::Decimal { integer(names, line)? } else { string(names, line)? };
    line.due(")")?;
    Ok(Side::Turned(turn, number))
}

/// A string variable alone.
fn variable(names: &Names, line: &mut Line) -> Result<Side, Mistake> {
    let place = line.place();
    let x = string(names, line)?;
    match line.next() {
        Some(Word::Sign("+" | "-" | "*")) => Err(is_string(place, &names.strings[x])),
        _ => Ok(Side::Variable(x)),
    }
}

fn is_string(place: Place, name: &str) -> Mistake {
    place.mistake(format!("{name} is a string; len({name}) and code({name}) are numbers, and texts cannot be joined"))
}

/// A declared string variable.
pub fn string(names: &Names, line: &mut Line) -> Result<usize, Mistake> {
    declared(&names.strings, line, "string")
}

fn integer(names: &Names, line: &mut Line) -> Result<usize, Mistake> {
    declared(&names.integers, line, "integer")
}

fn declared(names: &[String], line: &mut Line, what: &str) -> Result<usize, Mistake> {
    let Some((name, _)) = line.named() else {
        return Err(line.mistake(format!("the name of a declared {what} is due here")));
    };
    let found = names.iter().position(|known| known == name);
    let number = found.ok_or_else(|| line.mistake(format!("{name} is not declared as {what}")))?;
    line.take();
    Ok(number)
}

/// `2*len(x) - k + 3`
pub fn sum(names: &Names, line: &mut Line) -> Result<Sum, Mistake> {
    let mut total = Sum::default();
    let mut negative = line.sign("-");
    if !negative {
        line.sign("+");
    }
    loop {
        let place = line.place();
        let (column, factor) = product(names, line)?;
        let signed = if negative { factor.checked_neg() } else { Some(factor) };
        signed.and_then(|factor| total.add(column, factor)).ok_or_else(|| too_large(place))?;
        negative = line.sign("-");
        if !negative && !line.sign("+") {
            return Ok(total);
        }
    }
}

fn too_large(place: Place) -> Mistake {
    place.mistake("a number becomes too large here")
}

/// Factors with `*` between them, at most one of them no number.
fn product(names: &Names, line: &mut Line) -> Result<(Option<Column>, i64), Mistake> {
    let (mut column, mut factor) = (None, 1_i64);
    loop {
        let place = line.place();
        match part(names, line)? {
            Part::Number(number) => factor = factor.checked_mul(number).ok_or_else(|| too_large(place))?,
            Part::Column(_) if column.is_some() => return Err(place.mistake("a product has one variable at most")),
            Part::Column(found) => column = Some(found),
        }
        if !line.sign("*") {
            return Ok((column, factor));
        }
    }
}

enum Part {
    Number(i64),
    Column(Column),
}

/// A number, an integer variable, `len(..)` or `code(..)`.
fn part(names: &Names, line: &mut Line) -> Result<Part, Mistake> {
    if let Some(Word::Number(number)) = line.next() {
        let number = *number;
        line.take();
        return Ok(Part::Number(number));
    }
    match line.named() {
        Some(("len", true)) => measure(names, line, Column::Len, |text| text.len() as i64),
        Some(("code", true)) => measure(names, line, Column::Code, code_of),
        Some((name, true)) => {
            let unknown = || format!("there is no function {name} here; those of numbers are len and code");
            Err(line.mistake(absent(name).unwrap_or_else(unknown)))
        }
        Some((name, false)) if names.strings.iter().any(|known| known == name) => Err(is_string(line.place(), name)),
        Some((name, false)) if !names.integers.iter().any(|known| known == name) => Err(line.mistake(undeclared(name))),
        Some(_) => integer(names, line).map(|number| Part::Column(Column::Integer(number))),
        None => Err(line.mistake("a number or a variable is due here, or a text in quotes")),
    }
}

/// What to do about a name that nothing declares.
fn undeclared(name: &str) -> String {
    match name {
        "string" | "integer" => format!("{name} is not declared; a declaration begins with {name}s"),
        "len" | "code" => format!("{name} is not declared; of a string x it is {name}(x)"),
        _ => absent(name).unwrap_or_else(|| {
            let lines = format!("\"strings {name}\" or \"integers {name}\"");
            format!("{name} is not declared by a line {lines} above; a text stands in quotes")
        }),
    }
}

/// `len` or `code` of a variable or a text.
fn measure(
    names: &Names,
    line: &mut Line,
    column: fn(usize) -> Column,
    value: fn(&[u32]) -> i64,
) -> Result<Part, Mistake> {
    line.take();
    line.due("(")?;
    let part = match line.next() {
        Some(Word::Text(text)) => {
            let number = value(text);
            line.take();
            Part::Number(number)
        }
        _ => Part::Column(column(string(names, line)?)),
    };
    line.due(")")?;
    Ok(part)
}

/// "code (the code point of a one-character string, else −1)"
fn code_of(text: &[u32]) -> i64 {
    match text {
        [only] => i64::from(*only),
        _ => -1,
    }
}

/// A column by its name, as in a model.
pub fn column(names: &Names, line: &mut Line) -> Result<Column, Mistake> {
    let place = line.place();
    match part(names, line)? {
        Part::Column(column) => Ok(column),
        Part::Number(_) => Err(place.mistake("an integer, len(..) or code(..) of a variable is due here")),
    }
}
