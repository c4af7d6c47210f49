//! Records as values, by the ranges of document 01. Which child a step takes and how a derivation closes is left to the checker.

use crate::{Claim, Constraint, Extended, Form, Function, Placed, Question, Relation, Step, Ticket};
use crate::{LONGEST_STRING, MOST_BYTES, MOST_CHARACTERS, MOST_LITERALS, MOST_VARIABLES, NUMBER_LIMIT, VALUE_LIMIT};
use std::fmt;

/// Why bytes are no question or ticket: the first faulty record, from 0, and what is wrong with it.
#[derive(Clone, Debug, PartialEq, Eq)]
pub struct Fault {
    pub record: usize,
    pub reason: String,
}

impl fmt::Display for Fault {
    fn fmt(&self, to: &mut fmt::Formatter) -> fmt::Result {
        write!(to, "record {}: {}", self.record, self.reason)
    }
}

/// The bytes of a record before its body: length and kind.
const HEADER: usize = 6;

/// The fields of a body, read one after another.
struct Fields<'a> {
    rest: &'a [u8],
}

impl Fields<'_> {
    fn bytes<const SIZE: usize>(&mut self) -> Result<[u8; SIZE], String> {
        let (field, rest) = self.rest.split_first_chunk::<SIZE>().ok_or("the body has too few bytes")?;
        self.rest = rest;
        Ok(*field)
    }

    fn u16(&mut self) -> Result<u16, String> {
        Ok(u16::from_le_bytes(self.bytes()?))
    }

    fn u32(&mut self) -> Result<u32, String> {
        Ok(u32::from_le_bytes(self.bytes()?))
    }

    fn i32(&mut self) -> Result<i64, String> {
        Ok(i64::from(i32::from_le_bytes(self.bytes()?)))
    }

    fn fact(&mut self) -> Result<usize, String> {
        Ok(usize::from(self.u16()?))
    }

    /// A number below a count.
    fn below(&mut self, count: usize, what: &str) -> Result<usize, String> {
        let number = usize::from(self.u16()?);
        if number < count {
            Ok(number)
        } else {
            Err(format!("there is no {what} {number}"))
        }
    }

    fn within(&mut self, limit: i64, what: &str) -> Result<i64, String> {
        let value = self.i32()?;
        if value.abs() <= limit {
            Ok(value)
        } else {
            Err(format!("the {what} {value} is not within ±{limit}"))
        }
    }

    /// All that is left, read item by item.
    fn all<T>(&mut self, mut item: impl FnMut(&mut Self) -> Result<T, String>) -> Result<Vec<T>, String> {
        let mut items = Vec::new();
        while !self.rest.is_empty() {
            items.push(item(self)?);
        }
        Ok(items)
    }

    fn done(&self) -> Result<(), String> {
        if self.rest.is_empty() {
            Ok(())
        } else {
            Err("the body has too many bytes".to_string())
        }
    }
}

/// Demands that a count lies between two others.
fn counted(count: usize, least: usize, most: usize, what: &str) -> Result<(), String> {
    if (least..=most).contains(&count) {
        Ok(())
    } else {
        Err(format!("{count} {what}; {least} to {most} are due"))
    }
}

/// Takes records from the front.
struct Records<'a> {
    rest: &'a [u8],
    number: usize,
}

impl<'a> Records<'a> {
    fn of(bytes: &[u8]) -> Result<Records<'_>, Fault> {
        let records = Records { rest: bytes, number: 0 };
        match bytes.len() > MOST_BYTES {
            true => Err(records.fault(format!("there are over {MOST_BYTES} bytes"))),
            false => Ok(records),
        }
    }

    fn fault(&self, reason: impl Into<String>) -> Fault {
        Fault { record: self.number, reason: reason.into() }
    }

    /// The next record's kind; none at the end of the bytes.
    fn kind(&self) -> Result<Option<u16>, Fault> {
        match self.rest {
            [] => Ok(None),
            [_, _, _, _, low, high, ..] => Ok(Some(u16::from_le_bytes([*low, *high]))),
            _ => Err(self.fault("the bytes stop within a record")),
        }
    }

    /// Takes the next record and reads its body to the last byte.
    fn take<T>(&mut self, read: impl FnOnce(&mut Fields<'a>) -> Result<T, String>) -> Result<T, Fault> {
        let cut = || self.fault("the bytes stop within a record");
        let (header, behind) = self.rest.split_first_chunk::<HEADER>().ok_or_else(cut)?;
        let length = u32::from_le_bytes([header[0], header[1], header[2], header[3]]) as usize;
        let (body, rest) = behind.split_at_checked(length).ok_or_else(cut)?;
        let mut fields = Fields { rest: body };
        let value = read(&mut fields).and_then(|value| fields.done().map(|()| value));
        let value = value.map_err(|reason| self.fault(reason))?;
        self.rest = rest;
        self.number += 1;
        Ok(value)
    }
}

/// "u32 n (1 to 196,608), u16 p string variables, u16 q integer variables (each 0 to 16)"
fn head(fields: &mut Fields) -> Result<Question, String> {
    let (n, p, q) = (fields.u32()?, usize::from(fields.u16()?), usize::from(fields.u16()?));
    if !(1..=MOST_CHARACTERS).contains(&n) {
        return Err(format!("n is {n}; 1 to {MOST_CHARACTERS} are due"));
    }
    counted(p, 0, MOST_VARIABLES, "string variables")?;
    counted(q, 0, MOST_VARIABLES, "integer variables")?;
    Ok(Question { n, p, q, literals: Vec::new(), constraints: Vec::new(), extended: Vec::new() })
}

/// "1 to 64 characters, u32 each, below n"; none is written twice.
fn literal(question: &Question, fields: &mut Fields) -> Result<Vec<u32>, String> {
    let characters = fields.all(Fields::u32)?;
    counted(characters.len(), 1, LONGEST_STRING, "characters")?;
    if let Some(character) = characters.iter().find(|character| **character >= question.n) {
        return Err(format!("the character {character} is not below n"));
    }
    match question.literals.contains(&characters) {
        true => Err("the literal repeats".to_string()),
        false => Ok(characters),
    }
}

/// "u16 relation, u16 a, u16 b"
fn string_constraint(question: &Question, fields: &mut Fields) -> Result<Constraint, String> {
    let relation = fields.below(3, "relation")?;
    let a = fields.below(question.p, "string variable")?;
    match relation {
        0 => Ok(Constraint::Same(a, fields.below(question.p, "string variable")?)),
        1 => Ok(Constraint::NotSame(a, fields.below(question.p, "string variable")?)),
        _ => Ok(Constraint::IsLiteral(a, fields.below(question.literals.len() + 1, "literal")?)),
    }
}

/// "i32 constant, then 0 to 48 pairs of u16 column and nonzero i32 coefficient, columns rising strictly"
fn form(question: &Question, fields: &mut Fields) -> Result<Form, String> {
    let constant = fields.within(NUMBER_LIMIT, "constant")?;
    let mut least = 0;
    let terms = fields.all(|fields| {
        let column = fields.below(question.columns(), "column")?;
        let coefficient = fields.within(NUMBER_LIMIT, "coefficient")?;
        if column < least || coefficient == 0 {
            return Err("columns do not rise strictly, or a coefficient is 0".to_string());
        }
        least = column + 1;
        Ok((column, coefficient))
    })?;
    Ok(Form { constant, terms })
}

/// "u16 relation (0 is ≥ 0, 1 is = 0, 2 is ≠ 0)", then a form.
fn arithmetic_constraint(question: &Question, fields: &mut Fields) -> Result<Constraint, String> {
    let relation = match fields.below(3, "relation")? {
        0 => Relation::Ge,
        1 => Relation::Eq,
        _ => Relation::Ne,
    };
    Ok(Constraint::Arithmetic(relation, form(question, fields)?))
}

/// "u16 function, u16 a, u16 b", each a string or an integer as the function says.
fn extended(question: &Question, fields: &mut Fields) -> Result<Extended, String> {
    let function = fields.below(5, "function")?;
    let mut variable = |is_string: bool| match is_string {
        true => fields.below(question.p, "string variable"),
        false => fields.below(question.q, "integer variable"),
    };
    let (a, b) = (variable(function != 2)?, variable(function != 3)?);
    Ok(match function {
        0 => Extended::Upper(a, b),
        1 => Extended::Lower(a, b),
        2 => Extended::Value(a, b),
        3 => Extended::Decimal(a, b),
        _ => Extended::InOrder(a, b),
    })
}

/// The records up to the first claim or end, or the end of the bytes.
fn question(records: &mut Records) -> Result<Question, Fault> {
    if records.kind()? != Some(1) {
        return Err(records.fault("the head is missing"));
    }
    let mut read = records.take(head)?;
    let mut last = 2;
    while let Some(kind) = records.kind()?.filter(|kind| !matches!(kind, 5 | 8)) {
        if kind < last || kind == 2 && read.literals.len() == MOST_LITERALS {
            return Err(records.fault(format!("kind {kind} is out of its place")));
        }
        match kind {
            2 => read.literals.push(records.take(|fields| literal(&read, fields))?),
            3 => read.constraints.push(records.take(|fields| string_constraint(&read, fields))?),
            4 => read.constraints.push(records.take(|fields| arithmetic_constraint(&read, fields))?),
            11 => read.extended.push(records.take(|fields| extended(&read, fields))?),
            _ => return Err(records.fault(format!("kind {kind} is unknown or out of its place"))),
        }
        last = kind;
    }
    Ok(read)
}

/// "u16 rule, u16 child, operands"
fn placed(question: &Question, fields: &mut Fields) -> Result<Placed, String> {
    let (rule, child) = (fields.u16()?, fields.u16()?);
    Ok(Placed { step: step(question, rule, fields)?, child })
}

fn step(question: &Question, rule: u16, fields: &mut Fields) -> Result<Step, String> {
    let variable = |fields: &mut Fields| fields.below(question.p, "string variable");
    Ok(match rule {
        1 => sum(fields)?,
        2 => Step::Branch(form(question, fields)?),
        3 => Step::Apart(fields.fact()?),
        4 => Step::AConf(fields.fact()?),
        5 => Step::SConf,
        6 => {
            let function = if fields.below(2, "function")? == 0 { Function::Len } else { Function::Code };
            Step::SProp(function, variable(fields)?, variable(fields)?)
        }
        7 => Step::LIntro(variable(fields)?),
        8 => Step::LValid(variable(fields)?),
        9 => Step::CCollapse(variable(fields)?),
        10 => Step::CValid(variable(fields)?),
        11 => Step::CInj(variable(fields)?, variable(fields)?),
        12 => {
            let variables = fields.all(variable)?;
            counted(variables.len(), 2, MOST_VARIABLES, "variables")?;
            Step::Card(variables)
        }
        13 => Step::Join(fields.fact()?, fields.fact()?),
        _ => return Err(format!("rule {rule} is unknown")),
    })
}

/// "i32 divisor of at least 1, then 1 to 8 pairs (fact, i32 multiplier)"
fn sum(fields: &mut Fields) -> Result<Step, String> {
    let divisor = fields.i32()?;
    let divisor = u32::try_from(divisor).ok().filter(|divisor| *divisor >= 1);
    let divisor = divisor.ok_or("the divisor is not at least 1")?;
    let pairs = fields.all(|fields| Ok((fields.fact()?, fields.within(NUMBER_LIMIT, "multiplier")?)))?;
    counted(pairs.len(), 1, 8, "pairs")?;
    Ok(Step::Sum { divisor, pairs })
}

/// "u16, 1 for no solution, 2 for strings", then the steps, the model of claim 2, and the end.
fn claim(records: &mut Records, question: &Question) -> Result<Claim, Fault> {
    let claim = records.take(|fields| match fields.u16()? {
        claim @ 1..=2 => Ok(claim),
        other => Err(format!("claim {other} is unknown")),
    })?;
    let mut steps = Vec::new();
    while records.kind()? == Some(6) {
        steps.push(records.take(|fields| placed(question, fields))?);
    }
    if claim == 1 {
        return Ok(Claim::NoSolution(steps));
    }
    if records.kind()? != Some(7) {
        return Err(records.fault("a step or the model is due"));
    }
    let model = records.take(|fields| {
        let values = fields.all(|fields| fields.within(VALUE_LIMIT, "value"))?;
        counted(values.len(), question.columns(), question.columns(), "values").map(|()| values)
    })?;
    Ok(Claim::Strings { steps, model })
}

impl Question {
    /// Reads up to the first claim or end record, or to the end of the bytes.
    pub fn from_bytes(bytes: &[u8]) -> Result<Question, Fault> {
        question(&mut Records::of(bytes)?)
    }
}

impl Ticket {
    pub fn from_bytes(bytes: &[u8]) -> Result<Ticket, Fault> {
        let mut records = Records::of(bytes)?;
        let question = question(&mut records)?;
        if !question.extended.is_empty() {
            let record = records.number - question.extended.len();
            return Err(Fault { record, reason: "a ticket has no constraints of kind 11".to_string() });
        }
        if records.kind()? != Some(5) {
            return Err(records.fault("the claim is missing"));
        }
        let claim = claim(&mut records, &question)?;
        if records.kind()? != Some(8) {
            return Err(records.fault("the end is due"));
        }
        records.take(|_| Ok(()))?;
        match records.rest {
            [] => Ok(Ticket { question, claim }),
            _ => Err(Fault { record: records.number - 1, reason: "bytes follow the end record".to_string() }),
        }
    }
}
