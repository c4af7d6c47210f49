//! The part of a ticket behind its question: claim, steps and model.

use crate::sides::{column, string, sum};
use crate::tokens::{Line, Place};
use crate::write::column_text;
use crate::{Mistake, Written};
use ticket::{Claim, Function, Placed, Step, MOST_VARIABLES, NUMBER_LIMIT, VALUE_LIMIT};

type Lines<'a> = &'a mut dyn Iterator<Item = (usize, Vec<char>)>;

/// The most pairs of a Sum.
const MOST_PAIRS: usize = 8;

/// `claim no solution` or `claim strings`, of which the first word is taken, and all lines behind it.
pub fn claim(
    written: &Written,
    mut line: Line,
    mut lines: impl Iterator<Item = (usize, Vec<char>)>,
) -> Result<Claim, Mistake> {
    let is_strings = line.word("strings");
    if !(is_strings || line.word("no") && line.word("solution")) {
        return Err(line.mistake("claim no solution or claim strings is due"));
    }
    line.done()?;
    let end = line.place();
    let (steps, model) = steps(written, &mut lines, is_strings)?;
    match model {
        Some(place) => Ok(Claim::Strings { steps, model: self::model(written, place, &mut lines)? }),
        None if is_strings => Err(end.mistake("a model is due behind the steps of this claim")),
        None => Ok(Claim::NoSolution(steps)),
    }
}

/// The steps, and where the model begins.
fn steps(written: &Written, lines: Lines, is_strings: bool) -> Result<(Vec<Placed>, Option<Place>), Mistake> {
    let mut steps = Vec::new();
    for (number, characters) in lines {
        let start = characters.iter().take_while(|one| one.is_whitespace()).count();
        let rule = characters[start..].iter().take_while(|one| **one == '-' || one.is_alphabetic());
        let rule: String = rule.collect();
        let mut line = Line::of(number, &characters, start + rule.chars().count())?;
        let place = Place { line: number, column: start + 1 };
        match rule.as_str() {
            "" if line.is_done() => {}
            "model" if is_strings => {
                line.done()?;
                return Ok((steps, Some(place)));
            }
            _ => steps.push(placed(written, &rule, place, &mut line, is_strings)?),
        }
    }
    Ok((steps, None))
}

/// A step with the child taken: `C-Valid x: child 2`.
fn placed(written: &Written, rule: &str, place: Place, line: &mut Line, is_strings: bool) -> Result<Placed, Mistake> {
    let step = step(written, rule, place, line)?;
    if !line.sign(":") {
        line.done()?;
        return match is_strings && step.splits() {
            true => Err(line.mistake("the child taken is due here, as : child 1")),
            false => Ok(Placed { step, child: u16::from(is_strings) }),
        };
    }
    if !line.word("child") {
        return Err(line.mistake("child is due here"));
    }
    let child = field(line)?;
    line.done()?;
    Ok(Placed { step, child })
}

/// A number that a field of 16 bits holds.
fn field(line: &mut Line) -> Result<u16, Mistake> {
    let place = line.place();
    u16::try_from(line.integer()?).map_err(|_| place.mistake("this number is 0 to 65535"))
}

/// `[4]`
fn fact(line: &mut Line) -> Result<usize, Mistake> {
    line.due("[")?;
    let number = field(line)?;
    line.due("]")?;
    Ok(usize::from(number))
}

fn step(written: &Written, rule: &str, place: Place, line: &mut Line) -> Result<Step, Mistake> {
    let variable = |line: &mut Line| string(&written.names, line);
    Ok(match rule {
        "Sum" => summed(line)?,
        "Branch" => {
            let form = line.place();
            Step::Branch(sum(&written.names, line)?.form(&written.question, form)?)
        }
        "Apart" => Step::Apart(fact(line)?),
        "A-Conf" => Step::AConf(fact(line)?),
        "S-Conf" => Step::SConf,
        "S-Prop" => Step::SProp(function(line)?, variable(line)?, variable(line)?),
        "L-Intro" => Step::LIntro(variable(line)?),
        "L-Valid" => Step::LValid(variable(line)?),
        "C-Collapse" => Step::CCollapse(variable(line)?),
        "C-Valid" => Step::CValid(variable(line)?),
        "C-Inj" => Step::CInj(variable(line)?, variable(line)?),
        "Card" => card(written, line)?,
        "Join" => Step::Join(fact(line)?, fact(line)?),
        _ => return Err(place.mistake("a step begins with its rule, as Sum, Branch or C-Valid")),
    })
}

fn function(line: &mut Line) -> Result<Function, Mistake> {
    match () {
        () if line.word("len") => Ok(Function::Len),
        () if line.word("code") => Ok(Function::Code),
        () => Err(line.mistake("len or code is due here")),
    }
}

/// `Sum 1*[2] - 3*[5] over 2`
fn summed(line: &mut Line) -> Result<Step, Mistake> {
    let mut pairs = Vec::new();
    let mut negative = false;
    loop {
        let place = line.place();
        let multiplier = line.integer()?;
        let multiplier = if negative { -multiplier } else { multiplier };
        if multiplier.abs() > NUMBER_LIMIT || pairs.len() == MOST_PAIRS {
            return Err(place.mistake(format!("a Sum has {MOST_PAIRS} pairs at most, within ±{NUMBER_LIMIT}")));
        }
        line.due("*")?;
        pairs.push((fact(line)?, multiplier));
        negative = line.sign("-");
        if !negative && !line.sign("+") {
            return Ok(Step::Sum { divisor: divisor(line)?, pairs });
        }
    }
}

/// `over 2`; without it 1.
fn divisor(line: &mut Line) -> Result<u32, Mistake> {
    if !line.word("over") {
        return Ok(1);
    }
    let place = line.place();
    let divisor = i32::try_from(line.integer()?).ok().filter(|divisor| *divisor >= 1);
    divisor.map(i32::unsigned_abs).ok_or_else(|| place.mistake(format!("a divisor is 1 to {}", i32::MAX)))
}

fn card(written: &Written, line: &mut Line) -> Result<Step, Mistake> {
    let place = line.place();
    let mut variables = Vec::new();
    while line.named().is_some() {
        variables.push(string(&written.names, line)?);
    }
    match variables.len() {
        2..=MOST_VARIABLES => Ok(Step::Card(variables)),
        _ => Err(place.mistake(format!("Card takes 2 to {MOST_VARIABLES} strings"))),
    }
}

/// A value for each column: `len(x) = 3`.
fn model(written: &Written, start: Place, lines: Lines) -> Result<Vec<i64>, Mistake> {
    let question = &written.question;
    let mut values = vec![None; question.columns()];
    for (number, characters) in lines {
        let mut line = Line::of(number, &characters, 0)?;
        if line.is_done() {
            continue;
        }
        let place = line.place();
        let column = column(&written.names, &mut line)?.number(question);
        line.due("=")?;
        let at = line.place();
        let value = line.integer()?;
        line.done()?;
        if value.abs() > VALUE_LIMIT {
            return Err(at.mistake(format!("a value is within ±{VALUE_LIMIT}")));
        }
        if values[column].replace(value).is_some() {
            return Err(place.mistake("this has a value already"));
        }
    }
    let missing = values.iter().position(Option::is_none);
    match missing.map(|column| column_text(question, &written.names, column)) {
        Some(name) => Err(start.mistake(format!("the model has no value for {name}"))),
        None => Ok(values.into_iter().flatten().collect()),
    }
}
