//! Steps as they are written: forms, ranges and the child field.

use crate::facts::{within_limit, Row};
use crate::question::Question;
use crate::records::{i32_at, u16_at};
use crate::{demand, Refusal};

/// A rule with its operands; facts and variables by number.
#[derive(Clone, Debug, PartialEq)]
pub enum Rule {
    Sum { divisor: i128, pairs: Vec<(usize, i128)> },
    Branch(Row),
    Apart(usize),
    AConf(usize),
    SConf,
    SProp { function: usize, x: usize, y: usize },
    LIntro(usize),
    LValid(usize),
    CCollapse(usize),
    CValid(usize),
    CInj(usize, usize),
    Card(Vec<usize>),
    Join(usize, usize),
}

/// "6 step: u16 rule, u16 child, operands."
pub struct Step {
    pub rule: Rule,
    pub child: usize,
}

/// "The length of each rule's operands follows a fixed table of step forms": fixed bytes, stride, least and greatest count.
pub fn form(rule: u16) -> Option<(usize, usize, usize, usize)> {
    match rule {
        1 => Some((4, 6, 1, 8)),
        2 => Some((4, 6, 0, 48)),
        3 | 4 => Some((2, 0, 0, 0)),
        5 => Some((0, 0, 0, 0)),
        6 => Some((6, 0, 0, 0)),
        7..=10 => Some((2, 0, 0, 0)),
        11 => Some((4, 0, 0, 0)),
        12 => Some((0, 2, 2, 16)),
        13 => Some((4, 0, 0, 0)),
        _ => None,
    }
}

/// Reads a step: "5 when the body length fits no form (for an unknown rule, only when under 4 bytes)", then 6.
pub fn read_step(question: &Question, claim: u16, body: &[u8]) -> Result<Step, Refusal> {
    demand(body.len() >= 4, 5)?;
    let number = u16_at(body, 0);
    let child = usize::from(u16_at(body, 2));
    let operands = &body[4..];
    let (fixed, stride, least, greatest) = form(number).ok_or(6u64)?;
    let fits = (least..=greatest).any(|count| operands.len() == fixed + stride * count);
    demand(fits, 5)?;
    let rule = read_rule(question, number, operands)?;
    demand(child_in_range(question, claim, &rule, child), 6)?;
    Ok(Step { rule, child })
}

/// "Under claim 1 the child field is 0"; "under claim 2 it is the child taken, from 1".
fn child_in_range(question: &Question, claim: u16, rule: &Rule, child: usize) -> bool {
    if claim == 1 {
        child == 0
    } else {
        (1..=conclusions(question, rule)).contains(&child)
    }
}

/// How many children may be named: "it is 1 for a rule with one conclusion or none".
pub fn conclusions(question: &Question, rule: &Rule) -> usize {
    match rule {
        Rule::Branch(_) | Rule::Apart(_) | Rule::LValid(_) | Rule::CValid(_) => 2,
        Rule::CInj(..) => 3,
        Rule::Card(variables) => {
            let pairs = variables.len() * (variables.len() - 1) / 2;
            pairs + usize::from(question.n > 1)
        }
        _ => 1,
    }
}

/// The operands of each rule, "u16 unless named", each in its range.
pub fn read_rule(question: &Question, number: u16, operands: &[u8]) -> Result<Rule, Refusal> {
    let fact = |place: usize| usize::from(u16_at(operands, 2 * place));
    let variable = |place: usize| {
        let number = usize::from(u16_at(operands, 2 * place));
        demand(number < question.p, 6).map(|()| number)
    };
    Ok(match number {
        1 => return read_sum(operands),
        2 => Rule::Branch(question.read_form(operands)?),
        3 => Rule::Apart(fact(0)),
        4 => Rule::AConf(fact(0)),
        5 => Rule::SConf,
        6 => {
            let function = usize::from(u16_at(operands, 0));
            demand(function <= 1, 6)?;
            Rule::SProp { function, x: variable(1)?, y: variable(2)? }
        }
        7 => Rule::LIntro(variable(0)?),
        8 => Rule::LValid(variable(0)?),
        9 => Rule::CCollapse(variable(0)?),
        10 => Rule::CValid(variable(0)?),
        11 => Rule::CInj(variable(0)?, variable(1)?),
        12 => Rule::Card((0..operands.len() / 2).map(variable).collect::<Result<_, _>>()?),
        _ => Rule::Join(fact(0), fact(1)),
    })
}

/// "Sum: i32 divisor of at least 1, then 1 to 8 pairs (fact, i32 multiplier)."
fn read_sum(operands: &[u8]) -> Result<Rule, Refusal> {
    let divisor = i32_at(operands, 0);
    let pairs: Vec<(usize, i128)> =
        operands[4..].chunks(6).map(|pair| (usize::from(u16_at(pair, 0)), i32_at(pair, 2))).collect();
    let in_range = pairs.iter().all(|(_, multiplier)| within_limit(*multiplier));
    demand(divisor >= 1 && in_range, 6)?;
    Ok(Rule::Sum { divisor, pairs })
}
