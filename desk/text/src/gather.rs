//! What the lines of a question come to. Kinds stand in their order, whatever the order of the lines.

use crate::sides::Sum;
use crate::tokens::Place;
use crate::write::quoted;
use crate::{Mistake, Names, Written};
use ticket::{Constraint, Extended, Question, Relation};
use ticket::{LONGEST_STRING, MOST_CHARACTERS, MOST_LITERALS, MOST_VARIABLES};

/// From here on a variable's number is that of a helper, until it is known how many strings are declared.
const HELPERS: usize = MOST_VARIABLES;

/// A question while its lines are read.
#[derive(Default)]
pub struct Draft {
    n: Option<u32>,
    pub names: Names,
    literals: Vec<Vec<u32>>,
    /// With the line of each: on the writer's strings, and behind these what helpers bring.
    strings: Vec<(usize, Constraint)>,
    on_helpers: Vec<(usize, Constraint)>,
    arithmetic: Vec<(Place, Relation, Sum)>,
    extended: Vec<(usize, Extended)>,
    /// Where each helper was asked for, and its literal.
    helpers: Vec<(Place, usize)>,
}

impl Draft {
    pub fn n(&self) -> u32 {
        self.n.unwrap_or(MOST_CHARACTERS)
    }

    /// Sets the alphabet, once and before any text.
    pub fn set_alphabet(&mut self, place: Place, n: i64) -> Result<(), Mistake> {
        if self.n.is_some() || !self.literals.is_empty() {
            return Err(place.mistake("the alphabet is said once, before any text"));
        }
        let n = u32::try_from(n).ok().filter(|n| (1..=MOST_CHARACTERS).contains(n));
        self.n = Some(n.ok_or_else(|| place.mistake(format!("the alphabet has 1 to {MOST_CHARACTERS} characters")))?);
        Ok(())
    }

    /// Declares a string or an integer.
    pub fn declare(&mut self, place: Place, name: &str, is_string: bool) -> Result<(), Mistake> {
        let Names { strings, integers } = &mut self.names;
        if strings.iter().chain(integers.iter()).any(|known| known == name) {
            return Err(place.mistake(format!("{name} is declared twice")));
        }
        let (names, what) = if is_string { (strings, "strings") } else { (integers, "integers") };
        if names.len() == MOST_VARIABLES {
            return Err(place.mistake(format!("there are at most {MOST_VARIABLES} {what}")));
        }
        names.push(name.to_string());
        Ok(())
    }

    /// Declares a literal; none is declared twice.
    pub fn declare_literal(&mut self, place: Place, text: &[u32]) -> Result<(), Mistake> {
        if text.is_empty() || self.literals.iter().any(|known| known == text) {
            return Err(place.mistake("a literal is declared once, and the empty one not at all"));
        }
        self.literal(place, text).map(|_| ())
    }

    /// The number of a text among the literals, which it joins.
    pub fn literal(&mut self, place: Place, text: &[u32]) -> Result<usize, Mistake> {
        if text.is_empty() {
            return Ok(0);
        }
        if let Some(known) = self.literals.iter().position(|known| known == text) {
            return Ok(known + 1);
        }
        if let Some(character) = text.iter().find(|character| **character >= self.n()) {
            return Err(place.mistake(format!("the character {character} is not below the alphabet's {}", self.n())));
        }
        if text.len() > LONGEST_STRING {
            return Err(place.mistake(format!("a text has at most {LONGEST_STRING} characters")));
        }
        if self.literals.len() == MOST_LITERALS {
            return Err(place.mistake(format!("there are at most {MOST_LITERALS} different texts")));
        }
        self.literals.push(text.to_vec());
        Ok(self.literals.len())
    }

    /// A variable that equals a literal, for conditions that compare with a text other than by =.
    fn helper(&mut self, place: Place, literal: usize) -> usize {
        if let Some(known) = self.helpers.iter().position(|(_, held)| *held == literal) {
            return HELPERS + known;
        }
        let helper = HELPERS + self.helpers.len();
        self.helpers.push((place, literal));
        self.on_helpers.push((place.line, Constraint::IsLiteral(helper, literal)));
        helper
    }

    pub fn add(&mut self, place: Place, constraint: Constraint) {
        self.strings.push((place.line, constraint));
    }

    pub fn add_arithmetic(&mut self, place: Place, relation: Relation, sum: Sum) {
        self.arithmetic.push((place, relation, sum));
    }

    pub fn add_extended(&mut self, place: Place, constraint: Extended) {
        self.extended.push((place.line, constraint));
    }

    /// A string is another one than a literal.
    pub fn add_unlike(&mut self, place: Place, x: usize, literal: usize) {
        let helper = self.helper(place, literal);
        self.on_helpers.push((place.line, Constraint::NotSame(x, helper)));
    }

    /// A string is equal to a literal or before it, or the other way round.
    pub fn add_in_order(&mut self, place: Place, x: usize, literal: usize, x_first: bool) {
        let helper = self.helper(place, literal);
        let (first, second) = if x_first { (x, helper) } else { (helper, x) };
        self.add_extended(place, Extended::InOrder(first, second));
    }

    /// The question, with the line of each constraint.
    pub fn finish(mut self) -> Result<Written, Mistake> {
        let declared = self.names.strings.len();
        let variables = self.place_helpers()?;
        let at = |x: usize| if x < HELPERS { x } else { variables[x - HELPERS] };
        let (n, p, q) = (self.n(), self.names.strings.len(), self.names.integers.len());
        let mut question = Question { n, p, q, literals: self.literals, constraints: vec![], extended: vec![] };
        let mut lines = Vec::new();
        for (line, constraint) in self.strings.into_iter().chain(self.on_helpers) {
            // Where a string of the writer's own stands for a helper, it has its text already.
            if !matches!(constraint, Constraint::IsLiteral(x, _) if x >= HELPERS && at(x) < declared) {
                lines.push(line);
                question.constraints.push(renumbered(constraint, at));
            }
        }
        for (place, relation, sum) in self.arithmetic {
            lines.push(place.line);
            let form = sum.form(&question, place)?;
            question.constraints.push(Constraint::Arithmetic(relation, form));
        }
        for (line, constraint) in self.extended {
            lines.push(line);
            question.extended.push(in_order(constraint, at));
        }
        Ok(Written { question, names: self.names, declared, lines, claim: None })
    }

    /// The variable of each helper: one of its own or, where there is no room for all, a string that equals its text.
    fn place_helpers(&mut self) -> Result<Vec<usize>, Mistake> {
        let spare = self.names.strings.len() + self.helpers.len() <= MOST_VARIABLES;
        let mut variables = Vec::new();
        for (place, literal) in &self.helpers {
            let equal = self.strings.iter().find_map(|(_, constraint)| match constraint {
                Constraint::IsLiteral(x, held) if held == literal && !spare => Some(*x),
                _ => None,
            });
            if equal.is_none() && self.names.strings.len() == MOST_VARIABLES {
                let why = "this takes a string of its own for the text";
                return Err(place.mistake(format!("{why}, and there are {MOST_VARIABLES} already")));
            }
            variables.push(equal.unwrap_or(self.names.strings.len()));
            if equal.is_none() {
                let text = literal.checked_sub(1).map_or(&[][..], |at| &self.literals[at]);
                self.names.strings.push(quoted(text));
            }
        }
        Ok(variables)
    }
}

fn renumbered(constraint: Constraint, at: impl Fn(usize) -> usize) -> Constraint {
    match constraint {
        Constraint::NotSame(x, y) => Constraint::NotSame(at(x), at(y)),
        Constraint::IsLiteral(x, literal) => Constraint::IsLiteral(at(x), literal),
        other => other,
    }
}

fn in_order(constraint: Extended, at: impl Fn(usize) -> usize) -> Extended {
    match constraint {
        Extended::InOrder(x, y) => Extended::InOrder(at(x), at(y)),
        other => other,
    }
}
