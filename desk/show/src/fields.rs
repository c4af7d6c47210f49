//! The fields of a record by name, each with its value and the range that is allowed for it.

use crate::layout::{length_of, rule_name, rule_words};
use crate::words::{column, count, number, variable};
use nuldwich_reference::checking::Ticket;
use nuldwich_reference::leaf::VALUE_LIMIT;
use nuldwich_reference::question::Question;
use nuldwich_reference::records::{i32_at, u16_at, u32_at};
use nuldwich_reference::steps::{conclusions, read_rule};

/// "Coefficients, constants and multipliers lie within ±1,000,000,000, ends included."
const NUMBER_LIMIT: i128 = 1_000_000_000;

/// The bytes of a record before its body: length and kind.
pub const HEADER: usize = 6;

/// The values that a field may have, and why.
#[derive(Clone)]
pub struct Allowed {
    low: i128,
    high: i128,
    not_zero: bool,
    why: String,
}

/// One field of a record's body.
pub struct Field {
    pub name: String,
    /// The pair that it belongs to, from 1.
    pub pair: Option<usize>,
    /// `u16`, `u32` or `i32`, and its first byte in the body.
    pub form: &'static str,
    pub at: usize,
    pub value: i128,
    /// What the value stands for, where that is not plain.
    pub meaning: Option<String>,
    pub allowed: Allowed,
}

impl Allowed {
    fn range(low: i128, high: i128, why: &str) -> Allowed {
        Allowed { low, high, not_zero: false, why: why.to_string() }
    }

    /// Any value of the field's form: for fact numbers, which are looked at with the rule.
    fn any() -> Allowed {
        Allowed::range(i128::MIN, i128::MAX, "")
    }

    /// A constant or a multiplier.
    fn limited() -> Allowed {
        Allowed::range(-NUMBER_LIMIT, NUMBER_LIMIT, "")
    }

    /// A number below a count.
    fn below(count: usize, why: &str) -> Allowed {
        Allowed::range(0, count as i128 - 1, why)
    }

    pub fn holds(&self, value: i128) -> bool {
        (self.low..=self.high).contains(&value) && !(self.not_zero && value == 0)
    }

    /// The range in words.
    pub fn words(&self) -> String {
        let range = match self.low {
            i128::MIN => "any number".to_string(),
            low if low > self.high => "no value".to_string(),
            low if low == self.high => format!("{} alone", number(low)),
            low => format!("{} to {}", number(low), number(self.high)),
        };
        let but = if self.not_zero { " except 0" } else { "" };
        let why = if self.why.is_empty() { String::new() } else { format!(" ({})", self.why) };
        format!("{range}{but}{why}")
    }
}

impl Field {
    pub fn in_range(&self) -> bool {
        self.allowed.holds(self.value)
    }

    /// `column = 3`, with what the number stands for where that is known.
    pub fn words(&self) -> String {
        let meaning = self.meaning.as_ref().map_or(String::new(), |words| format!(" ({words})"));
        format!("{} = {}{meaning}", self.name, number(self.value))
    }
}

/// The fields of a record whose length fits its form; nothing for any other.
pub fn fields_of(ticket: &Ticket, kind: u16, body: &[u8]) -> Option<Vec<Field>> {
    if kind == 6 && body.len() >= 4 && rule_name(u16_at(body, 0)).is_none() {
        return Some(unknown_rule(body));
    }
    if !length_of(ticket, kind, body)?.fits(body.len()) {
        return None;
    }
    let mut reader = Reader { question: &ticket.question, body, at: 0, pair: None, fields: Vec::new() };
    match kind {
        1 => reader.head(),
        2 => reader.literal(),
        3 => reader.string_constraint(),
        4 => reader.arithmetic_constraint(),
        5 => reader.claim(),
        6 => reader.step(ticket.claim),
        7 => reader.model(),
        _ => {}
    }
    Some(reader.fields)
}

/// A step of an unknown rule: what stands behind its child has no form.
fn unknown_rule(body: &[u8]) -> Vec<Field> {
    let mut reader = Reader { question: &Question::default(), body, at: 0, pair: None, fields: Vec::new() };
    reader.rule();
    reader.unlimited("child");
    reader.fields
}

/// Reads fields one after another.
struct Reader<'a> {
    question: &'a Question,
    body: &'a [u8],
    at: usize,
    pair: Option<usize>,
    fields: Vec<Field>,
}

/// A value that is plain without words.
fn no_meaning(_: i128) -> Option<String> {
    None
}

impl Reader<'_> {
    /// Takes a field and says its value; `meaning` is asked only where the value is in its range.
    fn take(
        &mut self,
        name: &str,
        form: &'static str,
        allowed: Allowed,
        meaning: impl Fn(i128) -> Option<String>,
    ) -> i128 {
        let (value, size) = match form {
            "u16" => (i128::from(u16_at(self.body, self.at)), 2),
            "u32" => (i128::from(u32_at(self.body, self.at)), 4),
            _ => (i32_at(self.body, self.at), 4),
        };
        let meaning = if allowed.holds(value) { meaning(value) } else { None };
        let name = name.to_string();
        self.fields.push(Field { name, pair: self.pair, form, at: self.at, value, meaning, allowed });
        self.at += size;
        value
    }

    fn u16(&mut self, name: &str, allowed: Allowed, meaning: impl Fn(i128) -> Option<String>) -> i128 {
        self.take(name, "u16", allowed, meaning)
    }

    /// "u32 n (1 to 196,608), u16 p string variables, u16 q integer variables (each 0 to 16)"
    fn head(&mut self) {
        self.take("n", "u32", Allowed::range(1, 196_608, "characters of the alphabet"), no_meaning);
        self.u16("p", Allowed::range(0, 16, "string variables"), no_meaning);
        self.u16("q", Allowed::range(0, 16, "integer variables"), no_meaning);
    }

    /// "1 to 64 characters, u32 each, below n"
    fn literal(&mut self) {
        let allowed = Allowed::below(self.question.n as usize, "code points are below n");
        for place in 1..=self.body.len() / 4 {
            self.take(&format!("code point of character {place}"), "u32", allowed.clone(), no_meaning);
        }
    }

    /// "u16 relation, u16 a, u16 b"
    fn string_constraint(&mut self) {
        let names = ["a ≈ b", "a ≉ b", "a ≈ literal b"];
        let allowed = Allowed::range(0, 2, "0 is a ≈ b, 1 is a ≉ b, 2 is a ≈ literal b");
        let relation = self.u16("relation", allowed, |value| Some(names[value as usize].to_string()));
        self.variable("a");
        match relation {
            0 | 1 => self.variable("b"),
            2 => self.literal_number("b"),
            _ => self.unlimited("b"),
        }
    }

    /// A string variable, below p.
    fn variable(&mut self, name: &str) {
        let p = self.question.p;
        let why = if p == 0 { "the ticket has no string variables" } else { "the ticket's string variables" };
        self.u16(name, Allowed::below(p, why), |value| Some(variable(value as usize)));
    }

    /// A literal's number: "They number from 1; literal 0 is the empty string and is never written."
    fn literal_number(&mut self, name: &str) {
        let allowed = Allowed::below(self.question.literals.len(), "literal 0 and those written in the ticket");
        self.u16(name, allowed, |value| Some(format!("literal {value}")));
    }

    /// A field without a range of its own, as a fact's number.
    fn unlimited(&mut self, name: &str) {
        self.u16(name, Allowed::any(), no_meaning);
    }

    /// "u16 relation (0 is ≥ 0, 1 is = 0, 2 is ≠ 0)", then a form.
    fn arithmetic_constraint(&mut self) {
        let names = ["≥ 0", "= 0", "≠ 0"];
        let allowed = Allowed::range(0, 2, "0 is ≥ 0, 1 is = 0, 2 is ≠ 0");
        self.u16("relation", allowed, |value| Some(names[value as usize].to_string()));
        self.form();
    }

    /// "i32 constant, then 0 to 48 pairs of u16 column and nonzero i32 coefficient, columns rising strictly"
    fn form(&mut self) {
        let columns = self.question.columns();
        let coefficient = Allowed { not_zero: true, ..Allowed::limited() };
        self.take("constant", "i32", Allowed::limited(), no_meaning);
        let mut lowest = 0;
        for pair in 1..=(self.body.len() - self.at) / 6 {
            self.pair = Some(pair);
            let why = match lowest {
                0 => format!("the ticket has {}", count(columns, "column")),
                _ => format!("columns rise strictly: behind {}, up to the last, {}", lowest - 1, columns as i128 - 1),
            };
            let question = self.question;
            let allowed = Allowed::range(lowest, columns as i128 - 1, &why);
            lowest = 1 + self.u16("column", allowed, |value| Some(column(question, value as usize)));
            self.take("coefficient", "i32", coefficient.clone(), no_meaning);
        }
        self.pair = None;
    }

    /// "u16, 1 for no solution, 2 for strings"
    fn claim(&mut self) {
        let names = ["no solution", "strings"];
        let allowed = Allowed::range(1, 2, "1 is no solution, 2 is strings");
        self.u16("claim", allowed, |value| Some(names[value as usize - 1].to_string()));
    }

    /// "u16 rule, u16 child, operands"
    fn step(&mut self, claim: u16) {
        let rule = self.rule();
        self.child(claim, rule);
        match rule {
            1 => self.sum(),
            2 => self.form(),
            3 | 4 => self.unlimited("fact"),
            6 => self.propagation(),
            7..=10 => self.variable("x"),
            11 => {
                self.variable("x");
                self.variable("y");
            }
            12 => (1..=(self.body.len() - 4) / 2).for_each(|place| self.variable(&format!("variable {place}"))),
            13 => {
                self.unlimited("first fact");
                self.unlimited("second fact");
            }
            _ => {}
        }
    }

    fn rule(&mut self) -> u16 {
        let meaning = |value| rule_name(value as u16).map(str::to_string);
        self.u16("rule", Allowed::range(1, 13, "the rules"), meaning) as u16
    }

    /// "Under claim 1 the child field is 0"; "under claim 2 it is the child taken, from 1".
    fn child(&mut self, claim: u16, rule: u16) {
        let name = rule_words(rule);
        let allowed = match read_rule(self.question, rule, &self.body[4..]) {
            _ if claim == 1 => Allowed::range(0, 0, "under claim 1 the child field is 0"),
            Err(_) => Allowed::any(),
            Ok(read) => match conclusions(self.question, &read) {
                1 => Allowed::range(1, 1, &format!("under claim 2, as {name} has no second child")),
                last => Allowed::range(1, last as i128, &format!("under claim 2, the children of {name}")),
            },
        };
        self.u16("child", allowed, no_meaning);
    }

    /// "i32 divisor of at least 1, then 1 to 8 pairs (fact, i32 multiplier)"
    fn sum(&mut self) {
        self.take("divisor", "i32", Allowed::range(1, i128::from(i32::MAX), "a divisor is at least 1"), no_meaning);
        for pair in 1..=(self.body.len() - self.at) / 6 {
            self.pair = Some(pair);
            self.unlimited("fact");
            self.take("multiplier", "i32", Allowed::limited(), no_meaning);
        }
    }

    /// "function (0 len, 1 code), different variables x, y"
    fn propagation(&mut self) {
        let names = ["len", "code"];
        self.u16("function", Allowed::range(0, 1, "0 is len, 1 is code"), |value| {
            Some(names[value as usize].to_string())
        });
        self.variable("x");
        self.variable("y");
    }

    /// "an i32 for each column, within ±100,000,000"
    fn model(&mut self) {
        for place in 0..self.question.columns() {
            self.take(&column(self.question, place), "i32", Allowed::range(-VALUE_LIMIT, VALUE_LIMIT, ""), no_meaning);
        }
    }
}
