//! Questions as SMT-LIB.

use crate::symbols::{literal, number, symbol};
use std::fmt;
use text::Written;
use ticket::{Constraint, Extended, Form, Relation, MOST_CHARACTERS};

/// A constraint that SMT-LIB has no function for.
#[derive(Clone, Debug, PartialEq, Eq)]
pub struct Unfit {
    /// Its number over kinds 3, 4 and 11.
    pub constraint: usize,
    pub function: &'static str,
}

impl fmt::Display for Unfit {
    fn fmt(&self, to: &mut fmt::Formatter) -> fmt::Result {
        write!(to, "SMT-LIB has no function {}", self.function)
    }
}

/// A question in the making. Helpers are not declared: their texts stand in their place.
struct Writer<'a> {
    written: &'a Written,
    /// Strings by their symbols, helpers by their texts.
    strings: Vec<String>,
    integers: Vec<String>,
}

/// Writes a question for cvc5 and Z3, with the lines of its text as remarks.
pub fn write(written: &Written, source: &[String]) -> Result<String, Unfit> {
    let writer = Writer::of(written);
    let mut lines = vec!["(set-info :smt-lib-version 2.6)".to_string(), "(set-logic QF_SLIA)".to_string()];
    lines.extend(writer.declarations());
    let mut last = None;
    for constraint in writer.order() {
        let line = written.lines.get(constraint).and_then(|line| line.checked_sub(1));
        if let Some(words) = line.filter(|line| last != Some(*line)).and_then(|line| source.get(line)) {
            lines.push(remark(words));
        }
        last = line;
        lines.extend(writer.assertion(constraint)?.map(|term| format!("(assert {term})")));
    }
    lines.push("(check-sat)".to_string());
    Ok(lines.join("\n") + "\n")
}

/// A line as a remark. Control characters might end it.
fn remark(words: &str) -> String {
    let plain = |one: char| if one.is_control() { ' ' } else { one };
    format!("; {}", words.trim().chars().map(plain).collect::<String>())
}

impl Writer<'_> {
    fn of(written: &Written) -> Writer<'_> {
        let declared = written.names.strings.iter().take(written.declared);
        let mut strings: Vec<String> = declared.map(|name| symbol(name)).collect();
        strings.resize(written.question.p, literal(&[]));
        for (x, text) in written.helpers() {
            strings[x] = literal(&text);
        }
        Writer { written, strings, integers: written.names.integers.iter().map(|name| symbol(name)).collect() }
    }

    /// The variables, and of each string that its characters are below n. Without strings the alphabet is a remark for who reads it back.
    fn declarations(&self) -> Vec<String> {
        let n = self.written.question.n;
        let range = format!("(re.* (re.range {} {}))", literal(&[0]), literal(&[n - 1]));
        let mut lines = Vec::new();
        for string in self.strings.iter().take(self.written.declared) {
            lines.push(format!("(declare-const {string} String)"));
            if n < MOST_CHARACTERS {
                lines.push(format!("(assert (str.in_re {string} {range}))"));
            }
        }
        if lines.is_empty() && n < MOST_CHARACTERS {
            lines.push(format!("(set-info {} {n})", crate::read::ALPHABET));
        }
        lines.extend(self.integers.iter().map(|integer| format!("(declare-const {integer} Int)")));
        lines
    }

    /// The constraints by their lines; on one line by their helpers, so that these are asked for in their order.
    fn order(&self) -> Vec<usize> {
        let question = &self.written.question;
        let mut numbers: Vec<usize> = (0..question.constraints.len() + question.extended.len()).collect();
        numbers.sort_by_key(|number| (self.written.lines.get(*number).copied(), self.helper_in(*number), *number));
        numbers
    }

    /// The greatest variable of a constraint on two strings, where that is a helper.
    fn helper_in(&self, number: usize) -> Option<usize> {
        let question = &self.written.question;
        let behind = number.checked_sub(question.constraints.len()).and_then(|place| question.extended.get(place));
        let (x, y) = match (question.constraints.get(number), behind) {
            (Some(Constraint::NotSame(x, y)), _) | (_, Some(Extended::InOrder(x, y))) => (*x, *y),
            (Some(Constraint::IsLiteral(x, _)), _) => (*x, *x),
            _ => return None,
        };
        Some(x.max(y)).filter(|x| *x >= self.written.declared)
    }

    /// What is asserted for a constraint: nothing for the text of a helper.
    fn assertion(&self, number: usize) -> Result<Option<String>, Unfit> {
        let question = &self.written.question;
        let behind = number.checked_sub(question.constraints.len());
        match (question.constraints.get(number), behind.and_then(|place| question.extended.get(place))) {
            (Some(Constraint::IsLiteral(x, _)), _) if *x >= self.written.declared => Ok(None),
            (Some(constraint), _) => Ok(Some(self.constraint(constraint))),
            (_, Some(constraint)) => {
                self.extended(constraint).map(Some).map_err(|function| Unfit { constraint: number, function })
            }
            _ => Ok(None),
        }
    }

    fn constraint(&self, constraint: &Constraint) -> String {
        let string = |x: &usize| &self.strings[*x];
        match constraint {
            Constraint::Same(x, y) => format!("(= {} {})", string(x), string(y)),
            Constraint::NotSame(x, y) => format!("(not (= {} {}))", string(x), string(y)),
            Constraint::IsLiteral(x, text) => {
                format!("(= {} {})", string(x), literal(self.written.question.literal(*text).unwrap_or_default()))
            }
            Constraint::Arithmetic(relation, form) => self.arithmetic(*relation, form),
        }
    }

    /// Both sides without negative multiples, the side without columns on the right.
    fn arithmetic(&self, relation: Relation, form: &Form) -> String {
        let (above, below): (Vec<_>, Vec<_>) = form.terms.iter().partition(|(_, factor)| *factor > 0);
        let left: Vec<String> = above.iter().map(|(column, factor)| self.term(*column, *factor)).collect();
        let right: Vec<String> = below.iter().map(|(column, factor)| self.term(*column, -factor)).collect();
        let is_left = left.is_empty() || (form.constant > 0 && !right.is_empty());
        let (more, less) = if is_left { (form.constant, 0) } else { (0, -form.constant) };
        let (turned, left, right) = (left.is_empty(), sum(left, more), sum(right, less));
        match (relation, turned) {
            (Relation::Ge, false) => format!("(>= {left} {right})"),
            (Relation::Ge, true) => format!("(<= {right} {left})"),
            (Relation::Eq, false) => format!("(= {left} {right})"),
            (Relation::Eq, true) => format!("(= {right} {left})"),
            (Relation::Ne, false) => format!("(not (= {left} {right}))"),
            (Relation::Ne, true) => format!("(not (= {right} {left}))"),
        }
    }

    fn term(&self, column: usize, factor: i64) -> String {
        let question = &self.written.question;
        let column = match column {
            i if i < question.q => self.integers[i].clone(),
            x if x < question.code_column(0) => format!("(str.len {})", self.strings[x - question.len_column(0)]),
            x => format!("(str.to_code {})", self.strings[x - question.code_column(0)]),
        };
        match factor {
            1 => column,
            factor => format!("(* {} {column})", number(factor)),
        }
    }

    /// Kind 11: the name of a function that SMT-LIB has not where there is none.
    fn extended(&self, constraint: &Extended) -> Result<String, &'static str> {
        let string = |x: &usize| &self.strings[*x];
        match constraint {
            Extended::Upper(..) => Err("upper"),
            Extended::Lower(..) => Err("lower"),
            Extended::Value(i, x) => Ok(format!("(= {} {})", self.integers[*i], reading(string(x)))),
            Extended::Decimal(x, i) => Ok(format!("(= {} (str.from_int {}))", string(x), self.integers[*i])),
            Extended::InOrder(x, y) => Ok(format!("(str.<= {} {})", string(x), string(y))),
        }
    }
}

/// Terms and a constant.
fn sum(mut terms: Vec<String>, constant: i64) -> String {
    if constant != 0 || terms.is_empty() {
        terms.push(number(constant));
    }
    match &terms[..] {
        [only] => only.clone(),
        several => format!("(+ {})", several.join(" ")),
    }
}

/// The number that a string is read as: `str.to_int` takes leading zeros, which a numeral has not.
fn reading(string: &str) -> String {
    format!("(ite (= {string} (str.from_int (str.to_int {string}))) (str.to_int {string}) (- 1))")
}
