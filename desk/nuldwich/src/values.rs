//! The values that a condition speaks of, for one that is not met.

use text::{column_text, quoted, Answer, Written};
use ticket::{Constraint, Extended};

/// Of what, and its value in words: `len(donor)` and `4`.
pub type Value = (String, String);

/// The values at a constraint by its number over kinds 3, 4 and 11. Those of helpers go without saying.
pub fn at(written: &Written, answer: &Answer, number: usize) -> Vec<Value> {
    let question = &written.question;
    let behind = number.checked_sub(question.constraints.len());
    let values = Values { written, answer };
    match (question.constraints.get(number), behind.and_then(|place| question.extended.get(place))) {
        (Some(Constraint::Same(x, y) | Constraint::NotSame(x, y)), _) => values.strings(&[*x, *y]),
        (Some(Constraint::IsLiteral(x, _)), _) if *x >= written.declared => vec![values.helper(*x)],
        (Some(Constraint::IsLiteral(x, _)), _) => values.strings(&[*x]),
        (Some(Constraint::Arithmetic(_, form)), _) => form.terms.iter().map(|term| values.column(term.0)).collect(),
        (None, Some(extended)) => values.extended(extended),
        (None, None) => Vec::new(),
    }
}

/// `len(donor) = 4, k = 3`
pub fn words(values: &[Value]) -> String {
    values.iter().map(|(of, value)| format!("{of} = {value}")).collect::<Vec<_>>().join(", ")
}

struct Values<'a> {
    written: &'a Written,
    answer: &'a Answer,
}

impl Values<'_> {
    fn text(&self, x: usize) -> &[u32] {
        self.answer.strings.get(x).map_or(&[], Vec::as_slice)
    }

    fn integer(&self, i: usize) -> i64 {
        self.answer.integers.get(i).copied().unwrap_or_default()
    }

    fn strings(&self, numbers: &[usize]) -> Vec<Value> {
        let declared = numbers.iter().filter(|x| **x < self.written.declared);
        declared.map(|x| (self.written.names.strings[*x].clone(), quoted(self.text(*x)))).collect()
    }

    /// One that an answer of records gives another text.
    fn helper(&self, x: usize) -> Value {
        (format!("the string for {}", self.written.names.strings[x]), quoted(self.text(x)))
    }

    fn column(&self, column: usize) -> Value {
        let question = &self.written.question;
        let value = match (column.checked_sub(question.q), column.checked_sub(question.q + question.p)) {
            (_, Some(x)) => code(self.text(x)),
            (Some(x), None) => self.text(x).len().to_string(),
            (None, None) => self.integer(column).to_string(),
        };
        (column_text(question, &self.written.names, column), value)
    }

    /// What the function comes to, and what it is compared with.
    fn extended(&self, constraint: &Extended) -> Vec<Value> {
        let names = &self.written.names;
        let of = |function: &str, name: &String, value: String| (format!("{function}({name})"), value);
        match constraint {
            Extended::Upper(x, y) => {
                let upper = quoted(&turned(self.text(*y), b'a', b'A'));
                [self.strings(&[*x]), vec![of("upper", &names.strings[*y], upper)]].concat()
            }
            Extended::Lower(x, y) => {
                let lower = quoted(&turned(self.text(*y), b'A', b'a'));
                [self.strings(&[*x]), vec![of("lower", &names.strings[*y], lower)]].concat()
            }
            Extended::Value(i, y) => {
                let number = of("number", &names.strings[*y], number(self.text(*y)));
                vec![self.column(*i), number]
            }
            Extended::Decimal(x, i) => {
                let decimal = if self.integer(*i) < 0 { String::new() } else { self.integer(*i).to_string() };
                [self.strings(&[*x]), vec![of("decimal", &names.integers[*i], format!("\"{decimal}\""))]].concat()
            }
            Extended::InOrder(x, y) => self.strings(&[*x, *y]),
        }
    }
}

/// The code point of a text of one character, with a letter or digit as itself; -1 of any other text.
fn code(text: &[u32]) -> String {
    match text {
        [character] => match char::from_u32(*character).filter(|shown| shown.is_alphanumeric()) {
            Some(shown) => format!("{character} ('{shown}')"),
            None => character.to_string(),
        },
        _ => "-1".to_string(),
    }
}

/// A text with 26 letters in the other case.
fn turned(text: &[u32], from: u8, to: u8) -> Vec<u32> {
    let letters = u32::from(from)..u32::from(from) + 26;
    let turn = |one: &u32| if letters.contains(one) { one - u32::from(from) + u32::from(to) } else { *one };
    text.iter().map(turn).collect()
}

/// A text read in decimal: its own digits, -1 where it is not numeric.
fn number(text: &[u32]) -> String {
    let digits: Option<String> = text.iter().map(|one| char::from_u32(*one).filter(char::is_ascii_digit)).collect();
    match digits {
        Some(digits) if !digits.is_empty() && (digits == "0" || !digits.starts_with('0')) => digits,
        _ => "-1".to_string(),
    }
}
