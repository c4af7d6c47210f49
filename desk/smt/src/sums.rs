//! Sums of whole multiples of columns.

use std::collections::BTreeMap;
use text::Names;

#[derive(Clone, Copy, Debug, PartialEq, Eq, PartialOrd, Ord)]
pub enum Column {
    Integer(usize),
    Len(usize),
    Code(usize),
}

/// A constant and multiples of columns. Every operation gives nothing where a number becomes too large.
#[derive(Clone, Debug, Default, PartialEq, Eq)]
pub struct Sum {
    constant: i64,
    terms: BTreeMap<Column, i64>,
}

impl Sum {
    pub fn constant(constant: i64) -> Sum {
        Sum { constant, ..Sum::default() }
    }

    pub fn column(column: Column) -> Sum {
        Sum { terms: [(column, 1)].into(), ..Sum::default() }
    }

    /// Adds a multiple of another sum.
    pub fn add(mut self, other: &Sum, factor: i64) -> Option<Sum> {
        self.constant = self.constant.checked_add(other.constant.checked_mul(factor)?)?;
        for (column, coefficient) in &other.terms {
            let here = self.terms.entry(*column).or_default();
            *here = here.checked_add(coefficient.checked_mul(factor)?)?;
        }
        self.terms.retain(|_, coefficient| *coefficient != 0);
        Some(self)
    }

    /// The value of a sum without columns.
    pub fn value(&self) -> Option<i64> {
        self.terms.is_empty().then_some(self.constant)
    }

    /// The integer variable that the sum consists of.
    pub fn integer(&self) -> Option<usize> {
        let mut terms = self.terms.iter();
        match (self.constant, terms.next(), terms.next()) {
            (0, Some((Column::Integer(i), 1)), None) => Some(*i),
            _ => None,
        }
    }

    /// `2*len(x) - k + 3`
    pub fn text(&self, names: &Names) -> String {
        let mut text = String::new();
        for (column, factor) in &self.terms {
            let times = if factor.unsigned_abs() == 1 { String::new() } else { format!("{}*", factor.unsigned_abs()) };
            add_term(&mut text, *factor < 0, &format!("{times}{}", column_text(*column, names)));
        }
        if self.constant != 0 || text.is_empty() {
            add_term(&mut text, self.constant < 0, &self.constant.unsigned_abs().to_string());
        }
        text
    }
}

fn column_text(column: Column, names: &Names) -> String {
    match column {
        Column::Integer(i) => names.integers[i].clone(),
        Column::Len(x) => format!("len({})", names.strings[x]),
        Column::Code(x) => format!("code({})", names.strings[x]),
    }
}

/// Puts a term behind others with its sign; the first has no `+`.
fn add_term(text: &mut String, negative: bool, term: &str) {
    *text += match (text.is_empty(), negative) {
        (true, false) => "",
        (true, true) => "-",
        (false, false) => " + ",
        (false, true) => " - ",
    };
    *text += term;
}
