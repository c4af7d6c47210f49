//! How long the body of each kind of record may be, and what stands in it.

use crate::words::count;
use nuldwich_reference::checking::Ticket;
use nuldwich_reference::records::u16_at;
use nuldwich_reference::steps;

/// The names of rules 1 to 13.
const RULES: [&str; 13] = [
    "Sum", "Branch", "Apart", "A-Conf", "S-Conf", "S-Prop", "L-Intro", "L-Valid", "C-Collapse", "C-Valid", "C-Inj",
    "Card", "Join",
];

/// The lengths that a body may have: fixed bytes, then `least` to `greatest` times a stride; and its parts in words.
pub struct Length {
    pub fixed: usize,
    pub stride: usize,
    pub least: usize,
    pub greatest: usize,
    pub parts: String,
}

/// The name of a kind of a ticket; nothing for an unknown one.
pub fn kind_name(kind: u16) -> Option<&'static str> {
    match kind {
        1 => Some("head"),
        2 => Some("literal"),
        3 => Some("string constraint"),
        4 => Some("arithmetic constraint"),
        5 => Some("claim"),
        6 => Some("step"),
        7 => Some("model"),
        8 => Some("end"),
        _ => None,
    }
}

/// The name of a rule; nothing for an unknown one.
pub fn rule_name(rule: u16) -> Option<&'static str> {
    RULES.get(usize::from(rule).checked_sub(1)?).copied()
}

/// A rule by number and name: `rule 5 (S-Conf)`.
pub fn rule_words(rule: u16) -> String {
    let name = rule_name(rule).map_or(String::new(), |name| format!(" ({name})"));
    format!("rule {rule}{name}")
}

/// The rule of a step whose body has one.
pub fn rule_of(body: &[u8]) -> String {
    rule_words(u16_at(body, 0))
}

/// The lengths that fit this kind, and for a step the rule that its first bytes name; nothing for an unknown kind or rule.
pub fn length_of(ticket: &Ticket, kind: u16, body: &[u8]) -> Option<Length> {
    let length = |(fixed, stride, least, greatest), parts: &str| {
        Some(Length { fixed, stride, least, greatest, parts: parts.to_string() })
    };
    match kind {
        1 => length((8, 0, 0, 0), "u32 n, u16 p, u16 q"),
        2 => length((0, 4, 1, 64), "1 to 64 code points, u32 each"),
        3 => length((6, 0, 0, 0), "u16 relation, u16 a, u16 b"),
        4 => length((6, 6, 0, 48), "u16 relation, i32 constant, 0 to 48 pairs of u16 column and i32 coefficient"),
        5 => length((2, 0, 0, 0), "u16 claim"),
        6 => length_of_step(body),
        7 => {
            let columns = ticket.question.columns();
            length((4 * columns, 0, 0, 0), &format!("an i32 for each of {}", count(columns, "column")))
        }
        8 => length((0, 0, 0, 0), "nothing"),
        _ => None,
    }
}

/// The lengths of a step by its rule; "u16 rule, u16 child" are due in any.
fn length_of_step(body: &[u8]) -> Option<Length> {
    if body.len() < 4 {
        let parts = "u16 rule, u16 child, operands".to_string();
        return Some(Length { fixed: 4, stride: 1, least: 0, greatest: 292, parts });
    }
    let rule = u16_at(body, 0);
    let (fixed, stride, least, greatest) = steps::form(rule)?;
    let operands = match rule {
        1 => ", i32 divisor, 1 to 8 pairs of u16 fact and i32 multiplier",
        2 => ", i32 constant, 0 to 48 pairs of u16 column and i32 coefficient",
        3 | 4 => ", u16 fact",
        5 => "",
        6 => ", u16 function, u16 x, u16 y",
        7..=10 => ", u16 x",
        11 => ", u16 x, u16 y",
        12 => ", 2 to 16 variables, u16 each",
        _ => ", u16 first fact, u16 second fact",
    };
    Some(Length { fixed: fixed + 4, stride, least, greatest, parts: format!("u16 rule, u16 child{operands}") })
}

impl Length {
    /// Whether a body of this many bytes fits.
    pub fn fits(&self, bytes: usize) -> bool {
        (self.least..=self.greatest).any(|times| bytes == self.fixed + self.stride * times)
    }

    /// The lengths in words: `8 bytes`, `14 to 56 bytes in strides of 6`.
    pub fn words(&self) -> String {
        let low = self.fixed + self.stride * self.least;
        let high = self.fixed + self.stride * self.greatest;
        match self.stride {
            _ if low == high => count(low, "byte"),
            1 => format!("{low} to {high} bytes"),
            stride => format!("{low} to {high} bytes in strides of {stride}"),
        }
    }
}
