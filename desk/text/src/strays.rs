//! Words that are written elsewhere and have no place in a condition, and what is written for them here.

use crate::tokens::{Line, Word};
use crate::Mistake;

const SEPARATED: &str = "numbers are whole and written without separators";
const TOGETHER: &str = "all lines are to be met together; ask once for each case";
const RANGE: &str = "and letters that follow each other are a range, as 'A' <= code(ward) <= 'B'";

/// What is to be done without a word; nothing for one that is not known here.
pub fn absent(word: &str) -> Option<String> {
    match word.to_lowercase().as_str() {
        "or" | "|" | "||" => Some(format!("there is no \"or\" here: {TOGETHER}, {RANGE}")),
        "in" => Some(format!("there is no \"in\" here: {TOGETHER}, {RANGE}")),
        "+" => Some("texts cannot be joined".to_string()),
        "[" | "contains" | "like" | "matches" | "starts" | "begins" | "ends" => {
            Some("a condition cannot speak of a part of a text".to_string())
        }
        "not" => Some("there is no \"not\" here: write !=".to_string()),
        name @ ("if" | "then" | "else") => {
            Some(format!("there is no \"{name}\" here: {TOGETHER}, with the lines that hold in it"))
        }
        _ => None,
    }
}

/// What is wrong with the next word, which does not fit.
pub fn misplaced(line: &Line, otherwise: &str) -> Mistake {
    let known = match line.next() {
        Some(Word::Name(name)) => absent(name),
        Some(Word::Sign(sign)) => absent(sign),
        _ => None,
    };
    known.map_or_else(|| behind_number(line, otherwise), |reason| line.mistake(reason))
}

/// The same where no condition is read, and a separator alone is known.
pub fn behind_number(line: &Line, otherwise: &str) -> Mistake {
    line.mistake(if line.is_separator() { SEPARATED } else { otherwise })
}
