//! Texts of an answer in words.

use solver::Shown;
use text::{quoted, Written};

/// `"AB"`, `the same as donor`, `12 characters, free`, or `12 characters, free, other than recipient`.
pub fn words(written: &Written, string: &[u32], shown: &Shown) -> String {
    let name = |x: &usize| written.names.strings[*x].clone();
    match shown {
        Shown::Text => quoted(string),
        Shown::Same(first) => format!("the same as {}", name(first)),
        Shown::Free { unlike } => {
            let plural = if string.len() == 1 { "" } else { "s" };
            let others: Vec<String> = unlike.iter().map(name).collect();
            let but = if others.is_empty() { String::new() } else { format!(", other than {}", others.join(", ")) };
            format!("{} character{plural}, free{but}", string.len())
        }
    }
}
