//! The names of a question's writer in what is said of a ticket.

use crate::arguments::{Arguments, Choice};
use crate::files::{self, cannot, Asked};
use crate::output::Trouble;
use std::path::Path;
use text::{Names, Written};

pub const NAMES: Choice =
    Choice { name: "--names", value: "QUESTION", about: "name variables as this text of the ticket's question does" };

/// The question named, which the library must find the same as the ticket's; none where the option is not given.
pub fn asked(arguments: &Arguments, ticket: &[u8]) -> Result<Option<Asked>, Trouble> {
    let Some(path) = arguments.value(NAMES.name).map(Path::new) else { return Ok(None) };
    let asked = files::read_question(path)?;
    match (library::same(&asked.bytes, ticket), &asked.written) {
        (Ok(true), Some(_)) => Ok(Some(asked)),
        _ => Err(cannot(path, "this is not the question of the ticket")),
    }
}

/// The same without its lines.
pub fn question(arguments: &Arguments, ticket: &[u8]) -> Result<Option<Written>, Trouble> {
    Ok(asked(arguments, ticket)?.and_then(|asked| asked.written))
}

/// Gives an account of a ticket with the names of the question.
pub fn with<T>(question: Option<&Written>, account: impl FnOnce() -> T) -> T {
    match question {
        Some(written) => show::words::with_names(&written.names.strings, &written.names.integers, account),
        None => account(),
    }
}

/// Names that can be read again: helpers, which have none of their own, become `text_1`, `text_2` and on.
pub fn declared(written: &Written) -> Names {
    let mut names = written.names.clone();
    let mut number = 0;
    for helper in written.declared..names.strings.len() {
        let free = |name: &String| !names.strings.contains(name) && !names.integers.contains(name);
        let found = (number + 1..).find(|number| free(&format!("text_{number}")));
        number = found.unwrap_or_default();
        names.strings[helper] = format!("text_{number}");
    }
    names
}
