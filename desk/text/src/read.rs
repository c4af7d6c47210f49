//! Texts as questions and tickets.

use crate::conditions::condition;
use crate::gather::Draft;
use crate::steps;
use crate::tokens::{Line, Word};
use crate::{Mistake, Written};

/// The words that begin a line of their own, and are no names.
const RESERVED: [&str; 5] = ["alphabet", "strings", "integers", "literal", "claim"];

/// The lines of a text by number, from 1, as characters.
pub(crate) fn lines(text: &str) -> impl Iterator<Item = (usize, Vec<char>)> + '_ {
    let text = text.strip_prefix('\u{feff}').unwrap_or(text);
    text.lines().enumerate().map(|(place, line)| (place + 1, line.chars().collect()))
}

/// Reads a question or a whole ticket.
pub fn read(text: &str) -> Result<Written, Mistake> {
    let mut lines = lines(text);
    let mut draft = Draft::default();
    while let Some((number, characters)) = lines.next() {
        let mut line = Line::of(number, &characters, 0)?;
        let place = line.place();
        if line.word("claim") {
            let mut written = draft.finish()?;
            if !written.question.extended.is_empty() {
                return Err(place.mistake("a ticket has no conditions on case, digits or order"));
            }
            written.claim = Some(steps::claim(&written, line, lines)?);
            return Ok(written);
        }
        statement(&mut draft, &mut line)?;
    }
    draft.finish()
}

/// A declaration or a condition.
fn statement(draft: &mut Draft, line: &mut Line) -> Result<(), Mistake> {
    if line.is_done() {
        return Ok(());
    }
    if line.word("alphabet") {
        let place = line.place();
        let n = line.integer()?;
        draft.set_alphabet(place, n)?;
        return line.done();
    }
    if line.word("literal") {
        return literal(draft, line);
    }
    if line.word("strings") {
        return names(draft, line, true);
    }
    if line.word("integers") {
        return names(draft, line, false);
    }
    condition(draft, line)
}

/// `literal "AB"`
fn literal(draft: &mut Draft, line: &mut Line) -> Result<(), Mistake> {
    let place = line.place();
    match line.take() {
        Some(Word::Text(text)) => draft.declare_literal(place, &text)?,
        _ => return Err(place.mistake("a text is due here")),
    }
    line.done()
}

/// `strings donor ward`
fn names(draft: &mut Draft, line: &mut Line, are_strings: bool) -> Result<(), Mistake> {
    if line.is_done() {
        return Err(line.mistake("a name is due here"));
    }
    while !line.is_done() {
        let place = line.place();
        match line.take() {
            Some(Word::Name(name)) if RESERVED.contains(&name.as_str()) => {
                return Err(place.mistake(format!("{name} cannot be a name")));
            }
            Some(Word::Name(name)) => draft.declare(place, &name, are_strings)?,
            Some(Word::Sign(",")) => return Err(place.mistake("names are separated by spaces")),
            _ => return Err(place.mistake("a name is due here: letters, digits, _ and .")),
        }
    }
    Ok(())
}
