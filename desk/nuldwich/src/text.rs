//! `nuldwich text`: records as text.

use crate::arguments::{Arguments, Command, OUTPUT};
use crate::files::{self, Input};
use crate::names::{self, NAMES};
use crate::output::{Status, Trouble};
use text::{question_text, ticket_text, Names, Written};
use ticket::{Fault, Question, Ticket};

pub const COMMAND: Command = Command {
    name: "text",
    operands: "[-o FILE] [--names QUESTION] TICKET",
    summary: "write a ticket or a question of records as text",
    details:
        "Reads a ticket of proper form, or a question closed by an end record, and writes its text form, of which\n\
              nuldwich bytes makes the same bytes again.\n",
    files: (1, 1),
    options: &[OUTPUT, NAMES],
    run,
};

fn run(arguments: &Arguments) -> Result<Status, Trouble> {
    let path = &arguments.files[0];
    let Input::Records(bytes) = files::read(path)? else {
        return Err(files::cannot(path, "these are no records"));
    };
    let question = names::question(arguments, &bytes)?;
    let words = words(&bytes, question.as_ref().map(names::declared)).map_err(|fault| files::cannot(path, fault))?;
    files::write(arguments.output(), words.as_bytes())?;
    Ok(Status::Good)
}

/// The text of a whole ticket or of a question.
fn words(bytes: &[u8], names: Option<Names>) -> Result<String, Fault> {
    let named = |question: &Question| names.clone().unwrap_or_else(|| Names::plain(question));
    match (Ticket::from_bytes(bytes), Question::from_bytes(bytes).map(Written::plain)) {
        (Ok(ticket), _) => Ok(ticket_text(&ticket, &named(&ticket.question))),
        (Err(_), Ok(written)) if written.to_bytes() == bytes => {
            Ok(question_text(&written.question, &named(&written.question)))
        }
        (Err(fault), _) => Err(fault),
    }
}
