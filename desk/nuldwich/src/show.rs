//! `nuldwich show`: a ticket in words, record by record.

use crate::arguments::{Arguments, Command, JSON};
use crate::files;
use crate::names::{self, NAMES};
use crate::output::{print, Status, Trouble};

pub const COMMAND: Command = Command {
    name: "show",
    operands: "[--names QUESTION] [--json] TICKET",
    summary: "explain a ticket record by record",
    details:
        "Prints a ticket in words: fields by name, the facts that each step uses and adds, the branches, the model,\n\
              and what is wrong at a record refused. The last line is the proved checker's verdict.\n",
    files: (1, 1),
    options: &[NAMES, JSON],
    run,
};

fn run(arguments: &Arguments) -> Result<Status, Trouble> {
    let path = &arguments.files[0];
    let ticket = files::read_ticket_alone(path)?;
    let question = names::question(arguments, &ticket)?;
    let verdict = show::verdict::verdict(&ticket);
    let words = names::with(question.as_ref(), || {
        let account = show::account::account(&ticket);
        match arguments.has(JSON.name) {
            true => show::json::json(&account, &verdict),
            false => show::text::text(&account, &verdict),
        }
    });
    print(&words)?;
    Ok(if verdict.reply.number == 0 { Status::Good } else { Status::Bad })
}
