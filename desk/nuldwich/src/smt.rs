//! `nuldwich smt`: a question as SMT-LIB.

use crate::arguments::{Arguments, Command, OUTPUT};
use crate::files;
use crate::output::{Status, Trouble};
use smt::Unfit;
use std::path::Path;
use text::{constraint_text, Written};
use ticket::Question;

pub const COMMAND: Command = Command {
    name: "smt",
    operands: "[-o FILE] QUESTION",
    summary: "write a question as SMT-LIB",
    details: "Writes a question, of text or of records, or that of a whole ticket, in SMT-LIB 2.6 for cvc5 and Z3. Names are kept where\n\
              SMT-LIB allows. It has no upper and lower case: a question with these is not written.\n",
    files: (1, 1),
    options: &[OUTPUT],
    run,
};

fn run(arguments: &Arguments) -> Result<Status, Trouble> {
    let path = &arguments.files[0];
    let asked = files::read_question(path)?;
    let Some(written) = &asked.written else {
        let fault = Question::from_bytes(&asked.bytes).err();
        return Err(files::cannot(path, fault.map_or("these are no records".to_string(), |fault| fault.to_string())));
    };
    let words = smt::write(written, &asked.lines).map_err(|unfit| refusal(path, written, &unfit))?;
    files::write(arguments.output(), words.as_bytes())?;
    Ok(Status::Good)
}

/// `rules.txt:6: x = upper(y): SMT-LIB has no function upper`; of records by number.
fn refusal(path: &Path, written: &Written, unfit: &Unfit) -> Trouble {
    let condition = constraint_text(&written.question, &written.names, unfit.constraint);
    let place = match written.lines.get(unfit.constraint) {
        Some(line) => line.to_string(),
        None => format!(" condition {}", unfit.constraint),
    };
    Trouble(format!("{}:{place}: {condition}: {unfit}", path.display()))
}
