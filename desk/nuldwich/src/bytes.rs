//! `nuldwich bytes`: a text as records.

use crate::arguments::{Arguments, Command, OUTPUT};
use crate::files::{self, Input};
use crate::output::{Status, Trouble};
use std::io::{stdout, IsTerminal};

pub const COMMAND: Command = Command {
    name: "bytes",
    operands: "[-o FILE] TEXT",
    summary: "write a question or a ticket in words as records",
    details: "Reads the text form of a question or of a whole ticket and writes its records; a question is closed by an end record.\n",
    files: (1, 1),
    options: &[OUTPUT],
    run,
};

fn run(arguments: &Arguments) -> Result<Status, Trouble> {
    let path = &arguments.files[0];
    let Input::Text(words) = files::read(path)? else {
        return Err(files::cannot(path, "these are records, not text"));
    };
    let written = text::read(&words).map_err(|mistake| files::at(path, &mistake))?;
    if arguments.output().is_none() && stdout().is_terminal() {
        return Err(Trouble("records are not for a terminal: name a file by -o FILE".to_string()));
    }
    files::write(arguments.output(), &written.to_bytes())?;
    Ok(Status::Good)
}
