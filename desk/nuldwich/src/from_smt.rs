//! `nuldwich from-smt`: SMT-LIB as a question.

use crate::arguments::{Arguments, Command, OUTPUT};
use crate::files::{self, Input};
use crate::output::{Status, Trouble};

pub const COMMAND: Command = Command {
    name: "from-smt",
    operands: "[-o FILE] FILE",
    summary: "read a question from SMT-LIB",
    details: "Reads a file of SMT-LIB 2.6 and writes the text form of its question. What fits: variables of the sorts String and Int;\n\
              and, not, =, distinct, <=, <, >=, > over sums of numbers, variables, str.len and str.to_code; let; the range of the alphabet as\n\
              nuldwich smt writes it, and what else that writes. The first term that does not fit is named by line and column.\n",
    files: (1, 1),
    options: &[OUTPUT],
    run,
};

fn run(arguments: &Arguments) -> Result<Status, Trouble> {
    let path = &arguments.files[0];
    let Input::Text(source) = files::read(path)? else {
        return Err(files::cannot(path, "these are records, not text"));
    };
    let words = smt::read(&source).map_err(|mistake| files::at(path, &mistake))?;
    files::write(arguments.output(), words.as_bytes())?;
    Ok(Status::Good)
}
