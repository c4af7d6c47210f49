//! Compares with the reference: an operation of the library, the program, or the reference itself.
//!
//! `compare OPERATION [VECTORS]`, `compare program PROGRAM`, `compare self [VECTORS]`.

use compare::operation::{operation, Entry, OPERATIONS};
use compare::report::{self, Report};
use compare::run::run;
use compare::{library, program, vectors};
use std::path::PathBuf;
use std::process::ExitCode;

fn main() -> ExitCode {
    let arguments: Vec<String> = std::env::args().skip(1).collect();
    let directory = arguments.get(1).map_or_else(vectors::directory, PathBuf::from);
    let named = arguments.first().and_then(|name| operation(name));
    let reports: Vec<Report> = match (arguments.first().map(String::as_str), named) {
        (Some("program"), _) => vec![program::run(&arguments[1..])],
        (Some("self"), _) => {
            let itself = |entry: &Entry| Some(entry.reference);
            OPERATIONS.iter().map(|operation| run(*operation, itself, &directory)).collect()
        }
        (_, Some(operation)) => vec![run(operation, library::linked, &directory)],
        _ => return usage(),
    };
    report::finish(&reports)
}

/// What may be asked for.
fn usage() -> ExitCode {
    let names: Vec<&str> = OPERATIONS.iter().map(|operation| operation.name()).collect();
    eprintln!("compare {} [VECTORS] | program PROGRAM | self [VECTORS]", names.join("|"));
    ExitCode::from(2)
}
