//! The program's output for a ticket.

use crate::checking::{check, Outcome, ANSWER_BUFFER, WORK_AREA};
use crate::records::{i32_at, record_at, u32_at};

/// "The program reads a ticket on standard input"; its exact output.
pub fn program(ticket: &[u8]) -> String {
    lines(&check(ticket, WORK_AREA, ANSWER_BUFFER))
}

/// "it prints three lines", "Others print one line": the lines of an outcome.
pub fn lines(outcome: &Outcome) -> String {
    match outcome {
        Outcome::Refused { number, record } => format!("refused {number} at {record}\n"),
        Outcome::NoSolution { .. } => "verdict none\n".to_string(),
        Outcome::Strings { answer } => format!("verdict strings\n{}end\n", value_lines(answer)),
    }
}

/// "`x0 1 0` (variable, length, code points)"; "Integers follow strings as `i0 -5`."
fn value_lines(answer: &[u8]) -> String {
    let mut lines = String::new();
    let mut start = 0;
    for number in 0.. {
        let record = record_at(answer, start).expect("an answer ends with an end record");
        let fields = record.body.chunks(4);
        match record.kind {
            9 => {
                lines += &format!("x{number} {}", fields.len());
                fields.for_each(|field| lines += &format!(" {}", u32_at(field, 0)));
                lines += "\n";
            }
            10 => fields.enumerate().for_each(|(i, field)| lines += &format!("i{i} {}\n", i32_at(field, 0))),
            _ => break,
        }
        start = record.end;
    }
    lines
}
