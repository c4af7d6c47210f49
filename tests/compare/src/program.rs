//! Puts tickets through the program and compares every byte that it prints with what the reference prints.

use crate::check::Check;
use crate::report::{refused, Report};
use crate::run::vectors_of;
use crate::{vectors, writer};
use nuldwich_reference::program;
use std::io::Write;
use std::process::{Command, Output, Stdio};

/// Compares the program, whose path is the only argument.
pub fn run(arguments: &[String]) -> Report {
    let path = arguments.first().expect("the program's path");
    let mut report = Report::default();
    for vector in vectors_of(&Check, &vectors::directory()) {
        let expected = format!("{}\n", vector.columns[0].replace('|', "\n"));
        compare(path, &vector.name, &vector.input.parts[0], &expected, &mut report);
    }
    for (name, ticket) in vectors::examples() {
        compare(path, &name, &ticket, &program(&ticket), &mut report);
    }
    for (name, ticket) in long_tickets() {
        compare(path, name, &ticket, "refused 2 at 0\n", &mut report);
    }
    report.print_outcomes("the program");
    report
}

/// Tickets of more than 32,768 bytes; the last two begin with an accepted one.
fn long_tickets() -> Vec<(&'static str, Vec<u8>)> {
    let question = writer::question(&nuldwich_reference::question::Question {
        n: 1,
        literals: vec![Vec::new()],
        ..Default::default()
    });
    let accepted = [question, writer::claim(2), writer::model(&[]), writer::end()].concat();
    let longer = |bytes: &[u8], length: usize| {
        let mut ticket = bytes.to_vec();
        ticket.resize(length, 0);
        ticket
    };
    vec![
        ("no records, one byte too long", longer(&[], 32_769)),
        ("one byte too long", longer(&accepted, 32_769)),
        ("much too long", longer(&accepted, 1_000_000)),
    ]
}

/// Runs the program on one ticket.
fn compare(path: &str, name: &str, ticket: &[u8], expected: &str, report: &mut Report) {
    let output = put_through(path, ticket);
    let difference = (!output.status.success() || output.stdout != expected.as_bytes()).then(|| {
        format!(
            "{name}: {}, printed {:?}, expected {expected:?}",
            output.status,
            String::from_utf8_lossy(&output.stdout)
        )
    });
    report.count(label(expected), difference);
}

/// What the program prints, and its status; it may stop reading before the end of a ticket that is too long.
fn put_through(path: &str, ticket: &[u8]) -> Output {
    let mut child = Command::new(path).stdin(Stdio::piped()).stdout(Stdio::piped()).spawn().expect("the program runs");
    let mut input = child.stdin.take().expect("its standard input");
    let _ = input.write_all(ticket);
    drop(input);
    child.wait_with_output().expect("its standard output")
}

/// The outcome that a first line names.
fn label(lines: &str) -> String {
    let mut words = lines.split_whitespace();
    match (words.next(), words.next()) {
        (Some("refused"), Some(number)) => refused(number.parse().expect("a number")),
        _ => lines.lines().next().unwrap_or_default().to_string(),
    }
}
