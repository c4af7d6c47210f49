//! Tests questions as SMT-LIB, both ways: on the office's questions, the vectors and examples, on grown and spoilt ones, and on words of its own:
//! `smt_test PROGRAM`.

mod commands;
mod round;
mod spoilt;
mod wording;

use compare::report::{self, Report};
use desk_tests::common::root;
use std::path::PathBuf;
use std::process::ExitCode;

fn main() -> ExitCode {
    let Some(program) = std::env::args_os().nth(1).map(PathBuf::from) else {
        eprintln!("usage: smt_test PROGRAM");
        return ExitCode::from(2);
    };
    let (root, mut report) = (root(), Report::default());
    round::compare_files(&root, &mut report);
    round::compare_grown(&mut report);
    round::demand_coverage(&mut report);
    wording::compare(&mut report);
    spoilt::compare(&root, &mut report);
    commands::compare(&program, &root, &mut report);
    report.print_outcomes("questions as SMT-LIB");
    report::finish(&[report])
}
