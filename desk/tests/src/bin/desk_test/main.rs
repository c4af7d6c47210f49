//! Tests the text form both ways, on the vectors and examples, on grown and damaged bytes and on words of its own, and every command of the program:
//! `desk_test PROGRAM [DIRECTORY..]`, with further directories of vectors.

mod asked;
mod commands;
mod forms;
mod mistakes;
mod page;
mod runs;
mod spoilt;
mod wording;

use compare::report::{self, Report};
use desk_tests::common::{count, files, read, root};
use std::path::PathBuf;
use std::process::ExitCode;

fn main() -> ExitCode {
    let mut arguments = std::env::args_os().skip(1).map(PathBuf::from);
    let Some(program) = arguments.next() else {
        eprintln!("usage: desk_test PROGRAM [DIRECTORY..]");
        return ExitCode::from(2);
    };
    let root = root();
    let mut directories = vec![root.join("examples"), root.join("tests/vectors"), root.join("desk/show/expected")];
    directories.extend(arguments);
    let mut report = Report::default();
    for path in directories.iter().flat_map(|directory| files(directory)) {
        forms::compare_file(&path, &mut report);
    }
    forms::compare_grown(&mut report);
    forms::demand_coverage(&mut report);
    forms::compare_office(&root, &mut report);
    wording::compare(&mut report);
    mistakes::compare(&mut report);
    page::compare(&root, &mut report);
    spoilt::compare(&root, &mut report);
    runs::compare(&program, &root, &mut report);
    commands::compare(&program, &root, &mut report);
    report.print_outcomes("the desk");
    report::finish(&[report])
}
