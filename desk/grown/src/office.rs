//! The office's examples: each asked anew, with the verdict that its ticket on file has.

use compare::report::Report;
use library::Verdict;
use solver::{smaller, solve, Answer, Options};
use std::path::{Path, PathBuf};
use ticket::Ticket;

/// Examples that are on file, at least.
const LEAST: usize = 10;

pub fn run() -> Report {
    let mut report = Report::default();
    let directory = Path::new(env!("CARGO_MANIFEST_DIR")).join("../../examples/office");
    let entries = std::fs::read_dir(&directory).into_iter().flatten().flatten().map(|entry| entry.path());
    let mut questions: Vec<PathBuf> = entries.filter(|path| path.extension().is_some_and(|end| end == "txt")).collect();
    questions.sort();
    for path in &questions {
        let fault = example(path).err().map(|fault| format!("{}: {fault}", path.display()));
        report.count("example".into(), fault);
    }
    if questions.len() < LEAST {
        report.fail(&format!("{} examples, and {LEAST} are on file", questions.len()));
    }
    report.print_outcomes("office");
    report
}

/// Asks an example and, where it has no solution, for fewer of its constraints.
fn example(path: &Path) -> Result<(), String> {
    let source = std::fs::read_to_string(path).map_err(|error| error.to_string())?;
    let written = text::read(&source).map_err(|mistake| mistake.to_string())?;
    let on_file = std::fs::read(path.with_extension("ticket")).map_err(|error| error.to_string())?;
    let due = library::check(&on_file).verdict();
    let options = Options::default();
    let ticket = match solve(&written.question, &options, &mut |_| {}) {
        Answer::Ticket(ticket) => ticket,
        Answer::GaveUp(reason) => return Err(format!("gave up: {reason}")),
    };
    let core = match (due, verdict(&ticket)) {
        (Verdict::Strings { .. }, Verdict::Strings { .. }) => return Ok(()),
        (Verdict::NoSolution { .. }, Verdict::NoSolution { core }) => core,
        (due, other) => return Err(format!("{other:?}, and on file is {due:?}")),
    };
    match smaller(&written.question, &core, &options, &mut |_| {}) {
        Some(fewer) if fewer.kept.len() >= core.len() => Err("the smaller set is not smaller".into()),
        Some(fewer) => match verdict(&fewer.ticket) {
            Verdict::NoSolution { .. } => Ok(()),
            other => Err(format!("the smaller set: {other:?}")),
        },
        None => Ok(()),
    }
}

fn verdict(ticket: &Ticket) -> Verdict {
    library::check(&ticket.to_bytes()).verdict()
}
