//! Compares verdicts of the proved library with those of cvc5 and Z3, where one of them is installed: on the office's tickets and on grown ones that
//! the library accepts, each question through SMT-LIB. Not part of the gate: `cross`.

mod solvers;

use compare::check::grow;
use compare::random::Random;
use compare::report::{self, Report};
use desk_tests::common::{files_ending, read, root};
use library::Verdict;
use solvers::{installed, Said, Solver};
use std::path::PathBuf;
use std::process::ExitCode;
use std::sync::atomic::{AtomicUsize, Ordering};
use std::thread;
use text::Written;
use ticket::Question;

/// How many questions are compared.
const QUESTIONS: usize = 1_000;

/// A question as SMT-LIB, and what the library says of its ticket.
struct Case {
    name: String,
    script: String,
    due: Said,
}

fn main() -> ExitCode {
    let solvers = installed();
    if solvers.is_empty() {
        println!("neither cvc5 nor z3 is installed: nothing is compared");
        return ExitCode::SUCCESS;
    }
    let cases = cases();
    let reports: Vec<Report> = solvers.iter().map(|solver| compare_all(solver, &cases)).collect();
    for (solver, report) in solvers.iter().zip(&reports) {
        report.print_outcomes(solver.name);
    }
    report::finish(&reports)
}

/// The office's tickets, then grown ones.
fn cases() -> Vec<Case> {
    let office = files_ending(&root().join("examples/office"), "ticket").into_iter();
    let office = office.map(|path| (path.display().to_string(), read(&path)));
    let grown = (0..).map(|seed| (format!("seed {seed}"), grow(&mut Random::new(seed))));
    office.chain(grown).filter_map(|(name, ticket)| case(name, &ticket)).take(QUESTIONS).collect()
}

/// A ticket with constraints that the library accepts.
fn case(name: String, ticket: &[u8]) -> Option<Case> {
    let due = match library::check(ticket).verdict() {
        Verdict::NoSolution { .. } => Said::Unsat,
        Verdict::Strings { .. } => Said::Sat,
        Verdict::Refused(_) => return None,
    };
    let question = Question::from_bytes(ticket).ok().filter(|question| !question.constraints.is_empty())?;
    let script = smt::write(&Written::plain(question), &[]).ok()?;
    Some(Case { name, script, due })
}

/// All cases on all cores.
fn compare_all(solver: &Solver, cases: &[Case]) -> Report {
    let next = AtomicUsize::new(0);
    let cores = thread::available_parallelism().map_or(1, usize::from);
    let folder = std::env::temp_dir().join(format!("nuldwich-cross-{}", std::process::id()));
    let mut total = Report::default();
    if let Err(error) = std::fs::create_dir_all(&folder) {
        total.fail(&format!("{}: {error}", folder.display()));
        return total;
    }
    thread::scope(|scope| {
        let work = |core: usize| compare_some(solver, cases, &next, folder.join(format!("{core}.smt2")));
        let started: Vec<_> = (0..cores).map(|core| scope.spawn(move || work(core))).collect();
        started.into_iter().filter_map(|one| one.join().ok()).for_each(|part| total.add(part));
    });
    let _ = std::fs::remove_dir_all(&folder);
    total
}

fn compare_some(solver: &Solver, cases: &[Case], next: &AtomicUsize, file: PathBuf) -> Report {
    let mut report = Report::default();
    while let Some(case) = cases.get(next.fetch_add(1, Ordering::Relaxed)) {
        let said = solver.ask(&case.script, &file);
        let (label, fault) = match &said {
            Said::Undecided => ("undecided", None),
            said if *said == case.due => ("agrees", None),
            said => ("differs", Some(format!("{}: {} says {said:?}\n{}", case.name, solver.name, case.script))),
        };
        report.count(label.to_string(), fault);
    }
    report
}
