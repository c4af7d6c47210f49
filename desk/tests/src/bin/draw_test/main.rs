//! Tests drawings: their structure on the examples, the vectors, grown and damaged tickets, deep and long ones, and the command: `draw_test PROGRAM`.

mod structure;
mod tags;
mod tickets;

use compare::check::grow;
use compare::damage::damage;
use compare::random::Random;
use compare::report::{self, hex, refused, Report};
use compare::unjudged;
use desk_tests::common::{count, files_ending, read, root};
use desk_tests::runs::Runs;
use draw::draw;
use std::path::{Path, PathBuf};
use std::process::ExitCode;
use std::time::{Duration, Instant};

/// How many tickets are grown, each damaged as well.
const GROWN: u64 = 500;

/// The longest that one drawing may take.
const LONGEST: Duration = Duration::from_secs(5);

fn main() -> ExitCode {
    let Some(program) = std::env::args_os().nth(1).map(PathBuf::from) else {
        eprintln!("usage: draw_test PROGRAM");
        return ExitCode::from(2);
    };
    let (root, mut report) = (root(), Report::default());
    for directory in ["examples", "tests/vectors", "desk/show/expected"] {
        for path in files_ending(&root.join(directory), "ticket") {
            examine(&path.display().to_string(), &read(&path), &mut report);
        }
    }
    for seed in 0..GROWN {
        let mut random = Random::new(seed);
        for ticket in [grow(&mut random), unjudged::grow(&mut random)] {
            let damaged = damage(&mut random, &ticket);
            examine(&hex(&ticket), &ticket, &mut report);
            examine(&hex(&damaged), &damaged, &mut report);
        }
    }
    report.demand_met(&(2..=14).map(refused).chain(["accepted".to_string()]).collect::<Vec<_>>());
    compare_sizes(&mut report);
    compare_escapes(&mut report);
    compare_commands(&program, &root, &mut report);
    report.print_outcomes("drawings");
    report::finish(&[report])
}

/// Looks at the drawing of one ticket.
fn examine(name: &str, ticket: &[u8], report: &mut Report) {
    let (faults, number) = structure::faults(ticket, &draw("a ticket", ticket));
    let label = if number == 0 { "accepted".to_string() } else { refused(number) };
    count(report, &label, faults.is_empty(), || format!("{name}: {}", faults.join("; ")));
}

/// A deep ticket and a long one are accepted, drawn whole, and soon.
fn compare_sizes(report: &mut Report) {
    for (name, ticket, least) in [("deep", tickets::deep(), 240), ("long", tickets::long(), 2_500)] {
        let start = Instant::now();
        let drawn = draw(name, &ticket);
        let time = start.elapsed();
        let steps = drawn.page.matches("<details class=\"step\"").count();
        let holds = drawn.accepted && steps >= least && time < LONGEST;
        count(report, "size", holds, || format!("{name}: {steps} steps in {time:?}, accepted: {}", drawn.accepted));
        examine(name, &ticket, report);
    }
}

/// Whatever stands in a literal or in the name is shown as such.
fn compare_escapes(report: &mut Report) {
    let page = draw("<i>\"'&\n.ticket", &tickets::with_text("</span><script>&\"'")).page;
    let shown = [
        "<title>&lt;i&gt;&quot;&#39;&amp;\u{fffd}.ticket</title>",
        "<h1>&lt;i&gt;&quot;&#39;&amp;\u{fffd}.ticket</h1>",
        "literal 1 &quot;&lt;/span&gt;&lt;script&gt;&amp;\\&quot;&#39;&quot;",
    ];
    for due in shown {
        count(report, "escape", page.contains(due), || format!("no {due} in\n{page}"));
    }
    count(report, "escape", page.matches("<script>").count() == 1, || page.clone());
}

fn compare_commands(program: &Path, root: &Path, report: &mut Report) {
    let runs = Runs::of(program, "draw");
    for path in files_ending(&root.join("examples"), "ticket") {
        let (source, out) = (path.display().to_string(), runs.folder.join("out.html"));
        let name = path.file_name().unwrap_or_default().to_string_lossy();
        let drawn = draw(&name, &read(&path));
        let run = runs.run(&["draw", &source, "-o", &out.display().to_string()]);
        let printed = runs.run(&["draw", &source]).stdout;
        let holds = run.status.code() == Some(i32::from(!drawn.accepted))
            && read(&out) == drawn.page.as_bytes()
            && printed == drawn.page.as_bytes();
        count(report, "command", holds, || format!("{source}: {:?}", run.status));
    }
    let (long, nowhere) = (runs.write("long", [0; 40_000]), runs.folder.join("none/out").display().to_string());
    runs.compare(
        &["draw", &long],
        1,
        "says: <strong>the ticket is refused</strong> <small>refused 2 at 0</small>",
        "",
        report,
    );
    runs.compare(&["draw", &long, "-o", &nowhere], 2, "", "none/out: ", report);
}
