//! Tests the account of tickets: on those whose whole output is on file, on every vector and example, and on grown and damaged tickets; and the bytes
//! in docs/FORMAT.md.

mod page;

use compare::check::grow;
use compare::damage::damage;
use compare::random::Random;
use compare::report::{self, hex, refused, Report};
use desk_tests::valid::is_json;
use show::account::{account, Account, State};
use show::json::json;
use show::summary::TOOK_PART;
use show::text::{text, SAYS, WIDTH};
use show::verdict::{verdict, Verdict, NONE};
use std::fs;
use std::path::{Path, PathBuf};
use std::process::ExitCode;

/// How many tickets are grown, each damaged as well.
const GROWN: u64 = 1_000;

/// The least number of tickets whose whole output is on file.
const LEAST_HELD: usize = 15;

/// An account with its text and JSON.
struct Shown {
    account: Account,
    verdict: Verdict,
    text: String,
    json: String,
}

fn main() -> ExitCode {
    let root = Path::new(env!("CARGO_MANIFEST_DIR")).join("../..");
    let mut report = Report::default();
    compare_held(&root, &mut report);
    page::compare_page(&root, &mut report);
    for path in [files(&root.join("examples"), "ticket"), files(&root.join("tests/vectors"), "ticket")].concat() {
        examine(&path.display().to_string(), &read(&path), &mut report);
    }
    for seed in 0..GROWN {
        let mut random = Random::new(seed);
        let ticket = grow(&mut random);
        examine(&hex(&ticket), &ticket, &mut report);
        let damaged = damage(&mut random, &ticket);
        examine(&hex(&damaged), &damaged, &mut report);
    }
    report.print_outcomes("tickets in words");
    report.demand_met(&(2..=14).map(refused).collect::<Vec<_>>());
    report::finish(&[report])
}

fn show(ticket: &[u8]) -> Shown {
    let (account, verdict) = (account(ticket), verdict(ticket));
    Shown { text: text(&account, &verdict), json: json(&account, &verdict), account, verdict }
}

/// The files below a directory with an ending, by name.
fn files(directory: &Path, ending: &str) -> Vec<PathBuf> {
    let entries = fs::read_dir(directory).unwrap_or_else(|error| panic!("{}: {error}", directory.display()));
    let mut paths: Vec<PathBuf> = entries.map(|entry| entry.expect("an entry of the directory").path()).collect();
    paths.sort();
    let below = |path: PathBuf| match path.is_dir() {
        true => files(&path, ending),
        false => vec![path],
    };
    paths.into_iter().flat_map(below).filter(|path| path.extension().is_some_and(|found| found == ending)).collect()
}

fn read(path: &Path) -> Vec<u8> {
    fs::read(path).unwrap_or_else(|error| panic!("{}: {error}", path.display()))
}

/// The outputs in `expected`, of a ticket that stands there, among the examples or among the vectors.
fn compare_held(root: &Path, report: &mut Report) {
    let directory = root.join("desk/show/expected");
    let (texts, objects) = (files(&directory, "txt"), files(&directory, "json"));
    if texts.len() < LEAST_HELD || objects.is_empty() {
        report.fail("too few outputs on file");
    }
    let tickets =
        [&directory, &root.join("examples"), &root.join("tests/vectors")].map(|place| files(place, "ticket")).concat();
    for path in texts.iter().chain(&objects) {
        let ticket = tickets.iter().find(|ticket| ticket.file_stem() == path.file_stem());
        let shown = show(&read(ticket.unwrap_or(path)));
        let printed = if path.extension().is_some_and(|ending| ending == "txt") { shown.text } else { shown.json };
        let difference = (printed.as_bytes() != read(path)).then(|| format!("{} has not:\n{printed}", path.display()));
        report.count("on file".to_string(), difference);
    }
}

/// Looks at one ticket's output.
fn examine(name: &str, ticket: &[u8], report: &mut Report) {
    let shown = show(ticket);
    let faults: Vec<&str> = faults(&shown).into_iter().filter(|(holds, _)| !holds).map(|(_, fault)| fault).collect();
    let label = match shown.verdict.reply.number {
        0 => "accepted".to_string(),
        number => refused(number),
    };
    report.count(label, (!faults.is_empty()).then(|| format!("{name}: {}\n{}", faults.join("; "), shown.text)));
}

/// What must hold of an output, and what is wrong where it does not.
fn faults(shown: &Shown) -> Vec<(bool, &'static str)> {
    let said = shown.verdict.words();
    let core: Vec<String> = shown.verdict.core.iter().map(usize::to_string).collect();
    vec![
        (shown.verdict.agrees(&shown.account.outcome), "the account and the library differ"),
        (is_explained(shown), "the record refused is not the library's, or is not explained"),
        (printed_refusals(&shown.text) == due_refusals(&shown.verdict), "the refusal printed is not the library's"),
        (shown.text.lines().last() == Some(&format!("{SAYS}{said}")), "the last line is not the library's verdict"),
        (shown.text.lines().all(|line| line.chars().count() <= WIDTH), "a line is too long"),
        (printed_core(&shown.text) == due_core(shown), "the constraints that took part are not the library's"),
        (is_complete(&shown.account), "some bytes are not shown"),
        (is_json(&shown.json), "the JSON is not valid"),
        (shown.json.contains(&format!("\"verdict\":{{\"text\":\"{said}\"")), "the JSON has not the library's verdict"),
        (shown.json.ends_with(&format!("\"core\":[{}]}}}}\n", core.join(","))), "the JSON has not the library's core"),
    ]
}

/// One record is refused where the library refuses, with the library's number and a reason.
fn is_explained(shown: &Shown) -> bool {
    let refusal = |state: &State| match state {
        State::Refused(refusal) => {
            let reasons = &refusal.reasons;
            Some((refusal.number, !reasons.iter().any(String::is_empty) && !reasons.is_empty()))
        }
        _ => None,
    };
    let entries = shown.account.entries.iter();
    let found: Vec<(u64, u64, bool)> = entries
        .filter_map(|entry| refusal(&entry.state).map(|(number, told)| (number, entry.number as u64, told)))
        .collect();
    let reply = shown.verdict.reply;
    found == if reply.number == 0 { vec![] } else { vec![(reply.number, reply.record, true)] }
}

/// The refusals in a text, each `number at record` by the last line before it that begins a record.
fn printed_refusals(text: &str) -> Vec<String> {
    let mut record = "";
    let mut refusals = Vec::new();
    for line in text.lines().map(str::trim_start) {
        if let Some(rest) = line.strip_prefix("record ") {
            record = rest.split(',').next().unwrap_or_default();
        }
        if let Some(rest) = line.strip_prefix("REFUSED ") {
            refusals.push(format!("{} at {record}", rest.split(':').next().unwrap_or_default()));
        }
    }
    refusals
}

fn due_refusals(verdict: &Verdict) -> Vec<String> {
    verdict.words().strip_prefix("refused ").map(str::to_string).into_iter().collect()
}

/// The constraints in a text that took part, each with its record; nothing where no line names them.
fn printed_core(text: &str) -> Option<Vec<(usize, usize)>> {
    let start = text.find(TOOK_PART)? + TOOK_PART.len();
    let mut core = Vec::new();
    for name in text[start..text.rfind(SAYS)?].split([',', ';']).filter(|name| name.contains("constraint")) {
        let numbers: Vec<usize> = name.split_whitespace().filter_map(|word| word.parse().ok()).collect();
        let half = numbers.len() / 2;
        if half > 0 {
            core.extend((numbers[0]..=numbers[half - 1]).zip(numbers[half]..=numbers[2 * half - 1]));
        }
    }
    Some(core)
}

/// The constraints that took part, where the library accepts the ticket as without a solution.
fn due_core(shown: &Shown) -> Option<Vec<(usize, usize)>> {
    let constraints = shown.account.entries.iter().filter(|entry| matches!(entry.kind, Some(3 | 4)));
    let numbered = constraints.enumerate().map(|(constraint, entry)| (constraint, entry.number));
    let core = numbered.filter(|(constraint, _)| shown.verdict.core.contains(constraint)).collect();
    (shown.verdict.reply == NONE).then_some(core)
}

/// The entries stand one behind another and reach from the first byte to the last.
fn is_complete(account: &Account) -> bool {
    let mut end = 0;
    account.entries.iter().all(|entry| {
        let joins = entry.start == end;
        end = entry.end;
        joins
    }) && end == account.length
}
