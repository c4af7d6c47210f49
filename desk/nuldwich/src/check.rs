//! `nuldwich check`: many tickets on all cores.

use crate::arguments::{Arguments, Choice, Command, JSON};
use crate::files;
use crate::output::{numbers, print, refused, tell, Status, Trouble, BY};
use crate::tally::Tally;
use library::{Needs, Refusal, Verdict};
use show::json::{array, object, string};
use std::fs;
use std::io::{stderr, stdout, IsTerminal};
use std::path::{Path, PathBuf};
use std::sync::atomic::{AtomicUsize, Ordering};
use std::thread;

const NEED: Choice =
    Choice { name: "--need", value: "", about: "say what checking needs: steps, facts, pending splits" };

pub const COMMAND: Command = Command {
    name: "check",
    operands: "[--need] [--json] FILE.. | DIRECTORY..",
    summary: "check tickets, and say of each what the proved library says",
    details: "Checks each file, and of a directory every file below it whose name ends in .ticket, on all cores; a line for each and,\n\
              of several, a table of the outcomes.\n",
    files: (1, usize::MAX),
    options: &[NEED, JSON],
    run,
};

/// How many tickets are checked before their lines are printed.
const BATCH: usize = 256;

/// What the library says of a file.
pub struct Checked {
    pub verdict: Verdict,
    pub need: Option<Result<Needs, Refusal>>,
    is_text: bool,
}

/// A file with what is said of it, or why it cannot be read.
type Outcome = (PathBuf, Result<Checked, String>);

fn run(arguments: &Arguments) -> Result<Status, Trouble> {
    let (need, as_json) = (arguments.has(NEED.name), arguments.has(JSON.name));
    let mut paths = Vec::new();
    for path in &arguments.files {
        expand(path, &mut paths)?;
    }
    let mut tally = Tally::default();
    print(if as_json { "{\"tickets\":[" } else { "" })?;
    for batch in paths.chunks(BATCH) {
        for (path, checked) in check_all(batch, need)? {
            let comma = if tally.total() == 0 { "\n" } else { ",\n" };
            tally.count(&checked);
            print(&match as_json {
                true => format!("{comma}{}", json(&path, &checked)),
                false => format!("{}: {}\n", path.display(), words(&checked)),
            })?;
        }
        progress(tally.total(), paths.len());
    }
    print(&match as_json {
        true => format!("\n],\"summary\":{},\"by\":{}}}\n", tally.json(), string(BY)),
        false => summary(&tally),
    })?;
    Ok(tally.status())
}

/// The file itself, or the tickets below a directory by name.
fn expand(path: &Path, paths: &mut Vec<PathBuf>) -> Result<(), Trouble> {
    if !path.is_dir() {
        paths.push(path.to_path_buf());
        return Ok(());
    }
    let before = paths.len();
    below(path, paths)?;
    match paths.len() {
        after if after == before => Err(files::cannot(path, "no file below this directory ends in .ticket")),
        _ => Ok(()),
    }
}

/// Links to directories are not followed.
fn below(directory: &Path, paths: &mut Vec<PathBuf>) -> Result<(), Trouble> {
    let cannot = |error| files::cannot(directory, error);
    let mut entries = fs::read_dir(directory).map_err(cannot)?.collect::<Result<Vec<_>, _>>().map_err(cannot)?;
    entries.sort_by_key(fs::DirEntry::file_name);
    for entry in entries {
        let path = entry.path();
        if entry.file_type().map_err(cannot)?.is_dir() {
            below(&path, paths)?;
        } else if path.extension().is_some_and(|ending| ending == "ticket") {
            paths.push(path);
        }
    }
    Ok(())
}

/// Checks files on all cores; what comes out stands in their order.
fn check_all(paths: &[PathBuf], need: bool) -> Result<Vec<Outcome>, Trouble> {
    let next = AtomicUsize::new(0);
    let cores = thread::available_parallelism().map_or(1, usize::from).min(paths.len());
    let work = || {
        let mut outcomes = Vec::new();
        let mut place = next.fetch_add(1, Ordering::Relaxed);
        while let Some(path) = paths.get(place) {
            outcomes.push((place, (path.clone(), check(path, need))));
            place = next.fetch_add(1, Ordering::Relaxed);
        }
        outcomes
    };
    let done = thread::scope(|scope| {
        let threads: Vec<_> = (0..cores).map(|_| scope.spawn(work)).collect();
        threads.into_iter().map(|thread| thread.join()).collect::<Result<Vec<_>, _>>()
    });
    let done = done.map_err(|_| Trouble("a ticket could not be checked to its end".to_string()))?;
    let mut outcomes: Vec<(usize, Outcome)> = done.into_iter().flatten().collect();
    outcomes.sort_by_key(|(place, _)| *place);
    Ok(outcomes.into_iter().map(|(_, outcome)| outcome).collect())
}

fn check(path: &Path, need: bool) -> Result<Checked, String> {
    let ticket = files::read_ticket(path).map_err(|error| error.to_string())?;
    let (verdict, is_text) = (library::check(&ticket).verdict(), files::are_text(&ticket));
    Ok(Checked { verdict, need: need.then(|| library::need(&ticket)), is_text })
}

/// How far it has come, where lines go elsewhere and somebody looks on.
fn progress(done: usize, total: usize) {
    if total > BATCH && stderr().is_terminal() && !stdout().is_terminal() {
        let end = if done == total { "\n" } else { "" };
        tell(&format!("\r{done} of {total} tickets{end}"));
    }
}

fn words(checked: &Result<Checked, String>) -> String {
    let checked = match checked {
        Ok(checked) => checked,
        Err(error) => return format!("cannot be read: {error}"),
    };
    let verdict = match &checked.verdict {
        Verdict::NoSolution { core } => format!("no solution; constraints that took part: {}", numbers(core)),
        Verdict::Strings { .. } => "strings".to_string(),
        Verdict::Refused(refusal) if checked.is_text => format!("{} (this is text, not records)", refused(*refusal)),
        Verdict::Refused(refusal) => refused(*refusal),
    };
    match &checked.need {
        None => verdict,
        Some(Ok(Needs { steps, facts, pending })) => {
            format!("{verdict}; needs steps {steps}, facts {facts}, pending {pending}")
        }
        Some(Err(refusal)) => format!("{verdict}; the need is {}", refused(*refusal)),
    }
}

/// A table where there are several, and whose verdicts these are.
fn summary(tally: &Tally) -> String {
    let table = if tally.total() > 1 { format!("\n{}", tally.table()) } else { String::new() };
    match tally.verdicts() {
        0 => table,
        1 => format!("{table}(by the proved library)\n"),
        _ => format!("{table}(each verdict by the proved library)\n"),
    }
}

fn json(path: &Path, checked: &Result<Checked, String>) -> String {
    let mut members = vec![("file", string(&path.display().to_string()))];
    match checked {
        Err(error) => members.extend([("verdict", string("cannot be read")), ("words", string(error))]),
        Ok(checked) => {
            members.extend(verdict_json(&checked.verdict));
            members.extend(checked.need.as_ref().map(|need| ("need", need_json(need))));
        }
    }
    object(&members)
}

fn verdict_json(verdict: &Verdict) -> Vec<(&'static str, String)> {
    match verdict {
        Verdict::NoSolution { core } => {
            vec![("verdict", string("no solution")), ("core", array(core, usize::to_string))]
        }
        Verdict::Strings { strings, integers } => vec![
            ("verdict", string("strings")),
            ("strings", array(strings, |text| array(text, u32::to_string))),
            ("integers", array(integers, i32::to_string)),
        ],
        Verdict::Refused(refusal) => [vec![("verdict", string("refused"))], refusal_json(refusal)].concat(),
    }
}

fn refusal_json(refusal: &Refusal) -> Vec<(&'static str, String)> {
    vec![
        ("number", refusal.number.to_string()),
        ("record", refusal.record.to_string()),
        ("words", string(library::refusal(refusal.number))),
    ]
}

fn need_json(need: &Result<Needs, Refusal>) -> String {
    match need {
        Ok(Needs { steps, facts, pending }) => {
            object(&[("steps", steps.to_string()), ("facts", facts.to_string()), ("pending", pending.to_string())])
        }
        Err(refusal) => object(&refusal_json(refusal)),
    }
}
