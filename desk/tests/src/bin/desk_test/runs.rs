//! The runs that README.md and docs/DESK.md show: every command behind `$` prints the lines below it.

use crate::page::blocks;
use crate::{count, read};
use compare::report::Report;
use std::fs;
use std::os::unix::fs::symlink;
use std::path::{Path, PathBuf};
use std::process::Command;

/// The pages, with the least number of runs on each.
const PAGES: [(&str, usize); 2] = [("README.md", 3), ("docs/DESK.md", 12)];

/// What is asked for at the end of a command line: its exit status, below what it prints.
const STATUS: &str = "; echo $?";

pub fn compare(program: &Path, root: &Path, report: &mut Report) {
    let folder = std::env::temp_dir().join(format!("nuldwich-pages-{}", std::process::id()));
    for (page, least) in PAGES {
        lay_out(&folder, program, root).unwrap_or_else(|error| panic!("{}: {error}", folder.display()));
        let text = String::from_utf8(read(&root.join(page))).unwrap_or_default();
        let blocks = blocks(&whole(&text));
        let runs: Vec<(&str, String)> = blocks.iter().flat_map(|block| runs(block)).collect();
        for (words, due) in &runs {
            let said = run(&folder, words);
            count(report, "run of a page", said == *due, || format!("{page}: {words}\n{said}"));
        }
        count(report, "run of a page", runs.len() >= least, || format!("{page} has {} runs", runs.len()));
        fs::remove_dir_all(&folder).unwrap_or_else(|error| panic!("{}: {error}", folder.display()));
    }
}

/// A page whose blocks are not cut by the empty lines within them.
fn whole(page: &str) -> String {
    let lines: Vec<&str> = page.lines().collect();
    let is_shown = |place: usize| lines.get(place).is_some_and(|line| line.starts_with("    "));
    let within = |place: usize| lines[place].is_empty() && place > 0 && is_shown(place - 1) && is_shown(place + 1);
    (0..lines.len())
        .map(|place| if within(place) { "    \n".to_string() } else { format!("{}\n", lines[place]) })
        .collect()
}

/// A folder with the files of examples/desk, the examples, and the program.
fn lay_out(folder: &Path, program: &Path, root: &Path) -> std::io::Result<()> {
    fs::create_dir_all(folder.join("target/desk"))?;
    symlink(fs::canonicalize(root.join("examples"))?, folder.join("examples"))?;
    symlink(fs::canonicalize(program)?, folder.join("target/desk/nuldwich"))?;
    for entry in fs::read_dir(root.join("examples/desk"))? {
        let entry = entry?;
        fs::copy(entry.path(), folder.join(entry.file_name()))?;
    }
    Ok(())
}

/// The command lines of a block, each with the lines below it; none of a block that does not begin with one.
fn runs(block: &str) -> Vec<(&str, String)> {
    let Some(lines) = block.strip_prefix("$ ") else { return Vec::new() };
    let parts = lines.trim_end().split("\n$ ").map(|run| run.split_once('\n').unwrap_or((run, "")));
    parts.map(|(words, due)| (words, if due.is_empty() { String::new() } else { format!("{due}\n") })).collect()
}

/// What a command line prints.
fn run(folder: &Path, words: &str) -> String {
    let (words, asks_status) = words.strip_suffix(STATUS).map_or((words, false), |words| (words, true));
    let mut words = words.split_whitespace();
    let program = match words.next() {
        Some("nuldwich" | "target/desk/nuldwich") => folder.join("target/desk/nuldwich"),
        other => PathBuf::from(other.unwrap_or_default()),
    };
    match Command::new(&program).args(words).current_dir(folder).output() {
        Ok(output) => {
            let status = output.status.code().filter(|_| asks_status).map_or(String::new(), |code| format!("{code}\n"));
            format!("{}{}{status}", String::from_utf8_lossy(&output.stdout), String::from_utf8_lossy(&output.stderr))
        }
        Err(error) => format!("{}: {error}\n", program.display()),
    }
}
