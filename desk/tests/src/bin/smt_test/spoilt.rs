//! Files of SMT-LIB that are spoilt: each is read, or a place within it is told.

use compare::random::Random;
use compare::report::Report;
use desk_tests::common::{count, files_ending, read};
use std::path::Path;

/// How often each file is spoilt.
const TIMES: u64 = 200;

/// What is put in at some place.
const PIECES: [&str; 16] = [
    "(",
    ")",
    "\"",
    "|",
    ";",
    " ",
    "\n",
    "x",
    "0",
    "(- 1)",
    "(or ",
    "(let ((a ",
    "\\u{",
    "é",
    "9999999999999999999",
    "(and ",
];

pub fn compare(root: &Path, report: &mut Report) {
    for path in files_ending(&root.join("examples/office"), "txt") {
        let words = String::from_utf8_lossy(&read(&path)).into_owned();
        let script = text::read(&words).ok().and_then(|written| smt::write(&written, &[]).ok()).unwrap_or_default();
        for seed in 0..TIMES {
            let spoilt = spoil(&mut Random::new(seed), &script);
            let fault = fault_of(&spoilt);
            count(report, "spoilt", fault.is_none(), || format!("{}\n{spoilt}", fault.unwrap_or_default()));
        }
    }
}

/// The text with a few pieces taken out or put in.
fn spoil(random: &mut Random, script: &str) -> String {
    let mut characters: Vec<char> = script.chars().collect();
    for _ in 0..1 + random.below(3) {
        let from = random.below(characters.len() + 1);
        let to = (from + random.below(4)).min(characters.len());
        let piece: Vec<char> = if random.chance(70) { random.pick(&PIECES).chars().collect() } else { Vec::new() };
        characters.splice(from..to, piece);
    }
    characters.into_iter().collect()
}

fn fault_of(script: &str) -> Option<String> {
    match smt::read(script) {
        Ok(words) => text::read(&words).err().map(|mistake| format!("its text is not read: {mistake}")),
        Err(mistake) => {
            let line = script.split('\n').nth(mistake.line.wrapping_sub(1));
            let within = line.is_some_and(|line| (1..=line.chars().count() + 1).contains(&mistake.column));
            (!within || mistake.reason.is_empty()).then(|| format!("no place of the file: {mistake}"))
        }
    }
}
