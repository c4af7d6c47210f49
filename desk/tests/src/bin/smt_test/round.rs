//! A question, as SMT-LIB, as text again: the library finds it the same.

use compare::judge::Judge;
use compare::operation::Operation;
use compare::random::Random;
use compare::report::{hex, Report};
use compare::{check, unjudged};
use desk_tests::common::{count, files, read};
use std::path::Path;
use text::{question_text, Names, Written};
use ticket::{Extended, Question};

/// How many questions of each sort are grown.
const GROWN: u64 = 1_500;

/// Conditions that take helpers, in one line and in several.
const WITH_HELPERS: [&str; 8] = [
    "x0 != \"J\"",
    "x0 <= \"K\"",
    "\"L\" >= x1 != \"M\"",
    "\"N\" != x1 <= \"J\"",
    "x1 != \"\"",
    "x0 = \"J\"",
    "x1 = \"a b\\\"\\\\|;()\"",
    "x0 >= \"\\u{1}\\u{7f}\"",
];

pub fn compare_files(root: &Path, report: &mut Report) {
    for path in files(&root.join("examples")).iter().chain(&files(&root.join("tests/vectors"))) {
        let name = path.display().to_string();
        match path.extension().and_then(|ending| ending.to_str()) {
            Some("ticket" | "question" | "first" | "second") => compare_bytes(&name, &read(path), report),
            Some("txt") => {
                let words = String::from_utf8_lossy(&read(path)).into_owned();
                compare_text("office", &name, &words, report);
            }
            _ => {}
        }
    }
}

pub fn compare_grown(report: &mut Report) {
    for seed in 0..GROWN {
        let mut random = Random::new(seed);
        for ticket in [check::grow(&mut random), unjudged::grow(&mut random)] {
            compare_bytes(&hex(&ticket), &ticket, report);
            compare_with_helpers(&mut random, &ticket, report);
        }
        Judge.grow(&mut random, &mut |random, input| {
            compare_bytes(&hex(&input.parts[0]), &input.parts[0], report);
            compare_with_helpers(random, &input.parts[0], report);
        });
    }
}

/// The run itself is at fault when too few questions are of a sort.
pub fn demand_coverage(report: &mut Report) {
    for (label, least) in [("records", 2_000), ("helpers", 1_000), ("no function", 100), ("office", 10)] {
        if report.counted(label) < least {
            report.fail(&format!("too few questions: {label}"));
        }
    }
}

/// A question of records that the library takes.
fn compare_bytes(name: &str, bytes: &[u8], report: &mut Report) {
    let Ok(question) = Question::from_bytes(bytes) else { return };
    let written = Written::plain(question);
    if library::same(&written.to_bytes(), &written.to_bytes()) == Ok(true) {
        compare_question("records", name, &written, &[], report);
    }
}

/// A question with further conditions that take helpers, its conditions in any order.
fn compare_with_helpers(random: &mut Random, bytes: &[u8], report: &mut Report) {
    let Ok(mut question) = Question::from_bytes(bytes) else { return };
    if question.p < 2 {
        return;
    }
    question.n = question.n.max(128);
    let words = question_text(&question, &Names::plain(&question));
    let (head, mut conditions): (Vec<&str>, Vec<&str>) = words.lines().partition(|line| {
        ["alphabet ", "strings ", "integers ", "literal "].iter().any(|start| line.starts_with(start))
    });
    conditions.extend((0..1 + random.below(6)).map(|_| random.pick(&WITH_HELPERS)));
    random.shuffle(&mut conditions);
    let words = [head, conditions].concat().join("\n");
    compare_text("helpers", &words, &words, report);
}

/// A question of text that is read and that the library takes.
fn compare_text(label: &str, name: &str, words: &str, report: &mut Report) {
    let Ok(written) = text::read(words) else { return };
    if library::same(&written.to_bytes(), &written.to_bytes()) == Ok(true) {
        let lines: Vec<String> = words.lines().map(str::to_string).collect();
        compare_question(label, name, &written, &lines, report);
    }
}

fn compare_question(label: &str, name: &str, written: &Written, lines: &[String], report: &mut Report) {
    let question = &written.question;
    let is_unfit = |constraint: &Extended| matches!(constraint, Extended::Upper(..) | Extended::Lower(..));
    let unfit = question.extended.iter().any(is_unfit);
    match smt::write(written, lines) {
        Ok(script) => {
            let fault = if unfit { Some("case is written".to_string()) } else { fault_of(written, &script) };
            count(report, label, fault.is_none(), || format!("{name}: {}\n{script}", fault.unwrap_or_default()));
        }
        Err(found) => {
            let place = found.constraint.checked_sub(question.constraints.len());
            let named = place.and_then(|place| question.extended.get(place));
            let function = match named {
                Some(Extended::Upper(..)) => "upper",
                Some(Extended::Lower(..)) => "lower",
                _ => "none",
            };
            count(report, "no function", found.function == function, || format!("{name}: {found:?}"));
        }
    }
}

/// What is wrong with what is written of a question.
fn fault_of(written: &Written, script: &str) -> Option<String> {
    let words = match smt::read(script) {
        Ok(words) => words,
        Err(mistake) => return Some(format!("is not read: {mistake}")),
    };
    let again = match text::read(&words) {
        Ok(again) => again,
        Err(mistake) => return Some(format!("its text is not read: {mistake}\n{words}")),
    };
    let same = library::same(&written.to_bytes(), &again.to_bytes());
    match same == Ok(true) && again.names.integers.len() == written.names.integers.len() {
        true => None,
        false => Some(format!("is another question, {same:?}:\n{words}")),
    }
}
