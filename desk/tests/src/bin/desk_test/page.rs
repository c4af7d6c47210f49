//! The texts that docs/TEXT.md shows.

use crate::{count, read};
use compare::report::Report;
use library::{Judgement, Verdict};
use std::path::Path;

/// A question, two tickets that are accepted, and an answer that meets the question.
pub fn compare(root: &Path, report: &mut Report) {
    let page = String::from_utf8(read(&root.join("docs/TEXT.md"))).unwrap_or_default();
    let blocks = blocks(&page);
    let [question, none, strings, answer] = &blocks[..] else {
        return report.fail("docs/TEXT.md has other texts than a question, two tickets and an answer");
    };
    let verdict = |text: &str| text::read(text).map(|written| library::check(&written.to_bytes()).verdict());
    let is_none = matches!(verdict(none), Ok(Verdict::NoSolution { .. }));
    count(report, "page", is_none, || format!("{none}{:?}", verdict(none)));
    let is_strings = matches!(verdict(strings), Ok(Verdict::Strings { .. }));
    count(report, "page", is_strings, || format!("{strings}{:?}", verdict(strings)));
    let judged = text::read(question).and_then(|written| {
        let answer = text::read_answer(answer, &written)?;
        Ok(library::judge(&written.to_bytes(), &answer.to_bytes()))
    });
    count(report, "page", judged == Ok(Judgement::Met), || format!("{question}{answer}{judged:?}"));
}

/// The blocks of the page that are set in by four blanks.
pub fn blocks(page: &str) -> Vec<String> {
    let lines: Vec<&str> = page.lines().collect();
    let shown = lines.chunk_by(|one, next| one.starts_with("    ") == next.starts_with("    "));
    let shown = shown.filter(|lines| lines[0].starts_with("    "));
    shown.map(|lines| lines.iter().map(|line| format!("{}\n", &line[4..])).collect()).collect()
}
