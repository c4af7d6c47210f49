//! The bytes that docs/FORMAT.md shows.

use compare::report::Report;
use nuldwich_reference::records::{record_at, u16_at};
use std::path::Path;

/// A section of the page with the example that it shows.
struct Section {
    bytes: Vec<Vec<u8>>,
    ticket: Vec<u8>,
}

/// The example records are those of their tickets, the steps of every rule and the functions of kind 11 among them; the ticket that is shown byte by byte is the one on file.
pub fn compare_page(root: &Path, report: &mut Report) {
    let page = String::from_utf8(super::read(&root.join("docs/FORMAT.md"))).expect("the page is text");
    let section =
        |heading: &str, ticket: &str| Section { bytes: rows(&page, heading), ticket: super::read(&root.join(ticket)) };
    let rules = section("## The thirteen rules", "examples/every-rule.ticket");
    let judged =
        section("## Kind 11, in judging alone", "tests/vectors/L3/judge/unmet-behind-literals-and-all-kinds.question");
    let more = section("## More bytes", "desk/show/expected/strings.ticket");
    let whole = section("## A ticket byte by byte", "examples/example4.ticket");
    let count = |holds: bool, fault: &str| (!holds).then(|| format!("docs/FORMAT.md: {fault}"));
    report.count(
        "page".to_string(),
        count(has_every_rule(&rules), "the example steps are not those of every-rule.ticket"),
    );
    report.count("page".to_string(), count(has_every_function(&judged), "the question has not the records of kind 11"));
    report.count("page".to_string(), count(has_every_kind(&more), "strings.ticket has not the records shown"));
    report.count("page".to_string(), count(whole.bytes.concat() == whole.ticket, "example4.ticket has other bytes"));
}

/// The bytes that stand in backquotes in the rows of the tables below a heading.
fn rows(page: &str, heading: &str) -> Vec<Vec<u8>> {
    let below = page.lines().skip_while(|line| *line != heading).skip(1);
    let section = below.take_while(|line| !line.starts_with("## "));
    section.filter(|line| line.starts_with('|')).filter_map(|line| bytes(line.split('`').nth(1)?)).collect()
}

/// Bytes in hexadecimal; nothing for other words.
fn bytes(words: &str) -> Option<Vec<u8>> {
    words.split(' ').map(|byte| u8::from_str_radix(byte, 16).ok().filter(|_| byte.len() == 2)).collect()
}

/// Each step shown is a record of the ticket, and every rule is among them.
fn has_every_rule(section: &Section) -> bool {
    let mut rules: Vec<u16> = section.bytes.iter().map(|step| u16_at(step, 6)).collect();
    rules.sort_unstable();
    rules == (1..=13).collect::<Vec<u16>>() && are_records(section)
}

/// Each row is a record of the question, of kind 11, and every function is among them.
fn has_every_function(section: &Section) -> bool {
    let mut functions: Vec<(u16, u16)> =
        section.bytes.iter().map(|record| (u16_at(record, 4), u16_at(record, 6))).collect();
    functions.sort_unstable();
    functions == [0, 1, 2, 3, 4].map(|function| (11, function)) && are_records(section)
}

/// Each row is a record of the ticket, and a literal, a string constraint, a claim and a step are among them.
fn has_every_kind(section: &Section) -> bool {
    let kinds: Vec<u16> = section.bytes.iter().map(|record| u16_at(record, 4)).collect();
    [2, 3, 5, 6].iter().all(|kind| kinds.contains(kind)) && are_records(section)
}

/// Whether all that is shown are whole records of the ticket.
fn are_records(section: &Section) -> bool {
    let mut records = Vec::new();
    let mut start = 0;
    while let Some(record) = record_at(&section.ticket, start) {
        records.push(&section.ticket[start..record.end]);
        start = record.end;
    }
    section.bytes.iter().all(|record| records.contains(&&record[..]))
}
