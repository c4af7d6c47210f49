//! Texts with pieces put in, left out or doubled: they are read or not, and what is read is of proper form.

use crate::{count, files, read};
use compare::check;
use compare::random::Random;
use compare::report::Report;
use std::path::Path;
use text::{ticket_text, Mistake, Names, Written};
use ticket::{Question, Ticket, MOST_BYTES};

/// How many texts are spoilt.
const SPOILT: u64 = 4_000;

/// Pieces that have a meaning somewhere, and some that have none.
const PIECES: [&str; 32] = [
    "\n",
    " ",
    "#",
    "\"",
    "'",
    "\\",
    "\\u{41}",
    "[",
    "]",
    "(",
    ")",
    ":",
    "*",
    "-",
    "+",
    "<=",
    "!=",
    "=",
    "x0",
    "i0",
    "len(",
    "0",
    "1",
    "1000000000",
    "9223372036854775807",
    "over 2",
    "child 1",
    "claim strings\n",
    "model\n",
    "literal \"q\"\n",
    "upper(x0)",
    "é",
];

/// The office's questions and grown tickets, each spoilt in one to four places.
pub fn compare(root: &Path, report: &mut Report) {
    let office = files(&root.join("examples/office"));
    let office: Vec<String> = office.iter().filter_map(|path| String::from_utf8(read(path)).ok()).collect();
    for seed in 0..SPOILT {
        let mut random = Random::new(seed);
        let text = match Ticket::from_bytes(&check::grow(&mut random)) {
            Ok(ticket) if random.chance(50) => ticket_text(&ticket, &Names::plain(&ticket.question)),
            _ => office[random.below(office.len())].clone(),
        };
        let spoilt = spoil(&mut random, &text);
        let (label, holds) = match text::read(&spoilt) {
            Ok(written) => ("spoilt text, read", is_proper(&written)),
            Err(mistake) => ("spoilt text, not read", stands_within(&mistake, &spoilt)),
        };
        count(report, label, holds, || format!("{:?}\n{spoilt}", text::read(&spoilt)));
    }
}

fn spoil(random: &mut Random, text: &str) -> String {
    let mut characters: Vec<char> = text.chars().collect();
    for _ in 0..1 + random.below(4) {
        let from = random.below(characters.len() + 1);
        let to = (from + random.below(4)).min(characters.len());
        let piece: Vec<char> = match random.below(3) {
            0 => Vec::new(),
            1 => characters[from..to].repeat(2),
            _ => random.pick(&PIECES).chars().collect(),
        };
        characters.splice(from..to, piece);
    }
    characters.into_iter().collect()
}

/// What was read is what its bytes say.
fn is_proper(written: &Written) -> bool {
    let (bytes, question) = (written.to_bytes(), written.question.clone());
    match &written.claim {
        _ if bytes.len() > MOST_BYTES => true,
        None => Question::from_bytes(&bytes) == Ok(question),
        Some(claim) => Ticket::from_bytes(&bytes) == Ok(Ticket { question, claim: claim.clone() }),
    }
}

/// The line is one of the text, and the column one of the line or the one behind it.
fn stands_within(mistake: &Mistake, text: &str) -> bool {
    let line = mistake.line.checked_sub(1).and_then(|place| text.lines().nth(place));
    line.is_some_and(|line| (1..=line.chars().count() + 1).contains(&mistake.column))
}
