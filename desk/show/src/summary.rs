//! The outcome in one sentence, and which constraints took part.

use crate::account::{Account, State};
use crate::verdict::{Verdict, NONE};
use crate::words;

/// What is proved of the text and what is not.
pub const NOT_PROVED: &str = "this explanation is not proved; the proved checker's verdict, on the last line, is";

/// Where the account and the library differ.
pub const DIFFERS: &str = "this account does not agree with the proved checker, whose verdict holds: report it";

/// The verdict: the number, the record, its byte, and the case that applies.
pub fn summary(account: &Account, verdict: &Verdict) -> String {
    if !verdict.agrees(&account.outcome) {
        return format!("{}; {DIFFERS}", verdict.words());
    }
    let refused = account.entries.iter().find_map(|entry| match &entry.state {
        State::Refused(refusal) => Some((entry, refusal)),
        _ => None,
    });
    match (refused, verdict.reply.record) {
        (Some((entry, refusal)), _) => {
            let (record, byte) = (entry.number, words::number(entry.start as i128));
            format!("refused {} at record {record} (byte {byte}): {}", refusal.number, refusal.meaning)
        }
        (None, 1) => "accepted: no strings and no integers meet the question".to_string(),
        (None, _) => "accepted: the strings and integers of the answer meet the question".to_string(),
    }
}

/// Words before the constraints that took part.
pub const TOOK_PART: &str = "took part, by the proved checker: ";

/// Of a ticket that is accepted as without a solution, the constraints that took part, with their records.
pub fn partakers(account: &Account, verdict: &Verdict) -> Option<String> {
    if verdict.reply != NONE {
        return None;
    }
    let constraints = account.entries.iter().filter(|entry| matches!(entry.kind, Some(3 | 4)));
    let records: Vec<usize> = constraints.map(|entry| entry.number).collect();
    let core: Vec<usize> = verdict.core.iter().copied().filter(|k| *k < records.len()).collect();
    let run = |run: &[usize]| {
        let (first, last) = (run[0], run[run.len() - 1]);
        let places = words::range("record", records[first], records[last]);
        format!("{} of {places}", words::range("constraint", first, last))
    };
    let runs: Vec<String> = core.chunk_by(|one, next| one + 1 == *next).map(run).collect();
    let others = match records.len() - core.len() {
        _ if core.is_empty() => "no constraint",
        0 => ", every one there is",
        _ => "; without the others there is no solution either",
    };
    Some(format!("{TOOK_PART}{}{others}", runs.join(", ")))
}
