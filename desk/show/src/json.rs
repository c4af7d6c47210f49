//! An account as JSON for programs.

use crate::account::{Account, Begun, Entry, Note, State};
use crate::fields::{Field, HEADER};
use crate::layout::kind_name;
use crate::refusals::Refused;
use crate::summary::{summary, NOT_PROVED};
use crate::verdict::Verdict;
use crate::words::hex;

/// One object: the ticket's length, the outcome in a sentence, its records, and the proved checker's verdict.
pub fn json(account: &Account, verdict: &Verdict) -> String {
    let records: Vec<String> = account.entries.iter().map(entry).collect();
    let (strings, integers) = verdict.values();
    let said = object(&[
        ("text", string(&verdict.words())),
        ("number", verdict.reply.number.to_string()),
        ("record", verdict.reply.record.to_string()),
        ("strings", array(&strings, |text| array(text, u32::to_string))),
        ("integers", array(&integers, i128::to_string)),
        ("core", array(&verdict.core.iter().collect::<Vec<_>>(), |constraint| constraint.to_string())),
    ]);
    let agrees = verdict.agrees(&account.outcome);
    format!(
        "{{\"bytes\":{},\"summary\":{},\"note\":{},\"records\":[\n{}\n],\"account_agrees\":{agrees},\"verdict\":{said}}}\n",
        account.length,
        string(&summary(account, verdict)),
        string(NOT_PROVED),
        records.join(",\n")
    )
}

fn entry(entry: &Entry) -> String {
    let state = match &entry.state {
        State::Read => "read",
        State::Refused(_) => "refused",
        State::Listed => "not checked",
        State::BehindEnd => "behind the end",
    };
    let number = if matches!(entry.state, State::BehindEnd) { "null".to_string() } else { entry.number.to_string() };
    let mut members = vec![
        ("record", number),
        ("start", entry.start.to_string()),
        ("end", entry.end.to_string()),
        ("kind", entry.kind.map_or("null".to_string(), |kind| kind.to_string())),
        ("name", entry.kind.and_then(kind_name).map_or("null".to_string(), string)),
        ("whole", entry.whole.to_string()),
        ("depth", entry.depth.to_string()),
        ("state", string(state)),
        ("fields", array(&entry.fields, |one| field(entry.start, one))),
        ("not_decoded", string(&hex(&entry.undecoded))),
        ("notes", array(&entry.notes, note)),
    ];
    members.extend(entry.begun.as_ref().map(|child| ("begins", begun(child))));
    if let State::Refused(refusal) = &entry.state {
        members.push(("refused", refused(refusal)));
    }
    object(&members)
}

fn refused(refusal: &Refused) -> String {
    let mut members = vec![
        ("number", refusal.number.to_string()),
        ("meaning", string(&refusal.meaning)),
        ("reasons", array(&refusal.reasons, |reason| string(reason))),
    ];
    members.extend(refusal.branch.as_ref().map(|facts| ("branch", array(facts, note))));
    members.extend(refusal.also.as_ref().map(|words| ("also", string(words))));
    object(&members)
}

/// A field of the record that starts at a byte of the ticket.
fn field(start: usize, field: &Field) -> String {
    let mut members = vec![("name", string(&field.name))];
    members.extend(field.pair.map(|pair| ("pair", pair.to_string())));
    let at = (start + HEADER + field.at).to_string();
    members.extend([("form", string(field.form)), ("at", at), ("value", field.value.to_string())]);
    members.extend(field.meaning.as_ref().map(|words| ("meaning", string(words))));
    members.extend([("allowed", string(&field.allowed.words())), ("in_range", field.in_range().to_string())]);
    object(&members)
}

fn note(note: &Note) -> String {
    let what = if note.what.is_empty() { "words" } else { note.what };
    let mut members = vec![("what", string(what))];
    members.extend(note.number.map(|number| ("number", number.to_string())));
    members.extend(note.record.map(|record| ("record", record.to_string())));
    members.push(("text", string(&note.text)));
    object(&members)
}

fn begun(begun: &Begun) -> String {
    object(&[
        ("child", begun.child.to_string()),
        ("children", begun.children.to_string()),
        ("split", begun.split.to_string()),
        ("depth", begun.depth.to_string()),
        ("notes", array(&begun.notes, note)),
    ])
}

pub fn object(members: &[(&str, String)]) -> String {
    let members: Vec<String> = members.iter().map(|(name, value)| format!("{}:{value}", string(name))).collect();
    format!("{{{}}}", members.join(","))
}

pub fn array<T>(items: &[T], write: impl Fn(&T) -> String) -> String {
    format!("[{}]", items.iter().map(write).collect::<Vec<_>>().join(","))
}

/// A string with quotation marks, backslashes and control characters escaped.
pub fn string(text: &str) -> String {
    let mut quoted = String::from("\"");
    for character in text.chars() {
        match character {
            '"' => quoted += "\\\"",
            '\\' => quoted += "\\\\",
            control if control < ' ' => quoted += &format!("\\u{:04x}", control as u32),
            other => quoted.push(other),
        }
    }
    quoted + "\""
}
