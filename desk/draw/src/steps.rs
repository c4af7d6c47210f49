//! One step as a node: its rule and what it adds in a line, why it fits below it.

use crate::html::{bytes, escaped, fact, list, note, reference};
use show::account::{Entry, Note, State};
use show::fields::Field;
use show::words;

/// The rules that are told otherwise than by their operands: Sum, and Branch, whose form its children show.
const SUM: i128 = 1;
const BRANCH: i128 = 2;

/// The node of a step. `refused` is what is said of a refused one.
pub fn step(entry: &Entry, refused: &str) -> String {
    let class = if refused.is_empty() { "step" } else { "step bad" };
    let (facts, others): (Vec<&Note>, Vec<&Note>) = entry.notes.iter().partition(|note| note.what == "adds fact");
    let facts: Vec<String> = facts.iter().map(|added| fact(added.number.unwrap_or_default(), &added.text)).collect();
    let notes: Vec<String> = others.into_iter().map(note).collect();
    format!(
        "<details class=\"{class}\" id=\"r{number}\" open>\n<summary><span class=\"record\">{number}</span> {} {}</summary>\n{}{refused}</details>\n",
        title(entry),
        effect(entry, &facts),
        list("notes", &notes),
        number = entry.number,
    )
}

/// The rule and its operands.
fn title(entry: &Entry) -> String {
    let Some((rule, rest)) = entry.fields.split_first() else {
        return format!("<b class=\"rule\">step</b> {}", bytes(&entry.undecoded));
    };
    let name = rule.meaning.clone().unwrap_or_else(|| format!("rule {}", rule.value));
    let operands = rest.get(1..).unwrap_or_default();
    let told = match rule.value {
        SUM => sum(entry, operands),
        BRANCH => String::new(),
        _ => operands.iter().map(|field| operand(entry, field)).collect::<Vec<_>>().join(", "),
    };
    format!("<b class=\"rule\">{}</b> {told}", escaped(&name))
}

/// A fact with its link, or what a field stands for.
fn operand(entry: &Entry, field: &Field) -> String {
    match (&field.meaning, usize::try_from(field.value)) {
        (Some(meaning), _) => escaped(meaning),
        (None, Ok(number)) if field.name.ends_with("fact") => named(entry, number),
        _ => words::number(field.value),
    }
}

fn named(entry: &Entry, number: usize) -> String {
    let uses = entry.notes.iter().find(|note| note.what == "uses fact" && note.number == Some(number));
    reference(number, uses.and_then(|note| note.record))
}

/// `2·[3] − [4], over 2`
fn sum(entry: &Entry, operands: &[Field]) -> String {
    let (pairs, plain): (Vec<&Field>, Vec<&Field>) = operands.iter().partition(|field| field.pair.is_some());
    let mut told = String::new();
    for pair in pairs.chunks_exact(2) {
        let (fact, times) = (operand(entry, pair[0]), pair[1].value);
        told += match (told.is_empty(), times < 0) {
            (true, false) => "",
            (true, true) => "−",
            (false, false) => " + ",
            (false, true) => " − ",
        };
        told += &match times.abs() {
            1 => fact,
            size => format!("{}·{fact}", words::number(size)),
        };
    }
    match plain.first() {
        Some(divisor) if divisor.value != 1 => format!("{told}, over {}", words::number(divisor.value)),
        _ => told,
    }
}

/// What a step does on the branch.
fn effect(entry: &Entry, facts: &[String]) -> String {
    let says = |start: &str| entry.notes.iter().any(|note| note.what.is_empty() && note.text.starts_with(start));
    let child = entry.fields.get(1).map_or(0, |field| field.value);
    match &entry.state {
        State::Refused(refusal) => format!("<strong class=\"end\">refused {}</strong>", refusal.number),
        _ if says("CLOSES") => "<span class=\"end\">closes the branch</span>".to_string(),
        _ => match &entry.begun {
            Some(begun) => format!("<span class=\"end\">splits into {} children</span>", begun.children),
            None if says("has ") => format!("<span class=\"end\">child {child}:</span> {}", facts.join(", ")),
            None => format!("<span class=\"end\">adds</span> {}", facts.join(", ")),
        },
    }
}
