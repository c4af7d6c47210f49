//! The head of a page: what is proved, and what is only drawn.

use crate::html::{escaped, line, list};
use crate::Line;
use show::account::Account;
use show::summary::{partakers, summary, DIFFERS};
use show::verdict::{Verdict, NONE};
use show::words;
use std::collections::BTreeMap;

const PROVED: &str = "Proved: this verdict, which the proved library gave on the bytes of this ticket";
const DRAWN: &str = "Only drawn: everything else on this page. The drawing is made by a program that is not proved.";

pub fn head(name: &str, account: &Account, verdict: &Verdict, lines: &[Option<Line>]) -> String {
    let accepted = verdict.reply.number == 0;
    let class = if accepted { "accepted" } else { "turned-back" };
    let what = match (accepted, verdict.reply == NONE) {
        (true, true) => ", and that the constraints marked <mark>took part</mark> have no solution by themselves.",
        (true, false) => ", and that these values meet the question.",
        (false, _) => ".",
    };
    format!(
        "<header class=\"{class}\">\n<h1>{}</h1>\n<p class=\"verdict\">The proved library says: <strong>{}</strong> \
         <small>{}</small></p>\n{}<p>{}</p>\n{}\
         <p class=\"trust\">{PROVED}{what} {DRAWN}</p>\n{}{}</header>\n",
        escaped(name),
        answer(verdict),
        escaped(&verdict.words()),
        partaking(verdict, lines),
        escaped(&sentence(account, verdict)),
        values(verdict),
        differs(account, verdict),
        TOOLS
    )
}

/// The verdict in words.
fn answer(verdict: &Verdict) -> &'static str {
    match (verdict.reply.number, verdict.reply == NONE) {
        (0, true) => "no record meets these conditions",
        (0, false) => "these values meet all conditions",
        _ => "the ticket is refused",
    }
}

/// The lines that took part, each once.
fn partaking(verdict: &Verdict, lines: &[Option<Line>]) -> String {
    let took_part = verdict.core.iter().filter_map(|number| lines.get(*number)?.as_ref());
    let by_number: BTreeMap<usize, String> = took_part.map(|source| (source.number, line(source))).collect();
    match by_number.is_empty() {
        true => String::new(),
        false => {
            let lines: Vec<String> = by_number.into_values().collect();
            format!("<p>These lines took part:</p>\n{}", list("lines", &lines))
        }
    }
}

/// Shown by the script, which they are of no use without.
const TOOLS: &str = "<p id=\"tools\" hidden><button type=\"button\" id=\"open-all\">open all</button> \
                     <button type=\"button\" id=\"close-all\">close all</button></p>\n";

/// The outcome: a refusal in the library's words.
fn sentence(account: &Account, verdict: &Verdict) -> String {
    match verdict.reply.number {
        0 => {
            let took_part = partakers(account, verdict).map_or(String::new(), |words| format!("; {words}"));
            format!("{}{took_part}", summary(account, verdict))
        }
        number => format!("record {}: {}", verdict.reply.record, library::refusal(number)),
    }
}

/// The library's answer.
fn values(verdict: &Verdict) -> String {
    let (strings, integers) = verdict.values();
    let strings = strings.iter().enumerate();
    let strings = strings.map(|(x, text)| escaped(&format!("{} = {}", words::variable(x), words::text(text))));
    let integers = integers
        .iter()
        .enumerate()
        .map(|(i, value)| escaped(&format!("{} = {}", words::integer(i), words::number(*value))));
    list("answer", &strings.chain(integers).collect::<Vec<_>>())
}

fn differs(account: &Account, verdict: &Verdict) -> String {
    match verdict.agrees(&account.outcome) {
        true => String::new(),
        false => format!("<p class=\"refused\">{}</p>\n", escaped(DIFFERS)),
    }
}
