//! Words as HTML.

use crate::Line;
use show::account::Note;
use show::words::hex;

/// Words with everything escaped that HTML reads otherwise.
pub fn escaped(words: &str) -> String {
    let mut safe = String::with_capacity(words.len());
    for one in words.chars() {
        match one {
            '&' => safe += "&amp;",
            '<' => safe += "&lt;",
            '>' => safe += "&gt;",
            '"' => safe += "&quot;",
            '\'' => safe += "&#39;",
            control if control.is_control() => safe.push('\u{fffd}'),
            plain => safe.push(plain),
        }
    }
    safe
}

/// A fact where it is added: its number, and what it says.
pub fn fact(number: usize, words: &str) -> String {
    format!("<b class=\"fact\" data-fact=\"{number}\">{number}</b> <span class=\"says\">{}</span>", escaped(words))
}

/// `line 7: donor != recipient`
pub fn line(line: &Line) -> String {
    format!("<span class=\"line\">line {}: {}</span>", line.number, escaped(&line.text))
}

/// A fact where it is named, with a link to the record that it comes from.
pub fn reference(number: usize, record: Option<usize>) -> String {
    match record {
        Some(record) => format!("<a class=\"named\" href=\"#r{record}\">[{number}]</a>"),
        None => format!("<span class=\"named\">[{number}]</span>"),
    }
}

/// A line about a record.
pub fn note(note: &Note) -> String {
    let words = escaped(&note.text);
    match (note.what, note.number) {
        ("uses fact", Some(number)) => format!("uses {} {words}", reference(number, note.record)),
        ("fact", Some(number)) => format!("{} {words}", reference(number, note.record)),
        ("child", Some(number)) => format!("child {number}: {words}"),
        (what, Some(number)) => format!("{} {number}: {words}", escaped(what)),
        _ => words,
    }
}

/// How many bytes that are not decoded are shown.
const SHOWN_BYTES: usize = 64;

/// Bytes in hexadecimal, the first ones where there are many.
pub fn bytes(bytes: &[u8]) -> String {
    match bytes.len() {
        many if many > SHOWN_BYTES => format!("{} .. ({many} bytes)", hex(&bytes[..SHOWN_BYTES])),
        _ => hex(bytes),
    }
}

/// A list with a class; nothing for no items.
pub fn list(class: &str, items: &[String]) -> String {
    let items: String = items.iter().map(|item| format!("<li>{item}</li>\n")).collect();
    match items.is_empty() {
        true => String::new(),
        false => format!("<ul class=\"{class}\">\n{items}</ul>\n"),
    }
}
