//! An account as text for a pager.

use crate::account::{Account, Begun, Entry, Note, State};
use crate::fields::Field;
use crate::layout::kind_name;
use crate::refusals::Refused;
use crate::summary::{partakers, summary, DIFFERS, NOT_PROVED};
use crate::verdict::Verdict;
use crate::words;

/// The width of the text, how far a split is indented, and how many splits are.
pub const WIDTH: usize = 100;
const STEP: usize = 2;
const DEEPEST: usize = 12;

/// How many bytes that are not decoded are shown, at the refused record and behind it.
const SHOWN_BYTES: usize = 64;
const LISTED_BYTES: usize = 12;

/// How many facts of a branch are shown one and all, and how many of the last where there are more.
const MANY_FACTS: usize = 12;
const LAST_FACTS: usize = 6;

/// A space within a field or before the 0 of a fact, where no line is broken.
const UNBROKEN: &str = "\u{a0}";

/// Words before the verdict on the last line.
pub const SAYS: &str = "the proved checker says: ";

/// Words that are explained where they stand first.
const TERMS: [(&str, &str); 4] = [
    ("≈", "the same string as"),
    ("≉", "another string than"),
    ("class", "the variables and literals that a chain of the branch's ≈ facts joins"),
    ("leaf", "the facts that stand at the model; docs/FORMAT.md, \"Model and answer\", says when a model settles it"),
];

/// The whole account; the last line is the proved checker's verdict.
pub fn text(account: &Account, verdict: &Verdict) -> String {
    let mut page = Page::default();
    let length = words::count(account.length, "byte");
    page.line(0, &format!("a ticket of {length}"));
    page.line(0, &summary(account, verdict));
    page.line(0, &format!("({NOT_PROVED})"));
    page.line(0, "");
    let mut entries = &account.entries[..];
    while let Some(entry) = entries.first() {
        let alike = entries.iter().take_while(|other| is_alike(entry, other)).count().max(1);
        page.entries(entry, &entries[alike - 1]);
        entries = &entries[alike..];
    }
    if !verdict.agrees(&account.outcome) {
        page.line(0, DIFFERS);
    }
    page.line(0, "");
    partakers(account, verdict).iter().for_each(|words| page.line(0, words));
    page.line(0, &format!("{SAYS}{}", verdict.words()));
    page.text
}

/// Records with the same bytes that say the same, each of them about one new fact at most, stand together.
fn is_alike(entry: &Entry, other: &Entry) -> bool {
    let alike = match (&entry.state, &other.state) {
        (State::Listed, State::Listed) => entry.undecoded == other.undecoded,
        (State::Read, State::Read) => {
            let values = |entry: &Entry| entry.fields.iter().map(|field| field.value).collect::<Vec<_>>();
            values(entry) == values(other)
                && said(entry) == said(other)
                && said(entry).iter().filter(is_new).count() < 2
        }
        _ => false,
    };
    alike && entry.kind == other.kind && entry.whole == other.whole
}

/// What an entry says apart from the numbers of new facts.
fn said(entry: &Entry) -> Vec<(&'static str, Option<usize>, &str)> {
    let begun = entry.begun.iter().flat_map(|begun| &begun.notes);
    entry.notes.iter().chain(begun).map(|note| (note.what, note.record, &note.text[..])).collect()
}

fn is_new(said: &&(&str, Option<usize>, &str)) -> bool {
    ["fact", "adds fact"].contains(&said.0)
}

/// The place and kind of the records from one to another: `record 3, bytes 14–37, claim`.
fn head(first: &Entry, last: &Entry) -> String {
    let place = bytes(first.start, last.end);
    if matches!(first.state, State::BehindEnd) {
        return format!("{place}, behind the end record");
    }
    let records = words::range("record", first.number, last.number);
    let each = if first.number == last.number { "," } else { ", each:" };
    format!("{records}, {place}{each} {}", kind_words(first))
}

/// `bytes 14–37`
fn bytes(start: usize, end: usize) -> String {
    let byte = |place: usize| words::number(place as i128);
    match end - start {
        0 => format!("at byte {}", byte(start)),
        1 => format!("byte {}", byte(start)),
        _ => format!("bytes {}–{}", byte(start), byte(end - 1)),
    }
}

/// The name of an entry's kind, with its number where the record is refused for it.
fn kind_words(entry: &Entry) -> String {
    let name = match entry.kind {
        None if entry.undecoded.is_empty() => return "missing".to_string(),
        None => "no kind".to_string(),
        Some(kind) => match (kind_name(kind), &entry.state) {
            (None, _) => format!("kind {} (unknown)", words::number(i128::from(kind))),
            (Some(name), State::Refused(refusal)) if refusal.number == 4 => format!("{name} (kind {kind})"),
            (Some(name), _) => name.to_string(),
        },
    };
    if entry.whole {
        name
    } else {
        format!("{name}, cut short")
    }
}

/// The bytes that are not decoded, after the words for them; of a body, unless not even a kind is there.
fn not_decoded(entry: &Entry, most: usize) -> String {
    let what = match entry.state {
        State::BehindEnd => "",
        _ if entry.kind.is_none() => "not decoded: ",
        _ => "body not decoded: ",
    };
    format!("{what}{}", shortened(&entry.undecoded, most))
}

/// Bytes in hexadecimal, the first ones where there are many.
fn shortened(bytes: &[u8], most: usize) -> String {
    if bytes.len() <= most {
        return words::hex(bytes);
    }
    format!("{} .. ({} bytes)", words::hex(&bytes[..most]), words::number(bytes.len() as i128))
}

/// Fields one after another, pairs behind the others: by their values, or by name where a field is at fault.
fn fields(entry: &Entry) -> String {
    let (pairs, plain): (Vec<&Field>, Vec<&Field>) = entry.fields.iter().partition(|field| field.pair.is_some());
    let mut parts = vec![named(&plain)];
    let at_fault = entry.fields.iter().any(|field| !field.in_range());
    if let ([first, second, ..], false) = (&pairs[..], at_fault) {
        let values: Vec<String> = pairs.chunks(2).map(pair_values).collect();
        let names = unbroken(&format!("pairs ({}, {}): ", first.name, second.name));
        parts.push(format!("{names}{}", values.join(" ")));
    } else {
        let pair = |(place, pair): (usize, &[&Field])| unbroken(&format!("pair {}: ", place + 1)) + &named(pair);
        parts.extend(pairs.chunks(2).enumerate().map(pair));
    }
    parts.join("; ")
}

/// Fields by name.
fn named(fields: &[&Field]) -> String {
    fields.iter().map(|field| unbroken(&field.words())).collect::<Vec<_>>().join(", ")
}

/// The values of a pair: `(0, −1)`.
fn pair_values(pair: &[&Field]) -> String {
    let values: Vec<String> = pair.iter().map(|field| words::number(field.value)).collect();
    unbroken(&format!("({})", values.join(", ")))
}

/// Words that stand on one line.
fn unbroken(words: &str) -> String {
    words.replace(' ', UNBROKEN)
}

/// A note of the first of several records with the number that it has at the last: `adds fact 3: ..`, `facts 3 to 7, each: ..`, or its words alone.
fn note(note: &Note, last: &Note) -> String {
    let record = note.record.map_or(String::new(), |record| format!(" of record {record}"));
    match (note.number, last.number) {
        (Some(first), Some(last)) if first < last => {
            format!("{}, each{record}: {}", words::range(note.what, first, last), note.text)
        }
        (Some(number), _) => format!("{} {number}{record}: {}", note.what, note.text),
        _ => note.text.clone(),
    }
}

/// Children and the values of an answer stand below the words that introduce them.
fn note_indent(note: &Note) -> usize {
    match note.what {
        "child" | "value" => STEP,
        _ => 0,
    }
}

/// Lines that are wrapped at the width, and the terms that were explained.
#[derive(Default)]
struct Page {
    text: String,
    explained: Vec<&'static str>,
    listing: bool,
}

impl Page {
    /// The records from one to another, which say the same.
    fn entries(&mut self, first: &Entry, last: &Entry) {
        match first.state {
            State::Listed | State::BehindEnd => self.listed(first, last),
            _ => {
                let start = self.text.len();
                self.entry(first, last);
                self.explain(STEP * first.depth.min(DEEPEST) + 4, start);
                last.begun.iter().for_each(|begun| self.begun(first, begun));
            }
        }
    }

    /// What stands behind the refused record.
    fn listed(&mut self, first: &Entry, last: &Entry) {
        if !self.listing && matches!(first.state, State::Listed) {
            self.line(0, "not checked, as it stands behind the refused record:");
            self.listing = true;
        }
        let body = not_decoded(first, LISTED_BYTES);
        let body = if first.undecoded.is_empty() { String::new() } else { format!(": {body}") };
        let notes: String = first.notes.iter().map(|note| format!("; {}", note.text)).collect();
        self.line(0, &format!("{}{body}{notes}", head(first, last)));
    }

    fn entry(&mut self, first: &Entry, last: &Entry) {
        let indent = STEP * first.depth.min(DEEPEST);
        let mut head = head(first, last);
        let told = first.notes.iter().any(|note| note.number.is_some()) && matches!(first.kind, Some(2 | 7));
        if !first.fields.is_empty() && !told {
            head += &format!(": {}", fields(first));
        }
        self.line(indent, &head);
        if !first.undecoded.is_empty() {
            self.line(indent + 4, &not_decoded(first, SHOWN_BYTES));
        }
        self.notes(indent + 4, &first.notes, &last.notes);
        if let State::Refused(refusal) = &first.state {
            self.refused(indent + 4, refusal);
        }
    }

    fn refused(&mut self, indent: usize, refusal: &Refused) {
        self.line(indent, &format!("REFUSED {}: {}", refusal.number, refusal.meaning));
        refusal.reasons.iter().for_each(|reason| self.line(indent + 4, reason));
        refusal.branch.iter().for_each(|facts| self.branch(indent + 4, facts));
        refusal.also.iter().for_each(|words| self.line(indent + 4, words));
    }

    /// The facts that stand on a branch, the last of them where there are many.
    fn branch(&mut self, indent: usize, facts: &[Note]) {
        let shown = if facts.len() > MANY_FACTS { &facts[facts.len() - LAST_FACTS..] } else { facts };
        let which = match facts.len() {
            0 => "no facts".to_string(),
            1 => "fact 0 alone:".to_string(),
            all if all > shown.len() => format!("{all} facts, 0 to {}; the last {}:", all - 1, shown.len()),
            all => format!("{all} facts, 0 to {}:", all - 1),
        };
        self.line(indent, &format!("the branch has {which}"));
        self.notes(indent + STEP, shown, shown);
    }

    /// Explains the terms that stand in the text from a place on for the first time.
    fn explain(&mut self, indent: usize, start: usize) {
        let new =
            |(term, _): &&(&'static str, &str)| self.text[start..].contains(term) && !self.explained.contains(term);
        let terms: Vec<_> = TERMS.iter().filter(new).collect();
        for (term, meaning) in terms {
            self.explained.push(term);
            self.line(indent, &format!("({term}: {meaning})"));
        }
    }

    /// The child that is worked from here on, of the splits from one to another.
    fn begun(&mut self, first: &Entry, begun: &Begun) {
        let indent = STEP * begun.depth.min(DEEPEST);
        let deep = if begun.depth > DEEPEST { format!(", {} splits deep", begun.depth) } else { String::new() };
        let splits = match &first.begun {
            Some(other) if other.split < begun.split => {
                format!("each of {}", words::range("record", other.split, begun.split))
            }
            _ => format!("record {}", begun.split),
        };
        self.line(indent, &format!("-- child {} of {} of {splits}{deep}", begun.child, begun.children));
        let notes = first.begun.as_ref().map_or(&begun.notes, |other| &other.notes);
        self.notes(indent + 4, notes, &begun.notes);
    }

    fn notes(&mut self, indent: usize, notes: &[Note], last: &[Note]) {
        notes.iter().zip(last).for_each(|(one, last)| self.line(indent + note_indent(one), &note(one, last)));
    }

    /// One line, broken at spaces; what is broken off stands further in.
    fn line(&mut self, indent: usize, words: &str) {
        let mut line = " ".repeat(indent);
        let mut room = WIDTH - indent;
        let together = ["≥ 0", "= 0", "≠ 0", "u16 ", "u32 ", "i32 "];
        let words = together.iter().fold(words.to_string(), |words, one| words.replace(one, &unbroken(one)));
        for (place, word) in words.split(' ').flat_map(cut).enumerate() {
            let needed = word.chars().count() + usize::from(place > 0);
            if needed > room {
                self.text += &format!("{}\n", line.trim_end());
                line = " ".repeat(indent + 4);
                room = WIDTH - indent - 4;
            } else if place > 0 {
                line.push(' ');
                room -= 1;
            }
            room = room.saturating_sub(word.chars().count());
            line += &word.replace(UNBROKEN, " ");
        }
        self.text += &format!("{}\n", line.trim_end());
    }
}

/// A word in pieces that fit a line at any depth.
fn cut(word: &str) -> Vec<String> {
    let letters: Vec<char> = word.chars().collect();
    match letters.len() {
        0 => vec![String::new()],
        _ => letters.chunks(WIDTH - STEP * DEEPEST - 12).map(|piece| piece.iter().collect()).collect(),
    }
}
