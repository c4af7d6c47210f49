//! The account of a ticket: an entry for each record, with what it says and what it does on the branch.

use crate::fields::{fields_of, Field, HEADER};
use crate::refusals::Refused;
use crate::standing::Dropped;
use crate::{malformed, reading, refusals, steps, words};
use nuldwich_reference::checking::{Outcome, Ticket, LONGEST_TICKET};
use nuldwich_reference::derivation::Derivation;
use nuldwich_reference::facts::Fact;
use nuldwich_reference::records::{kind_at, record_at, Record};
use std::collections::BTreeMap;

/// A ticket's records and the outcome that the reference gives.
pub struct Account {
    pub length: usize,
    pub entries: Vec<Entry>,
    pub outcome: Outcome,
}

/// One record, or bytes that are not a whole one.
pub struct Entry {
    pub number: usize,
    pub start: usize,
    pub end: usize,
    pub kind: Option<u16>,
    pub whole: bool,
    /// How many splits enclose the record.
    pub depth: usize,
    /// Empty where the bytes cannot be read as fields; `undecoded` has them then.
    pub fields: Vec<Field>,
    pub undecoded: Vec<u8>,
    pub notes: Vec<Note>,
    pub begun: Option<Begun>,
    pub state: State,
}

/// What became of a record.
pub enum State {
    Read,
    Refused(Refused),
    /// It stands behind the refused record and is not checked.
    Listed,
    /// No record, but all bytes behind an end.
    BehindEnd,
}

/// A line about a record: `adds fact 3: ..`, `uses fact 0 of record 2: ..`, or words alone.
#[derive(Clone)]
pub struct Note {
    pub what: &'static str,
    pub number: Option<usize>,
    pub record: Option<usize>,
    pub text: String,
}

/// A child of a split that is worked from here on.
pub struct Begun {
    pub split: usize,
    pub child: usize,
    pub children: usize,
    pub depth: usize,
    pub notes: Vec<Note>,
}

/// A split that encloses the branch: where it stands, its mark, and which of its children is worked.
#[derive(Clone)]
pub struct Open {
    pub record: usize,
    pub mark: usize,
    pub children: usize,
    pub worked: usize,
}

/// What was read before a record, and where the record stands.
pub struct Scene<'a> {
    pub ticket: &'a Ticket,
    pub open: &'a [Open],
    /// The record that each fact of the branch comes from.
    pub sources: &'a [usize],
    /// Under claim 2, the steps of which one child among several was taken.
    pub taken: &'a [usize],
    /// The facts that were cut back, each by the number that it had last.
    pub dropped: &'a BTreeMap<usize, Dropped>,
    pub number: usize,
    pub start: usize,
    pub bytes: &'a [u8],
}

impl Note {
    pub fn words(text: impl Into<String>) -> Note {
        Note { what: "", number: None, record: None, text: text.into() }
    }

    pub fn numbered(what: &'static str, number: usize, text: String) -> Note {
        Note { what, number: Some(number), record: None, text }
    }
}

impl Scene<'_> {
    /// The branch where a step stands; none before the claim.
    pub fn branch(&self) -> &[Fact] {
        self.ticket.derivation.as_ref().map_or(&[], |derivation| &derivation.branch)
    }

    /// A fact of the branch with the record that it comes from: `fact 3 of record 7`.
    pub fn fact_name(&self, number: usize) -> String {
        format!("fact {number} of record {}", self.sources[number])
    }

    /// A fact of the branch in words; it was written out where it was added.
    pub fn fact_words(&self, number: usize) -> String {
        words::known_fact(&self.ticket.question, &self.branch()[number])
    }
}

/// Reads a ticket record by record; a ticket that is too long is listed without being looked at.
pub fn account(bytes: &[u8]) -> Account {
    let mut walk = Walk::of(bytes);
    let outcome = if bytes.len() > LONGEST_TICKET { walk.refuse_length() } else { walk.run() };
    Account { length: bytes.len(), entries: walk.entries, outcome }
}

struct Walk<'a> {
    bytes: &'a [u8],
    ticket: Ticket,
    open: Vec<Open>,
    sources: Vec<usize>,
    taken: Vec<usize>,
    dropped: BTreeMap<usize, Dropped>,
    entries: Vec<Entry>,
}

impl Walk<'_> {
    fn of(bytes: &[u8]) -> Walk<'_> {
        Walk {
            bytes,
            ticket: Ticket::default(),
            open: Vec::new(),
            sources: Vec::new(),
            taken: Vec::new(),
            dropped: BTreeMap::new(),
            entries: Vec::new(),
        }
    }

    /// "Records are read one after another from the lent bytes."
    fn run(&mut self) -> Outcome {
        let mut start = 0;
        let mut number = 0;
        while let Some(record) = record_at(self.bytes, start) {
            if let Err(refusal) = self.take(number, start, &record) {
                self.list_behind(number, &record);
                return Outcome::Refused { number: refusal, record: number };
            }
            if record.kind == 8 {
                return self.ticket.clone().accepted();
            }
            start = record.end;
            number += 1;
        }
        let mut entry = self.rest(number, start);
        entry.state = State::Refused(malformed::cut_short(&self.scene(number, start)));
        self.entries.push(entry);
        Outcome::Refused { number: 3, record: number }
    }

    /// "2 when the ticket is too long": nothing of it is looked at.
    fn refuse_length(&mut self) -> Outcome {
        self.list_rest(0, 0);
        if let Some(first) = self.entries.first_mut() {
            first.state = State::Refused(malformed::too_long(self.bytes.len()));
        }
        Outcome::Refused { number: 2, record: 0 }
    }

    fn scene(&self, number: usize, start: usize) -> Scene<'_> {
        Scene {
            ticket: &self.ticket,
            open: &self.open,
            sources: &self.sources,
            taken: &self.taken,
            dropped: &self.dropped,
            number,
            start,
            bytes: self.bytes,
        }
    }

    /// Takes one whole record and writes its entry.
    fn take(&mut self, number: usize, start: usize, record: &Record) -> Result<(), u64> {
        let mut after = self.ticket.clone();
        let result = after.take(record, self.bytes.len());
        let mut entry = self.whole(number, start, record);
        let scene = self.scene(number, start);
        match result {
            Ok(()) => {
                entry.fields = fields_of(&self.ticket, record.kind, record.body).unwrap_or_default();
                entry.notes = reading::notes(&scene, &after, record);
                self.move_on(record, after, &mut entry);
            }
            Err(refusal) => {
                entry.notes = reading::notes_of_refused(&scene, refusal, record);
                entry.state = State::Refused(refusals::refused(&scene, refusal, record));
                match fields_of(&self.ticket, record.kind, record.body) {
                    Some(fields) if refusal >= 6 => entry.fields = fields,
                    _ => entry.undecoded = record.body.to_vec(),
                }
            }
        }
        self.entries.push(entry);
        result
    }

    /// Keeps what stands after a record that was read.
    fn move_on(&mut self, record: &Record, after: Ticket, entry: &mut Entry) {
        match record.kind {
            3 | 4 => self.sources.push(entry.number),
            6 => self.take_step(record.body, &after, entry),
            _ => {}
        }
        self.ticket = after;
    }

    /// The facts that a step adds, or the child that begins behind it.
    fn take_step(&mut self, body: &[u8], after: &Ticket, entry: &mut Entry) {
        if steps::closes(body) {
            return self.close(after, entry);
        }
        let mark = derivation_of(&self.ticket).branch.len();
        let children = steps::children(&self.ticket, body).len();
        if children > 1 && after.claim == 1 {
            self.open.push(Open { record: entry.number, mark, children, worked: 1 });
            return self.begin(after, entry);
        }
        if children > 1 {
            self.taken.push(entry.number);
        }
        entry.notes.extend(added(after, mark));
        self.sources.resize(derivation_of(after).branch.len(), entry.number);
    }

    /// A closing step: what it drops, and what is next.
    fn close(&mut self, after: &Ticket, entry: &mut Entry) {
        let mark = self.next_child(derivation_of(after).closed);
        let Some(open) = self.open.last() else {
            return entry.notes.push(Note::words("CLOSES the branch; it was the last one: every branch is closed"));
        };
        let (child, split) = (open.worked, open.record);
        let facts = words::range("fact", mark, self.sources.len() - 1);
        let verb = if mark + 1 == self.sources.len() { "is" } else { "are" };
        let text = format!("CLOSES the branch: {facts} {verb} dropped; next: child {child} of record {split}");
        entry.notes.push(Note::words(text));
        for number in mark..self.sources.len() {
            let scene = self.scene(entry.number, entry.start);
            let gone = Dropped { source: self.sources[number], text: scene.fact_words(number), by: entry.number };
            self.dropped.insert(number, gone);
        }
        self.begin(after, entry);
    }

    /// The child of the last open split that is worked from here on.
    fn begin(&mut self, after: &Ticket, entry: &mut Entry) {
        let Some(open) = self.open.last() else { return };
        self.sources.truncate(open.mark);
        self.sources.resize(derivation_of(after).branch.len(), open.record);
        entry.begun = Some(Begun {
            split: open.record,
            child: open.worked,
            children: open.children,
            depth: self.open.len(),
            notes: added(after, open.mark),
        });
    }

    /// "a closed branch is cut back to the mark of its last pending split", whose next child begins.
    fn next_child(&mut self, closed: bool) -> usize {
        while self.open.last().is_some_and(|open| closed || open.worked == open.children) {
            self.open.pop();
        }
        match self.open.last_mut() {
            Some(open) => {
                open.worked += 1;
                open.mark
            }
            None => 0,
        }
    }

    /// An entry for a whole record.
    fn whole(&self, number: usize, start: usize, record: &Record) -> Entry {
        Entry {
            number,
            start,
            end: record.end,
            kind: Some(record.kind),
            whole: true,
            depth: self.open.len(),
            fields: Vec::new(),
            undecoded: Vec::new(),
            notes: Vec::new(),
            begun: None,
            state: State::Read,
        }
    }

    /// An entry for all bytes from a place on, which are no whole record.
    fn rest(&self, number: usize, start: usize) -> Entry {
        let record = Record { kind: 0, body: &[], end: self.bytes.len() };
        let entry = self.whole(number, start, &record);
        let kind = kind_at(self.bytes, start);
        let body = if kind.is_some() { start + HEADER } else { start };
        Entry { kind, whole: false, undecoded: self.bytes[body..].to_vec(), ..entry }
    }

    /// What stands behind a refused record, and that no end does.
    fn list_behind(&mut self, number: usize, record: &Record) {
        let is_end = record.kind == 8;
        if is_end && self.ticket.derivation.is_some() {
            return self.list_behind_end(number, record.end, "refused");
        }
        let refused = self.entries.len() - 1;
        let missing = self.list_rest(number + 1, record.end);
        if let (Some(missing), State::Refused(refusal), false) = (missing, &mut self.entries[refused].state, is_end) {
            refusal.also = Some(malformed::lacks_end(self.bytes.len(), missing));
        }
    }

    /// Lists records as far as they can be delimited, to the first end; without one, says which record is missing.
    fn list_rest(&mut self, mut number: usize, mut start: usize) -> Option<usize> {
        self.open.clear();
        while let Some(record) = record_at(self.bytes, start) {
            let entry = self.whole(number, start, &record);
            self.entries.push(Entry { undecoded: record.body.to_vec(), state: State::Listed, ..entry });
            if record.kind == 8 {
                self.list_behind_end(number, record.end, "would be refused");
                return None;
            }
            start = record.end;
            number += 1;
        }
        if start < self.bytes.len() {
            let entry = self.rest(number, start);
            self.entries.push(Entry { state: State::Listed, ..entry });
        }
        Some(number)
    }

    /// "a byte follows the end record, counted at that end record"
    fn list_behind_end(&mut self, number: usize, start: usize, verdict: &str) {
        if start < self.bytes.len() {
            let notes = vec![Note::words(format!("{verdict} 4 at record {number}"))];
            let (entry, undecoded) = (self.rest(number, start), self.bytes[start..].to_vec());
            self.entries.push(Entry { kind: None, depth: 0, state: State::BehindEnd, notes, undecoded, ..entry });
        }
    }
}

/// What the steps have come to; a step that was taken stands behind the claim.
fn derivation_of(ticket: &Ticket) -> &Derivation {
    ticket.derivation.as_ref().expect("the claim was read")
}

/// The facts of a branch from a number on.
fn added(ticket: &Ticket, from: usize) -> Vec<Note> {
    let facts = derivation_of(ticket).branch.iter().enumerate().skip(from);
    facts.map(|(number, fact)| Note::numbered("adds fact", number, words::fact(&ticket.question, fact))).collect()
}
