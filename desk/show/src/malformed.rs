//! What is wrong with a ticket's or a record's form (2 to 7).

use crate::account::Scene;
use crate::fields::{fields_of, Field, HEADER};
use crate::layout::{kind_name, length_of, rule_of};
use crate::refusals::Refused;
use crate::words;
use nuldwich_reference::checking::{Ticket, LONGEST_TICKET};
use nuldwich_reference::question::Question;
use nuldwich_reference::records::{u16_at, u32_at, Record};

/// 2: nothing is read.
pub fn too_long(length: usize) -> Refused {
    let most = words::number(LONGEST_TICKET as i128);
    let reason = format!("it has at least {} bytes; a ticket has at most {most}", words::number(length as i128));
    Refused::new(2, ("the ticket is too long".to_string(), vec![reason]))
}

/// 3: how much of the record is there, and what was due.
pub fn cut_short(scene: &Scene) -> Refused {
    let left = &scene.bytes[scene.start..];
    let at = words::number(scene.bytes.len() as i128);
    let (meaning, what) = match left.len() {
        0 => ("the bytes stop: no end record follows", format!("the ticket stops at byte {at}, behind a whole record")),
        1..=5 => ("the bytes stop within this record", cut_head(left)),
        _ => ("the bytes stop within this record", cut_body(left)),
    };
    Refused::new(3, (meaning.to_string(), vec![what, due(scene)]))
}

fn cut_head(left: &[u8]) -> String {
    let there = words::count(left.len(), "byte");
    format!("a record begins with six bytes (u32 body length, u16 kind); what is left is {there}")
}

fn cut_body(left: &[u8]) -> String {
    let asked = words::count(u32_at(left, 0) as usize, "byte");
    let kind = words::number(i128::from(u16_at(left, 4)));
    let body = words::number((left.len() - HEADER) as i128);
    format!("its length field asks for a body of {asked} (of kind {kind}); behind its first six bytes {body} are left")
}

/// That the bytes stop without an end behind a record that is refused itself.
pub fn lacks_end(length: usize, missing: usize) -> String {
    let at = words::number(length as i128);
    format!("the ticket also lacks an end record: its bytes stop at byte {at}, which would be refused 3 at record {missing}")
}

/// 4: why the record may not stand here, and what may.
pub fn out_of_place(scene: &Scene, record: &Record) -> (String, Vec<String>) {
    let after = scene.bytes.len() - record.end;
    let ticket = scene.ticket;
    let Some(name) = kind_name(record.kind) else {
        let judged = if record.kind == 11 { "; kind 11, the extended constraint, is for judging alone" } else { "" };
        let what = format!("the kinds of a ticket are 1 to 8{judged}");
        let kind = words::number(i128::from(record.kind));
        return (format!("kind {kind} is unknown"), vec![what, due(scene)]);
    };
    if record.kind == 8 && ticket.derivation.is_some() {
        let behind = words::count(after, "byte");
        let end = words::number(record.end as i128);
        let what =
            format!("the end record is the last of a ticket; this one ends before byte {end}, with {behind} behind it");
        return ("bytes stand behind the end record".to_string(), vec![what]);
    }
    let what = match ticket.claim {
        _ if !ticket.question.has_head() => "the first record of a ticket is its head (kind 1)".to_string(),
        0 => misplaced_in_question(&ticket.question, record.kind),
        _ => misplaced_behind_claim(scene, record.kind),
    };
    (format!("the {name} (kind {}) is out of its place", record.kind), vec![what, due(scene)])
}

/// Before the claim: "They stand in order of kind".
fn misplaced_in_question(question: &Question, kind: u16) -> String {
    match kind {
        1 => "a ticket has one head, and it was read in record 0".to_string(),
        2 if question.literals.len() > 15 => "this would be the 16th literal; a ticket has at most 15".to_string(),
        2 | 3 => format!("records stand in order of kind: kind {kind} may not follow kind {}", question.last_kind),
        _ => "steps, the model and the end stand behind the claim (kind 5), and none was read yet".to_string(),
    }
}

/// Behind the claim stand steps, a model under claim 2, and the end.
fn misplaced_behind_claim(scene: &Scene, kind: u16) -> String {
    let before = scene.number - 1;
    match (kind, &scene.ticket.answer) {
        (5, _) => "a ticket has one claim, and it was read".to_string(),
        (6 | 7, Some(_)) => format!("the model was read in record {before}; only the end may follow it"),
        (7, None) => "claim 1 (no solution) was read; a model stands under claim 2 alone".to_string(),
        (6, None) => format!("record {before} closed the last branch; no step may follow it"),
        _ => "the question (kinds 1 to 4) ends at the claim, which was read".to_string(),
    }
}

/// The kinds that may stand here: those that the reference does not turn back for their place.
pub fn due(scene: &Scene) -> String {
    let fits = |kind: &u16| {
        let mut ticket: Ticket = scene.ticket.clone();
        let record = Record { kind: *kind, body: &[], end: scene.bytes.len() };
        !matches!(ticket.take(&record, scene.bytes.len()), Err(4 | 11))
    };
    let name = |kind: u16| kind_name(kind).map(|name| format!("{name} (kind {kind})"));
    let kinds: Vec<String> = (1..=8).filter(fits).filter_map(name).collect();
    format!("due here: {}", words::listed(&kinds, "or"))
}

/// 5: the length, and the lengths that fit.
pub fn misfit(scene: &Scene, record: &Record) -> (String, Vec<String>) {
    let (name, of) = match record.kind {
        6 if record.body.len() >= 4 => (format!("a step of {}", rule_of(record.body)), "rule"),
        kind => (format!("a record of kind {kind}, {},", kind_name(kind).unwrap_or("unknown")), "kind"),
    };
    let there = words::count(record.body.len(), "byte");
    let at = words::number(scene.start as i128);
    let lengths = length_of(scene.ticket, record.kind, record.body);
    let due = lengths.map_or(String::new(), |length| format!("{}: {}", length.words(), length.parts));
    let what = format!("the body has {there} (u32 at byte {at}); the body of {name} has {due}");
    (format!("the length of the body is wrong for its {of}"), vec![what])
}

/// 6: the first field outside its range.
pub fn out_of_range(scene: &Scene, record: &Record) -> (String, Vec<String>) {
    let meaning = "a field is outside its range";
    let fields = fields_of(scene.ticket, record.kind, record.body).unwrap_or_default();
    let faulty: Vec<&Field> = fields.iter().filter(|field| !field.in_range()).collect();
    let Some(first) = faulty.first() else {
        return (meaning.to_string(), Vec::new());
    };
    let name = format!("{}{}", first.name, first.pair.map_or(String::new(), |pair| format!(" of pair {pair}")));
    let at = words::number((scene.start + HEADER + first.at) as i128);
    let value = words::number(first.value);
    let range = first.allowed.words();
    let mut reasons = vec![format!("{name} ({} at byte {at}) is {value}; allowed is {range}", first.form)];
    if faulty.len() > 1 {
        reasons.push(format!("{} outside of what is allowed", words::more(faulty.len() - 1, "field")));
    }
    (format!("{meaning}: {name}"), reasons)
}

/// 7: the earlier literal. Literals stand right behind the head, so a literal's number is its record's.
pub fn repeated(scene: &Scene, record: &Record) -> Vec<String> {
    let text: Vec<u32> = record.body.chunks(4).map(|field| u32_at(field, 0)).collect();
    let earlier = scene.ticket.question.literals.iter().position(|literal| *literal == text);
    let same = |number| format!("its text is that of literal {number} in record {number}");
    earlier.map(same).into_iter().collect()
}
