//! Bytes, then text, then bytes; and text, then bytes, then text.

use crate::{count, files, read};
use compare::damage::damage;
use compare::judge::Judge;
use compare::operation::Operation;
use compare::random::Random;
use compare::report::{hex, Report};
use compare::{check, unjudged};
use library::Judgement;
use std::path::Path;
use text::{answer_text, question_text, read_answer, ticket_text, Names, Written};
use ticket::{Question, Ticket};

/// How many tickets and questions are grown.
const GROWN: u64 = 4_000;

/// A file of the vectors or examples: a ticket, or a question.
pub fn compare_file(path: &Path, report: &mut Report) {
    let name = path.display().to_string();
    match path.extension().and_then(|ending| ending.to_str()) {
        Some("ticket") => compare_ticket(&name, &read(path), report),
        Some("question" | "first" | "second") => compare_question(&name, &read(path), report),
        _ => {}
    }
}

/// Tickets with steps that fit and with any steps, questions with answers, and all of these damaged.
pub fn compare_grown(report: &mut Report) {
    for seed in 0..GROWN {
        let mut random = Random::new(seed);
        for ticket in [check::grow(&mut random), unjudged::grow(&mut random)] {
            let damaged = damage(&mut random, &ticket);
            compare_ticket(&hex(&ticket), &ticket, report);
            compare_ticket(&hex(&damaged), &damaged, report);
        }
        Judge.grow(&mut random, &mut |_, input| {
            compare_question(&hex(&input.parts[0]), &input.parts[0], report);
            compare_answer(&input.parts[0], &input.parts[1], report);
        });
    }
}

/// The run itself is at fault when too few inputs have a form that it is about.
pub fn demand_coverage(report: &mut Report) {
    for label in ["ticket of proper form", "ticket not of proper form", "question", "no question", "answer"] {
        if report.counted(label) < 500 {
            report.fail(&format!("too few inputs: {label}"));
        }
    }
}

/// Whether a ticket is of proper form: the library counts what it needs, or a branch is left open under claim 1.
fn is_proper(bytes: &[u8], read: Option<&Ticket>) -> bool {
    match library::need(bytes) {
        Ok(_) => true,
        Err(refusal) => refusal.number == 11 && matches!(read.map(|t| &t.claim), Some(ticket::Claim::NoSolution(_))),
    }
}

/// A ticket of proper form is read, and what is read comes back; what is not read is refused by the library at this record or before.
fn compare_ticket(name: &str, bytes: &[u8], report: &mut Report) {
    let read = Ticket::from_bytes(bytes);
    let proper = is_proper(bytes, read.as_ref().ok());
    let label = if proper { "ticket of proper form" } else { "ticket not of proper form" };
    let fault = match &read {
        Ok(ticket) => ticket_fault(ticket, bytes),
        Err(fault) => match library::need(bytes) {
            Err(refusal) if refusal.record <= fault.record as u64 => None,
            _ => Some(format!("is not read: {fault}")),
        },
    };
    count(report, label, fault.is_none(), || format!("{name}: {}", fault.unwrap_or_default()));
}

fn ticket_fault(ticket: &Ticket, bytes: &[u8]) -> Option<String> {
    let words = ticket_text(ticket, &Names::plain(&ticket.question));
    match text::read(&words) {
        _ if ticket.to_bytes() != bytes => Some("other bytes are written".to_string()),
        Err(mistake) => Some(format!("its text is not read: {mistake}\n{words}")),
        Ok(written) if written.to_bytes() != bytes => Some(format!("its text gives other bytes:\n{words}")),
        Ok(written) if written.names != Names::plain(&ticket.question) => Some(format!("other names:\n{words}")),
        Ok(written) => match written.claim {
            Some(claim) if (Ticket { question: written.question.clone(), claim: claim.clone() }) == *ticket => None,
            _ => Some(format!("its text gives another ticket:\n{words}")),
        },
    }
}

/// A question that the library reads is read, and what is read comes back up to its claim or end.
fn compare_question(name: &str, bytes: &[u8], report: &mut Report) {
    let due = match library::same(bytes, bytes) {
        Ok(_) => true,
        Err((_, refusal)) => refusal.number == 10,
    };
    let label = if due { "question" } else { "no question" };
    let fault = match Question::from_bytes(bytes) {
        Ok(question) => question_fault(&question, bytes),
        Err(fault) => due.then(|| format!("is not read: {fault}")),
    };
    count(report, label, fault.is_none(), || format!("{name}: {}", fault.unwrap_or_default()));
}

fn question_fault(question: &Question, bytes: &[u8]) -> Option<String> {
    let words = question_text(question, &Names::plain(question));
    match text::read(&words) {
        _ if !bytes.starts_with(&question.to_bytes()) => Some("other bytes are written".to_string()),
        Err(mistake) => Some(format!("its text is not read: {mistake}\n{words}")),
        Ok(written) if written.question != *question => Some(format!("its text gives another question:\n{words}")),
        Ok(written) => lines_fault(&written, &words),
    }
}

/// Each constraint has a line, and on it stands that constraint.
fn lines_fault(written: &Written, words: &str) -> Option<String> {
    let lines: Vec<&str> = words.lines().collect();
    let stands = |(number, line): (usize, &usize)| {
        lines.get(line - 1) == Some(&&text::constraint_text(&written.question, &written.names, number)[..])
    };
    let count = written.question.constraints.len() + written.question.extended.len();
    let holds = written.lines.len() == count && written.lines.iter().enumerate().all(stands);
    (!holds).then(|| format!("lines {:?} are not those of the constraints:\n{words}", written.lines))
}

/// The text of an answer that is in its form and range gives the same bytes.
fn compare_answer(question: &[u8], answer: &[u8], report: &mut Report) {
    let judgement = library::judge(question, answer);
    let (Judgement::Met | Judgement::Unmet { .. }, Ok(read)) = (judgement, Question::from_bytes(question)) else {
        return;
    };
    let written = Written::plain(read);
    let (strings, integers) = values(answer);
    let words = answer_text(&written, &strings, &integers);
    let bytes = read_answer(&words, &written).map(|answer| answer.to_bytes());
    count(report, "answer", bytes.as_deref() == Ok(answer), || format!("{words} gives {bytes:?}"));
}

/// The values of an answer that the library took.
fn values(answer: &[u8]) -> (Vec<Vec<u32>>, Vec<i64>) {
    let (mut strings, mut integers) = (Vec::new(), Vec::new());
    for record in nuldwich_reference::records::whole_records(answer) {
        let fields = record.body.chunks_exact(4).map(|field| [field[0], field[1], field[2], field[3]]);
        match record.kind {
            9 => strings.push(fields.map(u32::from_le_bytes).collect()),
            10 => integers = fields.map(|field| i64::from(i32::from_le_bytes(field))).collect(),
            _ => {}
        }
    }
    (strings, integers)
}

/// The questions of the office in words are those of their tickets, byte by byte, and the same by the library.
pub fn compare_office(root: &Path, report: &mut Report) {
    for path in files(&root.join("examples/office")).iter().filter(|path| path.extension().is_some_and(|e| e == "txt"))
    {
        let words = String::from_utf8(read(path)).unwrap_or_default();
        let ticket = read(&path.with_extension("ticket"));
        let holds = text::read(&words).is_ok_and(|written| {
            ticket.starts_with(&written.question.to_bytes()) && library::same(&ticket, &written.to_bytes()) == Ok(true)
        });
        count(report, "office", holds, || format!("{} is not the question of its ticket", path.display()));
    }
}
