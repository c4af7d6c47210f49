//! `nuldwich judge`: whether values meet a question, and which condition they do not.

use crate::arguments::{Arguments, Command, JSON};
use crate::files::{self, Asked, Input};
use crate::output::{print, refused, Status, Trouble, BY, SAYS};
use crate::values::{self, Value};
use library::{Judgement, Refusal};
use show::json::{array, object, string};
use std::path::Path;
use text::{constraint_text, Answer, Written};
use ticket::Constraint;

pub const COMMAND: Command = Command {
    name: "judge",
    operands: "[--json] QUESTION ANSWER",
    summary: "say whether values meet a question, and which condition they do not",
    details: "The question is text or records, or a whole ticket. The answer is text, as donor = \"AB12345\" and k = 3 with a line\n\
              for each variable, or records. Conditions on case, digits and order are judged too.\n",
    files: (2, 2),
    options: &[JSON],
    run,
};

/// The judgement, and every constraint that is not met with the values there.
struct Judged {
    judgement: Judgement,
    unmet: Vec<(usize, Vec<Value>)>,
}

fn run(arguments: &Arguments) -> Result<Status, Trouble> {
    let question = files::read_question(&arguments.files[0])?;
    let answer = read_answer(&arguments.files[1], &question)?;
    let judged = judge(&question, &answer);
    print(&match arguments.has(JSON.name) {
        true => json(&question, &judged),
        false => words(&question, &judged),
    })?;
    Ok(if judged.judgement == Judgement::Met { Status::Good } else { Status::Bad })
}

/// The answer's bytes. To a question that cannot be read a text gives none: the library refuses that question first.
fn read_answer(path: &Path, question: &Asked) -> Result<Vec<u8>, Trouble> {
    match (files::read(path)?, &question.written) {
        (Input::Records(bytes), _) => Ok(bytes),
        (Input::Text(text), Some(written)) => {
            let answer = text::read_answer(&text, written).map_err(|mistake| files::at(path, &mistake))?;
            Ok(answer.to_bytes())
        }
        (Input::Text(_), None) => Ok(Vec::new()),
    }
}

fn judge(question: &Asked, answer: &[u8]) -> Judged {
    let judgement = library::judge(&question.bytes, answer);
    let unmet = match (judgement, &question.written) {
        (Judgement::Unmet { constraint, .. }, Some(written)) => {
            let values = Answer::from_bytes(answer);
            let at = |number| values.as_ref().map_or(Vec::new(), |values| values::at(written, values, number));
            all_unmet(written, answer, constraint).into_iter().map(|number| (number, at(number))).collect()
        }
        _ => Vec::new(),
    };
    Judged { judgement, unmet }
}

/// Every constraint that is not met: the library is asked again without those that it has named.
fn all_unmet(written: &Written, answer: &[u8], first: usize) -> Vec<usize> {
    let mut rest = Written { claim: None, ..written.clone() };
    let mut numbers: Vec<usize> = (0..rest.question.constraints.len() + rest.question.extended.len()).collect();
    let mut unmet = Vec::new();
    let mut next = Some(first);
    while let Some(place) = next.filter(|place| *place < numbers.len()) {
        unmet.push(numbers.remove(place));
        match place.checked_sub(rest.question.constraints.len()) {
            None => drop(rest.question.constraints.remove(place)),
            Some(behind) => drop(rest.question.extended.remove(behind)),
        }
        next = match library::judge(&rest.to_bytes(), answer) {
            Judgement::Unmet { constraint, .. } => Some(constraint),
            _ => None,
        };
    }
    unmet.sort_by_key(|number| written.lines.get(*number).copied());
    unmet
}

fn words(question: &Asked, judged: &Judged) -> String {
    match judged.judgement {
        Judgement::Met => format!("{SAYS}all conditions are met\n"),
        Judgement::Unmet { .. } => {
            let lines: String = judged.unmet.iter().map(|unmet| unmet_words(question, unmet)).collect();
            format!("{SAYS}not met\n{lines}")
        }
        Judgement::QuestionRefused(refusal) => format!("{SAYS}the question is {}\n", refused(refusal)),
        Judgement::AnswerRefused { refusal, .. } => {
            format!("{SAYS}the answer is {}{}\n", refused(refusal), concerned(question, refusal))
        }
    }
}

/// A condition, and below it the values that it speaks of.
fn unmet_words(question: &Asked, (number, values): &(usize, Vec<Value>)) -> String {
    let condition = described(question, *number);
    match values.as_slice() {
        [] => format!("  {condition}\n"),
        values => format!("  {condition}\n    but {}\n", values::words(values)),
    }
}

/// A condition by its line: `rules.txt:7: 7 <= len(donor) <= 12 (len(donor) <= 12)`; of records by its number.
pub fn described(question: &Asked, number: usize) -> String {
    let Some(written) = &question.written else { return format!("condition {number}") };
    let condition = constraint_text(&written.question, &written.names, number);
    match line_of(question, number) {
        Some((line, source)) => match of_line(written, line).as_slice() {
            [] | [_] => format!("{}:{line}: {source}", question.path.display()),
            several => {
                let part = part_of(written, several, number, source).unwrap_or(condition);
                format!("{}:{line}: {source} ({part})", question.path.display())
            }
        },
        None => format!("condition {number}: {condition}"),
    }
}

/// The constraints that a line has become, without those that give helpers their texts.
fn of_line(written: &Written, line: usize) -> Vec<usize> {
    let is_helper = |number: usize| matches!(written.question.constraints.get(number), Some(Constraint::IsLiteral(x, _)) if *x >= written.declared);
    let numbers = (0..written.lines.len()).filter(|number| written.lines[*number] == line);
    numbers.filter(|number| !is_helper(*number)).collect()
}

/// The part of a chain of numbers that a constraint comes from: these stand in the order of their relations.
fn part_of(written: &Written, several: &[usize], number: usize, source: &str) -> Option<String> {
    let is_arithmetic =
        |number: &usize| matches!(written.question.constraints.get(*number), Some(Constraint::Arithmetic(..)));
    let parts = text::relations(source);
    let place = several.iter().position(|other| *other == number)?;
    parts.get(place).filter(|_| parts.len() == several.len() && several.iter().all(is_arithmetic)).cloned()
}

/// The line of a condition, and what stands there.
pub fn line_of(question: &Asked, number: usize) -> Option<(usize, &str)> {
    let line = *question.written.as_ref()?.lines.get(number)?;
    Some((line, question.lines.get(line.checked_sub(1)?)?.trim()))
}

/// The variable of a string that is refused with 16.
fn concerned(question: &Asked, refusal: Refusal) -> String {
    let names = question.written.as_ref().map(|written| &written.names.strings);
    match names.and_then(|names| names.get(refusal.record as usize)) {
        Some(name) if refusal.number == 16 => format!(" ({name})"),
        _ => String::new(),
    }
}

fn json(question: &Asked, judged: &Judged) -> String {
    let refused = |of: &str, refusal: Refusal| {
        vec![
            ("verdict", string("refused")),
            ("of", string(of)),
            ("number", refusal.number.to_string()),
            ("record", refusal.record.to_string()),
            ("words", string(library::refusal(refusal.number))),
        ]
    };
    let members = match judged.judgement {
        Judgement::Met => vec![("verdict", string("met"))],
        Judgement::Unmet { .. } => {
            let unmet = array(&judged.unmet, |unmet| unmet_json(question, unmet));
            vec![("verdict", string("not met")), ("unmet", unmet)]
        }
        Judgement::QuestionRefused(refusal) => refused("question", refusal),
        Judgement::AnswerRefused { refusal, .. } => refused("answer", refusal),
    };
    object(&[members, vec![("by", string(BY))]].concat()) + "\n"
}

fn unmet_json(question: &Asked, (number, values): &(usize, Vec<Value>)) -> String {
    let number = *number;
    let condition = question.written.as_ref().map(|w| constraint_text(&w.question, &w.names, number));
    let mut members = vec![("constraint", number.to_string()), ("condition", string(&condition.unwrap_or_default()))];
    if let Some((line, source)) = line_of(question, number) {
        members.extend([("line", line.to_string()), ("text", string(source))]);
    }
    let value = |(of, words): &Value| object(&[("of", string(of)), ("words", string(words))]);
    members.push(("values", array(values, value)));
    object(&members)
}
