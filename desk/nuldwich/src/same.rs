//! `nuldwich same`: whether two questions are the same.

use crate::arguments::{Arguments, Command, JSON};
use crate::files::{read_question, Asked};
use crate::output::{print, refused, Status, Trouble, BY, SAYS};
use library::Refusal;
use show::json::{object, string};
use text::Names;

pub const COMMAND: Command = Command {
    name: "same",
    operands: "[--json] A B",
    summary: "say whether two questions are the same",
    details: "Compares two questions, of text or of records, or those of whole tickets. Variables are compared by their place, not\n\
              by their names. Order, repeats and unused texts do not count, nor multiples of a condition; two that are the same\n\
              have the same solutions.\n",
    files: (2, 2),
    options: &[JSON],
    run,
};

fn run(arguments: &Arguments) -> Result<Status, Trouble> {
    let (first, second) = (read_question(&arguments.files[0])?, read_question(&arguments.files[1])?);
    let compared = library::same(&first.bytes, &second.bytes);
    print(&match arguments.has(JSON.name) {
        true => json(&compared),
        false => words(&first, &second, &compared) + &moved(&first, &second),
    })?;
    Ok(if compared == Ok(true) { Status::Good } else { Status::Bad })
}

const NOT_FOUND: &str = "the proved library does not find them the same; they may still have the same solutions\n";

fn words(first: &Asked, second: &Asked, compared: &Result<bool, (u64, Refusal)>) -> String {
    match compared {
        Ok(true) => format!("{SAYS}the same\n"),
        Ok(false) => NOT_FOUND.to_string(),
        Err((which, refusal)) => {
            let path = if *which == 1 { &first.path } else { &second.path };
            format!("{SAYS}{}: {}\n", path.display(), refused(*refusal))
        }
    }
}

/// A warning where two texts declare a name at different places.
fn moved(first: &Asked, second: &Asked) -> String {
    let (Some(one), Some(other)) = (declared(first), declared(second)) else { return String::new() };
    let differs = |(name, place): &(String, String)| {
        let elsewhere = other.iter().find(|(found, _)| found == name).map(|(_, elsewhere)| elsewhere);
        let elsewhere = elsewhere.filter(|elsewhere| *elsewhere != place)?;
        let (first, second) = (first.path.display(), second.path.display());
        Some(format!("{name} is {place} of {first} and {elsewhere} of {second}"))
    };
    let found = one.iter().find_map(differs);
    found.map_or(String::new(), |found| format!("take care: they are compared by place, not by name, and {found}\n"))
}

/// The names that a text declares, each with its place: `string 1`, `integer 2`.
fn declared(asked: &Asked) -> Option<Vec<(String, String)>> {
    let written = asked.written.as_ref().filter(|_| !asked.lines.is_empty())?;
    let Names { strings, integers } = &written.names;
    let placed = |what: &'static str, names: &[String]| {
        let names = names.iter().enumerate();
        names.map(|(place, name)| (name.clone(), format!("{what} {}", place + 1))).collect::<Vec<_>>()
    };
    Some([placed("string", &strings[..written.declared]), placed("integer", integers)].concat())
}

fn json(compared: &Result<bool, (u64, Refusal)>) -> String {
    let members = match compared {
        Ok(true) => vec![("verdict", string("same"))],
        Ok(false) => vec![("verdict", string("not found the same"))],
        Err((which, refusal)) => vec![
            ("verdict", string("refused")),
            ("which", which.to_string()),
            ("number", refusal.number.to_string()),
            ("record", refusal.record.to_string()),
            ("words", string(library::refusal(refusal.number))),
        ],
    };
    object(&[members, vec![("by", string(BY))]].concat()) + "\n"
}
