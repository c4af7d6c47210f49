//! `nuldwich ask`: ask a question and have the answer checked.

use crate::arguments::{Arguments, Choice, Command, JSON};
use crate::files::{self, Asked};
use crate::freedom;
use crate::judge::{described, line_of};
use crate::output::{print, refused, tell, Status, Trouble, BY, SAYS};
use library::Verdict;
use show::json::{array, object, string};
use solver::{demand, shown as shown_texts, smaller, solve, Answer, Demand, Options, Reason, Shown};
use std::collections::BTreeSet;
use std::io::{stderr, IsTerminal};
use std::time::Duration;
use text::{constraint_text, Written};
use ticket::{Claim, Question, Ticket};

const TICKET: Choice = Choice { name: "-o", value: "TICKET", about: "write the ticket to TICKET" };
const TIME: Choice = Choice { name: "--time", value: "SECONDS", about: "give up after so long; 10 seconds without it" };

pub const COMMAND: Command = Command {
    name: "ask",
    operands: "[-o TICKET] [--time SECONDS] [--json] QUESTION",
    summary: "ask a question and have the answer checked",
    details: "Finds a derivation or a model, writes the ticket, and has it checked. Where no record meets the conditions, those are said\n\
              that took part, and fewer of them where fewer were found, for which the same time is taken again.\n\
              A text is said to be free where every string of its length will do.\n",
    files: (1, 1),
    options: &[TICKET, TIME, JSON],
    run,
};

/// The longest time that can be asked for.
const LONGEST: u64 = 86_400;

/// What a question comes to, by the library or, where no ticket was found, by the solver.
enum Outcome {
    Said { ticket: Box<Ticket>, verdict: Verdict, fewer: Option<Vec<usize>> },
    GaveUp(Reason),
}

/// A question that could be read.
struct Put<'a> {
    asked: &'a Asked,
    written: &'a Written,
}

fn run(arguments: &Arguments) -> Result<Status, Trouble> {
    let path = &arguments.files[0];
    let asked = files::read_question(path)?;
    let Some(written) = &asked.written else {
        let fault = Question::from_bytes(&asked.bytes).err();
        return Err(files::cannot(path, fault.map_or("no question".to_string(), |fault| fault.to_string())));
    };
    let put = Put { asked: &asked, written };
    let options = Options { time: time(arguments)?, ..Options::default() };
    let takes = demand(&written.question);
    let as_json = arguments.has(JSON.name);
    if !as_json {
        print(&format!("the question takes {}\n", takes_words(written, &takes)))?;
    }
    let outcome = answered(&written.question, &options);
    if let (Some(path), Outcome::Said { ticket, .. }) = (arguments.output(), &outcome) {
        files::write(Some(path), &ticket.to_bytes())?;
    }
    print(&if as_json {
        put.json(&takes, &outcome)
    } else {
        put.words(&outcome) + &ticket_words(arguments, &outcome)
    })?;
    Ok(status(&outcome))
}

fn time(arguments: &Arguments) -> Result<Duration, Trouble> {
    let Some(value) = arguments.value(TIME.name) else { return Ok(Options::default().time) };
    let seconds = value.to_str().and_then(|word| word.parse().ok()).filter(|seconds| (1..=LONGEST).contains(seconds));
    let wrong = || Trouble(format!("{} takes whole seconds, 1 to {LONGEST}", TIME.name));
    seconds.map(Duration::from_secs).ok_or_else(wrong)
}

/// 0 answered and certified, 1 refused by the library: a fault of the desk, 3 gave up.
fn status(outcome: &Outcome) -> Status {
    match outcome {
        Outcome::GaveUp(_) => Status::GaveUp,
        Outcome::Said { verdict: Verdict::Refused(_), .. } => Status::Bad,
        Outcome::Said { .. } => Status::Good,
    }
}

/// `6 of 16 strings (3 of them for texts in quotes), ..`
fn takes_words(written: &Written, takes: &Demand) -> String {
    let helpers = written.question.p.saturating_sub(written.declared);
    let words = takes.to_string();
    match (helpers, words.split_once(',')) {
        (1.., Some((strings, rest))) => format!("{strings} ({helpers} of them for texts in quotes),{rest}"),
        _ => words,
    }
}

/// Where the ticket is, where it was written.
fn ticket_words(arguments: &Arguments, outcome: &Outcome) -> String {
    match (arguments.output(), outcome) {
        (Some(path), Outcome::Said { ticket, .. }) => {
            let bytes = ticket.to_bytes().len();
            format!("the ticket has {bytes} bytes and is in {}\n", path.display())
        }
        _ => String::new(),
    }
}

/// Solves the question and has the ticket checked; of no solution, fewer conditions too.
fn answered(question: &Question, options: &Options) -> Outcome {
    let mut progress = Progress { width: 0 };
    let ticket = match solve(question, options, &mut |words| progress.say(words)) {
        Answer::Ticket(ticket) => ticket,
        Answer::GaveUp(reason) => {
            progress.clear();
            return Outcome::GaveUp(reason);
        }
    };
    let verdict = library::check(&ticket.to_bytes()).verdict();
    let fewer = match &verdict {
        Verdict::NoSolution { core } => fewer(question, core, options, &mut progress),
        _ => None,
    };
    progress.clear();
    Outcome::Said { ticket: Box::new(ticket), verdict, fewer }
}

/// A smaller set of conditions, as the library says it on a ticket for these alone.
fn fewer(question: &Question, core: &[usize], options: &Options, progress: &mut Progress) -> Option<Vec<usize>> {
    let found = smaller(question, core, options, &mut |words| progress.say(words))?;
    match library::check(&found.ticket.to_bytes()).verdict() {
        Verdict::NoSolution { core } => Some(core.iter().filter_map(|place| found.kept.get(*place).copied()).collect()),
        _ => None,
    }
}

/// A line on a terminal that is written over, and cleared at the end.
struct Progress {
    width: usize,
}

impl Progress {
    fn say(&mut self, words: &str) {
        if stderr().is_terminal() {
            tell(&format!("\r{words:<width$}", width = self.width));
            self.width = words.chars().count();
        }
    }

    fn clear(&mut self) {
        if self.width > 0 {
            tell(&format!("\r{:width$}\r", "", width = self.width));
            self.width = 0;
        }
    }
}

impl Put<'_> {
    fn words(&self, outcome: &Outcome) -> String {
        match outcome {
            Outcome::GaveUp(Reason::Extended) => {
                let question = &self.written.question;
                let first = question.constraints.len();
                let numbers: Vec<usize> = (first..first + question.extended.len()).collect();
                format!("gave up: {}:\n{}", Reason::Extended, self.lines(&numbers))
            }
            Outcome::GaveUp(reason) => format!("gave up: {reason}\n"),
            Outcome::Said { verdict: Verdict::Refused(refusal), .. } => {
                format!(
                    "{SAYS}the desk's ticket is {}; that is a fault of the desk, and no answer\n",
                    refused(*refusal)
                )
            }
            Outcome::Said { verdict: Verdict::NoSolution { core }, fewer, .. } => {
                let lines = self.lines(core);
                let alone = fewer.as_ref().map(|fewer| self.lines(fewer)).filter(|alone| *alone != lines);
                let alone = alone.map(|alone| format!("{SAYS}these alone clash:\n{alone}"));
                format!(
                    "{SAYS}no record meets these conditions; these took part:\n{lines}{}",
                    alone.unwrap_or_default()
                )
            }
            Outcome::Said { verdict: Verdict::Strings { strings, integers }, .. } => {
                format!("{SAYS}these values meet all conditions:\n{}", self.values(strings, integers))
            }
        }
    }

    /// Conditions by their lines, each line once; of records by their numbers.
    fn lines(&self, numbers: &[usize]) -> String {
        if self.written.lines.is_empty() {
            return numbers.iter().map(|number| format!("  {}\n", described(self.asked, *number))).collect();
        }
        let lines: BTreeSet<(usize, &str)> = numbers.iter().filter_map(|number| line_of(self.asked, *number)).collect();
        lines.iter().map(|(line, source)| format!("  {}:{line}: {source}\n", self.asked.path.display())).collect()
    }

    /// The values by their names, without helpers.
    fn values(&self, strings: &[Vec<u32>], integers: &[i32]) -> String {
        let shown = shown_texts(&self.written.question, strings);
        let declared = strings.iter().zip(&shown).zip(&self.written.names.strings).take(self.written.declared);
        let texts = declared.map(|((string, shown), name)| {
            let words = freedom::words(self.written, string, shown);
            format!("  {name} = {words}\n")
        });
        let numbers = integers.iter().zip(&self.written.names.integers);
        let values: String = texts.chain(numbers.map(|(value, name)| format!("  {name} = {value}\n"))).collect();
        if values.is_empty() {
            return "  (there are no variables)\n".to_string();
        }
        values
    }

    fn json(&self, takes: &Demand, outcome: &Outcome) -> String {
        let mut members = vec![("takes", takes_json(self.written, takes))];
        match outcome {
            Outcome::GaveUp(reason) => {
                let reason = string(&reason.to_string());
                members.extend([("answer", string("gave up")), ("reason", reason)]);
            }
            Outcome::Said { ticket, verdict, fewer } => {
                members.extend(self.verdict_json(verdict));
                members.extend(fewer.as_ref().map(|fewer| ("alone", self.conditions_json(fewer))));
                members.extend([("ticket", ticket_json(ticket)), ("by", string(BY))]);
            }
        }
        object(&members) + "\n"
    }

    fn verdict_json(&self, verdict: &Verdict) -> Vec<(&'static str, String)> {
        match verdict {
            Verdict::Refused(refusal) => vec![
                ("answer", string("refused")),
                ("number", refusal.number.to_string()),
                ("record", refusal.record.to_string()),
                ("words", string(library::refusal(refusal.number))),
            ],
            Verdict::NoSolution { core } => {
                vec![("answer", string("no solution")), ("took_part", self.conditions_json(core))]
            }
            Verdict::Strings { strings, integers } => {
                let names = self.written.names.integers.iter();
                let numbers: Vec<(&String, &i32)> = names.zip(integers).collect();
                let numbers =
                    array(&numbers, |(name, value)| object(&[("name", string(name)), ("value", value.to_string())]));
                vec![("answer", string("strings")), ("strings", self.strings_json(strings)), ("integers", numbers)]
            }
        }
    }

    fn conditions_json(&self, numbers: &[usize]) -> String {
        array(numbers, |number| {
            let condition = constraint_text(&self.written.question, &self.written.names, *number);
            let mut members = vec![("constraint", number.to_string()), ("condition", string(&condition))];
            if let Some((line, source)) = line_of(self.asked, *number) {
                members.extend([("line", line.to_string()), ("text", string(source))]);
            }
            object(&members)
        })
    }

    /// Each text with its characters, and how it is shown.
    fn strings_json(&self, strings: &[Vec<u32>]) -> String {
        let shown = shown_texts(&self.written.question, strings);
        let texts: Vec<_> =
            strings.iter().zip(&shown).zip(&self.written.names.strings).take(self.written.declared).collect();
        array(&texts, |((text, shown), name)| {
            let is_free = !matches!(shown, Shown::Text);
            object(&[
                ("name", string(name)),
                ("characters", array(text, u32::to_string)),
                ("free", is_free.to_string()),
                ("words", string(&freedom::words(self.written, text, shown))),
            ])
        })
    }
}

fn takes_json(written: &Written, takes: &Demand) -> String {
    object(&[
        ("strings", takes.strings.to_string()),
        ("helpers", written.question.p.saturating_sub(written.declared).to_string()),
        ("integers", takes.integers.to_string()),
        ("literals", takes.literals.to_string()),
        ("facts", takes.facts.to_string()),
        ("bytes", takes.bytes.to_string()),
    ])
}

fn ticket_json(ticket: &Ticket) -> String {
    let steps = match &ticket.claim {
        Claim::NoSolution(steps) | Claim::Strings { steps, .. } => steps.len(),
    };
    object(&[("steps", steps.to_string()), ("bytes", ticket.to_bytes().len().to_string())])
}
