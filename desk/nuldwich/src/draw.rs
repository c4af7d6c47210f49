//! `nuldwich draw`: a ticket as a page for a browser.

use crate::arguments::{Arguments, Command, OUTPUT};
use crate::files::{self, Asked};
use crate::judge::line_of;
use crate::names::{self, NAMES};
use crate::output::{Status, Trouble};
use draw::Line;
use ticket::{Question, END};

pub const COMMAND: Command = Command {
    name: "draw",
    operands: "[-o FILE.html] [--names QUESTION] TICKET",
    summary: "draw a ticket as a page for a browser",
    details: "Writes one page that needs no other file: the question with the constraints that took part marked, the derivation as a tree\n\
              that opens and closes, a refused record in its place, the leaf with its model and strings. The verdict at its head is the\n\
              proved library's; the drawing is not proved. The status is that of the verdict.\n",
    files: (1, 1),
    options: &[OUTPUT, NAMES],
    run,
};

fn run(arguments: &Arguments) -> Result<Status, Trouble> {
    let path = &arguments.files[0];
    let ticket = files::read_ticket_alone(path)?;
    let name = path.file_name().unwrap_or_default().to_string_lossy();
    let asked = names::asked(arguments, &ticket)?;
    let lines = asked.as_ref().map_or(Vec::new(), |asked| lines(asked, &ticket));
    let written = asked.as_ref().and_then(|asked| asked.written.as_ref());
    let drawn = names::with(written, || draw::draw_with_lines(&name, &ticket, &lines));
    files::write(arguments.output(), drawn.page.as_bytes())?;
    Ok(if drawn.accepted { Status::Good } else { Status::Bad })
}

/// The line of the text for each of the ticket's constraints. They may stand in another order: the library says which are the same.
fn lines(asked: &Asked, ticket: &[u8]) -> Vec<Option<Line>> {
    let (Ok(question), Some(written)) = (Question::from_bytes(ticket), &asked.written) else { return Vec::new() };
    let texts: Vec<Vec<u8>> =
        (0..written.question.constraints.len()).map(|number| alone(&written.question, number)).collect();
    let same = |one: &[u8], place: &usize| texts.get(*place).is_some_and(|text| library::same(one, text) == Ok(true));
    let line = |number: usize| {
        let one = alone(&question, number);
        let place = std::iter::once(number).chain(0..texts.len()).find(|place| same(&one, place))?;
        line_of(asked, place).map(|(number, text)| Line { number, text: text.to_string() })
    };
    (0..question.constraints.len()).map(line).collect()
}

/// The question of one constraint.
fn alone(question: &Question, number: usize) -> Vec<u8> {
    let constraints = question.constraints.get(number).cloned().into_iter().collect();
    let one = Question { constraints, extended: Vec::new(), ..question.clone() };
    [one.to_bytes(), END.to_vec()].concat()
}
