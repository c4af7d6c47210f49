//! A ticket as one page for a browser: nothing is loaded from elsewhere, and it works without its script. The verdict at its head is the proved
//! library's; the drawing is that of the account, and is not proved.

mod head;
mod html;
mod key;
mod steps;
mod tree;

pub use tree::DEEPEST;

use html::escaped;
use show::account::account;
use show::verdict::{verdict, Verdict};

const STYLE: &str = include_str!("page.css");
const SCRIPT: &str = include_str!("page.js");

/// A page, and whether the library accepts the ticket.
pub struct Drawn {
    pub page: String,
    pub accepted: bool,
}

/// A line of the question's text.
#[derive(Clone, Debug, PartialEq, Eq)]
pub struct Line {
    pub number: usize,
    pub text: String,
}

/// Draws a ticket under a name.
pub fn draw(name: &str, ticket: &[u8]) -> Drawn {
    draw_with_lines(name, ticket, &[])
}

/// The same with the line that each constraint comes from, by its number.
pub fn draw_with_lines(name: &str, ticket: &[u8], lines: &[Option<Line>]) -> Drawn {
    let (account, verdict) = (account(ticket), verdict(ticket));
    let body = format!(
        "{}{}{}",
        head::head(name, &account, &verdict, lines),
        key::key(),
        tree::tree(&account, &verdict, lines)
    );
    Drawn { page: page(name, &body), accepted: is_accepted(&verdict) }
}

fn is_accepted(verdict: &Verdict) -> bool {
    verdict.reply.number == 0
}

fn page(name: &str, body: &str) -> String {
    format!(
        "<!DOCTYPE html>\n<html lang=\"en\">\n<head>\n<meta charset=\"utf-8\">\n\
         <meta name=\"viewport\" content=\"width=device-width, initial-scale=1\">\n\
         <title>{}</title>\n<style>\n{STYLE}</style>\n</head>\n<body>\n{body}<script>\n{SCRIPT}</script>\n</body>\n</html>\n",
        escaped(name)
    )
}
