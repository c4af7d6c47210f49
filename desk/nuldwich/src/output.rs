//! What is printed, and the exit status.

use library::Refusal;
use std::io::{self, Write};

/// The exit status.
#[derive(Clone, Copy, Debug, PartialEq, Eq, PartialOrd, Ord)]
pub enum Status {
    Good = 0,
    Bad = 1,
    Unread = 2,
    GaveUp = 3,
}

pub const STATUSES: &str =
    "exit status: 0 answered, accepted, met or the same; 1 refused, not met or not found the same; 2 cannot be read; 3 gave up\n";

/// Words before a verdict.
pub const SAYS: &str = "the proved library says: ";

/// The same for programs, as the value of `by`.
pub const BY: &str = "the proved library";

/// Why a command cannot be carried out.
#[derive(Debug)]
pub struct Trouble(pub String);

/// Prints on standard output; a reader that has seen enough, as a pager, may close its end.
pub fn print(words: &str) -> Result<(), Trouble> {
    print_bytes(words.as_bytes())
}

pub fn print_bytes(bytes: &[u8]) -> Result<(), Trouble> {
    let mut out = io::stdout().lock();
    match out.write_all(bytes).and_then(|()| out.flush()) {
        Err(error) if error.kind() != io::ErrorKind::BrokenPipe => Err(Trouble(format!("standard output: {error}"))),
        _ => Ok(()),
    }
}

/// Says something on standard error. Where that cannot be written to, nobody looks on.
pub fn tell(words: &str) {
    let _ = io::stderr().lock().write_all(words.as_bytes());
}

/// `refused 13 at record 4: the leaf is not settled`
pub fn refused(refusal: Refusal) -> String {
    format!("refused {} at record {}: {}", refusal.number, refusal.record, library::refusal(refusal.number))
}

/// Numbers in a sentence, runs of them together: `0, 2 and 5 to 9`.
pub fn numbers(numbers: &[usize]) -> String {
    let runs = numbers.chunk_by(|one, next| one + 1 == *next);
    let words: Vec<String> = runs
        .map(|run| match run {
            [first, .., last] => format!("{first} to {last}"),
            _ => run.iter().map(usize::to_string).collect(),
        })
        .collect();
    match words.as_slice() {
        [] => "none".to_string(),
        [only] => only.clone(),
        [first @ .., last] => format!("{} and {last}", first.join(", ")),
    }
}
