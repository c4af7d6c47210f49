//! The files named. Of none more is read than can be of use.

use crate::output::{print_bytes, Trouble};
use std::fs::{self, File};
use std::io::{self, Read};
use std::path::{Path, PathBuf};
use text::{Mistake, Written};
use ticket::{Question, MOST_BYTES};

/// The most that is read of a text, in bytes.
const MOST_TEXT: usize = 1 << 20;

/// A file is of records, not text, where a byte 0 stands among this many at its front.
const FRONT: usize = 6;

pub fn cannot(path: &Path, why: impl std::fmt::Display) -> Trouble {
    Trouble(format!("{}: {why}", path.display()))
}

fn open(path: &Path) -> io::Result<Box<dyn Read>> {
    Ok(if path == Path::new("-") { Box::new(io::stdin()) } else { Box::new(File::open(path)?) })
}

/// Reads on until there is one byte more than are due at most, so that a file that is too long is seen to be.
fn read_on(input: &mut dyn Read, bytes: &mut Vec<u8>, most: usize) -> io::Result<()> {
    let due = (most + 1).saturating_sub(bytes.len());
    input.take(due as u64).read_to_end(bytes).map(|_| ())
}

/// The bytes of a ticket; of one that is too long, enough for the library to refuse it.
pub fn read_ticket(path: &Path) -> io::Result<Vec<u8>> {
    let mut bytes = Vec::new();
    read_on(&mut open(path)?, &mut bytes, MOST_BYTES)?;
    Ok(bytes)
}

/// A file as records or as text.
pub enum Input {
    Records(Vec<u8>),
    Text(String),
}

pub fn read(path: &Path) -> Result<Input, Trouble> {
    let bytes = read_bytes(path).map_err(|error| cannot(path, error))?;
    match bytes.len() {
        _ if are_records(&bytes) => Ok(Input::Records(bytes)),
        length if length > MOST_TEXT => Err(cannot(path, format!("a text has at most {MOST_TEXT} bytes"))),
        _ => as_text(bytes).map(Input::Text).map_err(|mistake| at(path, &mistake)),
    }
}

fn read_bytes(path: &Path) -> io::Result<Vec<u8>> {
    let (mut input, mut bytes) = (open(path)?, Vec::new());
    read_on(&mut input, &mut bytes, MOST_BYTES)?;
    if !are_records(&bytes) {
        read_on(&mut input, &mut bytes, MOST_TEXT)?;
    }
    Ok(bytes)
}

/// Whether bytes that are taken for a ticket are a text.
pub fn are_text(bytes: &[u8]) -> bool {
    !bytes.is_empty() && !are_records(bytes) && std::str::from_utf8(bytes).is_ok()
}

/// The bytes of a ticket that is to be explained. Of a text it is said how to get one.
pub fn read_ticket_alone(path: &Path) -> Result<Vec<u8>, Trouble> {
    let bytes = read_ticket(path).map_err(|error| cannot(path, error))?;
    if !are_text(&bytes) {
        return Ok(bytes);
    }
    let (text, ticket) = match path == Path::new("-") {
        true => ("q.txt".into(), "q.ticket".into()),
        false => (path.to_path_buf(), path.with_extension("ticket")),
    };
    let asking = format!("nuldwich ask -o {} {}", ticket.display(), text.display());
    let written = "of a ticket written as text nuldwich bytes makes one";
    Err(cannot(path, format!("this is text, not a ticket. A question's ticket is written by\n  {asking}\n{written}")))
}

fn are_records(bytes: &[u8]) -> bool {
    bytes.iter().take(FRONT).any(|byte| *byte == 0)
}

/// Text in UTF-8.
fn as_text(bytes: Vec<u8>) -> Result<String, Mistake> {
    String::from_utf8(bytes).map_err(|error| {
        let good = String::from_utf8_lossy(&error.as_bytes()[..error.utf8_error().valid_up_to()]).into_owned();
        let line = good.matches('\n').count() + 1;
        let column = good.rsplit('\n').next().unwrap_or_default().chars().count() + 1;
        Mistake { line, column, reason: "the text is not in UTF-8 here".to_string() }
    })
}

/// A mistake with the file that it stands in.
pub fn at(path: &Path, mistake: &Mistake) -> Trouble {
    Trouble(format!("{}:{mistake}", path.display()))
}

/// A question, or a ticket as one.
pub struct Asked {
    pub path: PathBuf,
    /// The bytes for the library, as they stand in a file of records.
    pub bytes: Vec<u8>,
    /// What they say; nothing of records that are no question.
    pub written: Option<Written>,
    /// The lines of a text.
    pub lines: Vec<String>,
}

/// Reads a question from text or records.
pub fn read_question(path: &Path) -> Result<Asked, Trouble> {
    let path = path.to_path_buf();
    match read(&path)? {
        Input::Records(bytes) => {
            let written = Question::from_bytes(&bytes).ok().map(Written::plain);
            Ok(Asked { path, bytes, written, lines: Vec::new() })
        }
        Input::Text(text) => {
            let written = text::read(&text).map_err(|mistake| at(&path, &mistake))?;
            let text = text.strip_prefix('\u{feff}').unwrap_or(&text);
            let lines = text.lines().map(visible).collect();
            Ok(Asked { path, bytes: written.to_bytes(), written: Some(written), lines })
        }
    }
}

/// A line without what a terminal takes for a command.
fn visible(line: &str) -> String {
    line.replace(|one: char| one.is_control() && one != '\t', "\u{fffd}")
}

/// Writes to a file or, where none is named, to standard output.
pub fn write(path: Option<&Path>, bytes: &[u8]) -> Result<(), Trouble> {
    match path {
        Some(path) => fs::write(path, bytes).map_err(|error| cannot(path, error)),
        None => print_bytes(bytes),
    }
}
