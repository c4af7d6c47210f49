//! The words behind a command.

use crate::output::{Status, Trouble, STATUSES};
use std::ffi::OsString;
use std::path::{Path, PathBuf};

/// A command: its name, what stands behind it, and what it does.
pub struct Command {
    pub name: &'static str,
    pub operands: &'static str,
    pub summary: &'static str,
    pub details: &'static str,
    /// How many files it takes: least and most.
    pub files: (usize, usize),
    pub options: &'static [Choice],
    pub run: fn(&Arguments) -> Result<Status, Trouble>,
}

/// An option, with the name of its value where it has one.
pub struct Choice {
    pub name: &'static str,
    pub value: &'static str,
    pub about: &'static str,
}

pub const JSON: Choice = Choice { name: "--json", value: "", about: "print JSON for programs" };
pub const OUTPUT: Choice = Choice { name: "-o", value: "FILE", about: "write to FILE instead of standard output" };

/// The files named, and the options given with their values.
pub struct Arguments {
    pub files: Vec<PathBuf>,
    given: Vec<(&'static str, OsString)>,
}

impl Command {
    pub fn help(&self) -> String {
        let mut text = format!("usage: nuldwich {} {}\n\n{}\n", self.name, self.operands, self.details);
        for choice in self.options {
            let option = format!("{} {}", choice.name, choice.value);
            text += &format!("  {option:<18}{}\n", choice.about);
        }
        text + "  --help            say this\n\n- is standard input.\n" + STATUSES
    }

    fn wrong(&self, words: &str) -> Trouble {
        Trouble(format!("{words}\nusage: nuldwich {} {}", self.name, self.operands))
    }
}

impl Arguments {
    /// Sorts the words; nothing where help is asked for.
    pub fn of(command: &Command, words: &[OsString]) -> Result<Option<Arguments>, Trouble> {
        let mut arguments = Arguments { files: Vec::new(), given: Vec::new() };
        let mut words = words.iter();
        while let Some(word) = words.next() {
            match word.to_str() {
                Some("--help" | "-h") => return Ok(None),
                Some("--") => arguments.files.extend(words.by_ref().map(PathBuf::from)),
                Some(name) if name.starts_with('-') && name != "-" => {
                    arguments.option(command, name, &mut words)?;
                }
                _ => arguments.files.push(PathBuf::from(word)),
            }
        }
        let (least, most) = command.files;
        match arguments.files.len() {
            count if count < least => Err(command.wrong("a file is missing")),
            count if count > most => Err(command.wrong("too many files are named")),
            _ => Ok(Some(arguments)),
        }
    }

    fn option<'a>(
        &mut self,
        command: &Command,
        name: &str,
        words: &mut impl Iterator<Item = &'a OsString>,
    ) -> Result<(), Trouble> {
        let found = command.options.iter().find(|choice| choice.name == name);
        let choice = found.ok_or_else(|| command.wrong(&format!("there is no option {name}")))?;
        let value = match choice.value {
            "" => OsString::new(),
            due => words.next().cloned().ok_or_else(|| command.wrong(&format!("{name} takes a {due}")))?,
        };
        self.given.push((choice.name, value));
        Ok(())
    }

    /// Whether an option is given.
    pub fn has(&self, name: &str) -> bool {
        self.given.iter().any(|(given, _)| *given == name)
    }

    /// The value of an option; the last one where it is given several times.
    pub fn value(&self, name: &str) -> Option<&OsString> {
        self.given.iter().rev().find(|(given, _)| *given == name).map(|(_, value)| value)
    }

    /// The file to write to.
    pub fn output(&self) -> Option<&Path> {
        self.value(OUTPUT.name).map(Path::new)
    }
}
