//! Files of SMT-LIB as the text form of a question.

use crate::conditions::{unfit, Condition};
use crate::symbols;
use crate::terms::Scope;
use crate::tokens::{terms, Node, Term};
use text::{Mistake, Names, Place};
use ticket::{MOST_CHARACTERS, MOST_FACTS, MOST_VARIABLES};

/// The alphabet of a question without strings, which has no effect.
pub const ALPHABET: &str = ":nuldwich-alphabet";

/// Commands that a question has no use for.
const SKIPPED: [&str; 14] = [
    "set-logic",
    "set-info",
    "set-option",
    "check-sat",
    "get-model",
    "get-value",
    "get-info",
    "get-option",
    "get-assertions",
    "get-assignment",
    "get-proof",
    "get-unsat-core",
    "get-unsat-assumptions",
    "echo",
];

/// Words that begin a line of the text form.
const LEADING: [&str; 5] = ["alphabet", "strings", "integers", "literal", "claim"];

/// A file while its commands are read.
#[derive(Default)]
struct File {
    scope: Scope,
    names: Names,
    /// Where each string is declared.
    declared: Vec<Place>,
    remarks: Vec<String>,
    conditions: Vec<Condition>,
    /// Said by a question without strings.
    n: Option<u32>,
}

/// Reads the fragment that fits: the text form of the question, or the first term that does not fit.
pub fn read(source: &str) -> Result<String, Mistake> {
    let mut file = File::default();
    for command in &terms(source)? {
        if command.applied().is_some_and(|(name, _)| name == "exit") {
            break;
        }
        file.command(command)?;
    }
    file.text()
}

impl File {
    fn command(&mut self, command: &Term) -> Result<(), Mistake> {
        match command.applied() {
            Some(("declare-const", [name, sort])) => self.declare(command, name, sort),
            Some(("declare-fun", [name, arguments, sort])) => match arguments.list() {
                Some([]) => self.declare(command, name, sort),
                _ => Err(unfit(command, ": its variables take no arguments")),
            },
            Some(("assert", [term])) => self.assert(term),
            Some(("set-info", [key, value])) => {
                self.inform(key, value);
                Ok(())
            }
            Some((name, _)) if SKIPPED.contains(&name) => Ok(()),
            _ => Err(unfit(command, "")),
        }
    }

    fn declare(&mut self, command: &Term, name: &Term, sort: &Term) -> Result<(), Mistake> {
        let symbol = name.symbol().ok_or_else(|| name.mistake("a symbol is due here"))?;
        let Scope { strings, integers, .. } = &mut self.scope;
        if strings.iter().chain(integers.iter()).any(|known| known == symbol) {
            return Err(name.mistake(format!("{symbol} is declared twice")));
        }
        let known = |name: &str| self.names.strings.iter().chain(&self.names.integers).any(|known| known == name);
        let chosen = symbols::name(symbol, |name| !known(name) && !LEADING.contains(&name));
        if chosen != symbol {
            let plain: String = symbol.chars().map(|one| if one.is_control() { ' ' } else { one }).collect();
            self.remarks.push(format!("# {chosen} stands for {plain}"));
        }
        let (symbols, names) = match sort.symbol() {
            Some("String") => {
                self.declared.push(command.place);
                (strings, &mut self.names.strings)
            }
            Some("Int") => (integers, &mut self.names.integers),
            _ => return Err(unfit(sort, ": its variables are of the sorts String and Int")),
        };
        if names.len() == MOST_VARIABLES {
            return Err(command.mistake(format!("a question has at most {MOST_VARIABLES} variables of a sort")));
        }
        symbols.push(symbol.to_string());
        names.push(chosen);
        Ok(())
    }

    fn assert(&mut self, term: &Term) -> Result<(), Mistake> {
        self.conditions.extend(self.scope.conditions(term)?);
        match self.conditions.len() > MOST_FACTS + MOST_VARIABLES {
            true => Err(term.mistake(format!("a question has at most {MOST_FACTS} conditions"))),
            false => Ok(()),
        }
    }

    /// The alphabet, where it is said outright.
    fn inform(&mut self, key: &Term, value: &Term) {
        if let (Node::Other(key), Node::Number(n)) = (&key.node, &value.node) {
            let n = u32::try_from(*n).ok().filter(|n| key == ALPHABET && (1..=MOST_CHARACTERS).contains(n));
            self.n = n.or(self.n);
        }
    }

    /// The alphabet: one for all strings. Where nothing is said of one it is that of SMT-LIB.
    fn alphabet(&self) -> Result<u32, Mistake> {
        let mut found: Vec<(Place, u32)> = Vec::new();
        for (x, place) in self.declared.iter().enumerate() {
            let within = self.conditions.iter().filter_map(|condition| match condition {
                Condition::Within { place, string, n } if *string == x => Some((*place, *n)),
                _ => None,
            });
            let before = found.len();
            found.extend(within);
            if found.len() == before {
                found.push((*place, MOST_CHARACTERS));
            }
        }
        let Some((_, n)) = found.first().copied() else { return Ok(self.n.unwrap_or(MOST_CHARACTERS)) };
        match found.iter().find(|(_, other)| *other != n) {
            Some((place, _)) => Err(place.mistake("a question has one alphabet for all strings; this is another one")),
            None => Ok(n),
        }
    }

    /// The text form, read once for the limits of a question; what passes them is told at the place in the file.
    fn text(self) -> Result<String, Mistake> {
        let start = Place { line: 1, column: 1 };
        let mut lines: Vec<(Place, String)> = self.remarks.iter().map(|remark| (start, remark.clone())).collect();
        lines.push((start, format!("alphabet {}", self.alphabet()?)));
        for (what, names) in [("strings", &self.names.strings), ("integers", &self.names.integers)] {
            if !names.is_empty() {
                lines.push((start, format!("{what} {}", names.join(" "))));
            }
        }
        lines.extend(self.conditions.iter().filter_map(|condition| condition.line(&self.names)));
        let text: String = lines.iter().map(|(_, line)| format!("{line}\n")).collect();
        let at = |line: usize| lines.get(line - 1).map_or(start, |(place, _)| *place);
        let written = text::read(&text).map_err(|mistake| at(mistake.line).mistake(mistake.reason))?;
        match written.lines.get(MOST_FACTS) {
            Some(line) => Err(at(*line).mistake(format!("a question has at most {MOST_FACTS} conditions"))),
            None => Ok(text),
        }
    }
}
