//! Outcomes of checking, counted.

use crate::check::Checked;
use crate::output::Status;
use library::Verdict;
use show::json::object;
use std::collections::BTreeMap;

#[derive(Default)]
pub struct Tally {
    none: usize,
    strings: usize,
    /// By number.
    refused: BTreeMap<u64, usize>,
    unread: usize,
}

impl Tally {
    pub fn count(&mut self, checked: &Result<Checked, String>) {
        match checked.as_ref().map(|checked| &checked.verdict) {
            Ok(Verdict::NoSolution { .. }) => self.none += 1,
            Ok(Verdict::Strings { .. }) => self.strings += 1,
            Ok(Verdict::Refused(refusal)) => *self.refused.entry(refusal.number).or_default() += 1,
            Err(_) => self.unread += 1,
        }
    }

    fn refused(&self) -> usize {
        self.refused.values().sum()
    }

    /// Tickets with a verdict.
    pub fn verdicts(&self) -> usize {
        self.none + self.strings + self.refused()
    }

    pub fn total(&self) -> usize {
        self.verdicts() + self.unread
    }

    pub fn status(&self) -> Status {
        match () {
            () if self.unread > 0 => Status::Unread,
            () if !self.refused.is_empty() => Status::Bad,
            () => Status::Good,
        }
    }

    /// A row for each outcome that there is.
    pub fn table(&self) -> String {
        let mut rows = vec![("no solution".to_string(), self.none), ("strings".to_string(), self.strings)];
        rows.extend(
            self.refused
                .iter()
                .map(|(number, count)| (format!("refused {number}: {}", library::refusal(*number)), *count)),
        );
        rows.push(("cannot be read".to_string(), self.unread));
        rows.retain(|(_, count)| *count > 0);
        rows.push(("tickets".to_string(), self.total()));
        rows.iter().map(|(label, count)| format!("{count:>8}  {label}\n")).collect()
    }

    pub fn json(&self) -> String {
        let refused = self.refused.iter().map(|(number, count)| (number.to_string(), count.to_string()));
        let refused: Vec<(String, String)> = refused.collect();
        let by_number: Vec<(&str, String)> =
            refused.iter().map(|(number, count)| (&number[..], count.clone())).collect();
        object(&[
            ("tickets", self.total().to_string()),
            ("no_solution", self.none.to_string()),
            ("strings", self.strings.to_string()),
            ("refused", self.refused().to_string()),
            ("refused_by_number", object(&by_number)),
            ("unread", self.unread.to_string()),
        ])
    }
}
