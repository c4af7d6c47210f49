//! Counting of outcomes and printing of differences.

use std::collections::BTreeMap;
use std::process::ExitCode;

/// How many differences are printed in full.
const PRINTED: usize = 5;

/// Outcomes counted by label, what else inputs reach, and inputs passed and failed.
#[derive(Default)]
pub struct Report {
    outcomes: BTreeMap<String, usize>,
    reached: BTreeMap<String, usize>,
    pub passed: usize,
    pub failed: usize,
}

impl Report {
    /// Counts one input under the outcome that the reference gives.
    pub fn count(&mut self, outcome: String, difference: Option<String>) {
        *self.outcomes.entry(outcome).or_insert(0) += 1;
        match difference {
            None => self.passed += 1,
            Some(text) => self.fail(&text),
        }
    }

    /// Adds what another part of the run has counted.
    pub fn add(&mut self, part: Report) {
        for (label, count) in part.outcomes {
            *self.outcomes.entry(label).or_insert(0) += count;
        }
        for (label, count) in part.reached {
            *self.reached.entry(label).or_insert(0) += count;
        }
        self.passed += part.passed;
        self.failed += part.failed;
    }

    /// Counts one input under something that it reaches besides its outcome.
    pub fn reach(&mut self, label: String) {
        *self.reached.entry(label).or_insert(0) += 1;
    }

    /// Counts a failure; the first few are printed.
    pub fn fail(&mut self, text: &str) {
        self.failed += 1;
        if self.failed <= PRINTED {
            println!("{text}");
        }
    }

    /// How many inputs had an outcome whose label starts so.
    pub fn counted(&self, start: &str) -> usize {
        self.outcomes.iter().filter(|(label, _)| label.starts_with(start)).map(|(_, count)| count).sum()
    }

    /// The run itself is at fault when an outcome that it is meant to reach was not met.
    pub fn demand_met(&mut self, outcomes: &[String]) {
        for outcome in outcomes {
            if !self.outcomes.contains_key(outcome) {
                self.fail(&format!("no input has the outcome: {outcome}"));
            }
        }
    }

    /// The run itself is at fault when it has other outcomes than these, or not exactly so many of each.
    pub fn demand_counts(&mut self, outcomes: &[(String, usize)]) {
        let due: BTreeMap<String, usize> = outcomes.iter().cloned().collect();
        if self.outcomes != due {
            self.fail(&format!("the outcomes are {:?}, and due are {due:?}", self.outcomes));
        }
    }

    /// The run itself is at fault when fewer inputs than `least` reach something.
    pub fn demand_reached(&mut self, labels: &[String], least: usize) {
        for label in labels {
            let count = self.reached.get(label).copied().unwrap_or_default();
            if count < least {
                self.fail(&format!("{count} inputs reach this, and {least} are due: {label}"));
            }
        }
    }

    /// All inputs counted so far.
    pub fn total(&self) -> usize {
        self.outcomes.values().sum()
    }

    /// Prints how often each outcome was met, and how many inputs reach what else is counted.
    pub fn print_outcomes(&self, title: &str) {
        println!("{title}: {} inputs", self.total());
        for (label, count) in self.outcomes.iter().chain(&self.reached) {
            let share = 100.0 * *count as f64 / self.total() as f64;
            println!("  {label:<45} {count:>7}  {share:5.1} %");
        }
    }
}

/// The label of a refusal.
pub fn refused(number: u64) -> String {
    format!("refused {number:>2}")
}

/// The last line of a run and its exit status.
pub fn finish(reports: &[Report]) -> ExitCode {
    let passed: usize = reports.iter().map(|report| report.passed).sum();
    let failed: usize = reports.iter().map(|report| report.failed).sum();
    println!("{passed} passed, {failed} failed");
    ExitCode::from(u8::from(failed > 0))
}

/// Bytes in hexadecimal.
pub fn hex(bytes: &[u8]) -> String {
    bytes.iter().map(|byte| format!("{byte:02x}")).collect()
}
