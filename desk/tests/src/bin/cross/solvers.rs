//! The solvers, and what they say of a file.

use std::fs;
use std::path::Path;
use std::process::{Command, Stdio};

pub struct Solver {
    pub name: &'static str,
    /// Options, with a limit of some seconds for each question.
    options: &'static [&'static str],
}

#[derive(Debug, PartialEq, Eq)]
pub enum Said {
    Sat,
    Unsat,
    Undecided,
    /// Neither, in the solver's words.
    Other(String),
}

const SOLVERS: [Solver; 2] = [
    Solver { name: "cvc5", options: &["--lang=smt2", "--strings-exp", "--tlimit=3000"] },
    Solver { name: "z3", options: &["-smt2", "-T:3"] },
];

/// Those that can be run.
pub fn installed() -> Vec<Solver> {
    let runs = |solver: &Solver| {
        let mut command = Command::new(solver.name);
        command.arg("--version").stdin(Stdio::null()).stdout(Stdio::null()).stderr(Stdio::null());
        command.status().is_ok_and(|status| status.success())
    };
    SOLVERS.into_iter().filter(runs).collect()
}

impl Solver {
    /// Puts a question, written to a file, to the solver.
    pub fn ask(&self, script: &str, file: &Path) -> Said {
        let run = fs::write(file, script)
            .and_then(|()| Command::new(self.name).args(self.options).arg(file).stdin(Stdio::null()).output());
        let output = match run {
            Ok(output) => output,
            Err(error) => return Said::Other(error.to_string()),
        };
        let said = String::from_utf8_lossy(&[output.stdout, output.stderr].concat()).into_owned();
        match said.lines().next().unwrap_or_default().trim() {
            "sat" => Said::Sat,
            "unsat" => Said::Unsat,
            "unknown" => Said::Undecided,
            _ if said.contains("timeout") => Said::Undecided,
            _ => Said::Other(said),
        }
    }
}
