//! Runs of the program in a folder of their own.

use crate::common::count;
use compare::report::Report;
use std::fs;
use std::path::{Path, PathBuf};
use std::process::{Command, Output, Stdio};

/// The program, and a folder for files, which is gone at the end.
pub struct Runs {
    program: PathBuf,
    pub folder: PathBuf,
}

impl Runs {
    pub fn of(program: &Path, name: &str) -> Runs {
        let folder = std::env::temp_dir().join(format!("nuldwich-{name}-{}", std::process::id()));
        fs::create_dir_all(&folder).unwrap_or_else(|error| panic!("{}: {error}", folder.display()));
        Runs { program: program.to_path_buf(), folder }
    }

    /// Writes a file into the folder.
    pub fn write(&self, name: &str, bytes: impl AsRef<[u8]>) -> String {
        let path = self.folder.join(name);
        fs::write(&path, bytes).unwrap_or_else(|error| panic!("{}: {error}", path.display()));
        path.display().to_string()
    }

    pub fn run(&self, words: &[&str]) -> Output {
        let mut command = Command::new(&self.program);
        command.args(words).stdin(Stdio::null()).output().unwrap_or_else(|error| panic!("the program: {error}"))
    }

    /// One run: its status, and what standard output and error contain.
    pub fn compare(&self, words: &[&str], status: i32, out: &str, error: &str, report: &mut Report) {
        let run = self.run(words);
        let (said, told) = (String::from_utf8_lossy(&run.stdout), String::from_utf8_lossy(&run.stderr));
        let silent = if status == 2 { said.is_empty() && !told.is_empty() } else { told.is_empty() };
        let holds = run.status.code() == Some(status) && said.contains(out) && told.contains(error) && silent;
        count(report, "command", holds, || format!("{words:?}: {:?}\n{said}{told}", run.status));
    }
}

impl Drop for Runs {
    fn drop(&mut self) {
        let _ = fs::remove_dir_all(&self.folder);
    }
}
