//! The desk: asks, writes, reads, draws and compares. Every verdict that it prints was given by the proved library.

mod arguments;
mod ask;
mod bytes;
mod check;
mod draw;
mod files;
mod freedom;
mod from_smt;
mod judge;
mod names;
mod output;
mod same;
mod show;
mod smt;
mod tally;
mod text;
mod values;

use arguments::{Arguments, Command};
use output::{Status, Trouble};
use std::ffi::OsString;
use std::process::ExitCode;

/// The commands, in the order of the help.
const COMMANDS: [&Command; 10] = [
    &ask::COMMAND,
    &check::COMMAND,
    &judge::COMMAND,
    &show::COMMAND,
    &draw::COMMAND,
    &bytes::COMMAND,
    &text::COMMAND,
    &same::COMMAND,
    &smt::COMMAND,
    &from_smt::COMMAND,
];

fn main() -> ExitCode {
    let words: Vec<OsString> = std::env::args_os().skip(1).collect();
    match run(&words) {
        Ok(status) => ExitCode::from(status as u8),
        Err(Trouble(words)) => {
            output::tell(&format!("{words}\n"));
            ExitCode::from(Status::Unread as u8)
        }
    }
}

fn run(words: &[OsString]) -> Result<Status, Trouble> {
    let (name, rest) = match words {
        [] => return Err(Trouble(help())),
        [name, rest @ ..] => (name.to_string_lossy(), rest),
    };
    if ["--help", "-h", "help"].contains(&name.as_ref()) {
        return output::print(&help()).map(|()| Status::Good);
    }
    if name == "--version" {
        let (major, minor) = library::version();
        return output::print(&format!("nuldwich {major}.{minor}\n")).map(|()| Status::Good);
    }
    let command = COMMANDS.into_iter().find(|command| command.name == name);
    let command = command.ok_or_else(|| Trouble(format!("there is no command {name}\n\n{}", help())))?;
    match Arguments::of(command, rest)? {
        Some(arguments) => (command.run)(&arguments),
        None => output::print(&command.help()).map(|()| Status::Good),
    }
}

fn help() -> String {
    let lines: String = COMMANDS.iter().map(|command| format!("  {:<10}{}\n", command.name, command.summary)).collect();
    format!(
        "usage: nuldwich COMMAND ..\n\n{lines}\nnuldwich COMMAND --help says more of one. Every verdict is the proved library's; nothing else here is proved.\n{}",
        output::STATUSES
    )
}
