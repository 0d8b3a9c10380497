//! `hallanupp`: sessions played, checked and drawn with the proved library.
#![forbid(unsafe_code)]

mod check;
mod draw;
mod failure;
mod help;
mod input;
mod picture;
mod play;
mod values;

use std::env::args_os;
use std::ffi::OsString;
use std::process::ExitCode;

use failure::Failure;

/// A word that the tool knows.
pub struct Command {
    pub name: &'static str,
    /// What stands behind the word.
    pub takes: &'static str,
    /// What it does, in one line.
    pub help: &'static str,
    /// Answers what goes to standard output.
    pub run: fn(&[OsString]) -> Result<String, Failure>,
}

/// All of them: a new feature gets a line here and a module of its own.
pub const COMMANDS: &[Command] = &[
    Command {
        name: "play",
        takes: "TABLE LOG",
        help: "plays a session and prints it as the desk does",
        run: play::run,
    },
    Command {
        name: "check",
        takes: "TABLE [LOG]",
        help: "says whether a booth table, or a table with a log, is accepted",
        run: check::run,
    },
    Command {
        name: "draw",
        takes: "TABLE LOG -o FILE.svg",
        help: "plays a session and writes a picture of it",
        run: draw::run,
    },
];

fn main() -> ExitCode {
    let words: Vec<OsString> = args_os().skip(1).collect();
    match answer(&words).and_then(|text| input::print(&text)) {
        Ok(()) => ExitCode::SUCCESS,
        Err(failure) => failure.told(),
    }
}

/// What the words ask for, as text for standard output.
fn answer(words: &[OsString]) -> Result<String, Failure> {
    let (first, rest) = words.split_first().ok_or_else(help::no_word)?;
    if let Some(text) = help::asked_by(first, help::of_all) {
        return Ok(text);
    }
    let command = COMMANDS.iter().find(|command| first == command.name);
    let command = command.ok_or_else(|| help::unknown_word(first))?;
    let asked = |word| help::asked_by(word, || help::of_one(command));
    match rest.iter().find_map(asked) {
        Some(text) => Ok(text),
        None => (command.run)(rest),
    }
}
