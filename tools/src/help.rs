//! What the tool says of itself.

use std::ffi::{OsStr, OsString};

use crate::failure::Failure;
use crate::{Command, COMMANDS};

/// The answer to a word that asks for help or for the version.
pub fn asked_by(word: &OsString, help: impl Fn() -> String) -> Option<String> {
    match word.to_str() {
        Some("--help" | "-h") => Some(help()),
        Some("--version" | "-V") => Some(format!("hallanupp {}\n", hallanupp::version())),
        _ => None,
    }
}

pub fn of_one(command: &Command) -> String {
    format!("{}\n{}\n", usage(command), command.help)
}

pub fn of_all() -> String {
    let mut text =
        String::from("Sessions of a direct-monitor box for singers, by the proved library.\n\n");
    for command in COMMANDS {
        let asked = format!("{} {}", command.name, command.takes);
        text += &format!("    hallanupp {asked:<28} {}\n", command.help);
    }
    text += "\n--help behind a word tells about it alone; --version gives the library's version.\n";
    text += "Exit status: 0 done, 1 a file or a session is refused, 2 not used as above.\n";
    text
}

fn usage(command: &Command) -> String {
    format!("usage: hallanupp {} {}", command.name, command.takes)
}

/// The first word is none that the tool knows.
pub fn unknown_word(word: &OsStr) -> Failure {
    let known: Vec<&str> = COMMANDS.iter().map(|command| command.name).collect();
    let (word, known) = (word.display(), known.join(", "));
    Failure::Misused(format!(
        "{word} is no word of this tool; it knows {known} and --help"
    ))
}

/// The tool was called without a word.
pub fn no_word() -> Failure {
    Failure::Misused(format!(
        "a word is missing that says what to do\n\n{}",
        of_all().trim_end()
    ))
}

/// The words behind a command are not what it takes.
pub fn wrong_words(name: &str, why: &str) -> Failure {
    let command = COMMANDS.iter().find(|command| command.name == name);
    let usage = command.map_or(String::new(), usage);
    Failure::Misused(format!("{why}; {usage}"))
}
