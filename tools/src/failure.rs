//! Why the tool did not do what was asked, and the exit status that says so.

use std::path::Path;
use std::process::ExitCode;

use hallanupp::{Refusal, Refused};

#[derive(Debug, PartialEq)]
pub enum Failure {
    /// A table, a log or a session is refused: exit status 1.
    Refused(String),
    /// The tool was not used as it can be: exit status 2.
    Misused(String),
}

impl Failure {
    /// The sentence, with the name of the file that it is about.
    pub fn refused(refusal: Refusal, table: &Path, log: Option<&Path>) -> Failure {
        let file = match refusal.refused {
            Refused::BoothTable => Some(table),
            Refused::ArrivalLog => log,
            Refused::Call => None,
        };
        let name = file.map_or(String::new(), |file| format!("{}: ", file.display()));
        let (word, number) = (refusal.refused.word(), refusal.number as u32);
        let place = refusal.place;
        Failure::Refused(format!(
            "{name}{refusal} (refused {word} {number} at {place})"
        ))
    }

    /// Says it on standard error.
    pub fn told(self) -> ExitCode {
        let (sentence, status) = match self {
            Failure::Refused(sentence) => (sentence, 1),
            Failure::Misused(sentence) => (sentence, 2),
        };
        eprintln!("hallanupp: {sentence}");
        ExitCode::from(status)
    }
}
