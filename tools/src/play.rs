//! `hallanupp play`: a session as the desk prints it, however long.

use std::ffi::OsString;
use std::path::Path;

use hallanupp::Session;

use crate::failure::Failure;
use crate::input;

pub fn run(words: &[OsString]) -> Result<String, Failure> {
    let names = input::names("play", words, 2, 2)?;
    let played = Played::from_files(names[0], names[1])?;
    Ok(text(&played.session))
}

/// A session with the files that it was played from.
pub struct Played {
    pub table: Vec<u8>,
    pub log: Vec<u8>,
    pub session: Session<Vec<u8>>,
}

impl Played {
    pub fn from_files(table_name: &Path, log_name: &Path) -> Result<Played, Failure> {
        let (table, log) = (input::read(table_name)?, input::read(log_name)?);
        let played = hallanupp::play(&table, &log);
        let session =
            played.map_err(|refusal| Failure::refused(refusal, table_name, Some(log_name)))?;
        Ok(Played {
            table,
            log,
            session,
        })
    }
}

fn text(session: &Session<Vec<u8>>) -> String {
    let mut text = format!(
        "admitted {}\nwall {}\n",
        session.booths(),
        letters(session.wall())
    );
    for (booth, row) in session.rows().enumerate() {
        let worked = session.worked(booth).unwrap_or(0);
        let (own, row) = (row.len(), letters(row));
        text += &format!("booth {booth} own {own} worked {worked} {row}\n");
    }
    text + &format!("idle {}\n", session.idle())
}

/// A digit for each booth or task, a dot for a tick without work.
fn letters(ticks: &[u8]) -> String {
    ticks.iter().map(|&tick| letter(tick)).collect()
}

fn letter(tick: u8) -> char {
    match tick {
        hallanupp::IDLE => '.',
        number => char::from(b'0' + number),
    }
}
