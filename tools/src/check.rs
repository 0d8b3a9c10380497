//! `hallanupp check`: whether the files are accepted, and nothing is played.

use std::ffi::OsString;

use crate::failure::Failure;
use crate::input;

pub fn run(words: &[OsString]) -> Result<String, Failure> {
    let names = input::names("check", words, 1, 2)?;
    let table = input::read(names[0])?;
    let log = names.get(1).map(|name| input::read(name)).transpose()?;
    let verdict = match &log {
        None => hallanupp::table_verdict(&table),
        Some(log) => hallanupp::files_verdict(&table, log),
    };
    let refused = |refusal| Failure::refused(refusal, names[0], names.get(1).copied());
    verdict.map_err(refused)?;
    Ok("accepted\n".to_owned())
}
