//! Words, files and standard output.

use std::ffi::OsString;
use std::fs::File;
use std::io::{stdout, Error, ErrorKind, Read, Write};
use std::path::Path;

use crate::failure::Failure;
use crate::help::wrong_words;

/// No table and no log is nearly so long, and a device may never end.
const MOST_BYTES: u64 = 1_000_000;

/// The file names behind a command that takes between `least` and `most` of them.
pub fn names<'a>(
    command: &str,
    words: &'a [OsString],
    least: usize,
    most: usize,
) -> Result<Vec<&'a Path>, Failure> {
    if let Some(option) = words.iter().find(|word| is_option(word)) {
        let why = format!("{} is no option of {command}", option.display());
        return Err(wrong_words(command, &why));
    }
    let why = match words.len() {
        few if few < least => "a file's name is missing",
        many if many > most => "there are more names than files to read",
        _ => return Ok(words.iter().map(Path::new).collect()),
    };
    Err(wrong_words(command, why))
}

fn is_option(word: &OsString) -> bool {
    word.as_encoded_bytes().starts_with(b"-")
}

/// The bytes of a file.
pub fn read(name: &Path) -> Result<Vec<u8>, Failure> {
    let mut bytes = Vec::new();
    let file = File::open(name).map_err(|error| not_read(name, &error))?;
    let read = file.take(MOST_BYTES + 1).read_to_end(&mut bytes);
    let length = read.map_err(|error| not_read(name, &error))?;
    if length as u64 > MOST_BYTES {
        let why = "this file is longer than any booth table or arrival log";
        return Err(of_file(name, why));
    }
    Ok(bytes)
}

fn of_file(name: &Path, why: &str) -> Failure {
    Failure::Misused(format!("{}: {why}", name.display()))
}

fn not_read(name: &Path, error: &Error) -> Failure {
    match error.kind() {
        ErrorKind::NotFound => of_file(name, "there is no such file"),
        ErrorKind::IsADirectory => of_file(name, "this is a folder, not a file"),
        _ => of_file(name, &format!("this file cannot be read: {error}")),
    }
}

/// A file written whole.
pub fn write(name: &Path, text: &str) -> Result<(), Failure> {
    let written = std::fs::write(name, text);
    written.map_err(|error| of_file(name, &format!("this file cannot be written: {error}")))
}

pub fn print(text: &str) -> Result<(), Failure> {
    let printed = stdout()
        .write_all(text.as_bytes())
        .and_then(|()| stdout().flush());
    printed.map_err(|error| Failure::Misused(format!("standard output cannot be written: {error}")))
}
