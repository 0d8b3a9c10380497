//! `hallanupp draw`: a session as a picture.

use std::ffi::OsString;
use std::path::PathBuf;

use crate::failure::Failure;
use crate::help::wrong_words;
use crate::input;
use crate::picture::{picture, MOST_TICKS};
use crate::play::Played;

pub fn run(words: &[OsString]) -> Result<String, Failure> {
    let (words, file) = output(words)?;
    let names = input::names("draw", &words, 2, 2)?;
    let played = Played::from_files(names[0], names[1])?;
    if played.session.wall_ticks() > MOST_TICKS {
        let why = format!("a picture of more than {MOST_TICKS} wall ticks could not be read");
        return Err(Failure::Refused(why));
    }
    input::write(&file, &picture(&played))?;
    Ok(String::new())
}

/// The words without `-o FILE`, and the file.
fn output(words: &[OsString]) -> Result<(Vec<OsString>, PathBuf), Failure> {
    let mut others = words.to_vec();
    let option = others.iter().position(|word| word == "-o");
    let place =
        option.ok_or_else(|| wrong_words("draw", "-o with the picture's name is missing"))?;
    if place + 1 == others.len() {
        return Err(wrong_words(
            "draw",
            "the picture's name behind -o is missing",
        ));
    }
    let file = others.drain(place..place + 2).nth(1).unwrap_or_default();
    match others.iter().any(|word| word == "-o") {
        true => Err(wrong_words("draw", "-o stands there twice")),
        false => Ok((others, PathBuf::from(file))),
    }
}
