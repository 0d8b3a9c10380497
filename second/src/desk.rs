//! The desk's text.

use crate::booth::NOBODY;
use crate::bytes::big_endian;
use crate::row::row;
use crate::session::{session, Outcome, Refused};
use crate::table::{FIRST_RECORD, MOST_BOOTHS};

/// The longest table and the longest log together.
pub const MOST_INPUT: usize = 37_044;
/// The desk has room for H up to this.
pub const MOST_DESK_TICKS: usize = 2_000;

/// Everything the desk program prints for this input.
///
/// Document 01 does not say how the text ends; read here as a newline after
/// every line, the last one too.
pub fn desk(input: &[u8]) -> Vec<u8> {
    if input.len() > MOST_INPUT {
        return format!("refused input 12 at {MOST_INPUT}\n").into_bytes();
    }
    let (table, log) = input.split_at(table_end(input));
    let mut wall = vec![0; MOST_DESK_TICKS];
    let mut own = vec![0; MOST_DESK_TICKS * MOST_BOOTHS];
    let outcome = session(table, log, &mut wall, &mut own);
    let text = match outcome.refused {
        Some(refused) => refused_text(refused, &outcome),
        None => accepted_text(&outcome, &wall, &own),
    };
    text.into_bytes()
}

/// The table ends where its N says, or where the input ends; an input too short
/// to hold N is all table.
fn table_end(input: &[u8]) -> usize {
    match input.get(1..FIRST_RECORD) {
        Some(n) => input.len().min(FIRST_RECORD + big_endian(n) as usize),
        None => input.len(),
    }
}

fn refused_text(refused: Refused, outcome: &Outcome) -> String {
    let name = match refused {
        Refused::Table => "table",
        Refused::Log => "log",
        Refused::Session => "session",
    };
    let (number, place) = (outcome.refusal.number, outcome.refusal.place);
    format!("refused {name} {number} at {place}\n")
}

/// "admitted 2" is read as the number of booths.
fn accepted_text(outcome: &Outcome, wall: &[u8], own: &[u8]) -> String {
    let wall_ticks = outcome.wall_ticks();
    let mut text = format!("admitted {}\n", outcome.booths);
    text += &format!("wall {}\n", letters(&wall[..wall_ticks.0 as usize]));
    for booth in 0..outcome.booths {
        let (u, worked) = (outcome.own_clocks[booth].0, outcome.worked[booth]);
        let (_, part) = row(own, wall_ticks, booth, u);
        text += &format!("booth {booth} own {u} worked {worked} {}\n", letters(part));
    }
    text + &format!("idle {}\n", outcome.idle)
}

/// A digit for a booth or task, a dot where nobody sang.
fn letters(record: &[u8]) -> String {
    let letter = |&byte: &u8| match byte {
        NOBODY => '.',
        number => char::from(b'0' + number),
    };
    record.iter().map(letter).collect()
}
