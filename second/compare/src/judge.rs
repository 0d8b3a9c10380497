//! The second program's answers in the C boundary's words: what everyone else is
//! expected to answer.

use second::arrivals::read_log;
use second::desk::desk;
use second::panel::{panel as second_panel, Reading};
use second::refusal::Refusal;
use second::row::row;
use second::session::{session as second_session, Refused};
use second::solo::ask_solo;
use second::table::read_table;
use second::ticks::{OwnTick, WallTick};

use crate::answers::{
    PanelRow, Row, SessionAnswer, Verdict, ARRIVAL_LOG, AT_THE_CEILING, BELOW, BOOTH_TABLE, CALL,
    NONE_YET, NOTHING, OVER, TEXT_ROOM,
};

fn verdict(refused: u32, refusal: Refusal) -> Verdict {
    Verdict {
        refused,
        number: u32::from(refusal.number),
        place: refusal.place,
    }
}

/// The verdict on a booth table.
pub fn table_verdict(table: &[u8]) -> Verdict {
    match read_table(table) {
        Ok(_) => Verdict::ACCEPTED,
        Err(refusal) => verdict(BOOTH_TABLE, refusal),
    }
}

/// The verdict on a booth table with an arrival log.
pub fn files_verdict(table: &[u8], log: &[u8]) -> Verdict {
    let table = match read_table(table) {
        Ok(table) => table,
        Err(refusal) => return verdict(BOOTH_TABLE, refusal),
    };
    match read_log(log, &table) {
        Ok(_) => Verdict::ACCEPTED,
        Err(refusal) => verdict(ARRIVAL_LOG, refusal),
    }
}

/// A whole session into the lent wall record and own record.
pub fn session(table: &[u8], log: &[u8], wall: &mut [u8], own: &mut [u8]) -> SessionAnswer {
    let outcome = second_session(table, log, wall, own);
    let refused = match outcome.refused {
        None => NOTHING,
        Some(Refused::Table) => BOOTH_TABLE,
        Some(Refused::Log) => ARRIVAL_LOG,
        Some(Refused::Session) => CALL,
    };
    SessionAnswer {
        verdict: verdict(refused, outcome.refusal),
        booths: outcome.booths as u64,
        clocks: outcome.own_clocks.map(|u| u.0 as u32),
        worked: outcome.worked.map(|worked| worked as u32),
        idle: outcome.idle as u32,
        wall_ticks: match outcome.refused {
            None => wall_ticks(table, log),
            Some(_) => 0,
        },
    }
}

/// H of files that are accepted.
fn wall_ticks(table: &[u8], log: &[u8]) -> u32 {
    let table = read_table(table).expect("an accepted table");
    let log = read_log(log, &table).expect("an accepted log");
    log.wall_ticks.0 as u32
}

/// A refusal of the call itself, unless one of the files it reads is refused.
fn verdict_of_call(files: Verdict, refusal: Refusal) -> Verdict {
    if files != Verdict::ACCEPTED {
        return verdict(files.refused, refusal);
    }
    match refusal.number {
        0 => Verdict::ACCEPTED,
        _ => verdict(CALL, refusal),
    }
}

/// The first `n` own ticks of a booth's solo part into the lent buffer.
pub fn solo_part(table: &[u8], log: &[u8], booth: usize, n: usize, part: &mut [u8]) -> Verdict {
    let refusal = ask_solo(table, log, booth, OwnTick(n as u64), part);
    verdict_of_call(files_verdict(table, log), refusal)
}

/// Where a booth's row stands in the caller's own record.
pub fn row_back(own: &[u8], h: usize, booth: usize, count: usize) -> Row {
    let (refusal, part) = row(own, WallTick(h as u64), booth, count as u64);
    let accepted = refusal == Refusal::ACCEPTED;
    // The part is the caller's bytes, so its address tells where it begins.
    let begin = part.as_ptr().addr().wrapping_sub(own.as_ptr().addr());
    Row {
        verdict: verdict_of_call(Verdict::ACCEPTED, refusal),
        start: if accepted { begin as u64 } else { 0 },
        count: part.len() as u64,
    }
}

/// The panel row of a booth after `t` ticks of a wall record.
pub fn panel(table: &[u8], wall: &[u8], booth: usize, t: usize) -> PanelRow {
    let (refusal, shown) = second_panel(table, wall, booth, WallTick(t as u64));
    let (reading, share) = match shown.reading {
        Reading::NoneYet => (NONE_YET, shown.got),
        Reading::Below(share) => (BELOW, share),
        Reading::AtCeiling(share) => (AT_THE_CEILING, share),
        Reading::Over(share) => (OVER, share),
    };
    // In C the reading's share is got, said once.
    assert_eq!(share.to_bits(), shown.got.to_bits());
    PanelRow {
        verdict: verdict_of_call(table_verdict(table), refusal),
        promised: shown.promised,
        got: shown.got,
        reading,
    }
}

/// What the desk prints, at the start of the lent buffer; bytes behind it keep
/// what they held. A buffer without room for any text gets none.
pub fn desk_text(input: &[u8], text: &mut [u8]) -> usize {
    if text.len() < TEXT_ROOM {
        return 0;
    }
    let printed = desk(input);
    text[..printed.len()].copy_from_slice(&printed);
    printed.len()
}
