//! The session, tick by tick: a booth is looked at when it may have a task.

use std::array::from_fn;

use super::accepted_files;
use super::booth::Booth;
use super::stage::Stage;
use super::waiting::Waiting;
use crate::answers::{refused_session, SessionAnswer, Verdict, UNFIT};

/// A whole session into the lent wall record and own record.
pub fn session(table: &[u8], log: &[u8], wall: &mut [u8], own: &mut [u8]) -> SessionAnswer {
    let (table, log) = match accepted_files(table, log) {
        Ok(read) => read,
        Err(verdict) => return refused_session(verdict),
    };
    let h = log.wall_ticks as usize;
    if wall.len() < h || own.len() < h * table.booths {
        return refused_session(UNFIT);
    }
    let waiting = Waiting::new(&table, &log);
    let mut booths: [Booth; 8] = from_fn(|number| {
        Booth::new(
            &table.promises[number],
            waiting.of_booth(number),
            number * h,
        )
    });
    Stage::new(&mut booths, log.wall_ticks).play_all(&mut wall[..h], own);
    for booth in &mut booths[..table.booths] {
        booth.settle_at_end(log.wall_ticks, own);
    }
    let worked = from_fn(|number| booths[number].worked());
    SessionAnswer {
        verdict: Verdict::ACCEPTED,
        booths: table.booths as u64,
        clocks: from_fn(|number| booths[number].u),
        worked,
        idle: log.wall_ticks - worked.iter().sum::<u32>(),
        wall_ticks: log.wall_ticks,
    }
}
