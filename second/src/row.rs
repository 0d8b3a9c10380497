//! A row handed back out of an own record.

use crate::arrivals::MOST_WALL_TICKS;
use crate::refusal::Refusal;
use crate::table::MOST_BOOTHS;
use crate::ticks::WallTick;

/// `count` bytes from booth times H on: the caller's own bytes, not a copy.
///
/// "The end lies outside" is read as booth times H plus count above the lent
/// length, also where count is 0.
pub fn row(own: &[u8], wall_ticks: WallTick, booth: usize, count: u64) -> (Refusal, &[u8]) {
    let h = wall_ticks.0;
    if booth >= MOST_BOOTHS || h > MOST_WALL_TICKS || count > h {
        return (Refusal::UNFIT, &[]);
    }
    let begin = booth * h as usize;
    match own.get(begin..begin + count as usize) {
        Some(part) => (Refusal::ACCEPTED, part),
        None => (Refusal::UNFIT, &[]),
    }
}
