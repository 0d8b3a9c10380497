//! The solo part, from its definition alone; none of the session's moves is used.

use crate::arrivals::{read_log, Entry};
use crate::booth::NOBODY;
use crate::refusal::Refusal;
use crate::table::{read_table, Line};
use crate::ticks::OwnTick;

/// The first `n` own ticks of the part a booth would sing alone, from its line
/// and its own entries.
pub fn solo_part(line: &Line, own_entries: &[Entry], n: OwnTick) -> Vec<u8> {
    let mut by_release_point = own_entries.to_vec();
    by_release_point.sort_by_key(|entry| line.due(entry.tick));
    let mut later = by_release_point.iter().peekable();
    let mut asked = vec![0; line.tasks()];
    let mut played = vec![0; line.tasks()];
    let mut part = Vec::new();
    for own_tick in 0..n.0 {
        // `asked` holds what entries with release point at most this tick ask.
        while let Some(entry) = later.next_if(|e| line.due(e.tick) <= OwnTick(own_tick)) {
            asked[entry.task] += entry.demand;
        }
        let Some(task) = (0..line.tasks()).find(|&task| asked[task] > played[task]) else {
            part.push(NOBODY);
            continue;
        };
        played[task] += 1;
        part.push(task as u8);
    }
    part
}

/// Writes the first `n` own ticks of a booth's solo part into the buffer, or
/// refuses and writes nothing; bytes from `n` on keep what they held.
pub fn ask_solo(table: &[u8], log: &[u8], booth: usize, n: OwnTick, buffer: &mut [u8]) -> Refusal {
    match asked_part(table, log, booth, n, buffer.len()) {
        Ok(part) => {
            buffer[..part.len()].copy_from_slice(&part);
            Refusal::ACCEPTED
        }
        Err(refusal) => refusal,
    }
}

/// Table, then log, then the booth, then n and the buffer's length.
fn asked_part(
    table: &[u8],
    log: &[u8],
    booth: usize,
    n: OwnTick,
    lent: usize,
) -> Result<Vec<u8>, Refusal> {
    let table = read_table(table)?;
    let log = read_log(log, &table)?;
    let line = table.lines.get(booth).ok_or(Refusal::ABSENT_BOOTH)?;
    if n > line.due(log.wall_ticks) || n > OwnTick(lent as u64) {
        return Err(Refusal::UNFIT);
    }
    Ok(solo_part(line, &log.entries_of(booth), n))
}
