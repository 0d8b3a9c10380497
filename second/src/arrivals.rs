//! The arrival log: its entries and its reader with every refusal.

use crate::bytes::{big_endian, read_head, read_part};
use crate::refusal::{Refusal, ABSENT, BYTES_MISSING, DEMAND, OUT_OF_RANGE, TICK, TOO_FEW_OR_MANY};
use crate::table::Table;
use crate::ticks::WallTick;

pub const MOST_WALL_TICKS: u64 = 1_000_000;
pub const MOST_ENTRIES: usize = 4_096;
/// How many bytes N has in a log.
pub const N_BYTES: usize = 4;
/// The length byte of every entry.
pub const ENTRY_LENGTH: usize = 8;
/// Where H stands, and where the first entry begins.
pub const H_PLACE: usize = 1 + N_BYTES;
pub const FIRST_ENTRY: usize = H_PLACE + H_BYTES;
const H_BYTES: usize = 4;
const N_PLACE: usize = 1;

/// One arrival: at this wall tick, this task of this booth asks this demand.
#[derive(Clone, Copy, Debug, PartialEq, Eq)]
pub struct Entry {
    pub tick: WallTick,
    pub booth: usize,
    pub task: usize,
    pub demand: u64,
}

/// The session's wall ticks H and its entries, ticks never falling.
#[derive(Clone, Debug, PartialEq, Eq)]
pub struct Log {
    pub wall_ticks: WallTick,
    pub entries: Vec<Entry>,
}

impl Log {
    /// The booth's own entries, in the log's order.
    pub fn entries_of(&self, booth: usize) -> Vec<Entry> {
        let own = self.entries.iter().filter(|entry| entry.booth == booth);
        own.copied().collect()
    }
}

/// Reads a log against a table that has been read before it, or refuses it by
/// document 01's order of checks.
pub fn read_log(bytes: &[u8], table: &Table) -> Result<Log, Refusal> {
    let n = read_head(bytes, N_BYTES)?;
    if n < H_BYTES as u64 {
        return Err(Refusal::at(BYTES_MISSING, H_PLACE));
    }
    // Said by bytes, not by whole entries: one byte over 36,864 is enough.
    if n - H_BYTES as u64 > (MOST_ENTRIES * (1 + ENTRY_LENGTH)) as u64 {
        return Err(Refusal::at(TOO_FEW_OR_MANY, N_PLACE));
    }
    let wall_ticks = WallTick(big_endian(&bytes[H_PLACE..FIRST_ENTRY]));
    if wall_ticks > WallTick(MOST_WALL_TICKS) {
        return Err(Refusal::at(OUT_OF_RANGE, H_PLACE));
    }
    let mut entries = Vec::new();
    let mut before = WallTick(0);
    let mut start = FIRST_ENTRY;
    while start < bytes.len() {
        let part = read_part(bytes, start, |length| length == ENTRY_LENGTH)?;
        let entry = read_entry(part);
        if let Some(number) = fault(&entry, before, wall_ticks, table) {
            return Err(Refusal::at(number, start));
        }
        before = entry.tick;
        entries.push(entry);
        start += 1 + part.len();
    }
    Ok(Log {
        wall_ticks,
        entries,
    })
}

fn read_entry(part: &[u8]) -> Entry {
    Entry {
        tick: WallTick(big_endian(&part[0..4])),
        booth: usize::from(part[4]),
        task: usize::from(part[5]),
        demand: big_endian(&part[6..8]),
    }
}

/// The number of an entry's first fault: tick, booth, task, then demand.
fn fault(entry: &Entry, before: WallTick, wall_ticks: WallTick, table: &Table) -> Option<u8> {
    if entry.tick >= wall_ticks || entry.tick < before {
        return Some(TICK);
    }
    let Some(line) = table.lines.get(entry.booth) else {
        return Some(ABSENT);
    };
    let Some(&longest_job) = line.longest_jobs.get(entry.task) else {
        return Some(ABSENT);
    };
    let asked_too_much = entry.demand == 0 || entry.demand > longest_job;
    asked_too_much.then_some(DEMAND)
}
