//! The arrival log's reader.

use super::head::{check_head, refuse, Refusal};
use super::table::Table;

const FIRST_ENTRY: usize = 9;
const ENTRY_BYTES: usize = 9;
pub const MOST_ENTRIES: usize = 4_096;
pub const MOST_WALL_TICKS: u32 = 1_000_000;

/// An accepted log; the entries stay the file's bytes.
pub struct Log<'a> {
    pub wall_ticks: u32,
    pub entries: &'a [[u8; ENTRY_BYTES]],
}

pub struct Entry {
    length: u8,
    pub tick: u32,
    /// The booth's byte, then the task's.
    place: u16,
    pub demand: u16,
}

impl Entry {
    /// One look: behind the length byte stands one number of eight bytes.
    #[inline]
    pub fn read(bytes: &[u8; ENTRY_BYTES]) -> Entry {
        let [length, value @ ..] = *bytes;
        let value = u64::from_be_bytes(value);
        Entry {
            length,
            tick: (value >> 32) as u32,
            place: (value >> 16) as u16,
            demand: value as u16,
        }
    }

    #[inline]
    pub fn booth(&self) -> usize {
        usize::from(self.place >> 8)
    }

    #[inline]
    pub fn task(&self) -> u8 {
        self.place as u8
    }
}

pub fn read_log<'a>(bytes: &'a [u8], table: &Table) -> Result<Log<'a>, Refusal> {
    check_head::<4>(bytes)?;
    let Some((head, body)) = bytes.split_first_chunk::<FIRST_ENTRY>() else {
        return refuse(1, 5);
    };
    if body.len() > MOST_ENTRIES * ENTRY_BYTES {
        return refuse(4, 1);
    }
    let [.., h0, h1, h2, h3] = *head;
    let wall_ticks = u32::from_be_bytes([h0, h1, h2, h3]);
    if wall_ticks > MOST_WALL_TICKS {
        return refuse(6, 5);
    }
    let (entries, rest) = body.as_chunks::<ENTRY_BYTES>();
    check_entries(entries, wall_ticks, table)?;
    match rest.first() {
        None => Ok(Log {
            wall_ticks,
            entries,
        }),
        Some(8) => refuse(1, bytes.len() - rest.len()),
        Some(_) => refuse(5, bytes.len() - rest.len()),
    }
}

fn check_entries(
    entries: &[[u8; ENTRY_BYTES]],
    wall_ticks: u32,
    table: &Table,
) -> Result<(), Refusal> {
    let longest_jobs = LongestJobs::new(table);
    if all_sound(entries, wall_ticks, &longest_jobs) {
        return Ok(());
    }
    let mut before = 0;
    for (number, bytes) in entries.iter().enumerate() {
        let entry = Entry::read(bytes);
        let fault = fault(&entry, before, wall_ticks, &longest_jobs);
        if fault != 0 {
            return refuse(fault, FIRST_ENTRY + number * ENTRY_BYTES);
        }
        before = entry.tick;
    }
    Ok(())
}

/// Laid out once, so that an entry finds its longest job by the booth's and the
/// task's byte as they stand, the bits that no good entry has set left out.
struct LongestJobs([u16; 8 * 256]);

const PLACE_BITS: u16 = 0x0707;

impl LongestJobs {
    fn new(table: &Table) -> LongestJobs {
        let mut jobs = [0; 8 * 256];
        for (booth, own) in table.longest_jobs.iter().enumerate() {
            jobs[booth * 256..][..8].copy_from_slice(own);
        }
        LongestJobs(jobs)
    }

    #[inline]
    fn of(&self, place: u16) -> u16 {
        self.0[usize::from(place & PLACE_BITS)]
    }
}

/// Whether no entry has a fault. All are looked at without a branch: what tells of
/// a fault is gathered and asked about once.
fn all_sound(entries: &[[u8; ENTRY_BYTES]], wall_ticks: u32, longest_jobs: &LongestJobs) -> bool {
    let mut before = 0;
    let mut lengths = 0;
    let mut places = 0;
    let mut below_zero = 0;
    for bytes in entries {
        let entry = Entry::read(bytes);
        lengths |= entry.length ^ 8;
        places |= entry.place;
        let longest_job = i64::from(longest_jobs.of(entry.place));
        let demand = i64::from(entry.demand);
        below_zero |= (i64::from(entry.tick) - before) | (longest_job - demand) | (demand - 1);
        before = i64::from(entry.tick);
    }
    let in_time = entries.is_empty() || before < i64::from(wall_ticks);
    lengths == 0 && places & !PLACE_BITS == 0 && below_zero >= 0 && in_time
}

/// The number of an entry's first fault, or 0.
#[inline]
fn fault(entry: &Entry, before: u32, wall_ticks: u32, longest_jobs: &LongestJobs) -> u32 {
    if entry.length != 8 {
        return 5;
    }
    if entry.tick >= wall_ticks || entry.tick < before {
        return 8;
    }
    let longest_job = longest_jobs.of(entry.place);
    if entry.place & !PLACE_BITS != 0 || longest_job == 0 {
        return 9;
    }
    if entry.demand == 0 || entry.demand > longest_job {
        return 10;
    }
    0
}
