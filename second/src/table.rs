//! The booth table: its lines, its reader with every refusal, and admission.

use crate::bytes::{big_endian, read_head, read_part};
use crate::refusal::{Refusal, NOT_ADMITTED, OUT_OF_RANGE, TOO_FEW_OR_MANY};
use crate::ticks::{OwnTick, WallTick};

pub const MOST_BOOTHS: usize = 8;
pub const MOST_TASKS: usize = 8;
pub const LONGEST_PERIOD: u64 = 10_000;
/// How many bytes N has in a table.
pub const N_BYTES: usize = 2;
/// Where the first record begins.
pub const FIRST_RECORD: usize = 1 + N_BYTES;

/// One booth's record: period T, allowance B, and each task's longest job.
#[derive(Clone, Debug, PartialEq, Eq)]
pub struct Line {
    pub period: u64,
    pub allowance: u64,
    pub longest_jobs: Vec<u64>,
}

impl Line {
    /// The own ticks the booth would have had alone by wall tick `t`; the one
    /// conversion from a wall tick to an own tick.
    pub fn due(&self, t: WallTick) -> OwnTick {
        let whole_periods = t.0 / self.period;
        let begun_period = t.0 % self.period;
        OwnTick(whole_periods * self.allowance + begun_period.min(self.allowance))
    }

    pub fn tasks(&self) -> usize {
        self.longest_jobs.len()
    }
}

/// The booths, highest priority first.
#[derive(Clone, Debug, PartialEq, Eq)]
pub struct Table {
    pub lines: Vec<Line>,
}

/// Reads and admits a table, or refuses it by document 01's order of checks.
pub fn read_table(bytes: &[u8]) -> Result<Table, Refusal> {
    let n = read_head(bytes, N_BYTES)?;
    if n == 0 {
        return Err(Refusal::at(TOO_FEW_OR_MANY, FIRST_RECORD));
    }
    let mut lines = Vec::new();
    let mut starts = Vec::new();
    let mut start = FIRST_RECORD;
    while start < bytes.len() {
        if lines.len() == MOST_BOOTHS {
            return Err(Refusal::at(TOO_FEW_OR_MANY, start));
        }
        let record = read_part(bytes, start, record_length_allowed)?;
        lines.push(read_line(record).ok_or(Refusal::at(OUT_OF_RANGE, start))?);
        starts.push(start);
        start += 1 + record.len();
    }
    match first_not_admitted(&lines) {
        Some(booth) => Err(Refusal::at(NOT_ADMITTED, starts[booth])),
        None => Ok(Table { lines }),
    }
}

/// L is 6, 8, .. 20: T, B and one to eight longest jobs of two bytes each.
fn record_length_allowed(length: usize) -> bool {
    matches!(length, 6 | 8 | 10 | 12 | 14 | 16 | 18 | 20)
}

/// The line in a record's bytes, or nothing if a value is out of range.
fn read_line(record: &[u8]) -> Option<Line> {
    let values: Vec<u64> = record.chunks(2).map(big_endian).collect();
    let (period, allowance, longest_jobs) = (values[0], values[1], values[2..].to_vec());
    let in_range = (1..=LONGEST_PERIOD).contains(&period)
        && (1..=period).contains(&allowance)
        && longest_jobs.iter().all(|&job| job >= 1);
    in_range.then_some(Line {
        period,
        allowance,
        longest_jobs,
    })
}

/// Admission: the first booth whose response test fails, if one does.
pub fn first_not_admitted(lines: &[Line]) -> Option<usize> {
    (0..lines.len()).find(|&booth| !passes(&lines[..booth], &lines[booth]))
}

/// The response test of one booth below the `earlier` ones.
fn passes(earlier: &[Line], line: &Line) -> bool {
    (1..=line.period).any(|r| line.allowance + taken_before(earlier, r) <= r)
}

/// What the earlier booths may take within R ticks.
///
/// "Its B times R/T rounded up" is read as B times (R/T rounded up): the other
/// grouping would admit tables that break the demand that no row lags.
pub fn taken_before(earlier: &[Line], r: u64) -> u64 {
    earlier
        .iter()
        .map(|line| line.allowance * r.div_ceil(line.period))
        .sum()
}
