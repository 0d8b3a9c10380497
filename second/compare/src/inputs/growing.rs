//! Sessions that grow in one way alone, each with what grew: what the larger ones
//! cost shows on what the cost depends.

use second::generate::full_house;
use second::table::{Line, Table};

use super::good::{full_log, log_for};
use super::Session;

const LONGEST_JOB: u64 = 65_535;
const LONGEST_H: u64 = 1_000_000;

/// H grows; eight booths of 1 in 8 and 64 entries of this demand stay.
pub fn growing_h(demand: u64) -> Vec<(u64, Session)> {
    let session = |h| Session::new(full_house(LONGEST_JOB), full_log(h, 64, demand));
    let each = [10_000, 30_000, 100_000, 300_000, LONGEST_H];
    each.map(|h| (h, session(h))).into()
}

/// The entries grow; eight booths of 1 in 8 stay, and a demand of 2 for each entry.
pub fn growing_entries() -> Vec<(u64, Session)> {
    let session = |count| Session::new(full_house(LONGEST_JOB), full_log(LONGEST_H, count, 2));
    let each = [0, 64, 256, 1_024, 4_096];
    each.map(|count| (count, session(count))).into()
}

/// The booths grow, each of 1 in 8: with them grow the ticks in which one works.
pub fn growing_booths() -> Vec<(u64, Session)> {
    busy_booths(|_| 8)
}

/// The booths grow, each of 1 in as many as there are: one works in every tick.
pub fn growing_booths_without_rest() -> Vec<(u64, Session)> {
    busy_booths(|booths| booths)
}

/// 4,096 entries leave none of the booths silent. Booth i passes at R = i + 1.
fn busy_booths(period: fn(u64) -> u64) -> Vec<(u64, Session)> {
    let table = |booths| equal_booths(booths as usize, period(booths));
    let log = |booths| log_for(booths as usize, LONGEST_H, 4_096, LONGEST_JOB);
    let each = [1, 2, 4, 8];
    each.map(|booths| (booths, Session::new(table(booths), log(booths))))
        .into()
}

fn equal_booths(booths: usize, period: u64) -> Table {
    let line = Line {
        period,
        allowance: 1,
        longest_jobs: vec![LONGEST_JOB; 8],
    };
    Table {
        lines: vec![line; booths],
    }
}
