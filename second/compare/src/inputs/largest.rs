//! The largest sessions: 1,000,000 wall ticks, 4,096 entries, eight booths.

use second::generate::full_house;
use second::table::{Line, Table};

use super::good::full_log;
use super::Session;

/// Eight booths with periods from 5 to 1,000, admitted with little left over.
fn mixed_periods() -> Table {
    let promises = [
        (5, 1),
        (10, 1),
        (16, 1),
        (40, 5),
        (60, 6),
        (100, 12),
        (400, 50),
        (1_000, 100),
    ];
    let line = |(period, allowance)| Line {
        period,
        allowance,
        longest_jobs: vec![65_535; 8],
    };
    Table {
        lines: promises.map(line).to_vec(),
    }
}

/// Each with its name: mostly silence, and all booths busy from begin to end.
pub fn largest_sessions() -> Vec<(&'static str, Session)> {
    let session = |table, demand| Session::new(table, full_log(1_000_000, 4_096, demand));
    vec![
        ("mostly silence, 1 in 8", session(full_house(65_535), 2)),
        ("mostly silence, mixed periods", session(mixed_periods(), 2)),
        ("all busy, 1 in 8", session(full_house(65_535), 65_535)),
        ("all busy, mixed periods", session(mixed_periods(), 65_535)),
    ]
}

/// As long as the largest, with no entry at all.
pub fn session_without_entries() -> (&'static str, Session) {
    let session = Session::new(full_house(65_535), full_log(1_000_000, 0, 1));
    ("no entry, 1 in 8", session)
}
