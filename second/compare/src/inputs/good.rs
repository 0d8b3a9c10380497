//! Good files.

use second::arrivals::{Entry, Log};
use second::generate::{full_house, log_bytes, random_session, table_bytes};
use second::random::Random;
use second::ticks::WallTick;

use super::{randoms, Files};

/// The audition of document 01, typed from the page.
pub fn audition() -> Files {
    Files {
        table: vec![
            0x01, 0x00, 0x10, //
            0x06, 0x00, 0x05, 0x00, 0x02, 0x00, 0x02, //
            0x08, 0x00, 0x0A, 0x00, 0x04, 0x00, 0x03, 0x00, 0x04,
        ],
        log: vec![
            0x01, 0x00, 0x00, 0x00, 0x1F, 0x00, 0x00, 0x00, 0x0C, //
            0x08, 0x00, 0x00, 0x00, 0x00, 0x01, 0x01, 0x00, 0x03, //
            0x08, 0x00, 0x00, 0x00, 0x01, 0x00, 0x00, 0x00, 0x02, //
            0x08, 0x00, 0x00, 0x00, 0x02, 0x01, 0x00, 0x00, 0x01,
        ],
    }
}

/// `count` entries spread evenly over H wall ticks, for all tasks of all booths
/// in turn, each with the same demand.
pub fn full_log(h: u64, count: u64, demand: u64) -> Log {
    log_for(8, h, count, demand)
}

/// As the full log, for so many booths of eight tasks.
pub fn log_for(booths: usize, h: u64, count: u64, demand: u64) -> Log {
    let entry = |number: u64| Entry {
        tick: WallTick(number * h / count),
        booth: number as usize % booths,
        task: number as usize / booths % 8,
        demand,
    };
    Log {
        wall_ticks: WallTick(h),
        entries: (0..count).map(entry).collect(),
    }
}

pub fn random_files(random: &mut Random) -> Files {
    let (table, log) = random_session(random);
    Files {
        table: table_bytes(&table),
        log: log_bytes(&log),
    }
}

/// The audition, the longest table with a short log, and ten random sessions.
pub fn dozen(first_seed: u64, kind: u64) -> Vec<Files> {
    let full = Files {
        table: table_bytes(&full_house(65_535)),
        log: log_bytes(&full_log(1_000_000, 16, 65_535)),
    };
    let random = randoms(first_seed, kind, 10).map(|mut random| random_files(&mut random));
    [audition(), full].into_iter().chain(random).collect()
}
