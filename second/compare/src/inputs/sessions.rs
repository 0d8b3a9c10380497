//! Sessions that are accepted, and records to lend them.

use second::arrivals::Log;
use second::damage::{damaged, File};
use second::generate::{
    log_bytes, random_log, random_session, random_table, table_bytes, QUIET_EVENING, WHOLE_EVENING,
};
use second::random::Random;
use second::table::Table;

use super::{randoms, Files};

pub struct Session {
    pub table: Table,
    pub log: Log,
    pub files: Files,
}

impl Session {
    pub fn new(table: Table, log: Log) -> Session {
        let files = Files {
            table: table_bytes(&table),
            log: log_bytes(&log),
        };
        Session { table, log, files }
    }

    pub fn random(random: &mut Random) -> Session {
        let (table, log) = random_session(random);
        Session::new(table, log)
    }

    /// The wall record needs H bytes.
    pub fn wall_needed(&self) -> usize {
        self.log.wall_ticks.0 as usize
    }

    /// The own record needs H bytes for each booth.
    pub fn own_needed(&self) -> usize {
        self.wall_needed() * self.table.lines.len()
    }
}

/// `count` sessions with H of 100,000 and more, by turns busy and quiet.
pub fn long_sessions(first_seed: u64, count: usize) -> impl Iterator<Item = Session> {
    let sessions = randoms(first_seed, 0, 1_000).enumerate();
    let sessions = sessions.map(|(number, mut random)| {
        let busy = number % 2 == 0;
        let shape = if busy { WHOLE_EVENING } else { QUIET_EVENING };
        let table = random_table(&shape, &mut random);
        let log = random_log(&shape, &table, &mut random);
        Session::new(table, log)
    });
    let long = sessions.filter(|session| session.wall_needed() >= 100_000);
    long.take(count)
}

/// The files after an accident to one of them, or to both.
pub fn damaged_files(files: &Files, random: &mut Random) -> Files {
    let mut broken = files.clone();
    let which = random.between(0, 4);
    if which < 2 {
        broken.table = damaged(File::Table, &files.table, random);
    }
    if which > 0 {
        broken.log = damaged(File::Log, &files.log, random);
    }
    broken
}

/// A record to lend: it holds any bytes, which a call may or may not keep.
pub fn lent_record(length: usize, random: &mut Random) -> Vec<u8> {
    (0..length).map(|_| random.byte()).collect()
}
