//! What the desk program reads: a booth table and behind it an arrival log.

use second::damage::{damaged, each_byte_changed, each_cut, head_that_lies, random_bytes, File};
use second::desk::{MOST_DESK_TICKS, MOST_INPUT};
use second::generate::{
    every_tick, full_house, log_bytes, random_log, random_session, random_table, LONG_AND_SPARSE,
    WHOLE_EVENING,
};
use second::random::Random;

use super::edge::at_the_edge;
use super::good::{audition, full_log, random_files};
use super::sessions::damaged_files;
use super::tables::any_bytes;
use super::{randoms, Kind, Session};

pub fn kinds_of_input(first_seed: u64) -> Vec<Kind<Vec<u8>>> {
    let randoms = move |kind, count| randoms(first_seed, kind, count);
    let of_few = move || few(first_seed).into_iter();
    let all_changes = |input: Vec<u8>| each_byte_changed(&input).collect::<Vec<_>>();
    let all_cuts = |input: Vec<u8>| each_cut(&input).collect::<Vec<_>>();
    let good = |mut random: Random| random_files(&mut random).joined();
    vec![
        Kind::new("random sessions", randoms(20, 20_000).map(good)),
        Kind::new("H made greater", randoms(21, 10_000).map(with_greater_h)),
        Kind::new("long periods", randoms(28, 1_000).map(with_long_periods)),
        Kind::new("edge of admission", randoms(29, 5_000).flat_map(edge)),
        Kind::new("single bytes changed", of_few().flat_map(all_changes)),
        Kind::new("cuts", of_few().flat_map(all_cuts)),
        Kind::new("lying lengths", randoms(23, 20_000).map(lying)),
        Kind::new("random bytes", randoms(24, 20_000).map(any_input)),
        Kind::new("damaged files", randoms(25, 20_000).map(damaged_apart)),
        Kind::new("damaged as one", randoms(26, 20_000).map(damaged_as_one)),
        Kind::new("about 37,044 bytes", randoms(27, 500).map(about_the_most)),
    ]
}

/// The audition, the longest table with a short log, and two random sessions.
fn few(first_seed: u64) -> Vec<Vec<u8>> {
    let full = Session::new(full_house(3), full_log(50, 8, 3)).files;
    let random = randoms(first_seed, 22, 2).map(|mut random| random_files(&mut random));
    let files = [audition(), full].into_iter().chain(random);
    files.map(|files| files.joined()).collect()
}

/// H is about as often within the desk's room as over it.
fn with_greater_h(mut random: Random) -> Vec<u8> {
    let (table, mut log) = random_session(&mut random);
    log.wall_ticks.0 += random.between(0, 2 * MOST_DESK_TICKS as u64);
    Session::new(table, log).files.joined()
}

/// Periods up to 10,000 and H up to 2,000: the rows are long.
fn with_long_periods(mut random: Random) -> Vec<u8> {
    let table = random_table(&WHOLE_EVENING, &mut random);
    let log = random_log(&LONG_AND_SPARSE, &table, &mut random);
    Session::new(table, log).files.joined()
}

/// An admitted table and one that is not, with a log that would fit both.
fn edge(mut random: Random) -> Vec<Vec<u8>> {
    let h = random.between(0, 150);
    let log = log_bytes(&every_tick(h, random.between(0, h)));
    let tables = at_the_edge(&mut random).into_iter();
    tables.map(|table| [table, log.clone()].concat()).collect()
}

/// The table's N decides where the log begins, so a lie of it moves that.
fn lying(mut random: Random) -> Vec<u8> {
    let mut files = random_files(&mut random);
    let which = random.between(0, 2);
    if which < 2 {
        files.log = head_that_lies(File::Log, &files.log, &mut random);
    }
    let input = files.joined();
    if which == 0 {
        return input;
    }
    head_that_lies(File::Table, &input, &mut random)
}

/// Random bytes for the whole input, or behind a good table.
fn any_input(mut random: Random) -> Vec<u8> {
    if random.one_in(2) {
        return any_bytes(File::Table, &mut random);
    }
    let mut files = random_files(&mut random);
    files.log = any_bytes(File::Log, &mut random);
    files.joined()
}

fn damaged_apart(mut random: Random) -> Vec<u8> {
    let files = random_files(&mut random);
    damaged_files(&files, &mut random).joined()
}

/// An accident to the whole input, as if it were one long table.
fn damaged_as_one(mut random: Random) -> Vec<u8> {
    let input = random_files(&mut random).joined();
    damaged(File::Table, &input, &mut random)
}

/// Up to three bytes less or more than the desk reads, most of them behind the log.
fn about_the_most(mut random: Random) -> Vec<u8> {
    let mut input = random_files(&mut random).joined();
    let length = MOST_INPUT - 3 + random.below(7);
    while input.len() < length {
        input.extend(random_bytes(200, &mut random));
    }
    input.truncate(length);
    input
}
