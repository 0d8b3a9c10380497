//! Arrival logs of every kind, each with a table to read it against.

use second::damage::{damaged, each_byte_changed, each_cut, head_that_lies, File};
use second::generate::{full_house, log_bytes, table_bytes};
use second::random::Random;

use super::good::{dozen, full_log, random_files};
use super::tables::any_bytes;
use super::{randoms, Files, Kind};

pub fn kinds_of_log(first_seed: u64) -> Vec<Kind<Files>> {
    let randoms = move |kind, count| randoms(first_seed, kind, count);
    let of_dozen = move || dozen(first_seed, 11).into_iter();
    vec![
        Kind::new(
            "random good files",
            randoms(10, 20_000).map(|mut random| random_files(&mut random)),
        ),
        Kind::new("single bytes changed", of_dozen().flat_map(all_changes)),
        Kind::new("cuts", of_dozen().flat_map(all_cuts)),
        Kind::new("lying lengths", randoms(12, 20_000).map(with_lying_log)),
        Kind::new("random bytes", randoms(13, 20_000).map(with_any_bytes)),
        Kind::new("damaged", randoms(14, 60_000).map(with_damaged_log)),
        Kind::new(
            "full logs damaged",
            randoms(15, 2_000).map(full_and_damaged),
        ),
        Kind::new("both files bad", randoms(16, 20_000).map(both_damaged)),
    ]
}

fn with_log(files: &Files, log: Vec<u8>) -> Files {
    let table = files.table.clone();
    Files { table, log }
}

fn all_changes(files: Files) -> Vec<Files> {
    let changed = each_byte_changed(&files.log);
    changed.map(|log| with_log(&files, log)).collect()
}

fn all_cuts(files: Files) -> Vec<Files> {
    let cuts = each_cut(&files.log);
    cuts.map(|log| with_log(&files, log)).collect()
}

fn with_lying_log(mut random: Random) -> Files {
    let files = random_files(&mut random);
    let log = head_that_lies(File::Log, &files.log, &mut random);
    with_log(&files, log)
}

fn with_any_bytes(mut random: Random) -> Files {
    let files = random_files(&mut random);
    with_log(&files, any_bytes(File::Log, &mut random))
}

fn with_damaged_log(mut random: Random) -> Files {
    let files = random_files(&mut random);
    let log = damaged(File::Log, &files.log, &mut random);
    with_log(&files, log)
}

/// 4,096 entries before the accident.
fn full_and_damaged(mut random: Random) -> Files {
    let log = log_bytes(&full_log(1_000_000, 4_096, 65_535));
    Files {
        table: table_bytes(&full_house(65_535)),
        log: damaged(File::Log, &log, &mut random),
    }
}

fn both_damaged(mut random: Random) -> Files {
    let files = random_files(&mut random);
    Files {
        table: damaged(File::Table, &files.table, &mut random),
        log: damaged(File::Log, &files.log, &mut random),
    }
}
