//! The unmarked cases of document 01, each number and place typed from the page.

use compare::answers::{Verdict, ARRIVAL_LOG, BOOTH_TABLE};
use compare::inputs::{audition, every_tick, full_house, Files};
use compare::judge;
use compare::players::READERS;
use second::arrivals::Log;
use second::generate::{log_bytes, table_bytes};

fn refused(refused: u32, number: u32, place: u64) -> Verdict {
    Verdict {
        refused,
        number,
        place,
    }
}

/// The page, the second program and both readers agree.
fn all_say(expected: Verdict, Files { table, log }: &Files) {
    assert_eq!(judge::files_verdict(table, log), expected);
    for reader in READERS {
        let said = (reader.files_verdict)(table, log);
        assert_eq!(said, expected, "{}", reader.name);
    }
}

fn in_full_house(log: &Log) -> Files {
    Files {
        table: table_bytes(&full_house(1)),
        log: log_bytes(log),
    }
}

#[test]
fn entries_4096_and_4097() {
    all_say(Verdict::ACCEPTED, &in_full_house(&every_tick(5_000, 4_096)));
    let too_many = in_full_house(&every_tick(5_000, 4_097));
    all_say(refused(ARRIVAL_LOG, 4, 1), &too_many);
}

#[test]
fn wall_ticks_1000000_and_1000001() {
    all_say(Verdict::ACCEPTED, &in_full_house(&every_tick(1_000_000, 1)));
    let too_long = in_full_house(&every_tick(1_000_001, 1));
    all_say(refused(ARRIVAL_LOG, 6, 5), &too_long);
}

/// The audition with allowance 7 below, and with an entry at tick 12 = H.
#[test]
fn both_files_bad() {
    let good = audition();
    let (mut bad_table, mut bad_log) = (audition(), audition());
    bad_table.table[14] = 7;
    bad_log.log[31] = 12;
    all_say(Verdict::ACCEPTED, &good);
    all_say(refused(BOOTH_TABLE, 7, 10), &bad_table);
    all_say(refused(ARRIVAL_LOG, 8, 27), &bad_log);
    bad_log.table = bad_table.table;
    all_say(refused(BOOTH_TABLE, 7, 10), &bad_log);
}

/// A reader asked for the table alone says the same of it.
#[test]
fn tables_alone() {
    for table in [audition().table, table_bytes(&full_house(65_535)), vec![]] {
        let expected = judge::table_verdict(&table);
        for reader in READERS {
            assert_eq!((reader.table_verdict)(&table), expected, "{}", reader.name);
        }
    }
}
