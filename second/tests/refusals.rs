//! Every refusal of table and log at each of its places, and the order of
//! checks where a file has two faults.

mod audition;
mod changed;
mod lent;

use audition::{LOG, TABLE};
use changed::with;
use lent::{play, untouched};
use second::refusal::Refusal;
use second::session::Refused;
use second::ticks::OwnTick;

/// Refused with this number and place, nothing counted, nothing written.
fn refused(refused: Refused, table: &[u8], log: &[u8], number: u8, place: u64) {
    let played = play(table, log, 40, 400);
    let outcome = played.outcome;
    let message = format!("{refused:?} {table:02X?} {log:02X?}");
    assert_eq!(outcome.refused, Some(refused), "{message}");
    assert_eq!(outcome.refusal, Refusal { number, place }, "{message}");
    assert_eq!((outcome.booths, outcome.idle), (0, 0), "{message}");
    assert_eq!(outcome.own_clocks, [OwnTick(0); 8], "{message}");
    assert_eq!(outcome.worked, [0; 8], "{message}");
    assert!(
        untouched(&played.wall) && untouched(&played.own),
        "{message}"
    );
}

fn table_refused(table: &[u8], number: u8, place: u64) {
    refused(Refused::Table, table, &LOG, number, place);
}

fn log_refused(log: &[u8], number: u8, place: u64) {
    refused(Refused::Log, &TABLE, log, number, place);
}

fn accepted(table: &[u8], log: &[u8]) {
    let outcome = play(table, log, 40, 400).outcome;
    assert_eq!(
        outcome.refusal,
        Refusal::ACCEPTED,
        "{table:02X?} {log:02X?}"
    );
}

/// A table of these records, its N telling the truth.
fn table_of(records: &[&[u8]]) -> Vec<u8> {
    let body = records.concat();
    let n = body.len() as u16;
    [&[1], &n.to_be_bytes()[..], &body].concat()
}

/// The first `length` bytes of a log, its N telling the truth.
fn log_of(log: &[u8], length: usize) -> Vec<u8> {
    with(&log[..length], &[(3, 0), (4, (length - 5) as u8)])
}

/// A record of one task: `allowance` in `period`, both below 256.
fn one_task(allowance: u8, period: u8) -> [u8; 7] {
    [6, 0, period, 0, allowance, 0, 1]
}

/// A log of H = 12 without entries, fit for every table.
const NO_ENTRIES: [u8; 9] = [1, 0, 0, 0, 4, 0, 0, 0, 12];

#[test]
fn table_head() {
    table_refused(&[], 1, 0);
    table_refused(&[0], 2, 0);
    table_refused(&[2, 0], 2, 0);
    table_refused(&with(&TABLE, &[(0, 255)]), 2, 0);
    table_refused(&[1], 1, 1);
    table_refused(&[1, 0], 1, 2);
    table_refused(&[1, 0, 16], 1, 3);
    table_refused(&TABLE[..18], 1, 18);
    table_refused(&[1, 0xFF, 0xFF, 6], 1, 4);
    table_refused(&[&TABLE[..], &[6]].concat(), 3, 19);
    table_refused(&[&TABLE[..], &[6, 0]].concat(), 3, 19);
    table_refused(&[1, 0, 0, 6], 3, 3);
    table_refused(&[1, 0, 0], 4, 3);
}

/// Eight booths of 1 in 8 pass (booth i at R = i + 1); the ninth record begins
/// at 3 + 8 times 7 = 59 and is refused whatever it holds.
#[test]
fn table_ninth_booth() {
    let record = one_task(1, 8);
    let eight = [&record[..]; 8];
    accepted(&table_of(&eight), &NO_ENTRIES);
    for ninth in [&record[..], &[7], &[6], &[6, 0, 0, 0, 0, 0, 0]] {
        let nine = [&eight[..], &[ninth]].concat();
        table_refused(&table_of(&nine), 4, 59);
    }
}

#[test]
fn table_length_byte() {
    let allowed = [6, 8, 10, 12, 14, 16, 18, 20];
    for length in (0..=255).filter(|length| !allowed.contains(length)) {
        table_refused(&with(&TABLE, &[(3, length)]), 5, 3);
        table_refused(&with(&TABLE, &[(10, length)]), 5, 10);
    }
    for length in allowed {
        let tasks = usize::from(length - 4) / 2;
        let record = [&[length, 0, 5, 0, 2][..], &[0, 1].repeat(tasks)].concat();
        accepted(&table_of(&[&record]), &NO_ENTRIES);
    }
}

#[test]
fn table_record_bytes_missing() {
    let record = one_task(2, 5);
    for length in 1..7 {
        let cut = &record[..length];
        table_refused(&table_of(&[cut]), 1, 3);
        table_refused(&table_of(&[&record, cut]), 1, 10);
    }
    table_refused(&with(&TABLE, &[(10, 10)]), 1, 10);
    table_refused(&with(&TABLE, &[(3, 20)]), 1, 3);
}

/// T 0, 10,001 and 65,535; B 0 and above T; a longest job of 0.
#[test]
fn table_out_of_range() {
    let faults: [&[(usize, u8)]; 9] = [
        &[(1, 0), (2, 0)],
        &[(1, 0x27), (2, 0x11)],
        &[(1, 255), (2, 255)],
        &[(3, 0), (4, 0)],
        &[(3, 0), (4, 6)],
        &[(3, 1), (4, 0)],
        &[(5, 0), (6, 0)],
        &[(7, 0), (8, 0)],
        &[(9, 0), (10, 0)],
    ];
    let right = [10, 0, 5, 0, 2, 0, 1, 0, 1, 0, 1];
    accepted(&table_of(&[&right, &right]), &NO_ENTRIES);
    for fault in faults {
        let wrong = with(&right, fault);
        table_refused(&table_of(&[&wrong, &right]), 6, 3);
        table_refused(&table_of(&[&right, &wrong]), 6, 14);
        table_refused(&table_of(&[&wrong, &wrong]), 6, 3);
    }
    let longest_job = with(&right, &[(9, 255), (10, 255)]);
    accepted(&table_of(&[&longest_job]), &NO_ENTRIES);
    accepted(&table_of(&[&one_task(5, 5)]), &NO_ENTRIES);
}

/// Below 2 in 5 and 4 in 10, 2 in 10 passes (R = 10: 2 + 4 + 4) and 3 fails;
/// below 2 in 5, 7 in 10 fails, and so does 4 in 7 though the shares leave room.
#[test]
fn table_not_admitted() {
    let (first, second) = (one_task(2, 5), one_task(4, 10));
    accepted(&table_of(&[&first, &second, &one_task(2, 10)]), &NO_ENTRIES);
    let last_fails = table_of(&[&first, &second, &one_task(3, 10)]);
    table_refused(&last_fails, 7, 17);
    let both_fail = table_of(&[&first, &one_task(7, 10), &one_task(3, 10)]);
    table_refused(&both_fail, 7, 10);
    table_refused(&table_of(&[&first, &one_task(4, 7)]), 7, 10);
}

#[test]
fn table_order_of_two_faults() {
    let (right, fails) = (one_task(2, 5), one_task(7, 10));
    let (bad_length, bad_range) = ([7, 0, 5, 0, 2, 0, 1], one_task(0, 5));
    // Admission comes after the last record.
    table_refused(&table_of(&[&right, &fails, &bad_length]), 5, 17);
    table_refused(&table_of(&[&right, &fails, &bad_range]), 6, 17);
    table_refused(&table_of(&[&right, &fails, &right[..3]]), 1, 17);
    // Records come left to right.
    table_refused(&table_of(&[&bad_range, &bad_length]), 6, 3);
    table_refused(&table_of(&[&bad_length, &bad_range]), 5, 3);
    // In a record: length byte, bytes missing, range.
    table_refused(&table_of(&[&right, &[7]]), 5, 10);
    table_refused(&table_of(&[&bad_range[..5]]), 1, 3);
    // The head comes before the records.
    let long = [&table_of(&[&bad_length])[..], &[0]].concat();
    table_refused(&long, 3, 10);
    table_refused(&table_of(&[&bad_length])[..9], 1, 9);
}

#[test]
fn log_head() {
    log_refused(&[], 1, 0);
    log_refused(&[0], 2, 0);
    log_refused(&[2, 0, 0], 2, 0);
    log_refused(&with(&LOG, &[(0, 0)]), 2, 0);
    for length in 1..36 {
        log_refused(&LOG[..length], 1, length as u64);
    }
    let all_ones = with(&LOG, &[(1, 255), (2, 255), (3, 255), (4, 255)]);
    log_refused(&all_ones, 1, 36);
    log_refused(&[&LOG[..], &[8]].concat(), 3, 36);
    log_refused(&[&LOG[..], &[8, 0]].concat(), 3, 36);
    log_refused(&[1, 0, 0, 0, 0, 0], 3, 5);
}

#[test]
fn log_without_room_for_h() {
    log_refused(&[1, 0, 0, 0, 0], 1, 5);
    log_refused(&[1, 0, 0, 0, 1, 0], 1, 5);
    log_refused(&[1, 0, 0, 0, 2, 0, 0], 1, 5);
    log_refused(&[1, 0, 0, 0, 3, 255, 255, 255], 1, 5);
    accepted(&TABLE, &[1, 0, 0, 0, 4, 0, 0, 0, 0]);
}

/// 36,864 + 1 + 4 = 36,869 is 90 05: one byte too many, with a bad H behind it.
#[test]
fn log_over_4096_entries_by_one_byte() {
    let mut log = vec![1, 0, 0, 0x90, 0x05];
    log.extend([255; 36_869]);
    log_refused(&log, 4, 1);
    // One byte less, and H is looked at.
    log.pop();
    log[4] = 0x04;
    log_refused(&log, 6, 5);
}

/// 1,000,001 is 0F 42 41; H is looked at before the entries.
#[test]
fn log_h_out_of_range() {
    let h = [(6, 0x0F), (7, 0x42), (8, 0x41)];
    log_refused(&with(&LOG, &h), 6, 5);
    log_refused(&with(&LOG, &[(5, 255)]), 6, 5);
    let two_faults = [&h[..], &[(9, 7)]].concat();
    log_refused(&with(&LOG, &two_faults), 6, 5);
}

#[test]
fn log_length_byte() {
    for length in (0..=255).filter(|&length| length != 8) {
        for start in [9, 18, 27] {
            log_refused(&with(&LOG, &[(start, length)]), 5, start as u64);
        }
    }
}

#[test]
fn log_entry_bytes_missing() {
    for missing in 1..=8 {
        log_refused(&log_of(&LOG, 18 - missing), 1, 9);
        log_refused(&log_of(&LOG, 36 - missing), 1, 27);
    }
    accepted(&TABLE, &log_of(&LOG, 9));
    accepted(&TABLE, &log_of(&LOG, 27));
}

/// Ticks stand at 10 to 13, 19 to 22 and 28 to 31; H is 12.
#[test]
fn log_tick() {
    for (place, start) in [(13, 9), (22, 18), (31, 27)] {
        log_refused(&with(&LOG, &[(place, 12)]), 8, start);
        log_refused(&with(&LOG, &[(place - 3, 1)]), 8, start);
    }
    log_refused(&with(&LOG, &[(31, 0)]), 8, 27);
    log_refused(&with(&LOG, &[(13, 2)]), 8, 18);
    // Equal ticks are allowed; with H = 0 no tick is.
    accepted(&TABLE, &with(&LOG, &[(31, 1)]));
    log_refused(&with(&LOG, &[(8, 0)]), 8, 9);
}

/// Booths stand at 14, 23 and 32, tasks one behind; booth 0 has one task and
/// booth 1 has two.
#[test]
fn log_absent_booth_or_task() {
    for (place, start) in [(14, 9), (23, 18), (32, 27)] {
        log_refused(&with(&LOG, &[(place, 2)]), 9, start);
        log_refused(&with(&LOG, &[(place, 255)]), 9, start);
        log_refused(&with(&LOG, &[(place + 1, 2)]), 9, start);
    }
    log_refused(&with(&LOG, &[(24, 1)]), 9, 18);
}

/// Demands end at 17, 26 and 35; the longest jobs there are 4, 2 and 3.
#[test]
fn log_demand() {
    for (place, start, longest) in [(17, 9, 4), (26, 18, 2), (35, 27, 3)] {
        log_refused(&with(&LOG, &[(place, 0)]), 10, start);
        log_refused(&with(&LOG, &[(place, longest + 1)]), 10, start);
        log_refused(&with(&LOG, &[(place - 1, 1)]), 10, start);
        accepted(&TABLE, &with(&LOG, &[(place, longest)]));
    }
}

#[test]
fn log_order_of_two_faults() {
    // In an entry: length byte, bytes missing, tick, booth, task, demand.
    log_refused(&with(&log_of(&LOG, 17), &[(9, 9)]), 5, 9);
    log_refused(&with(&log_of(&LOG, 17), &[(13, 12)]), 1, 9);
    log_refused(&with(&LOG, &[(13, 12), (14, 2)]), 8, 9);
    log_refused(&with(&LOG, &[(13, 12), (17, 0)]), 8, 9);
    log_refused(&with(&LOG, &[(14, 2), (17, 0)]), 9, 9);
    log_refused(&with(&LOG, &[(15, 2), (17, 0)]), 9, 9);
    // Entries come left to right.
    log_refused(&with(&LOG, &[(17, 0), (18, 7)]), 10, 9);
    log_refused(&with(&LOG, &[(17, 0), (22, 12)]), 10, 9);
    log_refused(&with(&LOG, &[(23, 2), (31, 12)]), 9, 18);
    // The head comes before the entries.
    log_refused(&with(&LOG[..35], &[(9, 7)]), 1, 35);
    log_refused(&[&with(&LOG, &[(9, 7)])[..], &[0]].concat(), 3, 36);
}

#[test]
fn table_before_log() {
    refused(Refused::Table, &[], &[], 1, 0);
    refused(Refused::Table, &[2], &[], 2, 0);
    let seven = with(&TABLE, &[(14, 7)]);
    refused(Refused::Table, &seven, &[2], 7, 10);
}
