//! The unmarked cases, lent bytes beyond what is needed, and the desk's limits.

mod audition;
mod changed;
mod lent;

use audition::{LOG, TABLE};
use changed::with;
use lent::{play, untouched};
use second::arrivals::{Entry, Log};
use second::desk::desk;
use second::generate::{every_tick, full_house, log_bytes, table_bytes};
use second::refusal::Refusal;
use second::session::Refused;
use second::solo::solo_part;
use second::table::{Line, Table};
use second::ticks::{OwnTick, WallTick};

/// One booth of one task that has every tick to itself.
fn always() -> Table {
    Table {
        lines: vec![Line {
            period: 1,
            allowance: 1,
            longest_jobs: vec![1],
        }],
    }
}

fn refusal_of(refused: Refused, table: &[u8], log: &[u8], wall: usize, own: usize) -> (u8, u64) {
    let played = play(table, log, wall, own);
    assert_eq!(played.outcome.refused, Some(refused));
    assert!(untouched(&played.wall) && untouched(&played.own));
    (played.outcome.refusal.number, played.outcome.refusal.place)
}

fn desk_text(table: &[u8], log: &[u8]) -> String {
    String::from_utf8(desk(&[table, log].concat())).unwrap()
}

/// Every tick brings one job of 1 that is played at once: no tick is idle.
#[test]
fn entries_4096_and_4097() {
    let table = table_bytes(&always());
    let played = play(&table, &log_bytes(&every_tick(5_000, 4_096)), 5_000, 5_000);
    assert_eq!(played.outcome.refusal, Refusal::ACCEPTED);
    assert_eq!(
        (played.outcome.worked[0], played.outcome.idle),
        (4_096, 904)
    );
    assert_eq!(played.outcome.own_clocks[0], OwnTick(5_000));
    for record in [&played.wall, &played.own] {
        assert!(record[..4_096].iter().all(|&byte| byte == 0));
        assert!(record[4_096..].iter().all(|&byte| byte == 255));
    }
    let too_many = log_bytes(&every_tick(5_000, 4_097));
    assert_eq!(
        refusal_of(Refused::Log, &table, &too_many, 5_000, 5_000),
        (4, 1)
    );
}

#[test]
fn wall_ticks_1000000_and_1000001() {
    let table = table_bytes(&always());
    let room = 1_000_001;
    let played = play(&table, &log_bytes(&every_tick(1_000_000, 1)), room, room);
    assert_eq!(played.outcome.refusal, Refusal::ACCEPTED);
    assert_eq!(
        (played.outcome.worked[0], played.outcome.idle),
        (1, 999_999)
    );
    assert_eq!(played.outcome.own_clocks[0], OwnTick(1_000_000));
    for record in [&played.wall, &played.own] {
        assert_eq!(record[0], 0);
        assert!(record[1..1_000_000].iter().all(|&byte| byte == 255));
        assert!(untouched(&record[1_000_000..]));
    }
    let too_long = log_bytes(&every_tick(1_000_001, 1));
    assert_eq!(
        refusal_of(Refused::Log, &table, &too_long, room, room),
        (6, 5)
    );
}

/// The largest session: each booth gets one tick in eight and sings all of it,
/// so no tick is idle, every row is 125,000 long and its solo part.
#[test]
fn the_largest_session() {
    let table = full_house(65_535);
    let entry = |number: u64| Entry {
        tick: WallTick(number / 64),
        booth: number as usize % 8,
        task: number as usize / 8 % 8,
        demand: 65_535,
    };
    let log = Log {
        wall_ticks: WallTick(1_000_000),
        entries: (0..4_096).map(entry).collect(),
    };
    let (table_file, log_file) = (table_bytes(&table), log_bytes(&log));
    let played = play(&table_file, &log_file, 1_000_000, 8_000_000);
    assert_eq!(played.outcome.refusal, Refusal::ACCEPTED);
    assert_eq!(played.outcome.worked, [125_000; 8]);
    assert_eq!(played.outcome.own_clocks, [OwnTick(125_000); 8]);
    assert_eq!(played.outcome.idle, 0);
    for (t, &byte) in played.wall.iter().enumerate() {
        assert_eq!(usize::from(byte), t % 8);
    }
    for (booth, line) in table.lines.iter().enumerate() {
        let part = solo_part(line, &log.entries_of(booth), OwnTick(125_000));
        let begin = booth * 1_000_000;
        assert_eq!(played.own[begin..begin + 125_000], part);
    }
}

#[test]
fn records_one_byte_short() {
    for (wall, own) in [(11, 23), (11, 24), (12, 23), (0, 0), (11, 400), (40, 23)] {
        let refusal = refusal_of(Refused::Session, &TABLE, &LOG, wall, own);
        assert_eq!(refusal, (11, 0));
    }
    let exact = play(&TABLE, &LOG, 12, 24).outcome;
    assert_eq!(exact.refusal, Refusal::ACCEPTED);
}

#[test]
fn buffers_come_last() {
    let bad_demand = with(&LOG, &[(35, 0)]);
    let refusal = refusal_of(Refused::Log, &TABLE, &bad_demand, 0, 0);
    assert_eq!(refusal, (10, 27));
    let not_admitted = with(&TABLE, &[(14, 7)]);
    let refusal = refusal_of(Refused::Table, &not_admitted, &LOG, 0, 0);
    assert_eq!(refusal, (7, 10));
}

#[test]
fn table_and_log_both_bad() {
    let (bad_table, bad_log) = (with(&TABLE, &[(14, 7)]), with(&LOG, &[(31, 12)]));
    let refusal = refusal_of(Refused::Table, &bad_table, &bad_log, 12, 24);
    assert_eq!(refusal, (7, 10));
    assert_eq!(desk_text(&bad_table, &bad_log), "refused table 7 at 10\n");
}

#[test]
fn lent_bytes_beyond_need_keep_what_they_held() {
    let played = play(&TABLE, &LOG, 500, 700);
    assert!(untouched(&played.wall[12..]));
    // Each row is 6 long; row 1 begins at 12.
    assert!(untouched(&played.own[6..12]) && untouched(&played.own[18..]));
    assert_eq!(played.wall[11], 255);
    assert_eq!((played.own[5], played.own[17]), (255, 255));
}

#[test]
fn no_wall_tick_needs_no_buffer() {
    let log = [1, 0, 0, 0, 4, 0, 0, 0, 0];
    let outcome = play(&TABLE, &log, 0, 0).outcome;
    assert_eq!((outcome.refused, outcome.booths), (None, 2));
    assert_eq!((outcome.wall_ticks(), outcome.idle), (WallTick(0), 0));
}

#[test]
fn desk_refusals_of_the_page() {
    let seven = with(&TABLE, &[(14, 7)]);
    assert_eq!(desk_text(&seven, &LOG), "refused table 7 at 10\n");
    let eight = with(&LOG, &[(13, 12)]);
    assert_eq!(desk_text(&TABLE, &eight), "refused log 8 at 9\n");
}

#[test]
fn desk_input_that_ends_early() {
    assert_eq!(desk_text(&[], &[]), "refused table 1 at 0\n");
    assert_eq!(desk_text(&[1], &[]), "refused table 1 at 1\n");
    assert_eq!(desk_text(&[1, 0], &[]), "refused table 1 at 2\n");
    assert_eq!(desk_text(&[1, 0, 0], &LOG), "refused table 4 at 3\n");
    assert_eq!(desk_text(&TABLE[..18], &[]), "refused table 1 at 18\n");
    assert_eq!(desk_text(&TABLE, &[]), "refused log 1 at 0\n");
    assert_eq!(desk_text(&TABLE, &LOG[..4]), "refused log 1 at 4\n");
    let longer = [&LOG[..], &[0]].concat();
    assert_eq!(desk_text(&TABLE, &longer), "refused log 3 at 36\n");
}

/// One job of 1 at tick 0, then silence.
#[test]
fn desk_room_for_2000_ticks() {
    let table = table_bytes(&always());
    let silence = ".".repeat(1_999);
    let text =
        format!("admitted 1\nwall 0{silence}\nbooth 0 own 2000 worked 1 0{silence}\nidle 1999\n");
    assert_eq!(desk_text(&table, &log_bytes(&every_tick(2_000, 1))), text);
    let longer = log_bytes(&every_tick(2_001, 1));
    assert_eq!(desk_text(&table, &longer), "refused session 11 at 0\n");
    let longest = log_bytes(&every_tick(1_000_000, 1));
    assert_eq!(desk_text(&table, &longest), "refused session 11 at 0\n");
}

/// The longest table and log are 171 + 36,873 bytes. All entries are booth 0's
/// on tick 0, so it sings at every eighth tick, 250 times, to the end.
#[test]
fn desk_input_of_37044_and_37045_bytes() {
    let mut log = every_tick(2_000, 4_096);
    for entry in &mut log.entries {
        entry.tick = WallTick(0);
    }
    let (table, log) = (table_bytes(&full_house(1)), log_bytes(&log));
    assert_eq!(table.len() + log.len(), 37_044);
    let mut text = format!("admitted 8\nwall {}\n", "0.......".repeat(250));
    text += &format!("booth 0 own 250 worked 250 {}\n", "0".repeat(250));
    for booth in 1..8 {
        text += &format!("booth {booth} own 250 worked 0 {}\n", ".".repeat(250));
    }
    text += "idle 1750\n";
    assert_eq!(desk_text(&table, &log), text);
    let longer = [&log[..], &[0]].concat();
    assert_eq!(desk_text(&table, &longer), "refused input 12 at 37044\n");
    let nonsense = vec![0; 37_045];
    assert_eq!(desk_text(&nonsense, &[]), "refused input 12 at 37044\n");
    assert_eq!(desk_text(&nonsense[1..], &[]), "refused table 2 at 0\n");
}
