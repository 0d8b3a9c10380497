//! Damaged and random files: accepted or refused with a number and a place, and
//! a refusal leaves every lent byte as it was.

mod audition;
mod lent;

use std::collections::BTreeMap;

use audition::{LOG, TABLE};
use lent::{play, untouched, Played, BEFORE};
use second::damage::{damaged, each_byte_changed, each_cut, File};
use second::desk::desk;
use second::generate::{log_bytes, random_session, table_bytes};
use second::panel::{panel, Reading};
use second::random::{first_seed, Random};
use second::refusal::Refusal;
use second::session::Refused;
use second::solo::ask_solo;
use second::ticks::{OwnTick, WallTick};

/// How often each file was answered with each number.
type Reached = BTreeMap<(&'static str, u8), u64>;

/// Plays the files and holds the answer against what every answer must be.
fn check(table: &[u8], log: &[u8], wall_lent: usize, own_lent: usize) -> (&'static str, u8) {
    let played = play(table, log, wall_lent, own_lent);
    let refusal = played.outcome.refusal;
    let (name, numbers, most_place) = match played.outcome.refused {
        None => ("neither", 0..=0, 0),
        Some(Refused::Table) => ("table", 1..=7, table.len() as u64),
        Some(Refused::Log) => ("log", 1..=10, log.len() as u64),
        Some(Refused::Session) => ("session", 11..=11, 0),
    };
    let files = format!("{name} {refusal:?} {table:02X?} {log:02X?}");
    assert!(numbers.contains(&refusal.number), "{files}");
    assert!(refusal.place <= most_place, "{files}");
    match played.outcome.refused {
        None => check_accepted(&played, &files),
        Some(_) => check_refused(&played, &files),
    }
    (name, refusal.number)
}

fn check_refused(played: &Played, files: &str) {
    let outcome = &played.outcome;
    assert!(untouched(&played.wall) && untouched(&played.own), "{files}");
    assert_eq!((outcome.booths, outcome.idle), (0, 0), "{files}");
    assert_eq!(outcome.own_clocks, [OwnTick(0); 8], "{files}");
    assert_eq!(outcome.worked, [0; 8], "{files}");
}

/// Written are the wall record up to H, each row up to its final u, no more.
fn check_accepted(played: &Played, files: &str) {
    let outcome = &played.outcome;
    let h = outcome.wall_ticks().0 as usize;
    let booth_or_none = |&byte: &u8| usize::from(byte) < outcome.booths || byte == 255;
    assert!(played.wall[..h].iter().all(booth_or_none), "{files}");
    assert!(untouched(&played.wall[h..]), "{files}");
    for booth in 0..outcome.booths {
        let u = booth * h + outcome.own_clocks[booth].0 as usize;
        let task_or_none = |&byte: &u8| byte < 8 || byte == 255;
        assert!(played.own[booth * h..u].iter().all(task_or_none), "{files}");
        assert!(untouched(&played.own[u..(booth + 1) * h]), "{files}");
    }
    assert!(untouched(&played.own[outcome.booths * h..]), "{files}");
}

#[test]
fn the_audition_with_each_byte_changed() {
    let mut reached = Reached::new();
    for table in each_byte_changed(&TABLE) {
        *reached.entry(check(&table, &LOG, 300, 600)).or_default() += 1;
    }
    for log in each_byte_changed(&LOG) {
        *reached.entry(check(&TABLE, &log, 300, 600)).or_default() += 1;
    }
    println!("{reached:?}");
    assert_eq!(reached.values().sum::<u64>(), (19 + 36) * 255);
    // A changed version byte is the one way to 2.
    assert_eq!(reached[&("table", 2)], 255);
    assert_eq!(reached[&("log", 2)], 255);
}

#[test]
fn the_audition_cut_everywhere() {
    for table in each_cut(&TABLE) {
        assert_eq!(check(&table, &LOG, 12, 24), ("table", 1));
    }
    for log in each_cut(&LOG) {
        assert_eq!(check(&TABLE, &log, 12, 24), ("log", 1));
    }
}

/// A random session's files, one of them or both damaged.
fn random_files(random: &mut Random) -> (Vec<u8>, Vec<u8>) {
    let (table, log) = random_session(random);
    let (mut table, mut log) = (table_bytes(&table), log_bytes(&log));
    let which = random.between(0, 6);
    if which < 3 {
        table = damaged(File::Table, &table, random);
    }
    if which > 1 {
        log = damaged(File::Log, &log, random);
    }
    (table, log)
}

/// Every number document 01 gives to a file is reached again and again.
#[test]
fn damaged_files() {
    let first = first_seed(11_000_000);
    let mut reached = Reached::new();
    for number in 0..20_000 {
        let mut random = Random::new(first.wrapping_add(number));
        let (table, log) = random_files(&mut random);
        let wall_lent = random.between(0, 2_000) as usize;
        let own_lent = random.between(0, 8 * wall_lent as u64) as usize;
        let answer = check(&table, &log, wall_lent, own_lent);
        *reached.entry(answer).or_default() += 1;
    }
    println!("{reached:?}");
    let of_table = (1..=7).map(|number| ("table", number));
    let of_log = (1..=10).filter(|&number| number != 7);
    let others = [("neither", 0), ("session", 11)];
    let all = of_table.chain(of_log.map(|number| ("log", number)));
    for answer in all.chain(others) {
        let times = reached.get(&answer).copied().unwrap_or(0);
        assert!(times >= 20, "{answer:?} was reached {times} times");
    }
}

#[test]
fn random_bytes_alone() {
    let first = first_seed(12_000_000);
    for number in 0..20_000 {
        let mut random = Random::new(first.wrapping_add(number));
        let length = random.between(0, 80);
        let mut bytes: Vec<u8> = (0..length).map(|_| random.byte()).collect();
        let (table, log) = bytes.split_at_mut(random.below(length as usize + 1));
        check(table, log, 40, 80);
        check(&TABLE, log, 40, 80);
        // With the version right, more than the first byte is looked at.
        table.iter_mut().take(1).for_each(|version| *version = 1);
        log.iter_mut().take(1).for_each(|version| *version = 1);
        check(table, log, 40, 80);
        check(&TABLE, log, 40, 80);
    }
}

/// A solo part and a panel row asked for a ninth booth, that no table has: the
/// session's refusal where they read the refused file, else 9 at 0.
#[test]
fn solo_part_and_panel_refuse_as_the_session_does() {
    let first = first_seed(13_000_000);
    for number in 0..5_000 {
        let seed = first.wrapping_add(number);
        let (table, log) = random_files(&mut Random::new(seed));
        let outcome = play(&table, &log, 0, 0).outcome;
        let of_files = outcome.refusal;
        let absent = Refusal::at(9, 0);
        let (solo, shown) = match outcome.refused {
            Some(Refused::Table) => (of_files, of_files),
            Some(Refused::Log) => (of_files, absent),
            _ => (absent, absent),
        };
        let mut part = [BEFORE; 4];
        let asked_solo = ask_solo(&table, &log, 8, OwnTick(0), &mut part);
        assert_eq!(asked_solo, solo, "seed {seed}");
        assert!(untouched(&part), "seed {seed}");
        let (asked_panel, row) = panel(&table, &[], 8, WallTick(0));
        assert_eq!(asked_panel, shown, "seed {seed}");
        assert_eq!(row.reading, Reading::NoneYet, "seed {seed}");
        assert_eq!((row.promised, row.got), (0.0, 0.0), "seed {seed}");
    }
}

/// The desk cuts the input where the table's N says, so a truthful N is needed
/// for the two files to come apart again.
fn comes_apart(table: &[u8], log: &[u8]) -> bool {
    let Some(n) = table.get(1..3) else {
        return false;
    };
    let end = 3 + usize::from(n[0]) * 256 + usize::from(n[1]);
    end == table.len() && end + log.len() <= 37_044
}

#[test]
fn the_desk_refuses_as_the_session_does() {
    let first = first_seed(14_000_000);
    for number in 0..5_000 {
        let seed = first.wrapping_add(number);
        let (table, log) = random_files(&mut Random::new(seed));
        if !comes_apart(&table, &log) {
            continue;
        }
        let outcome = play(&table, &log, 2_000, 16_000).outcome;
        let Refusal { number, place } = outcome.refusal;
        let expected = match outcome.refused {
            None => "admitted ".to_string(),
            Some(Refused::Table) => format!("refused table {number} at {place}\n"),
            Some(Refused::Log) => format!("refused log {number} at {place}\n"),
            Some(Refused::Session) => "refused session 11 at 0\n".to_string(),
        };
        let text = String::from_utf8(desk(&[table, log].concat())).unwrap();
        assert!(text.starts_with(&expected), "seed {seed}: {text}");
        let whole = outcome.refused.is_none() || text.len() == expected.len();
        assert!(whole, "seed {seed}: {text}");
    }
}
