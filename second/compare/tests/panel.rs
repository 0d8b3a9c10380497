//! Panel rows: the verdict, both shares bit for bit and the reading are those of
//! the second program, also for records that no session wrote.

use compare::answers::{PanelRow, Verdict, BOOTH_TABLE, CALL, NOTHING, UNFIT};
use compare::inputs::{audition, damaged_files, largest_sessions, lent_record, randoms, Session};
use compare::judge;
use compare::players::PLAYERS;
use compare::tally::Tally;
use second::booth::NOBODY;
use second::random::{first_seed, Random};

const SESSIONS: u64 = 20_000;
const READINGS: [&str; 4] = ["none yet", "below", "at the ceiling", "over"];

fn compare(table: &[u8], wall: &[u8], booth: usize, t: usize) -> PanelRow {
    let expected = judge::panel(table, wall, booth, t);
    for player in PLAYERS {
        let said = (player.panel)(table, wall, booth, t);
        let who = || {
            let asked = format!("booth {booth}, t {t}, {} bytes lent", wall.len());
            format!("{}, {asked}: {table:02X?} {wall:02X?}", player.name)
        };
        assert_eq!(said, expected, "{}", who());
    }
    expected
}

/// The wall record that the session writes.
fn wall_record(session: &Session) -> Vec<u8> {
    let (table, log) = (&session.files.table, &session.files.log);
    let mut wall = vec![0; session.wall_needed()];
    let mut own = vec![0; session.own_needed()];
    let answer = judge::session(table, log, &mut wall, &mut own);
    assert_eq!(answer.verdict, Verdict::ACCEPTED);
    wall
}

/// A record that no session wrote: any bytes, or one booth most of the time.
fn untrue_record(booths: usize, random: &mut Random) -> Vec<u8> {
    let length = random.below(300);
    let booth = random.below(booths) as u8;
    let silences = random.between(1, 8);
    let mut wall = lent_record(length, random);
    if random.one_in(8) {
        return wall;
    }
    for byte in &mut wall {
        *byte = if random.one_in(silences) {
            NOBODY
        } else {
            booth
        };
    }
    wall
}

/// A tick in the record, its ends and powers of two often, past it sometimes.
fn any_tick(length: usize, random: &mut Random) -> usize {
    match random.between(0, 15) {
        0 => 0,
        1..=3 => length,
        4..=6 => length.min(1 << random.below(11)),
        7 => length + 1,
        8 if random.one_in(4) => usize::MAX,
        _ => random.below(length + 1),
    }
}

fn ask(table: &[u8], wall: &[u8], booth: usize, random: &mut Random, tally: &mut Tally) {
    let shown = compare(table, wall, booth, any_tick(wall.len(), random));
    let kind = match shown.verdict {
        Verdict::ACCEPTED => READINGS[shown.reading as usize],
        _ => "refused",
    };
    tally.add(kind, shown.verdict);
}

/// Every booth and one that is absent, by both records.
fn ask_all(session: &Session, random: &mut Random, tally: &mut Tally) {
    let booths = session.table.lines.len();
    let records = [wall_record(session), untrue_record(booths, random)];
    let absent = match random.between(0, 3) {
        0 => usize::from(NOBODY),
        1 => usize::MAX,
        _ => booths,
    };
    for wall in &records {
        for booth in (0..booths).chain([absent]) {
            ask(&session.files.table, wall, booth, random, tally);
        }
        let broken = damaged_files(&session.files, random).table;
        ask(&broken, wall, random.below(9), random, tally);
    }
}

#[test]
fn rows_of_random_sessions() {
    let mut tally = Tally::default();
    for mut random in randoms(first_seed(80_000_000), 0, SESSIONS) {
        let session = Session::random(&mut random);
        ask_all(&session, &mut random, &mut tally);
    }
    tally.print("panel rows");
    for reading in READINGS {
        assert!(tally.of_kind(reading) >= 2_000, "{reading}");
    }
    assert!(tally.times(CALL, 9) >= 1_000 && tally.times(CALL, 11) >= 1_000);
    for number in 1..=7 {
        assert!(tally.times(BOOTH_TABLE, number) >= 10, "table {number}");
    }
}

/// A record longer than any session's: its first 1,000,000 ticks may be asked.
#[test]
fn rows_of_the_longest_record() {
    let table = audition().table;
    for byte in [0, 1, NOBODY] {
        let wall = vec![byte; 1_000_002];
        for t in [999_999, 1_000_000, 1_000_001, 1_000_002, 1_000_003] {
            let shown = compare(&table, &wall, 0, t);
            let refused = shown.verdict == UNFIT;
            assert_eq!(refused, t > 1_000_000, "t {t}");
        }
    }
}

/// Ticks up to 1,000,000: all the first, those about the multiples of 255 blocks
/// of 64 bytes and of 254 blocks of 128, at which a count of bytes may run over,
/// and random ones.
fn ticks_of_long_records(random: &mut Random) -> Vec<usize> {
    let mut ticks: Vec<usize> = (0..=1_500).collect();
    for end in (1..=3).flat_map(|times| [times * 255 * 64, times * 254 * 128]) {
        ticks.extend(end - 66..=end + 66);
    }
    ticks.extend((0..20).map(|_| random.below(1_000_001)));
    ticks.push(1_000_000);
    ticks
}

/// The wall records of the largest sessions, one booth all the time, any bytes.
#[test]
fn rows_of_long_records() {
    let mut tally = Tally::default();
    let mut random = Random::new(first_seed(81_000_000));
    for (name, session) in largest_sessions() {
        let full = vec![7; 1_000_000];
        let any = lent_record(1_000_000, &mut random);
        for wall in [wall_record(&session), full, any] {
            for t in ticks_of_long_records(&mut random) {
                let shown = compare(&session.files.table, &wall, random.below(8), t);
                tally.add(name, shown.verdict);
                let shown = compare(&session.files.table, &wall, 7, t);
                tally.add(name, shown.verdict);
            }
        }
    }
    tally.print("panel rows of long records");
    assert_eq!(tally.times(NOTHING, 0), tally.inputs());
    assert!(tally.inputs() >= 40_000);
}
