//! Whole sessions: the verdict, every count and clock, and every lent byte are
//! those of the second program.

use std::collections::BTreeMap;

use compare::answers::{first_difference, SessionAnswer, ARRIVAL_LOG, BOOTH_TABLE, CALL, NOTHING};
use compare::inputs::{
    damaged_files, kinds_of_input, largest_sessions, lent_record, long_sessions, randoms, Files,
    Session,
};
use compare::judge;
use compare::players::PLAYERS;
use compare::tally::Tally;
use second::arrivals::Entry;
use second::random::{first_seed, Random};

const SESSIONS: u64 = 20_000;

/// Plays the files into copies of the lent records.
fn compare(kind: &str, files: &Files, wall: &[u8], own: &[u8]) -> SessionAnswer {
    let Files { table, log } = files;
    let (mut wall_after, mut own_after) = (wall.to_vec(), own.to_vec());
    let expected = judge::session(table, log, &mut wall_after, &mut own_after);
    for player in PLAYERS {
        let (mut wall_played, mut own_played) = (wall.to_vec(), own.to_vec());
        let said = (player.session)(table, log, &mut wall_played, &mut own_played);
        let who = || format!("{}, {kind}: {table:02X?} {log:02X?}", player.name);
        assert_eq!(said, expected, "{}", who());
        assert_eq!(
            first_difference(&wall_played, &wall_after),
            None,
            "{}",
            who()
        );
        assert_eq!(first_difference(&own_played, &own_after), None, "{}", who());
    }
    expected
}

/// The session with records of these lengths, which hold random bytes before.
fn lend(kind: &'static str, session: &Session, lent: (usize, usize), tally: &mut Tally) {
    let mut random = Random::new(lent.0 as u64);
    let wall = lent_record(lent.0, &mut random);
    let own = lent_record(lent.1, &mut random);
    let answer = compare(kind, &session.files, &wall, &own);
    tally.add(kind, answer.verdict);
}

/// Exactly right or longer; then, since that one plays, one byte short.
fn lend_each_way(session: &Session, random: &mut Random, tally: &mut Tally) {
    let (wall, own) = (session.wall_needed(), session.own_needed());
    if random.one_in(2) {
        lend("exactly right", session, (wall, own), tally);
    } else {
        let more = (random.below(20), 1 + random.below(300));
        lend("longer", session, (wall + more.0, own + more.1), tally);
    }
    if wall == 0 {
        return;
    }
    let short = match random.between(0, 2) {
        0 => (wall - 1, own),
        1 => (wall, own - 1),
        _ => (wall - 1, own - 1),
    };
    lend("one byte short", session, short, tally);
}

/// What makes a session worth comparing.
fn marks(session: &Session) -> Vec<&'static str> {
    let (lines, entries) = (&session.table.lines, &session.log.entries);
    let whose = |entry: &Entry| (entry.tick, entry.booth, entry.task);
    let twice = |two: &[Entry]| whose(&two[0]) == whose(&two[1]);
    let marks = [
        ("one booth", lines.len() == 1),
        ("eight booths", lines.len() == 8),
        ("one task", lines.iter().any(|line| line.tasks() == 1)),
        ("eight tasks", lines.iter().any(|line| line.tasks() == 8)),
        ("no wall tick", session.wall_needed() == 0),
        ("over 1,000 wall ticks", session.wall_needed() > 1_000),
        ("over 30 entries", entries.len() > 30),
        ("one tick and task twice", entries.windows(2).any(twice)),
    ];
    let found = marks.iter().filter(|(_, found)| *found);
    found.map(|&(mark, _)| mark).collect()
}

#[test]
fn random_sessions() {
    let mut tally = Tally::default();
    let mut reached: BTreeMap<&str, u64> = BTreeMap::new();
    for mut random in randoms(first_seed(60_000_000), 0, SESSIONS) {
        let session = Session::random(&mut random);
        lend_each_way(&session, &mut random, &mut tally);
        for mark in marks(&session) {
            *reached.entry(mark).or_default() += 1;
        }
    }
    tally.print("random sessions");
    println!("of {SESSIONS} sessions {reached:?}");
    assert_eq!(tally.times(NOTHING, 0), SESSIONS);
    for kind in ["exactly right", "longer", "one byte short"] {
        assert!(tally.of_kind(kind) >= 5_000, "{kind}");
    }
    assert_eq!(tally.times(CALL, 11), tally.of_kind("one byte short"));
    assert_eq!(reached.len(), 8);
    assert!(reached.values().all(|&times| times >= 100));
}

#[test]
fn damaged_sessions() {
    let mut tally = Tally::default();
    for mut random in randoms(first_seed(61_000_000), 0, 20_000) {
        let files = damaged_files(&Session::random(&mut random).files, &mut random);
        let wall = lent_record(random.below(300), &mut random);
        let own = lent_record(random.below(3_000), &mut random);
        let answer = compare("damaged", &files, &wall, &own);
        tally.add("damaged", answer.verdict);
    }
    tally.print("damaged sessions");
    for number in 1..=7 {
        assert!(tally.times(BOOTH_TABLE, number) >= 10, "table {number}");
    }
    for number in [1, 2, 3, 4, 5, 6, 8, 9, 10] {
        assert!(tally.times(ARRIVAL_LOG, number) >= 10, "log {number}");
    }
    assert!(tally.times(CALL, 11) >= 100 && tally.times(NOTHING, 0) >= 100);
}

/// The table ends where its N says, or where the input ends.
fn parted(input: &[u8]) -> Files {
    let end = match input {
        [_, n0, n1, ..] => 3 + usize::from(u16::from_be_bytes([*n0, *n1])),
        _ => input.len(),
    };
    let (table, log) = input.split_at(end.min(input.len()));
    Files {
        table: table.to_vec(),
        log: log.to_vec(),
    }
}

/// H as the log says it, as far as the desk has room.
fn room_asked(log: &[u8]) -> usize {
    match log {
        [_, _, _, _, _, h0, h1, h2, h3, ..] => {
            2_000.min(u32::from_be_bytes([*h0, *h1, *h2, *h3]) as usize)
        }
        _ => 0,
    }
}

/// What the desk is given, played into records with room for eight booths.
#[test]
fn sessions_of_the_desk() {
    let mut tally = Tally::default();
    let seed = first_seed(80_000_000);
    let lendable = lent_record(8 * 2_000, &mut Random::new(seed));
    for kind in kinds_of_input(seed) {
        for input in kind.inputs {
            let files = parted(&input);
            let room = room_asked(&files.log);
            let answer = compare(kind.name, &files, &lendable[..room], &lendable[..8 * room]);
            tally.add(kind.name, answer.verdict);
        }
    }
    tally.print("sessions of the desk");
    assert!(tally.times(NOTHING, 0) >= 50_000 && tally.times(CALL, 11) >= 1_000);
}

/// Twenty with H of 100,000 and more, each once exactly right and once longer.
#[test]
fn sessions_of_an_evening() {
    let mut tally = Tally::default();
    for session in long_sessions(first_seed(62_000_000), 20) {
        let (wall, own) = (session.wall_needed(), session.own_needed());
        let (booths, entries) = (session.table.lines.len(), session.log.entries.len());
        println!("H {wall}, {booths} booths, {entries} entries");
        lend("exactly right", &session, (wall, own), &mut tally);
        lend("longer", &session, (wall + 7, own + 9), &mut tally);
    }
    tally.print("sessions of an evening");
    assert_eq!(tally.times(NOTHING, 0), 40);
}

/// 1,000,000 wall ticks, 4,096 entries, eight booths.
#[test]
fn the_largest_sessions() {
    let mut tally = Tally::default();
    for (name, session) in largest_sessions() {
        lend(name, &session, (1_000_000, 8_000_000), &mut tally);
        lend(name, &session, (1_000_000, 7_999_999), &mut tally);
        lend(name, &session, (999_999, 8_000_000), &mut tally);
    }
    tally.print("the largest sessions");
    assert_eq!(tally.times(NOTHING, 0), 4);
    assert_eq!(tally.times(CALL, 11), 8);
}
