//! Solo parts as callers ask for them: the verdict and every lent byte are those
//! of the second program.

use compare::answers::{Verdict, ARRIVAL_LOG, BOOTH_TABLE, CALL, NOTHING};
use compare::inputs::{
    damaged_files, largest_sessions, lent_record, long_sessions, randoms, Files, Session,
};
use compare::judge;
use compare::players::PLAYERS;
use compare::tally::Tally;
use second::random::{first_seed, Random};

const SESSIONS: u64 = 20_000;

/// Asks for `n` own ticks of a booth's part into copies of the lent buffer.
fn compare(files: &Files, booth: usize, n: usize, lent: &[u8]) -> Verdict {
    let Files { table, log } = files;
    let mut part_after = lent.to_vec();
    let expected = judge::solo_part(table, log, booth, n, &mut part_after);
    for player in PLAYERS {
        let mut part = lent.to_vec();
        let said = (player.solo_part)(table, log, booth, n, &mut part);
        let who = || {
            let asked = format!("booth {booth}, n {n}, {} bytes lent", lent.len());
            format!("{}, {asked}: {table:02X?} {log:02X?}", player.name)
        };
        assert_eq!(said, expected, "{}", who());
        assert!(part == part_after, "the part differs: {}", who());
    }
    expected
}

/// due(H), the most own ticks that may be asked of a booth.
fn most(session: &Session, booth: usize) -> usize {
    session.table.lines[booth].due(session.log.wall_ticks).0 as usize
}

/// The whole part of every booth.
fn ask_all(session: &Session, random: &mut Random, tally: &mut Tally) {
    for booth in 0..session.table.lines.len() {
        let n = most(session, booth);
        let lent = lent_record(n, random);
        let said = compare(&session.files, booth, n, &lent);
        tally.add("every booth's whole part", said);
    }
}

/// A call that may ask too much in one way or another.
fn ask_anything(session: &Session, files: &Files, random: &mut Random) -> Verdict {
    let asked_booth = random.below(session.table.lines.len());
    let most = most(session, asked_booth);
    let booth = match random.between(0, 5) {
        0 => session.table.lines.len() + random.below(250),
        1 if random.one_in(4) => usize::MAX,
        _ => asked_booth,
    };
    let n = match random.between(0, 7) {
        0 => most + 1,
        1 if random.one_in(4) => usize::MAX,
        2 => 0,
        3 => most,
        _ => random.below(most + 1),
    };
    let room = n.min(most + 1);
    let length = match random.between(0, 3) {
        0 => room.saturating_sub(1),
        1 => room + random.below(40),
        _ => room,
    };
    compare(files, booth, n, &lent_record(length, random))
}

#[test]
fn parts_of_random_sessions() {
    let mut tally = Tally::default();
    for mut random in randoms(first_seed(70_000_000), 0, SESSIONS) {
        let session = Session::random(&mut random);
        ask_all(&session, &mut random, &mut tally);
        let said = ask_anything(&session, &session.files, &mut random);
        tally.add("any number asked", said);
        let broken = damaged_files(&session.files, &mut random);
        let said = ask_anything(&session, &broken, &mut random);
        tally.add("damaged files", said);
    }
    tally.print("solo parts");
    assert!(tally.of_kind("every booth's whole part") >= SESSIONS);
    assert!(tally.times(NOTHING, 0) >= SESSIONS);
    assert!(tally.times(CALL, 9) >= 1_000 && tally.times(CALL, 11) >= 1_000);
    for number in 1..=7 {
        assert!(tally.times(BOOTH_TABLE, number) >= 10, "table {number}");
    }
    for number in [1, 2, 3, 4, 5, 6, 8, 9, 10] {
        assert!(tally.times(ARRIVAL_LOG, number) >= 10, "log {number}");
    }
}

#[test]
fn parts_of_an_evening() {
    let mut tally = Tally::default();
    let mut random = Random::new(0);
    for session in long_sessions(first_seed(71_000_000), 10) {
        ask_all(&session, &mut random, &mut tally);
    }
    for (_, session) in largest_sessions() {
        ask_all(&session, &mut random, &mut tally);
    }
    tally.print("solo parts of an evening");
    assert_eq!(tally.times(NOTHING, 0), tally.inputs());
}
