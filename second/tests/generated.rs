//! The generator: its sessions are admitted, are read back as they were meant,
//! and reach what they are for.

use std::collections::BTreeMap;

use second::arrivals::{read_log, Entry, Log};
use second::generate::{
    greatest_allowance, log_bytes, random_session, random_table, table_bytes, AT_THE_EDGE,
};
use second::random::{first_seed, Random};
use second::refusal::Refusal;
use second::session::Stage;
use second::table::{read_table, Table};
use second::ticks::WallTick;

#[test]
fn every_session_is_read_back_as_written() {
    let first = first_seed(14_000_000);
    for number in 0..4_000 {
        let seed = first.wrapping_add(number);
        let (table, log) = random_session(&mut Random::new(seed));
        let read = read_table(&table_bytes(&table)).unwrap();
        assert_eq!(read, table, "seed {seed}");
        assert_eq!(read_log(&log_bytes(&log), &read), Ok(log), "seed {seed}");
    }
}

#[test]
fn the_same_seed_gives_the_same_session() {
    let first = first_seed(15_000_000);
    let session = |seed| random_session(&mut Random::new(seed));
    for number in 0..200 {
        let seed = first.wrapping_add(number);
        assert_eq!(session(seed), session(seed));
    }
    assert_ne!(session(first), session(first.wrapping_add(1)));
}

/// What makes a session worth comparing.
fn worth(table: &Table, log: &Log) -> Vec<&'static str> {
    let (lines, entries, h) = (&table.lines, &log.entries, log.wall_ticks.0);
    let whose = |entry: &Entry| (entry.tick, entry.booth, entry.task);
    let twice = |two: &[Entry]| whose(&two[0]) == whose(&two[1]);
    let seen = play(table, log);
    let marks = [
        ("one booth", lines.len() == 1),
        ("eight booths", lines.len() == 8),
        ("one task", lines.iter().any(|line| line.tasks() == 1)),
        ("eight tasks", lines.iter().any(|line| line.tasks() == 8)),
        ("no wall tick", h == 0),
        ("over 1,000 wall ticks", h > 1_000),
        ("no entry", entries.is_empty()),
        ("over 30 entries", entries.len() > 30),
        ("one tick and task twice", entries.windows(2).any(twice)),
        ("a booth lagged", seen.lagged),
        ("an entry waited", seen.waited),
        ("a booth sang after silence", seen.sang_after_silence),
    ];
    let found = marks.iter().filter(|(_, found)| *found);
    found.map(|&(mark, _)| mark).collect()
}

/// What happened on the stage.
#[derive(Default)]
struct Seen {
    /// A booth was behind its due, so others were in its way.
    lagged: bool,
    /// An entry had arrived and was not released yet.
    waited: bool,
    sang_after_silence: bool,
}

fn play(table: &Table, log: &Log) -> Seen {
    let (h, booths) = (log.wall_ticks.0 as usize, table.lines.len());
    let (mut wall, mut own) = (vec![0; h], vec![0; h * booths]);
    let mut seen = Seen::default();
    let mut stage = Stage::new(table, log);
    for t in (0..log.wall_ticks.0).map(WallTick) {
        stage = stage.settle(t, &mut own);
        for (line, booth) in table.lines.iter().zip(&stage.booths) {
            seen.lagged |= booth.u < line.due(t);
        }
        seen.waited |= log.entries.iter().any(|entry| {
            let point = table.lines[entry.booth].due(entry.tick);
            entry.tick <= t && point > stage.booths[entry.booth].u
        });
        stage = stage.play(t, &mut wall, &mut own);
    }
    for (number, booth) in stage.booths.iter().enumerate() {
        let row = &own[number * h..number * h + booth.u.0 as usize];
        seen.sang_after_silence |= row.windows(2).any(|two| two[0] == 255 && two[1] < 255);
    }
    seen
}

#[test]
fn sessions_reach_what_they_are_for() {
    let first = first_seed(16_000_000);
    let mut reached = BTreeMap::new();
    for number in 0..1_000 {
        let mut random = Random::new(first.wrapping_add(number));
        let (table, log) = random_session(&mut random);
        for mark in worth(&table, &log) {
            *reached.entry(mark).or_insert(0) += 1;
        }
    }
    println!("of 1000 sessions {reached:?}");
    assert_eq!(reached.len(), 12);
    assert!(reached.values().all(|&times| times >= 5));
    for mark in [
        "a booth lagged",
        "an entry waited",
        "a booth sang after silence",
    ] {
        assert!(reached[mark] > 200, "{mark}");
    }
}

/// At the edge one more own tick in a period is refused: 7, or 6 above T.
#[test]
fn one_more_than_the_edge_is_not_admitted() {
    let first = first_seed(17_000_000);
    for number in 0..4_000 {
        let seed = first.wrapping_add(number);
        let mut table = random_table(&AT_THE_EDGE, &mut Random::new(seed));
        let last = table.lines.len() - 1;
        let (earlier, line) = table.lines.split_at_mut(last);
        line[0].allowance = greatest_allowance(earlier, line[0].period);
        assert!(read_table(&table_bytes(&table)).is_ok(), "seed {seed}");
        table.lines[last].allowance += 1;
        let above_period = table.lines[last].allowance > table.lines[last].period;
        let before = table.lines[..last].iter();
        let place = 3 + before.map(|line| 5 + 2 * line.tasks()).sum::<usize>();
        let number = if above_period { 6 } else { 7 };
        let refused = Err(Refusal::at(number, place));
        assert_eq!(read_table(&table_bytes(&table)), refused, "seed {seed}");
    }
}
