//! The wrong notes of document 01, each planted in a small scheduler of its own:
//! without a note it is the session, with one its outcome differs.

mod audition;
mod changed;
mod lent;

use audition::{LOG, TABLE};
use changed::with;
use lent::{play, untouched};
use second::arrivals::{read_log, Entry, Log};
use second::generate::{log_bytes, random_session, table_bytes};
use second::random::{first_seed, Random};
use second::refusal::Refusal;
use second::table::{first_not_admitted, read_table, Line, Table};
use second::ticks::WallTick;

#[derive(Clone, Copy, Debug, PartialEq)]
enum Note {
    Right,
    ReleasedOnArrival,
    ConvertedTwice,
    DueOfThisTick,
    ClockStandsStill,
}

const WRONG: [Note; 4] = [
    Note::ReleasedOnArrival,
    Note::ConvertedTwice,
    Note::DueOfThisTick,
    Note::ClockStandsStill,
];

/// A booth whose own clock is the length of its row.
struct Singer<'a> {
    line: &'a Line,
    waiting: Vec<(Entry, u64)>,
    left: Vec<u64>,
    row: Vec<u8>,
}

impl Singer<'_> {
    fn new<'a>(line: &'a Line, entries: &[Entry], note: Note) -> Singer<'a> {
        let point = |entry: &Entry| match note {
            Note::ReleasedOnArrival => 0,
            Note::ConvertedTwice => line.due(WallTick(line.due(entry.tick).0)).0,
            _ => line.due(entry.tick).0,
        };
        Singer {
            line,
            waiting: entries.iter().map(|entry| (*entry, point(entry))).collect(),
            left: vec![0; line.tasks()],
            row: Vec::new(),
        }
    }

    fn settle(&mut self, t: WallTick, note: Note) {
        loop {
            let u = self.row.len() as u64;
            let ready = |(entry, point): &(Entry, u64)| entry.tick <= t && *point <= u;
            let (added, waiting): (Vec<_>, Vec<_>) = self.waiting.drain(..).partition(ready);
            self.waiting = waiting;
            for (entry, _) in added {
                self.left[entry.task] += entry.demand;
            }
            let arrived = self.waiting.iter().filter(|(entry, _)| entry.tick <= t);
            let next = arrived.map(|&(_, point)| point).min();
            let stands = next.is_none() && note == Note::ClockStandsStill;
            if stands || self.task().is_some() {
                return;
            }
            let moved = next.unwrap_or(self.line.due(t).0);
            self.row.resize(moved as usize, 255);
            if next.is_none() {
                return;
            }
        }
    }

    fn task(&self) -> Option<usize> {
        self.left.iter().position(|&demand| demand > 0)
    }

    fn may_work(&self, t: WallTick, note: Note) -> bool {
        let ceiling = match note {
            Note::DueOfThisTick => self.line.due(t),
            _ => self.line.due(t.next()),
        };
        self.task().is_some() && (self.row.len() as u64) < ceiling.0
    }
}

/// The wall record and the rows of a session sung with this note.
fn sing(table: &Table, log: &Log, note: Note) -> (Vec<u8>, Vec<Vec<u8>>) {
    let lines = table.lines.iter().enumerate();
    let singer = |(booth, line)| Singer::new(line, &log.entries_of(booth), note);
    let mut singers: Vec<Singer> = lines.map(singer).collect();
    let mut wall = Vec::new();
    for t in (0..log.wall_ticks.0).map(WallTick) {
        singers.iter_mut().for_each(|singer| singer.settle(t, note));
        let first = singers.iter().position(|singer| singer.may_work(t, note));
        wall.push(first.map_or(255, |booth| booth as u8));
        if let Some(booth) = first {
            let singer = &mut singers[booth];
            let task = singer.task().unwrap();
            singer.left[task] -= 1;
            singer.row.push(task as u8);
        }
    }
    let h = log.wall_ticks;
    singers.iter_mut().for_each(|singer| singer.settle(h, note));
    (wall, singers.into_iter().map(|singer| singer.row).collect())
}

/// The session's own wall record and rows.
fn session_of(table: &Table, log: &Log) -> (Vec<u8>, Vec<Vec<u8>>) {
    let (h, booths) = (log.wall_ticks.0 as usize, table.lines.len());
    let played = play(&table_bytes(table), &log_bytes(log), h, h * booths);
    assert_eq!(played.outcome.refusal, Refusal::ACCEPTED);
    let row = |booth: usize| {
        let end = booth * h + played.outcome.own_clocks[booth].0 as usize;
        assert!(untouched(&played.own[end..(booth + 1) * h]));
        played.own[booth * h..end].to_vec()
    };
    let rows = (0..booths).map(row).collect();
    (played.wall, rows)
}

fn read(table: &[u8], log: &[u8]) -> (Table, Log) {
    let table = read_table(table).unwrap();
    let log = read_log(log, &table).unwrap();
    (table, log)
}

/// The audition without booth 0's entry.
fn without_booth_0() -> Vec<u8> {
    let log = with(&LOG, &[(4, 0x16)]);
    [&log[..18], &log[27..]].concat()
}

#[test]
fn sung_right_it_is_the_session_and_with_a_wrong_note_often_not() {
    let first = first_seed(10_000_000);
    let mut differ = [0; WRONG.len()];
    for number in 0..2_000 {
        let seed = first.wrapping_add(number);
        let (table, log) = random_session(&mut Random::new(seed));
        let right = session_of(&table, &log);
        assert_eq!(sing(&table, &log, Note::Right), right, "seed {seed}");
        for (note, times) in WRONG.iter().zip(&mut differ) {
            *times += u64::from(sing(&table, &log, *note) != right);
        }
    }
    println!("of 2000 sessions differ: {WRONG:?} {differ:?}");
    assert!(differ.iter().all(|&times| times > 500));
}

/// The page: row 1 becomes 1011.. with booth 0 busy and 1101.. without.
#[test]
fn released_on_arrival() {
    let (table, log) = read(&TABLE, &LOG);
    let note = Note::ReleasedOnArrival;
    assert_eq!(sing(&table, &log, note).1[1], [1, 0, 1, 1, 255, 255]);
    let (_, alone) = read(&TABLE, &without_booth_0());
    assert_eq!(sing(&table, &alone, note).1[1], [1, 1, 0, 1, 255, 255]);
    for log in [&log, &alone] {
        let row = &session_of(&table, log).1[1];
        assert_eq!(row, &[1, 1, 0, 1, 255, 255]);
    }
}

/// A job of 1 arrives at wall tick 7 in booth 0 and belongs at own tick 4; due(8)
/// to due(10) are 4, so it is sung at wall tick 10. Released at due(4) = 2, it is
/// sung at wall tick 7, where the clock stands at due(6) = 3.
#[test]
fn converted_twice() {
    let mut log = vec![1, 0, 0, 0, 0x0D, 0, 0, 0, 0x0C];
    log.extend([8, 0, 0, 0, 7, 0, 0, 0, 1]);
    let (table, log) = read(&TABLE, &log);
    let (wall, rows) = session_of(&table, &log);
    assert_eq!(rows[0], [255, 255, 255, 255, 0, 255]);
    assert_eq!(wall.iter().position(|&byte| byte == 0), Some(10));
    let (wall, rows) = sing(&table, &log, Note::ConvertedTwice);
    assert_eq!(rows[0], [255, 255, 255, 0, 255, 255]);
    assert_eq!(wall.iter().position(|&byte| byte == 0), Some(7));
}

#[test]
fn due_of_this_tick() {
    let (table, log) = read(&TABLE, &LOG);
    assert_eq!(session_of(&table, &log).0[0], 1);
    assert_eq!(sing(&table, &log, Note::DueOfThisTick).0[0], 255);
}

/// 2 in 5 and 4 in 7 have shares of 34 in 35, yet 4 + 2 + 2 ticks do not fit in
/// 7: with both singing, booth 1 has 3 own ticks after its period, not 4.
#[test]
fn admitted_by_the_sum_of_shares() {
    let line = |allowance, period| Line {
        period,
        allowance,
        longest_jobs: vec![9],
    };
    let table = Table {
        lines: vec![line(2, 5), line(4, 7)],
    };
    let shares = table
        .lines
        .iter()
        .map(|line| line.allowance * 35 / line.period);
    assert!(shares.sum::<u64>() <= 35);
    assert_eq!(first_not_admitted(&table.lines), Some(1));
    let entry = |booth| Entry {
        tick: WallTick(0),
        booth,
        task: 0,
        demand: 9,
    };
    let log = Log {
        wall_ticks: WallTick(7),
        entries: vec![entry(0), entry(1)],
    };
    assert_eq!(sing(&table, &log, Note::Right).1[1].len(), 3);
    let answer = play(&table_bytes(&table), &log_bytes(&log), 7, 14).outcome;
    assert_eq!((answer.refusal.number, answer.refusal.place), (7, 10));
}

/// Booth 0 sings own ticks 1 and 2 and falls silent: standing still it ends at 3,
/// three behind due(12) = 6, more than its allowance of 2.
#[test]
fn clock_stands_still() {
    let (table, log) = read(&TABLE, &LOG);
    assert_eq!(session_of(&table, &log).1[0].len(), 6);
    let rows = sing(&table, &log, Note::ClockStandsStill).1;
    assert_eq!(rows[0], [255, 0, 0]);
}
