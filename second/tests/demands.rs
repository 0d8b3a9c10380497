//! The demands on a session, checked at every wall tick of random admitted
//! sessions.

mod lent;

use lent::{play, untouched, BEFORE};
use second::arrivals::{Entry, Log};
use second::desk::desk;
use second::generate::{log_bytes, random_session, table_bytes};
use second::random::{first_seed, Random};
use second::refusal::Refusal;
use second::session::Stage;
use second::solo::solo_part;
use second::table::{first_not_admitted, Line, Table};
use second::ticks::{OwnTick, WallTick};

const SESSIONS: u64 = 4_000;

/// All that can be seen at wall tick `t`, all booths settled at it.
struct Moment<'a> {
    table: &'a Table,
    log: &'a Log,
    solo_parts: &'a [Vec<u8>],
    t: WallTick,
    stage: &'a Stage,
    wall: &'a [u8],
    own: &'a [u8],
    /// For the message of a failed check.
    seed: u64,
}

impl Moment<'_> {
    fn u(&self, booth: usize) -> OwnTick {
        self.stage.booths[booth].u
    }

    fn row(&self, booth: usize) -> &[u8] {
        let begin = booth * self.log.wall_ticks.0 as usize;
        &self.own[begin..begin + self.u(booth).0 as usize]
    }

    /// The wall ticks played so far.
    fn played(&self) -> &[u8] {
        &self.wall[..self.t.0 as usize]
    }

    fn says(&self, booth: usize) -> String {
        format!("seed {} wall tick {} booth {booth}", self.seed, self.t.0)
    }
}

/// How often a byte stands in a record.
fn times(record: &[u8], wanted: usize) -> u64 {
    let standing = record.iter().filter(|&&byte| usize::from(byte) == wanted);
    standing.count() as u64
}

/// Each booth's solo part as far as a caller may ask for it.
fn solo_parts(table: &Table, log: &Log) -> Vec<Vec<u8>> {
    let lines = table.lines.iter().enumerate();
    let part = |(booth, line): (usize, &Line)| {
        solo_part(line, &log.entries_of(booth), line.due(log.wall_ticks))
    };
    lines.map(part).collect()
}

/// Plays one session and checks each booth at every wall tick from 0 to H.
fn watch(table: &Table, log: &Log, seed: u64, check: fn(&Moment, usize)) -> (Vec<u8>, Vec<u8>) {
    let h = log.wall_ticks.0;
    let mut wall = vec![BEFORE; h as usize];
    let mut own = vec![BEFORE; h as usize * table.lines.len()];
    let solo_parts = solo_parts(table, log);
    let mut stage = Stage::new(table, log);
    for t in (0..=h).map(WallTick) {
        stage = stage.settle(t, &mut own);
        let moment = Moment {
            table,
            log,
            solo_parts: &solo_parts,
            t,
            stage: &stage,
            wall: &wall,
            own: &own,
            seed,
        };
        (0..table.lines.len()).for_each(|booth| check(&moment, booth));
        if t < log.wall_ticks {
            stage = stage.play(t, &mut wall, &mut own);
        }
    }
    (wall, own)
}

/// The seeds of a series, and a random admitted session for each.
fn random_sessions(first: u64) -> impl Iterator<Item = (u64, Table, Log)> {
    let first = first_seed(first);
    (0..SESSIONS).map(move |number| {
        let seed = first.wrapping_add(number);
        let (table, log) = random_session(&mut Random::new(seed));
        (seed, table, log)
    })
}

fn at_every_wall_tick(first: u64, check: fn(&Moment, usize)) {
    for (seed, table, log) in random_sessions(first) {
        watch(&table, &log, seed, check);
    }
}

#[test]
fn every_row_is_an_opening_of_the_solo_part() {
    at_every_wall_tick(1_000_000, |moment, booth| {
        let row = moment.row(booth);
        assert!(
            moment.solo_parts[booth].starts_with(row),
            "{}",
            moment.says(booth)
        );
    });
}

#[test]
fn k_periods_are_exactly_k_allowances() {
    at_every_wall_tick(2_000_000, |moment, booth| {
        let line = &moment.table.lines[booth];
        if moment.t.0 % line.period == 0 {
            let k = moment.t.0 / line.period;
            let expected = OwnTick(k * line.allowance);
            assert_eq!(moment.u(booth), expected, "{}", moment.says(booth));
        }
    });
}

#[test]
fn never_more_than_one_allowance_behind() {
    at_every_wall_tick(3_000_000, |moment, booth| {
        let line = &moment.table.lines[booth];
        let (due, u) = (line.due(moment.t).0, moment.u(booth).0);
        assert!(u <= due, "{}", moment.says(booth));
        assert!(due - u <= line.allowance, "{}", moment.says(booth));
    });
}

/// Worked and idle are what stands in the wall record, a booth's worked is what
/// it sang in its row, and together they are the ticks played.
#[test]
fn every_tick_is_counted_once() {
    at_every_wall_tick(4_000_000, |moment, booth| {
        let booths = &moment.stage.booths;
        let worked = booths[booth].worked;
        let silent = times(moment.row(booth), 255);
        let message = moment.says(booth);
        assert_eq!(worked, times(moment.played(), booth), "{message}");
        assert_eq!(worked, moment.u(booth).0 - silent, "{message}");
        assert_eq!(moment.stage.idle, times(moment.played(), 255), "{message}");
        let all_worked: u64 = booths.iter().map(|booth| booth.worked).sum();
        assert_eq!(all_worked + moment.stage.idle, moment.t.0, "{message}");
    });
}

/// A settled booth has added just the entries with tick at most t and release
/// point at most u.
#[test]
fn demand_added_is_ticks_played_plus_demand_left() {
    at_every_wall_tick(5_000_000, |moment, booth| {
        let line = &moment.table.lines[booth];
        let added = |entry: &&Entry| {
            let released = line.due(entry.tick) <= moment.u(booth);
            entry.booth == booth && entry.tick <= moment.t && released
        };
        let mut demand = vec![0; line.tasks()];
        for entry in moment.log.entries.iter().filter(added) {
            demand[entry.task] += entry.demand;
        }
        let left = &moment.stage.booths[booth].demand_left;
        for task in 0..line.tasks() {
            let played = times(moment.row(booth), task);
            assert_eq!(demand[task], played + left[task], "{}", moment.says(booth));
        }
    });
}

/// The moves watched above are the session's: same records, same counts.
#[test]
fn the_session_is_the_moves_watched() {
    for (seed, table, log) in random_sessions(6_000_000) {
        let (wall, own) = watch(&table, &log, seed, |_, _| {});
        let played = play(
            &table_bytes(&table),
            &log_bytes(&log),
            wall.len(),
            own.len(),
        );
        let outcome = played.outcome;
        assert_eq!(outcome.refusal, Refusal::ACCEPTED, "seed {seed}");
        assert_eq!((&played.wall, &played.own), (&wall, &own), "seed {seed}");
        assert_eq!(outcome.idle, times(&wall, 255), "seed {seed}");
        assert_eq!(outcome.booths, table.lines.len(), "seed {seed}");
        let h = wall.len();
        for booth in 0..outcome.booths {
            assert_eq!(outcome.worked[booth], times(&wall, booth), "seed {seed}");
            // The row is written up to the final u and not beyond.
            let u = booth * h + outcome.own_clocks[booth].0 as usize;
            assert!(!own[booth * h..u].contains(&BEFORE), "seed {seed}");
            assert!(untouched(&own[u..(booth + 1) * h]), "seed {seed}");
        }
    }
}

/// The record a line of the desk's text ends with.
fn record_in(line: &str) -> Vec<u8> {
    let (_, record) = line.rsplit_once(' ').unwrap();
    let byte = |letter: char| letter.to_digit(10).map_or(255, |digit| digit as u8);
    record.chars().map(byte).collect()
}

/// The desk's text read back says what the session answered.
#[test]
fn the_desk_prints_the_session() {
    for (seed, table, log) in random_sessions(6_500_000) {
        let (table, log) = (table_bytes(&table), log_bytes(&log));
        let played = play(&table, &log, 2_000, 16_000);
        let (outcome, h) = (&played.outcome, played.outcome.wall_ticks().0 as usize);
        let text = String::from_utf8(desk(&[table, log].concat())).unwrap();
        let lines: Vec<&str> = text.lines().collect();
        let booths = outcome.booths;
        assert_eq!(lines.len(), booths + 3, "seed {seed}");
        assert_eq!(lines[0], format!("admitted {booths}"), "seed {seed}");
        assert!(lines[1].starts_with("wall "), "seed {seed}");
        assert_eq!(record_in(lines[1]), played.wall[..h], "seed {seed}");
        for booth in 0..booths {
            let (u, worked) = (outcome.own_clocks[booth].0, outcome.worked[booth]);
            let line = lines[2 + booth];
            let begin = format!("booth {booth} own {u} worked {worked} ");
            assert!(line.starts_with(&begin), "seed {seed}: {line}");
            let row = &played.own[booth * h..booth * h + u as usize];
            assert_eq!(record_in(line), row, "seed {seed}");
        }
        let idle = format!("idle {}", outcome.idle);
        assert_eq!(lines[2 + booths], idle, "seed {seed}");
        assert!(text.ends_with('\n'), "seed {seed}");
    }
}

/// The solo part once more, as the page says it: at each n all sums are taken
/// anew.
#[test]
fn the_solo_part_is_its_definition() {
    for (seed, table, log) in random_sessions(7_000_000) {
        for (booth, line) in table.lines.iter().enumerate() {
            let n = line.due(log.wall_ticks).0.min(100);
            let part = solo_part(line, &log.entries_of(booth), OwnTick(n));
            let defined = |own_tick| defined_byte(&log, line, booth, &part[..own_tick]);
            let expected: Vec<u8> = (0..n as usize).map(defined).collect();
            assert_eq!(part, expected, "seed {seed}");
        }
    }
}

/// What is played after `before`: the first task whose released entries ask more
/// than it has played, with none 255.
fn defined_byte(log: &Log, line: &Line, booth: usize, before: &[u8]) -> u8 {
    let now = before.len();
    let asks_more = |&task: &usize| asked(log, line, booth, task, now) > times(before, task);
    let first = (0..line.tasks()).find(asks_more);
    first.map_or(255, |task| task as u8)
}

/// What a task's entries with release point at most `own_tick` ask.
fn asked(log: &Log, line: &Line, booth: usize, task: usize, own_tick: usize) -> u64 {
    let of_task = |entry: &&Entry| entry.booth == booth && entry.task == task;
    let entries = log.entries.iter().filter(of_task);
    let released = entries.filter(|entry| line.due(entry.tick) <= OwnTick(own_tick as u64));
    released.map(|entry| entry.demand).sum()
}

/// The booth's line in another table, at another priority if admission allows.
fn other_table(line: &Line, random: &mut Random) -> (Table, usize) {
    let (mut table, _) = random_session(random);
    table.lines.truncate(7);
    let place = random.below(table.lines.len() + 1);
    table.lines.insert(place, line.clone());
    if first_not_admitted(&table.lines).is_some() {
        let lines = vec![line.clone()];
        return (Table { lines }, 0);
    }
    (table, place)
}

/// The booth's entries among random ones of the other booths, up to another H.
fn other_log(table: &Table, place: usize, own: &[Entry], random: &mut Random) -> Log {
    let last = own.last().map_or(0, |entry| entry.tick.0);
    let h = last + 1 + random.between(0, 100);
    let moved = own.iter().map(|&entry| Entry {
        booth: place,
        ..entry
    });
    let mut entries: Vec<Entry> = moved.collect();
    for booth in (0..table.lines.len()).filter(|&booth| booth != place) {
        let demand = table.lines[booth].longest_jobs[0];
        let tick = WallTick(random.between(0, h - 1));
        entries.push(Entry {
            tick,
            booth,
            task: 0,
            demand,
        });
    }
    entries.sort_by_key(|entry| entry.tick);
    Log {
        wall_ticks: WallTick(h),
        entries,
    }
}

/// A session's row of one booth.
fn row_in(table: &Table, log: &Log, booth: usize, seed: u64) -> Vec<u8> {
    let h = log.wall_ticks.0 as usize;
    let own_lent = h * table.lines.len();
    let played = play(&table_bytes(table), &log_bytes(log), h, own_lent);
    assert_eq!(played.outcome.refusal, Refusal::ACCEPTED, "seed {seed}");
    let u = played.outcome.own_clocks[booth].0 as usize;
    played.own[booth * h..booth * h + u].to_vec()
}

#[test]
fn the_same_line_and_entries_give_the_same_row() {
    let mut in_company = 0;
    for (seed, table, log) in random_sessions(8_000_000) {
        let mut random = Random::new(!seed);
        let booth = random.below(table.lines.len());
        let own = log.entries_of(booth);
        let (other_table, place) = other_table(&table.lines[booth], &mut random);
        let other_log = other_log(&other_table, place, &own, &mut random);
        let row = row_in(&table, &log, booth, seed);
        let other_row = row_in(&other_table, &other_log, place, seed);
        let shorter = row.len().min(other_row.len());
        assert_eq!(row[..shorter], other_row[..shorter], "seed {seed}");
        in_company += u64::from(place > 0);
    }
    println!("{in_company} of {SESSIONS} booths sang below others the second time");
    assert!(in_company > SESSIONS / 10);
}

/// A table of one to four booths, admitted or not.
fn any_table(random: &mut Random) -> Table {
    let booths = random.between(1, 4);
    let line = |_| {
        let period = random.between(1, 20);
        let allowance = random.between(1, period.div_ceil(2));
        Line {
            period,
            allowance,
            longest_jobs: vec![65_535],
        }
    };
    Table {
        lines: (0..booths).map(line).collect(),
    }
}

/// The first booth without its whole allowance after its first period, when all
/// sing from tick 0 on.
fn first_that_lags(table: &Table) -> Option<usize> {
    let entry = |booth| Entry {
        tick: WallTick(0),
        booth,
        task: 0,
        demand: 65_535,
    };
    (0..table.lines.len()).find(|&booth| {
        let log = Log {
            wall_ticks: WallTick(table.lines[booth].period),
            entries: (0..table.lines.len()).map(entry).collect(),
        };
        let h = log.wall_ticks.0 as usize;
        let (mut wall, mut own) = (vec![0; h], vec![0; h * table.lines.len()]);
        let mut stage = Stage::new(table, &log);
        for t in 0..log.wall_ticks.0 {
            stage = stage.play(WallTick(t), &mut wall, &mut own);
        }
        stage.settle(log.wall_ticks, &mut own).booths[booth].u.0 < table.lines[booth].allowance
    })
}

/// Admission, tried on the stage: it fails for just the booth that would lag.
#[test]
fn admission_fails_for_the_first_booth_that_would_lag() {
    let first = first_seed(9_000_000);
    let mut failed = 0;
    for number in 0..SESSIONS {
        let seed = first.wrapping_add(number);
        let table = any_table(&mut Random::new(seed));
        let lags = first_that_lags(&table);
        assert_eq!(first_not_admitted(&table.lines), lags, "seed {seed}");
        failed += u64::from(lags.is_some());
    }
    println!("{failed} of {SESSIONS} tables not admitted");
    assert!(failed > SESSIONS / 10 && failed < SESSIONS * 9 / 10);
}
