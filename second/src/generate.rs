//! Random sessions that a session must accept, a full house and a log of every
//! tick, and the bytes of given values.

use crate::arrivals::{self, Entry, Log, ENTRY_LENGTH};
use crate::random::Random;
use crate::table::{self, taken_before, Line, Table, MOST_BOOTHS, MOST_TASKS};
use crate::ticks::WallTick;

/// How large the values of a random session grow.
pub struct Shape {
    longest_period: u64,
    longest_job: u64,
    most_wall_ticks: u64,
    most_entries: u64,
    /// The last booth takes all that admission leaves it.
    at_the_edge: bool,
    /// Several entries on one tick and task.
    bursts: bool,
}

pub const SHORT_AND_DENSE: Shape = Shape {
    longest_period: 16,
    longest_job: 3,
    most_wall_ticks: 100,
    most_entries: 30,
    at_the_edge: false,
    bursts: false,
};

pub const LONG_AND_SPARSE: Shape = Shape {
    longest_period: 600,
    longest_job: 120,
    most_wall_ticks: 2_000,
    most_entries: 30,
    at_the_edge: false,
    bursts: false,
};

pub const AT_THE_EDGE: Shape = Shape {
    longest_period: 30,
    longest_job: 6,
    most_wall_ticks: 150,
    most_entries: 50,
    at_the_edge: true,
    bursts: false,
};

pub const BURSTS: Shape = Shape {
    longest_period: 30,
    longest_job: 2,
    most_wall_ticks: 150,
    most_entries: 50,
    at_the_edge: false,
    bursts: true,
};

/// Jobs so long that every booth with an entry sings to the end.
pub const NEVER_SILENT: Shape = Shape {
    longest_period: 40,
    longest_job: 65_535,
    most_wall_ticks: 200,
    most_entries: 40,
    at_the_edge: true,
    bursts: true,
};

/// As long as a session can be, with booths that sing most of the time.
pub const WHOLE_EVENING: Shape = Shape {
    longest_period: table::LONGEST_PERIOD,
    longest_job: 65_535,
    most_wall_ticks: arrivals::MOST_WALL_TICKS,
    most_entries: arrivals::MOST_ENTRIES as u64,
    at_the_edge: true,
    bursts: true,
};

/// As long as a session can be, with booths that are silent most of the time.
pub const QUIET_EVENING: Shape = Shape {
    longest_period: 1_000,
    longest_job: 40,
    most_wall_ticks: arrivals::MOST_WALL_TICKS,
    most_entries: arrivals::MOST_ENTRIES as u64,
    at_the_edge: false,
    bursts: false,
};

/// An admitted table and a log that fits it, of a random shape.
pub fn random_session(random: &mut Random) -> (Table, Log) {
    let shape = match random.between(0, 15) {
        0 => LONG_AND_SPARSE,
        1..=5 => SHORT_AND_DENSE,
        6..=10 => AT_THE_EDGE,
        11..=13 => BURSTS,
        _ => NEVER_SILENT,
    };
    let table = random_table(&shape, random);
    let log = random_log(&shape, &table, random);
    (table, log)
}

/// An admitted table of one to eight booths.
pub fn random_table(shape: &Shape, random: &mut Random) -> Table {
    let booths = random.between(1, MOST_BOOTHS as u64);
    // Periods of about one length leave room for many booths.
    let alike = random.one_in(2);
    let shortest = if alike { shape.longest_period / 2 } else { 1 };
    let mut lines: Vec<Line> = Vec::new();
    for singing_later in (0..booths).rev() {
        let period = random.between(shortest, shape.longest_period);
        let room = greatest_allowance(&lines, period);
        if room == 0 {
            break;
        }
        // A booth leaves room to those below it, or the table would stay short.
        let most = 1.max(room / (1 + singing_later));
        let least = match random.one_in(2) {
            _ if shape.at_the_edge && singing_later == 0 => most,
            true => most.div_ceil(2),
            false => 1,
        };
        lines.push(Line {
            period,
            allowance: random.between(least, most),
            longest_jobs: random_jobs(shape, random),
        });
    }
    Table { lines }
}

fn random_jobs(shape: &Shape, random: &mut Random) -> Vec<u64> {
    let tasks = random.between(1, MOST_TASKS as u64);
    (0..tasks)
        .map(|_| random.between(1, shape.longest_job))
        .collect()
}

/// The most a booth of this period may be promised below the earlier ones; 0 if
/// there is no room.
pub fn greatest_allowance(earlier: &[Line], period: u64) -> u64 {
    let room = |r: u64| r.saturating_sub(taken_before(earlier, r));
    (1..=period).map(room).max().unwrap_or(0)
}

/// A log that fits the table.
pub fn random_log(shape: &Shape, table: &Table, random: &mut Random) -> Log {
    let most_wall_ticks = if random.one_in(30) {
        0
    } else {
        shape.most_wall_ticks
    };
    let h = random.between(0, most_wall_ticks);
    let most_entries = if h == 0 { 0 } else { shape.most_entries };
    let count = random.between(0, most_entries);
    let mut ticks: Vec<u64> = (0..count).map(|_| random.between(0, h - 1)).collect();
    ticks.sort_unstable();
    let mut entries: Vec<Entry> = Vec::new();
    for tick in ticks {
        let mut entry = random_entry(WallTick(tick), table, random);
        let before = entries.last().copied();
        if let Some(before) = before.filter(|_| shape.bursts && random.one_in(2)) {
            entry = before;
        }
        entries.push(entry);
    }
    Log {
        wall_ticks: WallTick(h),
        entries,
    }
}

fn random_entry(tick: WallTick, table: &Table, random: &mut Random) -> Entry {
    let booth = random.below(table.lines.len());
    let longest_jobs = &table.lines[booth].longest_jobs;
    let task = random.below(longest_jobs.len());
    let least = if random.one_in(4) {
        longest_jobs[task]
    } else {
        1
    };
    Entry {
        tick,
        booth,
        task,
        demand: random.between(least, longest_jobs[task]),
    }
}

/// Eight booths of 1 in 8 with eight tasks each: the longest table, admitted
/// since booth i passes at R = i + 1.
pub fn full_house(longest_job: u64) -> Table {
    let line = Line {
        period: 8,
        allowance: 1,
        longest_jobs: vec![longest_job; 8],
    };
    Table {
        lines: vec![line; 8],
    }
}

/// An entry for each of `count` ticks from 0, all for the first task of booth 0.
pub fn every_tick(h: u64, count: u64) -> Log {
    let entry = |tick| Entry {
        tick: WallTick(tick),
        booth: 0,
        task: 0,
        demand: 1,
    };
    Log {
        wall_ticks: WallTick(h),
        entries: (0..count).map(entry).collect(),
    }
}

/// The last `width` bytes of a value, the first weighing most.
pub fn number_bytes(value: u64, width: usize) -> Vec<u8> {
    value.to_be_bytes()[8 - width..].to_vec()
}

/// The bytes of a table with these values, whether or not they are in range.
pub fn table_bytes(table: &Table) -> Vec<u8> {
    let body = table.lines.iter().flat_map(record_bytes).collect();
    with_head(body, table::N_BYTES)
}

fn record_bytes(line: &Line) -> Vec<u8> {
    let mut record = vec![4 + 2 * line.longest_jobs.len() as u8];
    record.extend(number_bytes(line.period, 2));
    record.extend(number_bytes(line.allowance, 2));
    let jobs = line.longest_jobs.iter();
    record.extend(jobs.flat_map(|&job| number_bytes(job, 2)));
    record
}

/// The bytes of a log with these values, whether or not they are in range.
pub fn log_bytes(log: &Log) -> Vec<u8> {
    let mut body = number_bytes(log.wall_ticks.0, 4);
    body.extend(log.entries.iter().flat_map(entry_bytes));
    with_head(body, arrivals::N_BYTES)
}

fn entry_bytes(entry: &Entry) -> Vec<u8> {
    let mut bytes = vec![ENTRY_LENGTH as u8];
    bytes.extend(number_bytes(entry.tick.0, 4));
    bytes.push(entry.booth as u8);
    bytes.push(entry.task as u8);
    bytes.extend(number_bytes(entry.demand, 2));
    bytes
}

/// A version byte and an N of `n_bytes` bytes before the body.
pub fn with_head(body: Vec<u8>, n_bytes: usize) -> Vec<u8> {
    let mut file = vec![1];
    file.extend(number_bytes(body.len() as u64, n_bytes));
    file.extend(body);
    file
}
