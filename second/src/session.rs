//! The session: table and log in, wall record and own record out.

use crate::arrivals::{read_log, Log};
use crate::booth::{Booth, NOBODY};
use crate::refusal::Refusal;
use crate::table::{read_table, Table, MOST_BOOTHS};
use crate::ticks::{OwnTick, WallTick};

/// What a refusal is about.
#[derive(Clone, Copy, Debug, PartialEq, Eq)]
pub enum Refused {
    Table,
    Log,
    Session,
}

/// The session's answer; with a refusal every count is 0.
#[derive(Clone, Debug, PartialEq, Eq)]
pub struct Outcome {
    /// Nothing when the session is accepted.
    pub refused: Option<Refused>,
    pub refusal: Refusal,
    /// How many booths the admitted table has.
    pub booths: usize,
    /// Each booth's final u.
    pub own_clocks: [OwnTick; MOST_BOOTHS],
    /// Each booth's worked ticks.
    pub worked: [u64; MOST_BOOTHS],
    pub idle: u64,
}

impl Outcome {
    fn nothing_counted(refused: Option<Refused>, refusal: Refusal) -> Outcome {
        Outcome {
            refused,
            refusal,
            booths: 0,
            own_clocks: [OwnTick(0); MOST_BOOTHS],
            worked: [0; MOST_BOOTHS],
            idle: 0,
        }
    }

    /// H, since worked ticks plus idle ticks are H.
    pub fn wall_ticks(&self) -> WallTick {
        WallTick(self.worked.iter().sum::<u64>() + self.idle)
    }
}

/// Plays a whole session, or refuses it and writes nothing.
pub fn session(table: &[u8], log: &[u8], wall: &mut [u8], own: &mut [u8]) -> Outcome {
    match read_all(table, log, wall.len(), own.len()) {
        Ok((table, log)) => play_all(&table, &log, wall, own),
        Err((refused, refusal)) => Outcome::nothing_counted(Some(refused), refusal),
    }
}

/// The table first, then the log, then the lent buffers.
fn read_all(
    table: &[u8],
    log: &[u8],
    wall_lent: usize,
    own_lent: usize,
) -> Result<(Table, Log), (Refused, Refusal)> {
    let table = read_table(table).map_err(|refusal| (Refused::Table, refusal))?;
    let log = read_log(log, &table).map_err(|refusal| (Refused::Log, refusal))?;
    let wall_needed = log.wall_ticks.0;
    let own_needed = wall_needed * table.lines.len() as u64;
    if (wall_lent as u64) < wall_needed || (own_lent as u64) < own_needed {
        return Err((Refused::Session, Refusal::UNFIT));
    }
    Ok((table, log))
}

/// Plays ticks 0 to H - 1 and settles all booths at H.
fn play_all(table: &Table, log: &Log, wall: &mut [u8], own: &mut [u8]) -> Outcome {
    let mut stage = Stage::new(table, log);
    for t in 0..log.wall_ticks.0 {
        stage = stage.play(WallTick(t), wall, own);
    }
    stage = stage.settle(log.wall_ticks, own);
    let mut outcome = Outcome::nothing_counted(None, Refusal::ACCEPTED);
    outcome.booths = stage.booths.len();
    outcome.idle = stage.idle;
    for (number, booth) in stage.booths.iter().enumerate() {
        outcome.own_clocks[number] = booth.u;
        outcome.worked[number] = booth.worked;
    }
    outcome
}

/// All booths between two moves, and the idle ticks so far.
pub struct Stage {
    wall_ticks: WallTick,
    pub booths: Vec<Booth>,
    pub idle: u64,
}

impl Stage {
    pub fn new(table: &Table, log: &Log) -> Stage {
        let lines = table.lines.iter().enumerate();
        let booths = lines.map(|(number, line)| Booth::new(line, &log.entries_of(number)));
        Stage {
            wall_ticks: log.wall_ticks,
            booths: booths.collect(),
            idle: 0,
        }
    }

    /// Settles all booths at `t`.
    pub fn settle(mut self, t: WallTick, own: &mut [u8]) -> Stage {
        let h = self.wall_ticks;
        let booths = self.booths.into_iter().enumerate();
        self.booths = booths
            .map(|(number, booth)| booth.settle(t, row_of(own, h, number)))
            .collect();
        self
    }

    /// Plays tick `t`: all settle, and the first booth that may work works.
    pub fn play(self, t: WallTick, wall: &mut [u8], own: &mut [u8]) -> Stage {
        let mut stage = self.settle(t, own);
        let Some((number, task)) = stage.first_to_work(t) else {
            wall[t.0 as usize] = NOBODY;
            stage.idle += 1;
            return stage;
        };
        let row = row_of(own, stage.wall_ticks, number);
        let booth = stage.booths.remove(number).play(task, row);
        stage.booths.insert(number, booth);
        wall[t.0 as usize] = number as u8;
        stage
    }

    /// The first booth that has a task and whose u is below due(t+1).
    fn first_to_work(&self, t: WallTick) -> Option<(usize, usize)> {
        for (number, booth) in self.booths.iter().enumerate() {
            let Some(task) = booth.task_to_run() else {
                continue;
            };
            if booth.below_next_due(t) {
                return Some((number, task));
            }
        }
        None
    }
}

/// Row i begins at i times H in the own record; H bytes are its room.
fn row_of(own: &mut [u8], wall_ticks: WallTick, booth: usize) -> &mut [u8] {
    let h = wall_ticks.0 as usize;
    &mut own[booth * h..(booth + 1) * h]
}
