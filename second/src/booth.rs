//! One booth's state and its two moves; each move takes the state and hands it
//! back changed.

use std::collections::VecDeque;

use crate::arrivals::Entry;
use crate::table::Line;
use crate::ticks::{OwnTick, WallTick};

/// Stands in a row for an own tick passed over, in the wall record for idle.
pub const NOBODY: u8 = 255;

/// An entry not added yet; its tick is converted here, once.
struct Waiting {
    tick: WallTick,
    release_point: OwnTick,
    task: usize,
    demand: u64,
}

pub struct Booth {
    line: Line,
    waiting: VecDeque<Waiting>,
    /// The own clock.
    pub u: OwnTick,
    /// Unplayed demand for each task.
    pub demand_left: Vec<u64>,
    /// Wall ticks in which this booth worked.
    pub worked: u64,
}

impl Booth {
    /// A booth before wall tick 0, with its own entries still to come.
    pub fn new(line: &Line, own_entries: &[Entry]) -> Booth {
        let waiting = own_entries.iter().map(|entry| Waiting {
            tick: entry.tick,
            release_point: line.due(entry.tick),
            task: entry.task,
            demand: entry.demand,
        });
        Booth {
            line: line.clone(),
            waiting: waiting.collect(),
            u: OwnTick(0),
            demand_left: vec![0; line.tasks()],
            worked: 0,
        }
    }

    /// Settle at `t`.
    pub fn settle(mut self, t: WallTick, row: &mut [u8]) -> Booth {
        loop {
            self = self.add_ready(t);
            if self.task_to_run().is_some() {
                return self;
            }
            let Some(point) = self.earliest_point(t) else {
                let due = self.line.due(t);
                return self.pass_over_to(due, row);
            };
            self = self.pass_over_to(point, row);
        }
    }

    /// Adds to its task every entry with tick at most `t` and release point at
    /// most u, not added before.
    fn add_ready(mut self, t: WallTick) -> Booth {
        let mut place = 0;
        // Ticks never fall along the log, so the arrived entries stand first.
        while place < self.waiting.len() && self.waiting[place].tick <= t {
            if self.waiting[place].release_point > self.u {
                place += 1;
            } else if let Some(ready) = self.waiting.remove(place) {
                self.demand_left[ready.task] += ready.demand;
            }
        }
        self
    }

    /// The earliest release point among the entries with tick at most `t` that
    /// still wait.
    fn earliest_point(&self, t: WallTick) -> Option<OwnTick> {
        let arrived = self.waiting.iter().take_while(|entry| entry.tick <= t);
        arrived.map(|entry| entry.release_point).min()
    }

    /// Moves u on, writing the own ticks passed over.
    fn pass_over_to(mut self, point: OwnTick, row: &mut [u8]) -> Booth {
        row[self.u.0 as usize..point.0 as usize].fill(NOBODY);
        self.u = point;
        self
    }

    /// The settled booth's answer: its first task with demand, or nothing.
    pub fn task_to_run(&self) -> Option<usize> {
        self.demand_left.iter().position(|&demand| demand > 0)
    }

    /// Whether the own clock allows work in wall tick `t`: u below due(t+1).
    pub fn below_next_due(&self, t: WallTick) -> bool {
        self.u < self.line.due(t.next())
    }

    /// Plays one tick of `task`.
    pub fn play(mut self, task: usize, row: &mut [u8]) -> Booth {
        self.demand_left[task] -= 1;
        row[self.u.0 as usize] = task as u8;
        self.u = self.u.next();
        self.worked += 1;
        self
    }
}
