//! One booth's state and moves; only what moves the clock over a stretch divides.

use super::demand::Demand;
use super::table::Promise;
use super::waiting::{Arrival, NEVER};

/// Stands in a row for an own tick passed over, in the wall record for idle.
pub const NOBODY: u8 = 255;

/// On lines of the cache of its own, and found by a shift.
#[repr(align(128))]
pub struct Booth<'a> {
    /// The own clock; while the booth plays, as it is after the run.
    pub u: u32,
    /// The first task with demand. It has played since own tick `begun` and plays
    /// up to `turn`, where its demand is used up or an entry is to be added.
    pub task: u8,
    begun: u32,
    turn: u32,
    /// The own tick at which this period's allowance is used up, and the wall tick
    /// at which the next period begins.
    spent: u32,
    next_period: u32,
    promise: Promise,
    /// Own ticks that nobody played.
    passed_over: u32,
    demand: Demand,
    /// The first entry not added yet, and those behind it.
    next: Arrival,
    later: std::slice::Iter<'a, Arrival>,
    /// Where the row begins in the own record.
    pub row: usize,
}

impl<'a> Booth<'a> {
    pub fn new(promise: &Promise, own_arrivals: &'a [Arrival], row: usize) -> Booth<'a> {
        let mut later = own_arrivals.iter();
        Booth {
            u: 0,
            task: 0,
            begun: 0,
            turn: 0,
            spent: 0,
            next_period: 0,
            promise: *promise,
            passed_over: 0,
            demand: Demand::default(),
            next: later.next().copied().unwrap_or(NEVER),
            later,
            row,
        }
    }

    /// The wall tick of the first entry not added yet.
    #[inline]
    pub fn next_arrival(&self) -> u32 {
        self.next.tick
    }

    pub fn worked(&self) -> u32 {
        self.u - self.passed_over
    }

    /// Settles at t without demand, and answers the wall tick at which u opens.
    pub fn settle(&mut self, t: u32, own: &mut [u8]) -> u32 {
        if self.next.tick > t {
            self.pass_over_to(self.promise.due(t), own);
        } else {
            self.pass_over_to(self.next.release_point, own);
            self.add_released();
        }
        let periods = self.u / self.promise.allowance;
        self.spent = (periods + 1) * self.promise.allowance;
        self.next_period = (periods + 1) * self.promise.period;
        periods * self.promise.period + self.u % self.promise.allowance
    }

    /// Settles after tick H - 1; a booth with demand has its clock already.
    pub fn settle_at_end(&mut self, h: u32, own: &mut [u8]) {
        if !self.demand.any() {
            self.settle(h, own);
        }
    }

    /// Moves u on, writing the own ticks passed over.
    fn pass_over_to(&mut self, point: u32, own: &mut [u8]) {
        own[self.row + self.u as usize..self.row + point as usize].fill(NOBODY);
        self.passed_over += point - self.u;
        self.u = point;
    }

    /// Adds the entries whose release point is reached. An own tick opens no sooner
    /// than the entries released at it arrive, so their wall ticks need no look.
    fn add_released(&mut self) {
        while self.next.release_point <= self.u {
            self.demand.add(self.next.task, self.next.demand);
            self.next = self.later.next().copied().unwrap_or(NEVER);
        }
        let (task, left) = self.demand.first().unwrap_or((NOBODY, 0));
        self.task = task;
        self.begun = self.u;
        self.turn = (self.u + left).min(self.next.release_point);
    }

    /// How many own ticks the task at hand may play in a row.
    #[inline]
    pub fn run_left(&self) -> u32 {
        self.turn.min(self.spent) - self.u
    }

    /// The wall tick at which u opens if the allowance is used up, and otherwise 0.
    /// Asked once after each run.
    #[inline]
    pub fn opens(&mut self) -> u32 {
        if self.u != self.spent {
            return 0;
        }
        let opens = self.next_period;
        self.spent += self.promise.allowance;
        self.next_period += self.promise.period;
        opens
    }

    /// Whether the task at hand has played as far as it may.
    #[inline]
    pub fn at_turn(&self) -> bool {
        self.u == self.turn
    }

    /// Takes the next task at hand, and answers whether there is one.
    #[cold]
    pub fn take_turn(&mut self) -> bool {
        self.demand.take(self.task, self.u - self.begun);
        self.add_released();
        self.demand.any()
    }
}
