//! All booths in a session: who is awake, and who plays.

use std::array::from_fn;

use super::booth::{Booth, NOBODY};

/// A set of booths: bit i is set while booth i is in it.
type Booths = u32;

pub struct Stage<'s, 'a> {
    booths: &'s mut [Booth<'a>; 8],
    wall_ticks: u32,
    /// Before this wall tick a booth cannot have a task to play.
    wakes: [u32; 8],
    /// The first of these ticks that is still to come, at most H.
    soonest: u32,
    /// The booths whose tick is reached.
    awake: Booths,
    /// The booths without demand, which settle as they wake.
    silent: Booths,
}

/// Who plays and which task, where in the own record the next own tick stands, and
/// the wall tick before which nothing can change that.
struct Run {
    booth: u8,
    task: u8,
    place: usize,
    until: u32,
}

impl<'s, 'a> Stage<'s, 'a> {
    pub fn new(booths: &'s mut [Booth<'a>; 8], wall_ticks: u32) -> Stage<'s, 'a> {
        let wakes = from_fn(|number| booths[number].next_arrival());
        Stage {
            booths,
            wall_ticks,
            wakes,
            soonest: 0,
            awake: 0,
            silent: 0xFF,
        }
    }

    /// Plays every wall tick; within a run only the bytes are written.
    pub fn play_all(mut self, wall: &mut [u8], own: &mut [u8]) {
        let mut run = self.silence();
        for (t, byte) in wall.iter_mut().enumerate() {
            if run.until <= t as u32 {
                run = self.next_run(t as u32, own);
            }
            *byte = run.booth;
            if run.booth != NOBODY {
                own[run.place] = run.task;
                run.place += 1;
            }
        }
    }

    /// The first booth that is awake plays its task from t on, until it may no
    /// longer or another wakes. Its state after the run is known already.
    #[inline]
    fn next_run(&mut self, t: u32, own: &mut [u8]) -> Run {
        if self.soonest <= t {
            self.wake(t, own);
        }
        if self.awake == 0 {
            return self.silence();
        }
        let number = self.awake.trailing_zeros() as usize & 7;
        let booth = &mut self.booths[number];
        let until = self.soonest.min(t + booth.run_left());
        let run = Run {
            booth: number as u8,
            task: booth.task,
            place: booth.row + booth.u as usize,
            until,
        };
        booth.u += until - t;
        if booth.at_turn() && !booth.take_turn() {
            let arrival = booth.next_arrival();
            self.silent |= 1 << number;
            self.sleep(number, arrival);
            return run;
        }
        let opens = booth.opens();
        if opens > until {
            self.sleep(number, opens);
        }
        run
    }

    #[inline]
    fn silence(&self) -> Run {
        Run {
            booth: NOBODY,
            task: NOBODY,
            place: 0,
            until: self.soonest,
        }
    }

    /// The first booth that is awake sleeps from the end of its run on.
    #[inline]
    fn sleep(&mut self, number: usize, until: u32) {
        self.awake &= self.awake - 1;
        self.wakes[number] = until;
        self.soonest = self.soonest.min(until);
    }

    /// Wakes the booths whose tick is reached. One without demand settles, and its
    /// u may open later.
    #[inline]
    fn wake(&mut self, t: u32, own: &mut [u8]) {
        self.look_at_wakes(t);
        while self.awake & self.silent != 0 {
            let number = (self.awake & self.silent).trailing_zeros() as usize & 7;
            self.silent &= !(1 << number);
            self.wakes[number] = self.booths[number].settle(t, own);
            self.look_at_wakes(t);
        }
    }

    #[inline]
    fn look_at_wakes(&mut self, t: u32) {
        self.awake = 0;
        self.soonest = self.wall_ticks;
        for (number, &wake) in self.wakes.iter().enumerate() {
            let reached = wake <= t;
            let to_come = if reached { self.wall_ticks } else { wake };
            self.awake |= Booths::from(reached) << number;
            self.soonest = self.soonest.min(to_come);
        }
    }
}
