//! What a booth did, by wall tick.

use hallanupp::{Session, IDLE};

use crate::values::{Arrival, Promise};

/// A wall tick at which the booth worked, and the task it played.
pub struct Turn {
    pub tick: usize,
    pub task: u8,
}

/// A job, and the wall tick at which it is first played, if it is.
pub struct Job {
    pub arrival: Arrival,
    pub first_played: Option<usize>,
}

/// All that the picture shows of a booth.
pub struct Course<'a> {
    pub number: usize,
    pub promise: Promise,
    pub row: &'a [u8],
    pub turns: Vec<Turn>,
    pub jobs: Vec<Job>,
}

pub fn course<'a>(
    session: &'a Session<Vec<u8>>,
    number: usize,
    promise: Promise,
    arrivals: &[Arrival],
) -> Course<'a> {
    let row = session.row(number).unwrap_or_default();
    let turns = turns(session.wall(), row, number);
    let jobs = jobs(
        arrivals.iter().filter(|arrival| arrival.booth == number),
        &turns,
    );
    Course {
        number,
        promise,
        row,
        turns,
        jobs,
    }
}

/// The wall record tells when the booth works, the row what it plays, in own
/// ticks. To play writes the task at the own clock, which then grows by 1; to
/// settle only moves the clock on, over own ticks that are written 255. So own
/// ticks are played in their order, one at each wall tick that has the booth's
/// number: the k-th of these plays the k-th own tick that is not 255.
fn turns(wall: &[u8], row: &[u8], booth: usize) -> Vec<Turn> {
    let ticks = wall.iter().enumerate();
    let ticks = ticks.filter(|(_, &worked)| usize::from(worked) == booth);
    let tasks = row.iter().filter(|&&task| task != IDLE);
    let turns = ticks
        .zip(tasks)
        .map(|((tick, _), &task)| Turn { tick, task });
    turns.collect()
}

/// A task's demand is one number, so its jobs are taken to be played in the order
/// of the log. Then a job's first tick is the one after as many ticks of its task
/// as the jobs before it ask for, and it is never played before it arrives: that
/// many is all that was added before it.
fn jobs<'a>(arrivals: impl Iterator<Item = &'a Arrival>, turns: &[Turn]) -> Vec<Job> {
    let mut asked = [0; 256];
    let jobs = arrivals.map(|&arrival| {
        let before = asked[usize::from(arrival.task)];
        asked[usize::from(arrival.task)] += arrival.demand;
        let mut of_task = turns.iter().filter(|turn| turn.task == arrival.task);
        Job {
            arrival,
            first_played: of_task.nth(before).map(|turn| turn.tick),
        }
    });
    jobs.collect()
}

#[cfg(test)]
mod tests {
    use super::*;

    /// Booth 1 of the audition, the ticks reckoned by hand.
    #[test]
    fn own_ticks_at_their_wall_ticks() {
        let wall = [1, 0, 1, 1, 1, 0, IDLE, IDLE, IDLE, IDLE, IDLE, IDLE];
        let turns = turns(&wall, &[1, 1, 0, 1, IDLE, IDLE], 1);
        let told: Vec<_> = turns.iter().map(|turn| (turn.tick, turn.task)).collect();
        assert_eq!(told, [(0, 1), (2, 1), (3, 0), (4, 1)]);
    }

    /// Two jobs of one task, a third that is never played, and one of another task.
    #[test]
    fn jobs_in_the_order_of_the_log() {
        let arrival = |tick, task, demand| Arrival {
            tick,
            booth: 0,
            task,
            demand,
        };
        let log = [
            arrival(0, 1, 2),
            arrival(1, 1, 1),
            arrival(1, 0, 1),
            arrival(2, 1, 5),
        ];
        let turns = [(3, 1), (4, 0), (6, 1), (9, 1)].map(|(tick, task)| Turn { tick, task });
        let jobs = jobs(log.iter(), &turns);
        let first: Vec<_> = jobs.iter().map(|job| job.first_played).collect();
        assert_eq!(first, [Some(3), Some(9), Some(4), None]);
    }
}
