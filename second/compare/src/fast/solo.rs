//! The solo part, in runs of one task or of nobody.

use super::accepted_files;
use super::booth::NOBODY;
use super::demand::Demand;
use super::waiting::{own_arrivals, Arrival};
use crate::answers::{Verdict, ABSENT_BOOTH, UNFIT};

/// The first `n` own ticks of a booth's solo part into the lent buffer.
pub fn solo_part(table: &[u8], log: &[u8], booth: usize, n: usize, part: &mut [u8]) -> Verdict {
    let (table, log) = match accepted_files(table, log) {
        Ok(read) => read,
        Err(verdict) => return verdict,
    };
    if booth >= table.booths {
        return ABSENT_BOOTH;
    }
    let promise = &table.promises[booth];
    if n > promise.due(log.wall_ticks) as usize || n > part.len() {
        return UNFIT;
    }
    write_part(own_arrivals(&log, booth, promise), &mut part[..n]);
    Verdict::ACCEPTED
}

/// Between two release points only what is left of the first task's demand can
/// change who plays.
fn write_part(arrivals: impl Iterator<Item = Arrival>, mut part: &mut [u8]) {
    let mut demand = Demand::default();
    let mut own_tick = 0;
    for arrival in arrivals {
        let ticks = part.len().min((arrival.release_point - own_tick) as usize);
        let (run, rest) = part.split_at_mut(ticks);
        play_run(&mut demand, run);
        part = rest;
        own_tick = arrival.release_point;
        demand.add(arrival.task, arrival.demand);
    }
    play_run(&mut demand, part);
}

/// Plays own ticks at which no entry is released after the first of them.
fn play_run(demand: &mut Demand, mut run: &mut [u8]) {
    while let (Some((task, left)), false) = (demand.first(), run.is_empty()) {
        let ticks = run.len().min(left as usize);
        let (played, rest) = run.split_at_mut(ticks);
        played.fill(task);
        demand.take(task, ticks as u32);
        run = rest;
    }
    run.fill(NOBODY);
}
