//! A booth's arrivals: a flag at the wall tick at which a job arrives, and a line
//! from it to the wall tick at which the job is first played.

use std::ops::Range;

use super::course::{Course, Job};
use super::scale::Scale;
use super::svg::Svg;

/// The height of a track, on which flags and lines do not meet.
const TRACK: usize = 12;
const FLAG: usize = 10;

/// What a line of the picture shows of a job.
#[derive(Debug, PartialEq)]
struct Part {
    task: u8,
    ticks: Range<usize>,
    /// The job arrives in this line of the picture, not in one before.
    arrives: bool,
    end: End,
}

#[derive(Debug, PartialEq)]
enum End {
    Played,
    /// First played in a later line of the picture.
    GoesOn,
    Never,
}

/// The lane, and how high it is: as many tracks as jobs wait side by side.
pub fn lane(scale: &Scale, booth: &Course, line: &Range<usize>) -> (Svg, usize) {
    let parts = booth.jobs.iter().filter_map(|job| part(job, line));
    let parts: Vec<Part> = parts.collect();
    let tracks = tracks(&parts);
    let count = tracks.iter().max().map_or(0, |highest| highest + 1);
    let height = TRACK * count;
    let mut svg = Svg::default();
    if count > 0 {
        svg.text("lane", (-8, height - 3), "arrivals");
    }
    for (part, track) in parts.iter().zip(tracks) {
        part.draw(scale, height - TRACK * (track + 1), height, &mut svg);
    }
    (svg, height)
}

/// A job that waits longer than the line of the picture leaves it at its end, and
/// comes back at the begin of the one in which it is played.
fn part(job: &Job, line: &Range<usize>) -> Option<Part> {
    let arrival = job.arrival.tick;
    let arrives = line.contains(&arrival);
    let (ticks, end) = match job.first_played {
        None if arrives => (arrival..arrival + 1, End::Never),
        Some(played) if line.contains(&played) => {
            (arrival.max(line.start)..played + 1, End::Played)
        }
        Some(_) if arrives => (arrival..line.end, End::GoesOn),
        _ => return None,
    };
    Some(Part {
        task: job.arrival.task,
        ticks,
        arrives,
        end,
    })
}

/// For each part the lowest track on which it meets no other.
fn tracks(parts: &[Part]) -> Vec<usize> {
    let mut taken: Vec<Vec<&Range<usize>>> = Vec::new();
    let tracks = parts.iter().map(|part| {
        let ticks = &part.ticks;
        let meets = |other: &&Range<usize>| other.start < ticks.end && ticks.start < other.end;
        let free = taken.iter().position(|track| !track.iter().any(meets));
        let track = free.unwrap_or(taken.len());
        taken.resize_with(taken.len().max(track + 1), Vec::new);
        taken[track].push(ticks);
        track
    });
    tracks.collect()
}

impl Part {
    /// On the track that begins at y; `foot` is where the lane ends.
    fn draw(&self, scale: &Scale, y: usize, foot: usize, svg: &mut Svg) {
        let flag = flag_width(scale);
        let begin = scale.x(self.ticks.start);
        let last = scale.x(self.ticks.end - 1);
        // Flags stand at the left of a tick and lines come down at its right, so they never meet.
        let down = last + (flag + scale.cell).div_ceil(2);
        let middle = y + FLAG / 2;
        let edge = last + scale.cell;
        let (way, head) = match self.end {
            End::Played => (format!("H{down}V{foot}"), "m-2 -4l2 4l2 -4"),
            End::GoesOn => (format!("H{edge}"), "m-4 -2l4 2l-4 2"),
            End::Never => (format!("H{down}"), "m-2 -2l4 4m0 -4l-4 4"),
        };
        svg.push(format_args!(
            r#"<path class="job" d="M{begin} {middle}{way}{head}"/>"#
        ));
        if self.arrives {
            self.draw_flag((begin, y), flag, svg);
        }
    }

    fn draw_flag(&self, (x, y): (usize, usize), width: usize, svg: &mut Svg) {
        svg.push(format_args!(
            r#"<rect class="head" x="{x}" y="{y}" width="{width}" height="{FLAG}"/>"#
        ));
        svg.text(
            "flag",
            (x as f64 + width as f64 / 2.0, y + FLAG - 2),
            self.task,
        );
    }
}

fn flag_width(scale: &Scale) -> usize {
    scale.cell.min(18) * 2 / 3
}

/// For the legend, jobs of this task: one that is first played at the wall tick behind
/// its arrival, one that goes on in a later line, and one that is never played.
pub fn samples(scale: &Scale, task: u8) -> [Svg; 3] {
    let sample = |ticks, end| {
        let part = Part {
            task,
            ticks,
            arrives: true,
            end,
        };
        let mut svg = Svg::default();
        part.draw(scale, 3, 3 + TRACK, &mut svg);
        svg
    };
    [
        sample(0..2, End::Played),
        sample(0..2, End::GoesOn),
        sample(0..1, End::Never),
    ]
}

#[cfg(test)]
mod tests {
    use super::*;
    use crate::values::Arrival;

    fn job(tick: usize, first_played: Option<usize>) -> Job {
        let arrival = Arrival {
            tick,
            booth: 0,
            task: 5,
            demand: 1,
        };
        Job {
            arrival,
            first_played,
        }
    }

    fn shown(ticks: Range<usize>, arrives: bool, end: End) -> Option<Part> {
        Some(Part {
            task: 5,
            ticks,
            arrives,
            end,
        })
    }

    /// Lines of 100 ticks: a job that arrives in the first and is played in the third.
    #[test]
    fn a_job_in_the_lines_of_a_picture() {
        let waits = job(90, Some(210));
        assert_eq!(part(&waits, &(0..100)), shown(90..100, true, End::GoesOn));
        assert_eq!(part(&waits, &(100..200)), None);
        assert_eq!(
            part(&waits, &(200..300)),
            shown(200..211, false, End::Played)
        );
        let at_once = job(90, Some(90));
        assert_eq!(part(&at_once, &(0..100)), shown(90..91, true, End::Played));
        let never = job(90, None);
        assert_eq!(part(&never, &(0..100)), shown(90..91, true, End::Never));
        assert_eq!(part(&never, &(100..200)), None);
    }

    /// A tick that two jobs share puts them on two tracks; a track is used again.
    #[test]
    fn jobs_that_meet_have_tracks_of_their_own() {
        let waits = [(0, 4), (4, 5), (5, 9), (2, 2), (4, 4)];
        let parts = waits.map(|(from, to)| part(&job(from, Some(to)), &(0..10)));
        let parts: Vec<Part> = parts.into_iter().flatten().collect();
        assert_eq!(tracks(&parts), [0, 1, 0, 1, 2]);
    }
}
