//! A line of the picture: its axis, the wall lane and the lanes of each booth.

use std::ops::Range;

use hallanupp::IDLE;

use super::course::Course;
use super::marks::{LOW, TALL};
use super::svg::Svg;
use super::{allowance, arrivals, Drawn};

const AXIS: usize = 16;
/// Between the wall lane and a booth, and between booths.
const GAP: usize = 10;
const BELOW: usize = 24;
/// Between the lane in which a booth works and its allowance.
const SEAM: usize = 4;
/// A wall tick's number stands over its middle where there is room for it.
const WIDE: usize = 24;

/// Draws the line of these wall ticks and answers how high it is.
pub fn draw(drawn: &Drawn, ticks: Range<usize>, place: (usize, usize), svg: &mut Svg) -> usize {
    let mut lanes = Svg::default();
    let mut y = AXIS;
    lanes.group("wall", (0, y), &wall_lane(drawn, ticks.clone()));
    y += TALL;
    for booth in &drawn.booths {
        y += GAP;
        y += booth_lanes(drawn, booth, ticks.clone(), y, &mut lanes);
    }
    let mut line = axis(drawn, ticks, y);
    line.0 += &lanes.0;
    svg.group("line", place, &line);
    y + BELOW
}

/// Tick numbers, each with a guide down to the last lane.
fn axis(drawn: &Drawn, ticks: Range<usize>, bottom: usize) -> Svg {
    let mut svg = Svg::default();
    let (step, cell) = (drawn.scale.step(), drawn.scale.cell);
    for tick in ticks.filter(|tick| tick % step == 0) {
        let x = drawn.scale.x(tick);
        svg.push(format_args!(
            r#"<path class="guide" d="M{x} {AXIS}V{bottom}"/>"#
        ));
        let (class, x) = match cell {
            WIDE.. => ("tick middle", x as f64 + cell as f64 / 2.0),
            _ => ("tick", x as f64),
        };
        svg.text(class, (x, AXIS - 5), tick);
    }
    svg.text("lane", (-8, AXIS - 5), "wall tick");
    svg
}

/// Along the foot of a lane.
fn floor(drawn: &Drawn, ticks: &Range<usize>, y: usize, svg: &mut Svg) {
    let width = drawn.scale.cell * ticks.len();
    svg.push(format_args!(r#"<path class="floor" d="M0 {y}H{width}"/>"#));
}

fn wall_lane(drawn: &Drawn, ticks: Range<usize>) -> Svg {
    let mut svg = Svg::default();
    svg.text("name", (-8, TALL - 5), "wall");
    floor(drawn, &ticks, TALL, &mut svg);
    for tick in ticks {
        let x = drawn.scale.x(tick);
        match drawn.wall[tick] {
            IDLE => svg.mark("idle", x),
            booth => svg.mark(format_args!("booth{booth}"), x),
        }
    }
    svg
}

/// Arrivals, the ticks worked and the allowance, from `top` on; answers how high they are.
fn booth_lanes(
    drawn: &Drawn,
    booth: &Course,
    ticks: Range<usize>,
    top: usize,
    svg: &mut Svg,
) -> usize {
    let number = booth.number;
    let (jobs, height) = arrivals::lane(&drawn.scale, booth, &ticks);
    svg.group(&format!("arrivals booth{number}"), (0, top), &jobs);
    let works = works_lane(drawn, booth, &ticks);
    svg.group(&format!("works booth{number}"), (0, top + height), &works);
    let spent = allowance::lane(drawn, booth, &ticks);
    svg.group(
        &format!("allowance booth{number}"),
        (0, top + height + TALL + SEAM),
        &spent,
    );
    height + TALL + SEAM + LOW
}

fn works_lane(drawn: &Drawn, booth: &Course, ticks: &Range<usize>) -> Svg {
    let mut svg = Svg::default();
    svg.text(
        "name",
        (-8, TALL - 5),
        format_args!("booth {}", booth.number),
    );
    floor(drawn, ticks, TALL, &mut svg);
    for turn in booth.turns.iter().filter(|turn| ticks.contains(&turn.tick)) {
        svg.mark(format_args!("task{}", turn.task), drawn.scale.x(turn.tick));
    }
    svg
}
