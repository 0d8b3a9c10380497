//! The marks of a picture, each defined once: a booth that works in the wall lane,
//! a task that is played in a booth's lane, an own tick in its allowance.

use std::collections::BTreeSet;
use std::fmt::Display;

use super::svg::Svg;
use super::Drawn;

/// The height of the wall lane and of the lanes in which booths work.
pub const TALL: usize = 18;
/// The height of an allowance lane.
pub const LOW: usize = 13;

/// What fills a task's marks, so that tasks can be told apart without their digit
/// and without colour.
const PATTERNS: [&str; 8] = [
    r##"<rect width="6" height="6" fill="#ddd" stroke="none"/>"##,
    r#"<path d="M-1 1L1 -1M-1 7L7 -1M5 7L7 5"/>"#,
    r#"<path d="M0 3H6"/>"#,
    r#"<path d="M5 -1L7 1M-1 -1L7 7M-1 5L1 7"/>"#,
    r#"<path d="M3 0V6"/>"#,
    r#"<circle cx="3" cy="3" r="1"/>"#,
    r#"<path d="M0 3H6M3 0V6"/>"#,
    r#"<path d="M-1 1L1 -1M-1 7L7 -1M5 7L7 5M5 -1L7 1M-1 -1L7 7M-1 5L1 7"/>"#,
];

pub fn definitions(drawn: &Drawn) -> Svg {
    let mut svg = Svg::default();
    for task in tasks(drawn) {
        pattern(task, &mut svg);
        let fill = format!("url(#pattern{task})");
        boxed(
            &format!("task{task}"),
            drawn.scale.cell,
            (TALL, "digit"),
            (&fill, task),
            &mut svg,
        );
        boxed(
            &format!("own{task}"),
            drawn.scale.cell,
            (LOW, "small"),
            (&fill, task),
            &mut svg,
        );
    }
    for booth in 0..drawn.booths.len() {
        boxed(
            &format!("booth{booth}"),
            drawn.scale.cell,
            (TALL, "digit"),
            ("#fff", booth),
            &mut svg,
        );
    }
    dots(drawn.scale.cell, &mut svg);
    svg
}

/// Those that arrive, lowest first: no other is ever played.
pub fn tasks(drawn: &Drawn) -> BTreeSet<u8> {
    let jobs = drawn.booths.iter().flat_map(|booth| &booth.jobs);
    jobs.map(|job| job.arrival.task).collect()
}

fn pattern(task: u8, svg: &mut Svg) {
    let drawn = PATTERNS[usize::from(task) % PATTERNS.len()];
    svg.push(format_args!(
        r##"<pattern id="pattern{task}" width="6" height="6" patternUnits="userSpaceOnUse"><rect width="6" height="6" fill="#fff"/><g stroke="#aaa" stroke-width="0.8" fill="#ccc">{drawn}</g></pattern>"##
    ));
}

/// A box with a digit in it.
fn boxed(
    id: &str,
    cell: usize,
    (height, class): (usize, &str),
    (fill, digit): (&str, impl Display),
    svg: &mut Svg,
) {
    let (x, y) = (cell as f64 / 2.0, height - 4);
    svg.push(format_args!(
        r#"<g id="{id}"><rect class="box" width="{cell}" height="{height}" fill="{fill}"/><text class="{class}" x="{x}" y="{y}">{digit}</text></g>"#
    ));
}

/// A wall tick without work, an own tick passed over, and one that is due and not spent.
fn dots(cell: usize, svg: &mut Svg) {
    let x = cell as f64 / 2.0;
    let dot = |height: usize| format!(r#"<circle cx="{x}" cy="{}" r="1.2"/>"#, height as f64 / 2.0);
    svg.push(format_args!(r#"<g id="idle">{}</g>"#, dot(TALL)));
    svg.push(format_args!(
        r#"<g id="passed"><rect class="due" width="{cell}" height="{LOW}"/>{}</g>"#,
        dot(LOW)
    ));
    svg.push(format_args!(
        r#"<g id="unspent"><rect class="unspent" width="{cell}" height="{LOW}"/></g>"#
    ));
}
