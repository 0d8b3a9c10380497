//! A booth's allowance: in every period a box for each own tick, at the wall tick
//! from which it is due, and how many of the period's own ticks are spent.

use std::ops::Range;

use hallanupp::IDLE;

use super::course::Course;
use super::marks::LOW;
use super::svg::Svg;
use super::Drawn;

pub fn lane(drawn: &Drawn, booth: &Course, ticks: &Range<usize>) -> Svg {
    let mut svg = Svg::default();
    let promise = &booth.promise;
    svg.text(
        "lane",
        (-8, LOW - 3),
        format_args!("{} in {}", promise.allowance, promise.period),
    );
    for tick in ticks.clone() {
        let in_period = tick % promise.period;
        if in_period < promise.allowance {
            own_tick(drawn, booth, tick, &mut svg);
        }
        if in_period == 0 {
            let x = drawn.scale.x(tick);
            svg.push(format_args!(r#"<path class="period" d="M{x} -3V{LOW}"/>"#));
        }
        // Behind the own ticks of a period, or where the line begins within its rest.
        if in_period == promise.allowance {
            count(drawn, booth, tick..ticks.end, &mut svg);
        }
    }
    svg
}

/// Own tick n is due from wall tick t on where due(t) = n and due(t + 1) = n + 1.
fn own_tick(drawn: &Drawn, booth: &Course, tick: usize, svg: &mut Svg) {
    let promise = &booth.promise;
    let own_tick = tick / promise.period * promise.allowance + tick % promise.period;
    let x = drawn.scale.x(tick);
    match booth.row.get(own_tick) {
        None => svg.mark("unspent", x),
        Some(&IDLE) => svg.mark("passed", x),
        Some(task) => svg.mark(format_args!("own{task}"), x),
    }
}

/// How many of the period's own ticks are spent, as far as there is room for words.
fn count(drawn: &Drawn, booth: &Course, rest: Range<usize>, svg: &mut Svg) {
    let promise = &booth.promise;
    let period = rest.start / promise.period;
    let before = period * promise.allowance;
    let spent = booth
        .row
        .len()
        .min(before + promise.allowance)
        .saturating_sub(before);
    let due = promise.allowance;
    let end = rest.end.min((period + 1) * promise.period);
    let room = (end - rest.start) * drawn.scale.cell;
    let texts = [
        format!("spent {spent} of {due} due"),
        format!("{spent} of {due}"),
        format!("{spent}/{due}"),
    ];
    if let Some(text) = texts.iter().find(|text| text.len() * 5 + 6 <= room) {
        svg.text("count", (drawn.scale.x(rest.start) + 4, LOW - 3), text);
    }
}
