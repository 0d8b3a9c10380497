//! A session as a picture: plain SVG, in lines like a score, black on white.
//!
//! Every line has wall ticks across, a lane for the wall record and below it for
//! each booth its arrivals, the wall ticks at which it works, and its allowance.

mod allowance;
mod arrivals;
mod course;
mod legend;
mod line;
mod marks;
mod scale;
mod svg;

use crate::play::Played;
use crate::values::{arrivals, promises};
use course::{course, Course};
use legend::legend;
use scale::Scale;
use svg::Svg;

/// A longer picture would be more than a hundred lines.
pub const MOST_TICKS: usize = 10_000;

/// Room for the lanes' names.
const LEFT: usize = 96;
const RIGHT: usize = 24;
const TITLE: usize = 40;

/// What is drawn.
pub struct Drawn<'a> {
    wall: &'a [u8],
    booths: Vec<Course<'a>>,
    scale: Scale,
}

pub fn picture(played: &Played) -> String {
    let drawn = drawn(played);
    let mut body = Svg::default();
    let mut y = TITLE;
    for ticks in drawn.scale.lines() {
        y += line::draw(&drawn, ticks, (LEFT, y), &mut body);
    }
    y += legend(&drawn, (LEFT, y), &mut body);
    let size = (LEFT + drawn.scale.width() + RIGHT, y);
    svg::document(size, &title(played), &marks::definitions(&drawn), &body)
}

fn drawn(played: &Played) -> Drawn<'_> {
    let arrivals = arrivals(&played.log);
    let booths = promises(&played.table).into_iter().enumerate();
    let booths = booths.map(|(booth, promise)| course(&played.session, booth, promise, &arrivals));
    Drawn {
        wall: played.session.wall(),
        booths: booths.collect(),
        scale: Scale::new(played.session.wall_ticks()),
    }
}

fn title(played: &Played) -> String {
    let session = &played.session;
    let (ticks, idle) = (session.wall_ticks(), session.idle());
    let worked = ticks - idle;
    let booths = session.booths();
    format!("A session: wall ticks {ticks}, booths {booths}, worked {worked}, idle {idle}")
}
