//! The panel: what a booth was promised and what it got by some wall tick.

use std::cmp::Ordering;

use crate::arrivals::MOST_WALL_TICKS;
use crate::refusal::Refusal;
use crate::table::{read_table, Line};
use crate::ticks::{OwnTick, WallTick};

/// How the booth stands against its ceiling due(t), with its share.
#[derive(Clone, Copy, Debug, PartialEq)]
pub enum Reading {
    NoneYet,
    Below(f64),
    AtCeiling(f64),
    Over(f64),
}

/// Two shares, beside the reading.
#[derive(Clone, Copy, Debug, PartialEq)]
pub struct PanelRow {
    pub promised: f64,
    pub got: f64,
    pub reading: Reading,
}

impl PanelRow {
    /// What stands beside a refusal.
    const REFUSED: PanelRow = PanelRow {
        promised: 0.0,
        got: 0.0,
        reading: Reading::NoneYet,
    };
}

/// The panel row of a booth after `t` ticks of a wall record.
pub fn panel(table: &[u8], wall: &[u8], booth: usize, t: WallTick) -> (Refusal, PanelRow) {
    match asked_line(table, wall, booth, t) {
        Ok(line) => (
            Refusal::ACCEPTED,
            panel_row(&line, worked(wall, booth, t), t),
        ),
        Err(refusal) => (refusal, PanelRow::REFUSED),
    }
}

/// The table, then the booth, then the tick.
///
/// "Past the record" is read as above the lent length, so t may equal it.
fn asked_line(table: &[u8], wall: &[u8], booth: usize, t: WallTick) -> Result<Line, Refusal> {
    let table = read_table(table)?;
    let line = table.lines.get(booth).ok_or(Refusal::ABSENT_BOOTH)?;
    if t.0 > wall.len() as u64 || t.0 > MOST_WALL_TICKS {
        return Err(Refusal::UNFIT);
    }
    Ok(line.clone())
}

/// How often the booth stands in the first `t` bytes.
fn worked(wall: &[u8], booth: usize, t: WallTick) -> u64 {
    let played = &wall[..t.0 as usize];
    let own = played.iter().filter(|&&byte| usize::from(byte) == booth);
    own.count() as u64
}

/// At t = 0 only got is said to be 0; promised is read as B over T there too.
fn panel_row(line: &Line, worked: u64, t: WallTick) -> PanelRow {
    let promised = line.allowance as f64 / line.period as f64;
    if t == WallTick(0) {
        return PanelRow {
            promised,
            got: 0.0,
            reading: Reading::NoneYet,
        };
    }
    // One division of doubles and nothing after it.
    let got = worked as f64 / t.0 as f64;
    let reading = match OwnTick(worked).cmp(&line.due(t)) {
        Ordering::Less => Reading::Below(got),
        Ordering::Equal => Reading::AtCeiling(got),
        Ordering::Greater => Reading::Over(got),
    };
    PanelRow {
        promised,
        got,
        reading,
    }
}
