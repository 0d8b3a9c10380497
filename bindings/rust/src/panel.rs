//! A panel row, as the rules have it.

use crate::raw;

/// How what a booth got compares with what was due; each but the first carries
/// the share that it got.
#[derive(Clone, Copy, Debug, PartialEq)]
pub enum Reading {
    /// No wall tick has passed.
    NoneYet,
    /// The booth worked less than was due.
    Below(f64),
    /// The booth worked exactly what was due.
    AtTheCeiling(f64),
    /// The booth worked more than was due: no session wrote this record.
    Over(f64),
}

/// A booth's two shares, and the reading beside them.
#[derive(Clone, Copy, Debug, PartialEq)]
pub struct PanelRow {
    /// Allowance by period.
    pub promised: f64,
    /// Ticks worked by wall ticks passed; 0 while none has passed.
    pub got: f64,
    /// What the panel shows.
    pub reading: Reading,
}

impl PanelRow {
    pub(crate) fn of_raw(row: raw::PanelRow) -> PanelRow {
        let reading = match row.reading {
            raw::NONE_YET => Reading::NoneYet,
            raw::BELOW => Reading::Below(row.got),
            raw::AT_THE_CEILING => Reading::AtTheCeiling(row.got),
            raw::OVER => Reading::Over(row.got),
            other => panic!("the library answers the readings of its header, not {other}"),
        };
        PanelRow {
            promised: row.promised,
            got: row.got,
            reading,
        }
    }
}
