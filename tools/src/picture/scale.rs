//! How wide a wall tick is, and how many stand in a line.

use std::ops::Range;

/// A line is about this wide.
const LINE: usize = 1_000;
/// A digit can be read in this width.
const NARROWEST: usize = 10;
const WIDEST: usize = 50;
/// The legend needs this width.
const NARROWEST_PICTURE: usize = 600;

pub struct Scale {
    ticks: usize,
    /// The width of a wall tick.
    pub cell: usize,
    in_line: usize,
}

impl Scale {
    pub fn new(ticks: usize) -> Scale {
        let cell = (LINE / ticks.max(1)).clamp(NARROWEST, WIDEST);
        Scale {
            ticks,
            cell,
            in_line: LINE / cell,
        }
    }

    /// The wall ticks of each line; without any there is one empty line.
    pub fn lines(&self) -> impl Iterator<Item = Range<usize>> + '_ {
        let begins = (0..self.ticks.max(1)).step_by(self.in_line);
        begins.map(|begin| begin..self.ticks.min(begin + self.in_line))
    }

    /// Of the widest line, or what the legend needs.
    pub fn width(&self) -> usize {
        let line = self.cell * self.ticks.min(self.in_line);
        line.max(NARROWEST_PICTURE)
    }

    /// The left edge of a wall tick in its line.
    pub fn x(&self, tick: usize) -> usize {
        tick % self.in_line * self.cell
    }

    /// Every how many ticks the axis has a number.
    pub fn step(&self) -> usize {
        match self.cell {
            ..14 => 10,
            14..24 => 5,
            _ => 1,
        }
    }
}
