//! Wall ticks and own ticks, kept apart as two kinds of number.
//!
//! There is no way from one to the other but `Line::due`, so a value cannot be
//! converted twice.

/// A tick of the wall clock, or a number of wall ticks counted from 0.
#[derive(Clone, Copy, Debug, PartialEq, Eq, PartialOrd, Ord)]
pub struct WallTick(pub u64);

/// A tick of one booth's own clock, or a number of own ticks counted from 0.
#[derive(Clone, Copy, Debug, PartialEq, Eq, PartialOrd, Ord)]
pub struct OwnTick(pub u64);

impl WallTick {
    pub fn next(self) -> WallTick {
        WallTick(self.0 + 1)
    }
}

impl OwnTick {
    pub fn next(self) -> OwnTick {
        OwnTick(self.0 + 1)
    }
}
