//! A session that was played, with the records that hold it.

use crate::raw::SessionAnswer;

/// A session that was played: its counts and the records that hold it.
///
/// `Records` is `&[u8]` where the caller lent them ([`session`](crate::session))
/// and `Vec<u8>` where they were made for the call ([`play`](crate::play)).
#[derive(Clone, Debug, PartialEq, Eq)]
pub struct Session<Records> {
    pub(crate) answer: SessionAnswer,
    pub(crate) wall: Records,
    pub(crate) own: Records,
}

impl<Records: AsRef<[u8]>> Session<Records> {
    /// H, the session's wall ticks.
    pub fn wall_ticks(&self) -> usize {
        self.answer.wall_ticks as usize
    }

    /// How many booths the table has; they are numbered from 0.
    pub fn booths(&self) -> usize {
        self.answer.booths as usize
    }

    /// How many wall ticks no booth worked.
    pub fn idle(&self) -> usize {
        self.answer.idle as usize
    }

    /// How many wall ticks the booth worked; none for a booth the table has not.
    pub fn worked(&self, booth: usize) -> Option<usize> {
        self.of_booth(booth, &self.answer.worked)
    }

    /// The wall record: for each wall tick the booth that worked, or [`IDLE`](crate::IDLE).
    pub fn wall(&self) -> &[u8] {
        &self.wall.as_ref()[..self.wall_ticks()]
    }

    /// The booth's own row: for each of its own ticks the task that it played, or
    /// [`IDLE`](crate::IDLE); none for a booth the table has not.
    pub fn row(&self, booth: usize) -> Option<&[u8]> {
        let length = self.of_booth(booth, &self.answer.clocks)?;
        let begin = booth * self.wall_ticks();
        Some(&self.own.as_ref()[begin..begin + length])
    }

    /// The own rows of all booths, booth 0 first.
    pub fn rows(&self) -> impl Iterator<Item = &[u8]> {
        (0..self.booths()).filter_map(|booth| self.row(booth))
    }

    fn of_booth(&self, booth: usize, figures: &[u32; 8]) -> Option<usize> {
        (booth < self.booths()).then(|| figures[booth] as usize)
    }
}
