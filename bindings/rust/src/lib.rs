//! The proved scheduler of a direct-monitor box for singers, over slices.
//!
//! A session takes a booth table and an arrival log and gives a wall record (which
//! booth worked at each wall tick) and one own row for each booth (which task it
//! played at each of its own ticks). The audition, the example session of the
//! rules:
//!
//! ```
//! # fn main() -> Result<(), hallanupp::Refusal> {
//! let table = [1, 0, 16, 6, 0, 5, 0, 2, 0, 2, 8, 0, 10, 0, 4, 0, 3, 0, 4];
//! let log = [
//!     1, 0, 0, 0, 31, 0, 0, 0, 12, // 12 wall ticks, then an entry a line
//!     8, 0, 0, 0, 0, 1, 1, 0, 3, // at tick 0 booth 1's task 1 asks for 3
//!     8, 0, 0, 0, 1, 0, 0, 0, 2, // at tick 1 booth 0's task 0 asks for 2
//!     8, 0, 0, 0, 2, 1, 0, 0, 1, // at tick 2 booth 1's task 0 asks for 1
//! ];
//! let session = hallanupp::play(&table, &log)?;
//! assert_eq!(session.wall()[..6], [1, 0, 1, 1, 1, 0]);
//! assert_eq!(session.row(1), Some(&[1, 1, 0, 1, hallanupp::IDLE, hallanupp::IDLE][..]));
//! assert_eq!((session.booths(), session.worked(1), session.idle()), (2, Some(4), 6));
//! # Ok(())
//! # }
//! ```
//!
//! What is refused is a [`Refusal`]: which file or call, a number with a name, the
//! byte, and a sentence.
//!
//! ```
//! use hallanupp::{table_verdict, Number, Refused};
//! // Below a booth with 2 ticks in 5, one with 7 in 10 cannot be sure of its ticks.
//! let table = [1, 0, 16, 6, 0, 5, 0, 2, 0, 2, 8, 0, 10, 0, 7, 0, 3, 0, 4];
//! let refusal = table_verdict(&table).unwrap_err();
//! assert_eq!(refusal.refused, Refused::BoothTable);
//! assert_eq!((refusal.number, refusal.place), (Number::NotAdmitted, 10));
//! assert!(refusal.to_string().contains("record starts at byte 10"));
//! ```
//!
//! Nothing is kept between calls, any bytes may be handed in, and a refused call
//! writes nothing. Only [`play`] allocates.
#![deny(unsafe_code)]
#![deny(missing_docs)]

mod panel;
#[allow(unsafe_code)]
pub mod raw;
mod refusal;
mod session;

use std::fmt;

pub use panel::{PanelRow, Reading};
pub use raw::TEXT_ROOM;
pub use refusal::{Number, Refusal, Refused};
pub use session::Session;

/// The byte of a tick without work, in a wall record, an own row or a solo part.
pub const IDLE: u8 = 255;

/// The most wall ticks of a session.
pub const MOST_WALL_TICKS: usize = 1_000_000;

/// The most booths of a table.
pub const MOST_BOOTHS: usize = 8;

/// Is this a booth table that the box admits?
pub fn table_verdict(table: &[u8]) -> Result<(), Refusal> {
    Refusal::in_verdict(raw::table_verdict(table))
}

/// Are these a booth table that the box admits and an arrival log for it? Where
/// both are bad the table's refusal is given.
pub fn files_verdict(table: &[u8], log: &[u8]) -> Result<(), Refusal> {
    Refusal::in_verdict(raw::files_verdict(table, log))
}

/// Plays a session into the lent records. The wall record needs H bytes, the own
/// record H for each booth; bytes that hold no tick keep what they held.
///
/// ```
/// # fn main() -> Result<(), hallanupp::Refusal> {
/// # let table = [1, 0, 16, 6, 0, 5, 0, 2, 0, 2, 8, 0, 10, 0, 4, 0, 3, 0, 4];
/// # let log = [1, 0, 0, 0, 31, 0, 0, 0, 12, 8, 0, 0, 0, 0, 1, 1, 0, 3,
/// #     8, 0, 0, 0, 1, 0, 0, 0, 2, 8, 0, 0, 0, 2, 1, 0, 0, 1];
/// let (mut wall, mut own) = ([0; 12], [0; 24]);
/// let session = hallanupp::session(&table, &log, &mut wall, &mut own)?;
/// assert_eq!(session.wall_ticks(), 12);
/// assert_eq!(session.rows().map(<[u8]>::len).collect::<Vec<_>>(), [6, 6]);
/// # Ok(())
/// # }
/// ```
pub fn session<'lent>(
    table: &[u8],
    log: &[u8],
    wall: &'lent mut [u8],
    own: &'lent mut [u8],
) -> Result<Session<&'lent [u8]>, Refusal> {
    let answer = raw::session(table, log, wall, own);
    Refusal::in_verdict(answer.verdict)?;
    Ok(Session { answer, wall, own })
}

/// Plays a session into records made for it.
pub fn play(table: &[u8], log: &[u8]) -> Result<Session<Vec<u8>>, Refusal> {
    // H is not known before the log is read, so there is room for the longest
    // session at first; memory that is never written is never really taken.
    let mut wall = vec![0; MOST_WALL_TICKS];
    let mut own = vec![0; MOST_BOOTHS * MOST_WALL_TICKS];
    let answer = raw::session(table, log, &mut wall, &mut own);
    Refusal::in_verdict(answer.verdict)?;
    wall.truncate(answer.wall_ticks as usize);
    own.truncate(answer.booths as usize * wall.len());
    wall.shrink_to_fit();
    own.shrink_to_fit();
    Ok(Session { answer, wall, own })
}

/// The first `n` own ticks of a booth's solo part, what it plays alone, at the
/// start of the lent buffer; bytes behind them keep what they held. At most as
/// many can be asked for as are due by the session's end.
///
/// ```
/// # fn main() -> Result<(), hallanupp::Refusal> {
/// # let table = [1, 0, 16, 6, 0, 5, 0, 2, 0, 2, 8, 0, 10, 0, 4, 0, 3, 0, 4];
/// # let log = [1, 0, 0, 0, 31, 0, 0, 0, 12, 8, 0, 0, 0, 0, 1, 1, 0, 3,
/// #     8, 0, 0, 0, 1, 0, 0, 0, 2, 8, 0, 0, 0, 2, 1, 0, 0, 1];
/// let mut buffer = [0; 6];
/// let part = hallanupp::solo_part(&table, &log, 1, 4, &mut buffer)?;
/// assert_eq!(part, [1, 1, 0, 1]);
/// # Ok(())
/// # }
/// ```
pub fn solo_part<'lent>(
    table: &[u8],
    log: &[u8],
    booth: usize,
    n: usize,
    part: &'lent mut [u8],
) -> Result<&'lent [u8], Refusal> {
    Refusal::in_verdict(raw::solo_part(table, log, booth, n, part))?;
    Ok(&part[..n])
}

/// A booth's row of the own record that a session of `h` wall ticks filled: the
/// caller's own bytes, `count` of them from `booth` times `h`.
///
/// ```
/// let own = *b"first.second";
/// assert_eq!(hallanupp::row_back(&own, 6, 1, 4), Ok(&b"seco"[..]));
/// assert!(hallanupp::row_back(&own, 6, 2, 1).is_err());
/// ```
pub fn row_back(own: &[u8], h: usize, booth: usize, count: usize) -> Result<&[u8], Refusal> {
    let row = raw::row_back(own, h, booth, count);
    Refusal::in_verdict(row.verdict)?;
    Ok(&own[row.start as usize..][..row.count as usize])
}

/// A booth's panel row after the first `t` wall ticks of a wall record.
///
/// ```
/// # fn main() -> Result<(), hallanupp::Refusal> {
/// # let table = [1, 0, 16, 6, 0, 5, 0, 2, 0, 2, 8, 0, 10, 0, 4, 0, 3, 0, 4];
/// use hallanupp::{panel, Reading, IDLE};
/// let wall = [1, 0, 1, 1, 1, 0, IDLE, IDLE];
/// assert_eq!(panel(&table, &wall, 1, 8)?.reading, Reading::AtTheCeiling(0.5));
/// assert_eq!(panel(&table, &wall, 0, 8)?.reading, Reading::Below(0.25));
/// assert_eq!(panel(&table, &wall, 0, 0)?.reading, Reading::NoneYet);
/// # Ok(())
/// # }
/// ```
pub fn panel(table: &[u8], wall: &[u8], booth: usize, t: usize) -> Result<PanelRow, Refusal> {
    let row = raw::panel(table, wall, booth, t);
    Refusal::in_verdict(row.verdict)?;
    Ok(PanelRow::of_raw(row))
}

/// What the desk program prints for a booth table and behind it an arrival log:
/// the text of a session of up to 2,000 wall ticks, or one line that says what is
/// refused. The lent buffer needs [`TEXT_ROOM`] bytes.
///
/// ```
/// let mut buffer = [0; hallanupp::TEXT_ROOM];
/// assert_eq!(hallanupp::desk_text(&[], &mut buffer), Ok("refused table 1 at 0\n"));
/// ```
pub fn desk_text<'lent>(input: &[u8], text: &'lent mut [u8]) -> Result<&'lent str, Refusal> {
    match raw::desk_text(input, text) {
        0 => Err(Refusal::TOO_SHORT),
        length => Ok(std::str::from_utf8(&text[..length]).expect("the desk prints plain letters")),
    }
}

/// A version of the library.
#[derive(Clone, Copy, Debug, PartialEq, Eq, PartialOrd, Ord, Hash)]
pub struct Version {
    /// Grows where a caller must change.
    pub major: u32,
    /// Grows where a caller can do more.
    pub minor: u32,
    /// Grows where only faults are mended.
    pub patch: u32,
}

impl fmt::Display for Version {
    fn fmt(&self, to: &mut fmt::Formatter<'_>) -> fmt::Result {
        write!(to, "{}.{}.{}", self.major, self.minor, self.patch)
    }
}

/// The version of the library that is linked.
pub fn version() -> Version {
    let number = raw::version();
    Version {
        major: number / 1_000_000,
        minor: number / 1_000 % 1_000,
        patch: number % 1_000,
    }
}
