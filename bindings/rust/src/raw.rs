//! The C boundary itself: what `include/hallanupp.h` declares, field for field,
//! and each of its functions over slices. All unsafe code of this crate is here.
//!
//! Most callers want the functions at the crate's root, which say the same with
//! `Result`. These hand every field on as it came, zeros included.
//!
//! Each call is safe for one reason. The header asks that a pointer be valid for
//! as many bytes as the length behind it says and that one written through
//! overlap no other. A slice is such a pointer and length, `&mut` slices overlap
//! nothing, and the library keeps no pointer after it returns.

/// What a verdict is about: nothing is refused.
pub const NOTHING: u32 = 0;
/// What a verdict is about: the booth table.
pub const BOOTH_TABLE: u32 = 1;
/// What a verdict is about: the arrival log.
pub const ARRIVAL_LOG: u32 = 2;
/// What a verdict is about: the call itself.
pub const CALL: u32 = 3;

/// Which file or call is refused, with which number, at which place.
#[repr(C)]
#[derive(Clone, Copy, Debug, Default, PartialEq, Eq)]
pub struct Verdict {
    /// [`NOTHING`], [`BOOTH_TABLE`], [`ARRIVAL_LOG`] or [`CALL`].
    pub refused: u32,
    /// 0 when accepted.
    pub number: u32,
    /// A byte of the refused file, or 0.
    pub place: u64,
}

impl Verdict {
    /// Nothing is refused.
    pub const ACCEPTED: Verdict = Verdict {
        refused: NOTHING,
        number: 0,
        place: 0,
    };
}

/// What a session answers; with a refusal every number is 0.
#[repr(C)]
#[derive(Clone, Copy, Debug, Default, PartialEq, Eq)]
pub struct SessionAnswer {
    /// Whether the session was played.
    pub verdict: Verdict,
    /// How many booths the table has.
    pub booths: u64,
    /// Each booth's final own clock, the length of its row; 0 behind the last.
    pub clocks: [u32; 8],
    /// How many wall ticks each booth worked; 0 behind the last.
    pub worked: [u32; 8],
    /// How many wall ticks no booth worked.
    pub idle: u32,
    /// H, the session's wall ticks.
    pub wall_ticks: u32,
}

/// Where a booth's row stands in the caller's own record.
#[repr(C)]
#[derive(Clone, Copy, Debug, Default, PartialEq, Eq)]
pub struct Row {
    /// Whether there is such a row.
    pub verdict: Verdict,
    /// The row's first byte in the own record.
    pub start: u64,
    /// How many bytes it is long.
    pub count: u64,
}

/// A panel row's reading: t is 0, or the call is refused.
pub const NONE_YET: u32 = 0;
/// A panel row's reading: the booth worked less than was due.
pub const BELOW: u32 = 1;
/// A panel row's reading: the booth worked exactly what was due.
pub const AT_THE_CEILING: u32 = 2;
/// A panel row's reading: the booth worked more than was due.
pub const OVER: u32 = 3;

/// Two shares, beside the reading.
#[repr(C)]
#[derive(Clone, Copy, Debug, Default)]
pub struct PanelRow {
    /// Whether there is such a panel row.
    pub verdict: Verdict,
    /// Allowance by period.
    pub promised: f64,
    /// Ticks worked by t; 0 with none yet.
    pub got: f64,
    /// [`NONE_YET`], [`BELOW`], [`AT_THE_CEILING`] or [`OVER`].
    pub reading: u32,
}

/// Bit for bit, so that 0 and -0 differ and a NaN equals itself.
impl PartialEq for PanelRow {
    fn eq(&self, other: &PanelRow) -> bool {
        self.verdict == other.verdict
            && self.promised.to_bits() == other.promised.to_bits()
            && self.got.to_bits() == other.got.to_bits()
            && self.reading == other.reading
    }
}

/// Bytes that hold whatever the desk prints.
pub const TEXT_ROOM: usize = 18_710;

extern "C" {
    fn hallanupp_version() -> u32;
    fn hallanupp_table_verdict(table: *const u8, table_len: usize) -> Verdict;
    fn hallanupp_files_verdict(
        table: *const u8,
        table_len: usize,
        log: *const u8,
        log_len: usize,
    ) -> Verdict;
    fn hallanupp_session(
        table: *const u8,
        table_len: usize,
        log: *const u8,
        log_len: usize,
        wall: *mut u8,
        wall_len: usize,
        own: *mut u8,
        own_len: usize,
    ) -> SessionAnswer;
    fn hallanupp_solo_part(
        table: *const u8,
        table_len: usize,
        log: *const u8,
        log_len: usize,
        booth: usize,
        n: usize,
        part: *mut u8,
        part_len: usize,
    ) -> Verdict;
    fn hallanupp_row_back(
        own: *const u8,
        own_len: usize,
        h: usize,
        booth: usize,
        count: usize,
    ) -> Row;
    fn hallanupp_panel(
        table: *const u8,
        table_len: usize,
        wall: *const u8,
        wall_len: usize,
        booth: usize,
        t: usize,
    ) -> PanelRow;
    fn hallanupp_desk_text(
        input: *const u8,
        input_len: usize,
        text: *mut u8,
        text_len: usize,
    ) -> usize;
}

/// The library's version: major times 1,000,000, minor times 1,000 and patch.
#[inline]
pub fn version() -> u32 {
    // SAFETY: nothing is lent.
    unsafe { hallanupp_version() }
}

/// The verdict on a booth table.
#[inline]
pub fn table_verdict(table: &[u8]) -> Verdict {
    // SAFETY: the slice is valid for its length and only read.
    unsafe { hallanupp_table_verdict(table.as_ptr(), table.len()) }
}

/// The verdict on a booth table with an arrival log.
#[inline]
pub fn files_verdict(table: &[u8], log: &[u8]) -> Verdict {
    // SAFETY: both slices are valid for their lengths and only read.
    unsafe { hallanupp_files_verdict(table.as_ptr(), table.len(), log.as_ptr(), log.len()) }
}

/// A whole session into the lent wall record and own record.
#[inline]
pub fn session(table: &[u8], log: &[u8], wall: &mut [u8], own: &mut [u8]) -> SessionAnswer {
    // SAFETY: all four slices are valid for their lengths; the two written ones
    // are `&mut`, so they overlap nothing.
    unsafe {
        hallanupp_session(
            table.as_ptr(),
            table.len(),
            log.as_ptr(),
            log.len(),
            wall.as_mut_ptr(),
            wall.len(),
            own.as_mut_ptr(),
            own.len(),
        )
    }
}

/// The first `n` own ticks of a booth's solo part into the lent buffer.
#[inline]
pub fn solo_part(table: &[u8], log: &[u8], booth: usize, n: usize, part: &mut [u8]) -> Verdict {
    // SAFETY: all three slices are valid for their lengths; the written one is
    // `&mut`, so it overlaps nothing. Any booth and any n may be asked.
    unsafe {
        hallanupp_solo_part(
            table.as_ptr(),
            table.len(),
            log.as_ptr(),
            log.len(),
            booth,
            n,
            part.as_mut_ptr(),
            part.len(),
        )
    }
}

/// Where a booth's row stands in the caller's own record.
#[inline]
pub fn row_back(own: &[u8], h: usize, booth: usize, count: usize) -> Row {
    // SAFETY: the slice is valid for its length and only read. Any H, booth and
    // count may be asked, and numbers come back, not a pointer.
    unsafe { hallanupp_row_back(own.as_ptr(), own.len(), h, booth, count) }
}

/// The panel row of a booth after `t` ticks of a wall record.
#[inline]
pub fn panel(table: &[u8], wall: &[u8], booth: usize, t: usize) -> PanelRow {
    // SAFETY: both slices are valid for their lengths and only read. Any booth
    // and any t may be asked.
    unsafe {
        hallanupp_panel(
            table.as_ptr(),
            table.len(),
            wall.as_ptr(),
            wall.len(),
            booth,
            t,
        )
    }
}

/// What the desk prints for a table followed by a log, into the lent buffer; the
/// answer is how many bytes it is, 0 where the buffer is below [`TEXT_ROOM`].
#[inline]
pub fn desk_text(input: &[u8], text: &mut [u8]) -> usize {
    // SAFETY: both slices are valid for their lengths; the written one is `&mut`,
    // so it overlaps nothing.
    unsafe { hallanupp_desk_text(input.as_ptr(), input.len(), text.as_mut_ptr(), text.len()) }
}
