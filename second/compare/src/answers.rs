//! What is answered across the C boundary, field for field: the types of the
//! bindings, which the second program and the fast one answer in too.

pub use hallanupp::raw::{
    PanelRow, Row, SessionAnswer, Verdict, ARRIVAL_LOG, AT_THE_CEILING, BELOW, BOOTH_TABLE, CALL,
    NONE_YET, NOTHING, OVER, TEXT_ROOM,
};

/// A lent buffer or a number asked that does not fit.
pub const UNFIT: Verdict = Verdict {
    refused: CALL,
    number: 11,
    place: 0,
};

/// A booth that a caller asked for and the table does not hold.
pub const ABSENT_BOOTH: Verdict = Verdict {
    refused: CALL,
    number: 9,
    place: 0,
};

/// With a refusal every count is 0.
pub fn refused_session(verdict: Verdict) -> SessionAnswer {
    SessionAnswer {
        verdict,
        booths: 0,
        clocks: [0; 8],
        worked: [0; 8],
        idle: 0,
        wall_ticks: 0,
    }
}

/// With a refusal both shares are 0 and the reading is none yet.
pub fn refused_panel_row(verdict: Verdict) -> PanelRow {
    PanelRow {
        verdict,
        promised: 0.0,
        got: 0.0,
        reading: NONE_YET,
    }
}

/// Where two copies of a lent buffer begin to differ.
pub fn first_difference(said: &[u8], expected: &[u8]) -> Option<usize> {
    assert_eq!(said.len(), expected.len());
    said.iter().zip(expected).position(|(a, b)| a != b)
}
