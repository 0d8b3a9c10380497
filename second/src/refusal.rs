//! The numbers the box can answer, each with its place.

pub const BYTES_MISSING: u8 = 1;
pub const VERSION: u8 = 2;
pub const BYTES_LEFT_OVER: u8 = 3;
pub const TOO_FEW_OR_MANY: u8 = 4;
pub const LENGTH_BYTE: u8 = 5;
pub const OUT_OF_RANGE: u8 = 6;
pub const NOT_ADMITTED: u8 = 7;
pub const TICK: u8 = 8;
pub const ABSENT: u8 = 9;
pub const DEMAND: u8 = 10;
pub const DOES_NOT_FIT: u8 = 11;

/// A number and a place; number 0 is no refusal but "accepted".
#[derive(Clone, Copy, Debug, PartialEq, Eq)]
pub struct Refusal {
    pub number: u8,
    pub place: u64,
}

impl Refusal {
    pub const ACCEPTED: Refusal = Refusal {
        number: 0,
        place: 0,
    };

    /// A booth that a caller asked for and the table does not hold: place 0.
    pub const ABSENT_BOOTH: Refusal = Refusal {
        number: ABSENT,
        place: 0,
    };

    /// A lent buffer or a number asked that does not fit: place 0.
    pub const UNFIT: Refusal = Refusal {
        number: DOES_NOT_FIT,
        place: 0,
    };

    pub fn at(number: u8, place: usize) -> Refusal {
        Refusal {
            number,
            place: place as u64,
        }
    }
}
