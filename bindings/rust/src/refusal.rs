//! What is refused, in numbers and in words.

use std::error::Error;
use std::fmt;

use crate::raw::{self, Verdict};

/// The sentence for each refusal, which every caller of the product shares.
const SENTENCES: &str = include_str!("../../../docs/refusals.txt");

/// What a refusal is about.
#[derive(Clone, Copy, Debug, PartialEq, Eq, Hash)]
pub enum Refused {
    /// The booth table; the place is a byte of it.
    BoothTable = raw::BOOTH_TABLE as isize,
    /// The arrival log; the place is a byte of it.
    ArrivalLog = raw::ARRIVAL_LOG as isize,
    /// The call itself: a lent buffer, a booth or a number asked.
    Call = raw::CALL as isize,
}

impl Refused {
    /// All of them, in the order of their numbers.
    pub const ALL: [Refused; 3] = [Refused::BoothTable, Refused::ArrivalLog, Refused::Call];

    /// One word, as the desk says it and `docs/refusals.txt` has it.
    pub fn word(self) -> &'static str {
        match self {
            Refused::BoothTable => "table",
            Refused::ArrivalLog => "log",
            Refused::Call => "call",
        }
    }
}

/// A name for each number of a refusal; `as u32` gives the number.
#[derive(Clone, Copy, Debug, PartialEq, Eq, Hash)]
#[non_exhaustive]
pub enum Number {
    /// Bytes are missing.
    BytesMissing = 1,
    /// The version is not 1.
    WrongVersion = 2,
    /// Bytes are left over.
    BytesLeftOver = 3,
    /// No booth, a ninth booth, or over 4,096 entries.
    TooFewOrMany = 4,
    /// A length byte that is not allowed.
    WrongLengthByte = 5,
    /// A period, an allowance, a longest job or H out of range.
    OutOfRange = 6,
    /// The table is not admitted.
    NotAdmitted = 7,
    /// A tick not below H, or lower than the entry before.
    WrongTick = 8,
    /// No such booth or task.
    NoSuchBoothOrTask = 9,
    /// A demand of 0, or above the longest job.
    WrongDemand = 10,
    /// A lent buffer or a number asked does not fit.
    DoesNotFit = 11,
    /// More bytes of input than the desk reads, which only its text says.
    InputTooLong = 12,
}

impl Number {
    /// All of them, in order.
    pub const ALL: [Number; 12] = [
        Number::BytesMissing,
        Number::WrongVersion,
        Number::BytesLeftOver,
        Number::TooFewOrMany,
        Number::WrongLengthByte,
        Number::OutOfRange,
        Number::NotAdmitted,
        Number::WrongTick,
        Number::NoSuchBoothOrTask,
        Number::WrongDemand,
        Number::DoesNotFit,
        Number::InputTooLong,
    ];
}

/// Why nothing was done. It prints as a sentence.
#[derive(Clone, Copy, Debug, PartialEq, Eq, Hash)]
pub struct Refusal {
    /// What is refused.
    pub refused: Refused,
    /// Why.
    pub number: Number,
    /// The byte of the refused file at which it shows; 0 for a call.
    pub place: usize,
}

impl Refusal {
    /// A lent buffer that is too short for what was asked.
    pub(crate) const TOO_SHORT: Refusal = Refusal {
        refused: Refused::Call,
        number: Number::DoesNotFit,
        place: 0,
    };

    /// What a verdict of the library refuses, if anything.
    pub(crate) fn in_verdict(verdict: Verdict) -> Result<(), Refusal> {
        if verdict.refused == raw::NOTHING {
            return Ok(());
        }
        let refused = Refused::ALL
            .into_iter()
            .find(|refused| *refused as u32 == verdict.refused);
        let number = Number::ALL
            .into_iter()
            .find(|number| *number as u32 == verdict.number);
        Err(Refusal {
            refused: refused.expect("a verdict is about a table, a log or a call"),
            number: number.expect("the library answers the numbers of its header"),
            place: verdict.place as usize,
        })
    }
}

/// The line of `docs/refusals.txt` that begins with this word and number.
fn sentence(word: &str, number: u32) -> Option<&'static str> {
    let key = format!("{word} {number} ");
    SENTENCES.lines().find_map(|line| line.strip_prefix(&key))
}

impl fmt::Display for Refusal {
    fn fmt(&self, to: &mut fmt::Formatter<'_>) -> fmt::Result {
        let (word, number) = (self.refused.word(), self.number as u32);
        match sentence(word, number) {
            Some(sentence) => to.write_str(&sentence.replace("{place}", &self.place.to_string())),
            None => write!(to, "refused {word} {number} at {}", self.place),
        }
    }
}

impl Error for Refusal {}
