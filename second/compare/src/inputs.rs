//! Files to compare on: good ones, and what accidents leave of them.

mod desk;
mod edge;
mod good;
mod growing;
mod largest;
mod logs;
mod placed;
mod sessions;
mod tables;

pub use desk::kinds_of_input;
pub use edge::{asks_more_and_more, kinds_at_the_edge, long_periods_at_the_edge};
pub use good::{audition, full_log};
pub use growing::{growing_booths, growing_booths_without_rest, growing_entries, growing_h};
pub use largest::{largest_sessions, session_without_entries};
pub use logs::kinds_of_log;
pub use placed::Placed;
pub use second::generate::{every_tick, full_house};
pub use sessions::{damaged_files, lent_record, long_sessions, Session};
pub use tables::kinds_of_table;

use second::random::Random;

/// A booth table and an arrival log.
#[derive(Clone)]
pub struct Files {
    pub table: Vec<u8>,
    pub log: Vec<u8>,
}

impl Files {
    /// What the desk program reads: the table, and behind it the log.
    pub fn joined(&self) -> Vec<u8> {
        [self.table.as_slice(), &self.log].concat()
    }
}

/// Inputs of one kind, made one by one as they are asked for.
pub struct Kind<Input> {
    pub name: &'static str,
    pub inputs: Box<dyn Iterator<Item = Input>>,
}

impl<Input> Kind<Input> {
    fn new(name: &'static str, inputs: impl Iterator<Item = Input> + 'static) -> Kind<Input> {
        Kind {
            name,
            inputs: Box::new(inputs),
        }
    }
}

/// Random numbers for `count` inputs; each kind has a million seeds of its own.
pub fn randoms(first_seed: u64, kind: u64, count: u64) -> impl Iterator<Item = Random> {
    let first = first_seed.wrapping_add(kind * 1_000_000);
    (0..count).map(move |number| Random::new(first.wrapping_add(number)))
}
