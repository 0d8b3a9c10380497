//! The scheduler of the direct-monitor box, read a second time from document 01
//! alone: clear rather than fast, since it is the judge in every comparison.
#![forbid(unsafe_code)]

pub mod arrivals;
pub mod booth;
pub mod bytes;
pub mod damage;
pub mod desk;
pub mod generate;
pub mod panel;
pub mod random;
pub mod refusal;
pub mod row;
pub mod session;
pub mod solo;
pub mod table;
pub mod ticks;
