//! The proved library beside the second program, which is the judge, and beside
//! an optimised Rust program, which is what its speed is measured against.
#![forbid(unsafe_code)]

pub mod answers;
pub mod fast;
pub mod inputs;
pub mod judge;
pub mod machine;
pub mod players;
pub mod runs;
pub mod sheet;
pub mod stopwatch;
pub mod tally;
pub mod timed;
