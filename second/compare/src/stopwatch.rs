//! How long two programs take for the same work, measured in turn.

use std::hint::black_box;
use std::time::{Duration, Instant};

/// How often the work is done: a round times so many calls of each program.
#[derive(Clone, Copy)]
pub struct Effort {
    pub rounds: usize,
    pub calls: u32,
}

/// The median time of one call of each.
pub struct Times {
    pub library: Duration,
    pub rust: Duration,
}

impl Times {
    /// Above 1 the proved library is slower.
    pub fn ratio(&self) -> f64 {
        self.library.as_secs_f64() / self.rust.as_secs_f64()
    }
}

/// Each round times the calls of the one, then of the other, so that a slow
/// moment of the machine falls on both.
pub fn in_turn<L, R>(
    effort: Effort,
    mut library: impl FnMut() -> L,
    mut rust: impl FnMut() -> R,
) -> Times {
    let mut of_library = Vec::new();
    let mut of_rust = Vec::new();
    for _ in 0..effort.rounds {
        of_library.push(time(effort.calls, &mut library));
        of_rust.push(time(effort.calls, &mut rust));
    }
    Times {
        library: median(of_library),
        rust: median(of_rust),
    }
}

fn time<Answer>(calls: u32, work: &mut impl FnMut() -> Answer) -> Duration {
    let begin = Instant::now();
    for _ in 0..calls {
        black_box(work());
    }
    begin.elapsed() / calls
}

fn median(mut times: Vec<Duration>) -> Duration {
    times.sort_unstable();
    times[times.len() / 2]
}
