//! Five runs of a line, since one run does not show how far its times swing.

use crate::sheet::Range;
use crate::stopwatch::Times;

pub const RUNS: usize = 5;

/// How a line is measured, and its times in each run so far.
pub struct Runs {
    measure: Box<dyn FnMut() -> Times>,
    times: Vec<Times>,
}

impl Runs {
    pub fn new(measure: impl FnMut() -> Times + 'static) -> Runs {
        Runs {
            measure: Box::new(measure),
            times: Vec::new(),
        }
    }

    fn run(&mut self) {
        let times = (self.measure)();
        self.times.push(times);
    }

    pub fn times(&self) -> &[Times] {
        &self.times
    }

    /// In seconds.
    pub fn library(&self) -> Range {
        Range::of(self.times.iter().map(|times| times.library.as_secs_f64()))
    }

    /// In seconds.
    pub fn rust(&self) -> Range {
        Range::of(self.times.iter().map(|times| times.rust.as_secs_f64()))
    }

    /// Of the ratios of each run: the slowest library was not timed beside the
    /// quickest Rust.
    pub fn ratio(&self) -> Range {
        Range::of(self.times.iter().map(Times::ratio))
    }
}

/// A run goes over all lines before the next begins, so that a machine that grows
/// slow widens every range, where it would else make one line look slow.
pub fn five_runs<'a>(lines: impl Iterator<Item = &'a mut Runs>) {
    let mut lines: Vec<&mut Runs> = lines.collect();
    for _ in 0..RUNS {
        lines.iter_mut().for_each(|line| line.run());
    }
}
