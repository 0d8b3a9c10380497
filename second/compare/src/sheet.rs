//! Figures as they are printed: ranges, in rows of Markdown tables.

/// Times further apart than this, the largest over the smallest, swing.
const STEADY: f64 = 1.25;

/// The smallest and the largest of some figures.
#[derive(Clone, Copy)]
pub struct Range {
    smallest: f64,
    largest: f64,
}

impl Range {
    pub fn of(figures: impl Iterator<Item = f64>) -> Range {
        let none = Range {
            smallest: f64::INFINITY,
            largest: f64::NEG_INFINITY,
        };
        figures.fold(none, |range, figure| Range {
            smallest: range.smallest.min(figure),
            largest: range.largest.max(figure),
        })
    }

    /// Both ends, or one if they read the same.
    pub fn said(&self, say: impl Fn(f64) -> String) -> String {
        let (smallest, largest) = (say(self.smallest), say(self.largest));
        if smallest == largest {
            return smallest;
        }
        format!("{smallest} to {largest}")
    }

    /// A range of seconds, and whether it swings.
    pub fn said_as_time(&self) -> String {
        let mark = if self.largest > STEADY * self.smallest {
            ", swings"
        } else {
            ""
        };
        self.said(time) + mark
    }

    /// The same range with every figure divided, as by a session's wall ticks.
    pub fn over(&self, divisor: f64) -> Range {
        Range {
            smallest: self.smallest / divisor,
            largest: self.largest / divisor,
        }
    }
}

/// Seconds in the unit that suits them.
fn time(seconds: f64) -> String {
    if seconds < 1e-6 {
        return nanoseconds(seconds, 0);
    }
    if seconds < 1e-3 {
        return format!("{:.1} µs", seconds * 1e6);
    }
    format!("{:.2} ms", seconds * 1e3)
}

/// Seconds as nanoseconds, with so many decimals.
pub fn nanoseconds(seconds: f64, decimals: usize) -> String {
    format!("{:.decimals$} ns", seconds * 1e9)
}

pub fn ratio(figure: f64) -> String {
    format!("{figure:.2}")
}

/// A count with commas, as the pages write it.
pub fn count(number: u64) -> String {
    if number < 1_000 {
        return number.to_string();
    }
    format!("{},{:03}", count(number / 1_000), number % 1_000)
}

/// The first row of a table and the line under it.
pub fn print_head(cells: &[&str]) {
    println!();
    println!("| {} |", cells.join(" | "));
    println!("|{}", "---|".repeat(cells.len()));
}

pub fn print_row(cells: &[String]) {
    println!("| {} |", cells.join(" | "));
}
