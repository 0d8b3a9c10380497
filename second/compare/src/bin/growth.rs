//! How the cost of a session grows with H, with the entries and with the booths,
//! and whether the speed of a log's reader depends on where the log lies.

use compare::inputs::{growing_booths, growing_booths_without_rest, growing_entries, growing_h};
use compare::machine::print_load;
use compare::runs::five_runs;

use grown::Table;

fn main() {
    print_load("before");
    let mut tables = tables();
    let mut places = places::lines();
    let of_tables = tables.iter_mut().flat_map(Table::runs);
    five_runs(of_tables.chain(places.iter_mut().map(|(_, runs)| runs)));
    tables.iter().for_each(Table::print);
    places::print(&places);
    println!();
    print_load("after");
}

fn tables() -> [Table; 5] {
    let silent_h = "H grows: mostly silence, 64 entries spread evenly, eight booths of 1 in 8";
    let busy_h = "H grows: all busy, 64 entries spread evenly, eight booths of 1 in 8";
    let entries = "Entries grow: mostly silence, H 1,000,000, eight booths of 1 in 8";
    let booths = "Booths grow: all busy, H 1,000,000, 4,096 entries, booths of 1 in 8";
    let no_rest = "Booths grow: all busy, H 1,000,000, 4,096 entries, N booths of 1 in N";
    [
        Table::new(silent_h, "H", growing_h(2)),
        Table::new(busy_h, "H", growing_h(65_535)),
        Table::new(entries, "Entries", growing_entries()),
        Table::new(booths, "Booths", growing_booths()),
        Table::new(no_rest, "Booths", growing_booths_without_rest()),
    ]
}

/// Tables of sessions that grow.
mod grown {
    use compare::fast;
    use compare::inputs::Session;
    use compare::runs::Runs;
    use compare::sheet::{count, nanoseconds, print_head, print_row, ratio, Range};
    use compare::stopwatch::Effort;
    use compare::timed::session_times;
    use hallanupp::raw;

    pub struct Table {
        heading: &'static str,
        /// What grows from line to line.
        grows: &'static str,
        lines: Vec<Line>,
    }

    struct Line {
        size: u64,
        wall_ticks: f64,
        runs: Runs,
    }

    impl Line {
        /// A short session is played more often, so that all rounds are about as long.
        fn new(size: u64, session: Session) -> Line {
            let h = session.wall_needed() as u32;
            let effort = Effort {
                rounds: 11,
                calls: 1_000_000 / h,
            };
            let measure = move || session_times(effort, raw::session, fast::session, &session);
            Line {
                size,
                wall_ticks: f64::from(h),
                runs: Runs::new(measure),
            }
        }

        fn print(&self) {
            let (library, rust) = (self.runs.library(), self.runs.rust());
            let in_a_tick = |time: Range| time.over(self.wall_ticks).said(|s| nanoseconds(s, 2));
            print_row(&[
                count(self.size),
                library.said_as_time(),
                rust.said_as_time(),
                self.runs.ratio().said(ratio),
                in_a_tick(library),
                in_a_tick(rust),
            ]);
        }
    }

    impl Table {
        pub fn new(
            heading: &'static str,
            grows: &'static str,
            sessions: Vec<(u64, Session)>,
        ) -> Table {
            let sessions = sessions.into_iter();
            Table {
                heading,
                grows,
                lines: sessions
                    .map(|(size, session)| Line::new(size, session))
                    .collect(),
            }
        }

        pub fn runs(&mut self) -> impl Iterator<Item = &mut Runs> {
            self.lines.iter_mut().map(|line| &mut line.runs)
        }

        pub fn print(&self) {
            println!("\n{}", self.heading);
            let (library, rust) = ("Library, a wall tick", "Rust, a wall tick");
            print_head(&[self.grows, "Library", "Rust", "Ratio", library, rust]);
            self.lines.iter().for_each(Line::print);
        }
    }
}

/// The full log's verdict, with the log in several places.
mod places {
    use std::hint::black_box;

    use compare::answers::Verdict;
    use compare::inputs::{full_house, full_log, Placed};
    use compare::runs::Runs;
    use compare::sheet::{print_head, print_row, ratio};
    use compare::stopwatch::{in_turn, Effort};
    use compare::{fast, judge};
    use hallanupp::raw;
    use second::generate::{log_bytes, table_bytes};

    /// Each with the offset at which its log begins.
    pub fn lines() -> Vec<(usize, Runs)> {
        let offsets = [0, 1, 8, 16, 32, 48];
        offsets.map(|offset| (offset, line(offset))).into()
    }

    fn line(offset: usize) -> Runs {
        let table = table_bytes(&full_house(65_535));
        let log = log_bytes(&full_log(1_000_000, 4_096, 65_535));
        assert_eq!(judge::files_verdict(&table, &log), Verdict::ACCEPTED);
        let placed = Placed::new(&log, offset);
        let effort = Effort {
            rounds: 21,
            calls: 200,
        };
        Runs::new(move || {
            let log = placed.bytes();
            let library = || raw::files_verdict(black_box(&table), black_box(log));
            let rust = || fast::files_verdict(black_box(&table), black_box(log));
            in_turn(effort, library, rust)
        })
    }

    pub fn print(lines: &[(usize, Runs)]) {
        println!("\nWhere the log lies: full log of 4,096 entries");
        print_head(&["Bytes behind a page's begin", "Library", "Rust", "Ratio"]);
        for (offset, runs) in lines {
            print_row(&[
                offset.to_string(),
                runs.library().said_as_time(),
                runs.rust().said_as_time(),
                runs.ratio().said(ratio),
            ]);
        }
    }
}
