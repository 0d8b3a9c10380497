//! The proved library's time beside that of the fast program, on the same inputs
//! in one run. The fast program is plain optimised Rust.

use compare::machine::print_load;
use compare::runs::{five_runs, Runs, RUNS};
use compare::sheet::{print_head, print_row, ratio};
use compare::stopwatch::Effort;

fn main() {
    print_load("before");
    let mut lines = readers::lines();
    lines.extend(whole::sessions());
    lines.extend(whole::solo_parts_and_panels());
    five_runs(lines.iter_mut().map(|line| &mut line.runs));
    print_head(&["Line", "Library", "Rust", "Ratio", "Aim"]);
    lines.iter().for_each(Line::print);
    println!();
    print_load("after");
}

/// One kind of work on one input.
struct Line {
    work: String,
    /// The ratio to stay at or below, if there is one.
    aim: Option<f64>,
    runs: Runs,
}

impl Line {
    fn print(&self) {
        print_row(&[
            self.work.clone(),
            self.runs.library().said_as_time(),
            self.runs.rust().said_as_time(),
            self.runs.ratio().said(ratio),
            self.aim.map_or(String::new(), |aim| self.met(aim)),
        ]);
    }

    /// The aim, and in how many runs it was met.
    fn met(&self, aim: f64) -> String {
        let times = self.runs.times().iter();
        match times.filter(|times| times.ratio() <= aim).count() {
            RUNS => format!("{aim}, met"),
            0 => format!("{aim}, not met"),
            met => format!("{aim}, met in {met} of {RUNS}"),
        }
    }
}

/// The calls of a round suit the work, so that a round is long enough to be timed.
fn effort(calls: u32) -> Effort {
    Effort { rounds: 21, calls }
}

/// The verdicts on files.
mod readers {
    use std::hint::black_box;

    use compare::answers::Verdict;
    use compare::inputs::{asks_more_and_more, full_house, full_log, long_periods_at_the_edge};
    use compare::runs::Runs;
    use compare::stopwatch::in_turn;
    use compare::{fast, judge};
    use hallanupp::raw;
    use second::generate::{log_bytes, random_table, table_bytes, WHOLE_EVENING};
    use second::random::{first_seed, Random};

    use super::{effort, Line};

    const AIM: Option<f64> = Some(1.5);

    pub fn lines() -> Vec<Line> {
        let longest = table_bytes(&full_house(65_535));
        let [passes, fails] = long_periods_at_the_edge();
        let mut random = Random::new(first_seed(90_000_000));
        let any = table_bytes(&random_table(&WHOLE_EVENING, &mut random));
        let log = log_bytes(&full_log(1_000_000, 4_096, 65_535));
        vec![
            table("table of eight booths of eight tasks", 0, longest.clone()),
            table("table with periods from 9,000 to 10,000, passes", 0, passes),
            table("the same, fails at the last booth", 7, fails),
            table("random table with periods up to 10,000", 0, any),
            table("table that asks more and more", 7, asks_more_and_more()),
            full(longest, log),
        ]
    }

    /// The number is the verdict's.
    fn table(work: &str, number: u32, table: Vec<u8>) -> Line {
        assert_eq!(judge::table_verdict(&table).number, number);
        let measure = move || {
            let library = || raw::table_verdict(black_box(&table));
            let rust = || fast::table_verdict(black_box(&table));
            in_turn(effort(2_000), library, rust)
        };
        Line {
            work: work.to_owned(),
            aim: AIM,
            runs: Runs::new(measure),
        }
    }

    fn full(table: Vec<u8>, log: Vec<u8>) -> Line {
        assert_eq!(judge::files_verdict(&table, &log), Verdict::ACCEPTED);
        let measure = move || {
            let library = || raw::files_verdict(black_box(&table), black_box(&log));
            let rust = || fast::files_verdict(black_box(&table), black_box(&log));
            in_turn(effort(200), library, rust)
        };
        Line {
            work: "full log of 4,096 entries".to_owned(),
            aim: AIM,
            runs: Runs::new(measure),
        }
    }
}

/// What the library answers beyond verdicts, on the largest sessions.
mod whole {
    use std::hint::black_box;

    use compare::inputs::{largest_sessions, session_without_entries, Session};
    use compare::runs::Runs;
    use compare::stopwatch::in_turn;
    use compare::timed::session_times;
    use compare::{fast, judge};
    use hallanupp::raw;

    use super::{effort, Line};

    pub fn sessions() -> impl Iterator<Item = Line> {
        let sessions = largest_sessions().into_iter();
        let sessions = sessions.chain([session_without_entries()]);
        sessions.map(|(name, session)| Line {
            work: format!("session, {name}"),
            aim: Some(1.5),
            runs: Runs::new(move || {
                session_times(effort(1), raw::session, fast::session, &session)
            }),
        })
    }

    pub fn solo_parts_and_panels() -> impl Iterator<Item = Line> {
        let sessions = largest_sessions().into_iter();
        sessions.flat_map(|(name, session)| [solo_part(name, &session), panel(name, session)])
    }

    fn solo_part(name: &str, session: &Session) -> Line {
        let files = session.files.clone();
        let n = session.table.lines[0].due(session.log.wall_ticks).0 as usize;
        let (mut part, mut rust_part) = (vec![0; n], vec![0; n]);
        let measure = move || {
            let (table, log) = (&files.table, &files.log);
            let library = || raw::solo_part(table, log, 0, n, black_box(&mut part));
            let rust = || fast::solo_part(table, log, 0, n, black_box(&mut rust_part));
            in_turn(effort(5), library, rust)
        };
        Line {
            work: format!("solo part of booth 0, {name}"),
            aim: None,
            runs: Runs::new(measure),
        }
    }

    fn panel(name: &str, session: Session) -> Line {
        let files = session.files;
        let (mut wall, mut own) = (vec![0; 1_000_000], vec![0; 8_000_000]);
        judge::session(&files.table, &files.log, &mut wall, &mut own);
        let measure = move || {
            let library = || raw::panel(&files.table, black_box(&wall), 7, 1_000_000);
            let rust = || fast::panel(&files.table, black_box(&wall), 7, 1_000_000);
            in_turn(effort(50), library, rust)
        };
        Line {
            work: format!("panel of booth 7, {name}"),
            aim: Some(1.0),
            runs: Runs::new(measure),
        }
    }
}
