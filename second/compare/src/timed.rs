//! Whole sessions, timed.

use std::hint::black_box;

use crate::answers::Verdict;
use crate::inputs::Session;
use crate::players::AskSession;
use crate::stopwatch::{in_turn, Effort, Times};

/// Each program writes records of its own, so that they can be compared after.
pub fn session_times(
    effort: Effort,
    library: AskSession,
    rust: AskSession,
    session: &Session,
) -> Times {
    let mut records = (
        vec![0; session.wall_needed()],
        vec![0; session.own_needed()],
    );
    let mut rust_records = records.clone();
    let times = in_turn(
        effort,
        || play(library, session, &mut records),
        || play(rust, session, &mut rust_records),
    );
    assert!(records == rust_records, "the records differ");
    times
}

fn play(ask: AskSession, session: &Session, records: &mut (Vec<u8>, Vec<u8>)) {
    let (table, log) = (&session.files.table, &session.files.log);
    let (wall, own) = records;
    let answer = ask(black_box(table), black_box(log), wall, own);
    assert_eq!(answer.verdict, Verdict::ACCEPTED);
}
