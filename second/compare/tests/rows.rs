//! Rows handed back by the proved library: where they stand in the caller's own
//! record is what the second program says.

use compare::answers::{Row, CALL, NOTHING};
use compare::inputs::{randoms, Session};
use compare::judge;
use compare::tally::Tally;
use hallanupp::raw;
use second::random::{first_seed, Random};

fn compare(own: &[u8], h: usize, booth: usize, count: usize) -> Row {
    let expected = judge::row_back(own, h, booth, count);
    let said = raw::row_back(own, h, booth, count);
    let lent = own.len();
    assert_eq!(
        said, expected,
        "{lent} bytes lent, H {h}, booth {booth}, count {count}"
    );
    expected
}

/// Every booth's row in the own record that a session wrote, up to its final u.
fn ask_rows(session: &Session, tally: &mut Tally) {
    let (table, log) = (&session.files.table, &session.files.log);
    let h = session.wall_needed();
    let (mut wall, mut own) = (vec![0; h], vec![0; session.own_needed()]);
    let answer = judge::session(table, log, &mut wall, &mut own);
    for (booth, &u) in answer.clocks.iter().enumerate() {
        let row = compare(&own, h, booth, u as usize);
        let kind = match booth < session.table.lines.len() {
            true => "every booth's row",
            false => "a booth the table has not",
        };
        tally.add(kind, row.verdict);
    }
}

/// The four ways to be refused, and the greatest numbers that fit.
fn ask_anything(random: &mut Random, tally: &mut Tally) {
    let h = random.below(40);
    let booth = random.below(8);
    let count = random.below(h + 1);
    let end = booth * h + count;
    let own = vec![0; end + random.below(3)];
    let huge = [usize::MAX, usize::MAX / 8, 1 << 32, 1_000_001][random.below(4)];
    let mut ask = |kind, own, h, booth, count| {
        let row = compare(own, h, booth, count);
        tally.add(kind, row.verdict);
    };
    ask("fits", &own[..], h, booth, count);
    ask("booth above 7", &own, h, 8 + random.below(250), count);
    ask("booth above 7", &own, h, huge, count);
    ask("H above 1,000,000", &own, huge, 0, count);
    ask("H above 1,000,000", &own, huge, booth, count);
    ask("count above H", &own, h, 0, h + 1);
    ask("count above H", &own, h, booth, huge);
    ask(
        "end outside",
        &own[..end.saturating_sub(1)],
        h,
        booth,
        count,
    );
    ask("end outside", &own, 1_000_000, booth, own.len() + 1);
}

#[test]
fn rows_handed_back() {
    let mut tally = Tally::default();
    for mut random in randoms(first_seed(85_000_000), 0, 20_000) {
        ask_rows(&Session::random(&mut random), &mut tally);
        ask_anything(&mut random, &mut tally);
    }
    tally.print("rows handed back");
    assert!(tally.times(NOTHING, 0) >= 40_000);
    assert!(tally.times(CALL, 11) >= 100_000);
}

/// The longest own record: the last row ends where it ends.
#[test]
fn rows_of_the_longest_record() {
    let own = vec![0; 8_000_000];
    for booth in 0..8 {
        let row = compare(&own, 1_000_000, booth, 1_000_000);
        assert_eq!((row.verdict.number, row.count), (0, 1_000_000));
        compare(&own, 1_000_001, booth, 1_000_000);
        compare(&own[..7_999_999], 1_000_000, booth, 1_000_000);
    }
}
