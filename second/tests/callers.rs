//! What a caller may ask for beside a session: the solo part, a row handed back
//! and a panel row, with their refusals in order.

mod audition;
mod changed;

use audition::{LOG, TABLE};
use changed::with;
use second::panel::{panel, PanelRow, Reading};
use second::refusal::Refusal;
use second::row::row;
use second::solo::ask_solo;
use second::ticks::{OwnTick, WallTick};

fn refusal(number: u8, place: u64) -> Refusal {
    Refusal { number, place }
}

/// Asks for `n` own ticks with a buffer of sevens.
fn solo(booth: usize, n: u64, lent: usize) -> (Refusal, Vec<u8>) {
    let mut buffer = vec![7; lent];
    let answer = ask_solo(&TABLE, &LOG, booth, OwnTick(n), &mut buffer);
    (answer, buffer)
}

/// The rows of the audition, .00... and 1101.., are as long as due(12) = 6.
#[test]
fn solo_part_of_the_audition() {
    let accepted = Refusal::ACCEPTED;
    assert_eq!(solo(0, 6, 6), (accepted, vec![255, 0, 0, 255, 255, 255]));
    assert_eq!(solo(1, 6, 6), (accepted, vec![1, 1, 0, 1, 255, 255]));
    assert_eq!(solo(1, 3, 5), (accepted, vec![1, 1, 0, 7, 7]));
    assert_eq!(solo(1, 0, 2), (accepted, vec![7, 7]));
    assert_eq!(solo(1, 0, 0), (accepted, vec![]));
}

#[test]
fn solo_part_refused() {
    assert_eq!(solo(2, 6, 6), (refusal(9, 0), vec![7; 6]));
    assert_eq!(solo(usize::MAX, 6, 6), (refusal(9, 0), vec![7; 6]));
    assert_eq!(solo(1, 7, 9), (refusal(11, 0), vec![7; 9]));
    assert_eq!(solo(1, u64::MAX, 9), (refusal(11, 0), vec![7; 9]));
    assert_eq!(solo(1, 6, 5), (refusal(11, 0), vec![7; 5]));
    // The booth comes before n and the buffer.
    assert_eq!(solo(2, 7, 0), (refusal(9, 0), vec![]));
}

/// Table, then log, then the booth.
#[test]
fn solo_part_reads_the_files_first() {
    let (bad_table, bad_log) = (with(&TABLE, &[(14, 7)]), with(&LOG, &[(31, 12)]));
    let mut buffer = [7; 6];
    let mut ask = |table: &[u8], log: &[u8]| ask_solo(table, log, 2, OwnTick(99), &mut buffer);
    assert_eq!(ask(&bad_table, &bad_log), refusal(7, 10));
    assert_eq!(ask(&TABLE, &bad_log), refusal(8, 27));
    assert_eq!(ask(&TABLE, &LOG), refusal(9, 0));
    assert_eq!(buffer, [7; 6]);
}

#[test]
fn row_is_the_callers_own_bytes() {
    let own: Vec<u8> = (0..100).collect();
    let (answer, part) = row(&own, WallTick(12), 7, 12);
    assert_eq!((answer, part), (Refusal::ACCEPTED, &own[84..96]));
    assert_eq!(part.as_ptr(), own[84..].as_ptr());
    assert_eq!(
        row(&own, WallTick(50), 1, 50),
        (Refusal::ACCEPTED, &own[50..])
    );
    assert_eq!(
        row(&own, WallTick(50), 2, 0),
        (Refusal::ACCEPTED, &own[100..])
    );
    assert_eq!(row(&[], WallTick(0), 7, 0), (Refusal::ACCEPTED, &[][..]));
}

#[test]
fn row_refused() {
    let own = vec![3; 8_000_001];
    let refused = (refusal(11, 0), &[][..]);
    assert_eq!(row(&own, WallTick(12), 8, 1), refused);
    assert_eq!(row(&own, WallTick(12), usize::MAX, 0), refused);
    assert_eq!(row(&own, WallTick(1_000_001), 0, 1), refused);
    assert_eq!(row(&own, WallTick(u64::MAX), 7, 1), refused);
    assert_eq!(row(&own, WallTick(12), 0, 13), refused);
    assert_eq!(row(&own, WallTick(12), 0, u64::MAX), refused);
    assert_eq!(row(&own[..23], WallTick(12), 1, 12), refused);
    assert_eq!(row(&own[..11], WallTick(12), 1, 0), refused);
    let (answer, part) = row(&own, WallTick(1_000_000), 7, 1_000_000);
    assert_eq!((answer, part.len()), (Refusal::ACCEPTED, 1_000_000));
}

const REFUSED_ROW: PanelRow = PanelRow {
    promised: 0.0,
    got: 0.0,
    reading: Reading::NoneYet,
};

/// In this order: the table, the booth, the tick.
#[test]
fn panel_refused() {
    let wall = [1; 12];
    let not_admitted = with(&TABLE, &[(14, 7)]);
    let ask = |table: &[u8], booth, t| panel(table, &wall, booth, WallTick(t));
    assert_eq!(ask(&not_admitted, 2, 13), (refusal(7, 10), REFUSED_ROW));
    assert_eq!(ask(&TABLE[..18], 2, 13), (refusal(1, 18), REFUSED_ROW));
    assert_eq!(ask(&TABLE, 2, 13), (refusal(9, 0), REFUSED_ROW));
    assert_eq!(ask(&TABLE, 255, 0), (refusal(9, 0), REFUSED_ROW));
    assert_eq!(ask(&TABLE, 1, 13), (refusal(11, 0), REFUSED_ROW));
    assert_eq!(ask(&TABLE, 1, u64::MAX), (refusal(11, 0), REFUSED_ROW));
    assert_eq!(ask(&TABLE, 1, 12).0, Refusal::ACCEPTED);
}

#[test]
fn panel_of_the_longest_record() {
    let wall = vec![255; 1_000_001];
    let ask = |t| panel(&TABLE, &wall, 0, WallTick(t));
    assert_eq!(ask(1_000_001), (refusal(11, 0), REFUSED_ROW));
    assert_eq!(ask(1_000_000).1.reading, Reading::Below(0.0));
}

/// A record no session wrote: booth 0 at every tick has 8 of due(8) = 4.
#[test]
fn panel_over() {
    let (answer, shown) = panel(&TABLE, &[0; 8], 0, WallTick(8));
    assert_eq!(answer, Refusal::ACCEPTED);
    assert_eq!(shown.promised, 2.0 / 5.0);
    assert_eq!((shown.got, shown.reading), (1.0, Reading::Over(1.0)));
}

/// At powers of two the division is exact; bytes that are no booth count as none.
#[test]
fn panel_share_is_exact_at_powers_of_two() {
    let wall: Vec<u8> = (0..65_536_u32).map(|t| (t * t % 7) as u8).collect();
    for power in 0..=16 {
        let t = 1_u64 << power;
        let stood = wall[..t as usize].iter().filter(|&&byte| byte == 1).count();
        let (_, shown) = panel(&TABLE, &wall, 1, WallTick(t));
        assert_eq!(shown.got * t as f64, stood as f64);
    }
}

/// 49 over 49 is 1 in one division; 49 times the rounded 1 over 49 is less.
#[test]
fn panel_share_is_one_division() {
    let table = [1, 0, 7, 6, 0, 49, 0, 49, 0, 1];
    let (answer, shown) = panel(&table, &[0; 49], 0, WallTick(49));
    assert_eq!(answer, Refusal::ACCEPTED);
    assert_eq!((shown.promised, shown.got), (1.0, 1.0));
    assert_eq!(shown.reading, Reading::AtCeiling(1.0));
}
