//! The audition of the rules through every function, what is expected typed from
//! the page.

use hallanupp::{
    desk_text, files_verdict, panel, play, raw, row_back, session, solo_part, table_verdict,
    version, PanelRow, Reading, IDLE, TEXT_ROOM,
};

const TABLE: &[u8] = &[
    0x01, 0x00, 0x10, 0x06, 0x00, 0x05, 0x00, 0x02, 0x00, 0x02, 0x08, 0x00, 0x0A, 0x00, 0x04, 0x00,
    0x03, 0x00, 0x04,
];
const LOG: &[u8] = &[
    0x01, 0x00, 0x00, 0x00, 0x1F, 0x00, 0x00, 0x00, 0x0C, //
    0x08, 0x00, 0x00, 0x00, 0x00, 0x01, 0x01, 0x00, 0x03, //
    0x08, 0x00, 0x00, 0x00, 0x01, 0x00, 0x00, 0x00, 0x02, //
    0x08, 0x00, 0x00, 0x00, 0x02, 0x01, 0x00, 0x00, 0x01,
];
const WALL: [u8; 12] = [1, 0, 1, 1, 1, 0, IDLE, IDLE, IDLE, IDLE, IDLE, IDLE];
const ROWS: [[u8; 6]; 2] = [[IDLE, 0, 0, IDLE, IDLE, IDLE], [1, 1, 0, 1, IDLE, IDLE]];
const TEXT: &str = "admitted 2\n\
                    wall 101110......\n\
                    booth 0 own 6 worked 2 .00...\n\
                    booth 1 own 6 worked 4 1101..\n\
                    idle 6\n";

/// What both ways to play must give.
fn is_the_audition<Records: AsRef<[u8]>>(session: &hallanupp::Session<Records>) {
    assert_eq!(session.wall_ticks(), 12);
    assert_eq!(session.booths(), 2);
    assert_eq!(session.wall(), WALL);
    assert_eq!(session.rows().collect::<Vec<_>>(), ROWS);
    assert_eq!(session.row(0), Some(&ROWS[0][..]));
    assert_eq!(session.row(2), None);
    let worked = [0, 1, 2, 8].map(|booth| session.worked(booth));
    assert_eq!(worked, [Some(2), Some(4), None, None]);
    assert_eq!(session.idle(), 6);
}

#[test]
fn both_files_are_accepted() {
    assert_eq!(table_verdict(TABLE), Ok(()));
    assert_eq!(files_verdict(TABLE, LOG), Ok(()));
}

#[test]
fn played_into_records_of_its_own() {
    is_the_audition(&play(TABLE, LOG).unwrap());
}

/// Bytes that hold no tick keep what they held.
#[test]
fn played_into_lent_records() {
    let (mut wall, mut own) = ([7; 14], [7; 26]);
    is_the_audition(&session(TABLE, LOG, &mut wall, &mut own).unwrap());
    assert_eq!(wall[12..], [7; 2]);
    assert_eq!(own[..6], ROWS[0]);
    assert_eq!(own[6..12], [7; 6]);
    assert_eq!(own[12..18], ROWS[1]);
    assert_eq!(own[18..], [7; 8]);
}

/// Records made for a session hold what records of just the needed lengths would.
#[test]
fn a_short_session_both_ways() {
    let log = [1, 0, 0, 0, 4, 0, 0, 0, 3];
    let played = play(TABLE, &log).unwrap();
    let (mut wall, mut own) = ([0; 3], [0; 6]);
    let lent = session(TABLE, &log, &mut wall, &mut own).unwrap();
    assert_eq!(played.wall_ticks(), 3);
    assert_eq!(played.wall(), lent.wall());
    assert!(played.rows().eq(lent.rows()));
}

/// Every field of the C answer, zeros behind the last booth included.
#[test]
fn as_c_has_it() {
    let (mut wall, mut own) = ([0; 12], [0; 24]);
    let expected = raw::SessionAnswer {
        verdict: raw::Verdict::ACCEPTED,
        booths: 2,
        clocks: [6, 6, 0, 0, 0, 0, 0, 0],
        worked: [2, 4, 0, 0, 0, 0, 0, 0],
        idle: 6,
        wall_ticks: 12,
    };
    assert_eq!(raw::session(TABLE, LOG, &mut wall, &mut own), expected);
    let row = raw::row_back(&own, 12, 1, 6);
    assert_eq!((row.start, row.count), (12, 6));
}

/// Row 1 is an opening of the solo part, and here all of it.
#[test]
fn the_solo_part() {
    let mut buffer = [7; 8];
    let part = solo_part(TABLE, LOG, 1, 6, &mut buffer).unwrap();
    assert_eq!(part, ROWS[1]);
    assert_eq!(buffer[6..], [7; 2]);
    assert_eq!(solo_part(TABLE, LOG, 1, 0, &mut []), Ok(&[][..]));
}

/// The row is the caller's bytes, not a copy.
#[test]
fn a_row_handed_back() {
    let own: Vec<u8> = (0..24).collect();
    let row = row_back(&own, 12, 1, 6).unwrap();
    assert_eq!(row.as_ptr_range(), own[12..18].as_ptr_range());
}

/// M9, and a record that no session wrote.
#[test]
fn the_panel() {
    let row = |booth, t| panel(TABLE, &WALL, booth, t).unwrap();
    let shown = |promised, got, reading| PanelRow {
        promised,
        got,
        reading,
    };
    assert_eq!(row(1, 8), shown(0.4, 0.5, Reading::AtTheCeiling(0.5)));
    assert_eq!(row(0, 8), shown(0.4, 0.25, Reading::Below(0.25)));
    assert_eq!(row(0, 0), shown(0.4, 0.0, Reading::NoneYet));
    let over = panel(TABLE, &[0; 4], 0, 4).unwrap();
    assert_eq!(over, shown(0.4, 1.0, Reading::Over(1.0)));
}

#[test]
fn the_desk_s_text() {
    let mut buffer = vec![7; TEXT_ROOM + 1];
    let input = [TABLE, LOG].concat();
    assert_eq!(desk_text(&input, &mut buffer), Ok(TEXT));
    assert!(buffer[TEXT.len()..].iter().all(|&byte| byte == 7));
}

/// The crate and the library it links are one version.
#[test]
fn the_version() {
    assert_eq!(version().to_string(), env!("CARGO_PKG_VERSION"));
}
