//! The marked cases M1 to M10. Expected values are typed from document 01 or
//! reckoned by hand in the comment beside them.

mod audition;
mod changed;
mod lent;

use std::io::Write;
use std::process::{Command, Stdio};

use audition::{LOG, TABLE};
use changed::with;
use lent::{play, untouched};
use second::desk::desk;
use second::panel::{panel, PanelRow, Reading};
use second::refusal::Refusal;
use second::row::row;
use second::session::{Outcome, Refused};
use second::solo::ask_solo;
use second::table::Line;
use second::ticks::{OwnTick, WallTick};

/// The bytes of a record as the desk writes it.
fn sung(text: &str) -> Vec<u8> {
    let byte = |letter: u8| if letter == b'.' { 255 } else { letter - b'0' };
    text.bytes().map(byte).collect()
}

/// A two-booth case with its whole outcome.
struct Case {
    table: Vec<u8>,
    log: Vec<u8>,
    wall: &'static str,
    rows: [&'static str; 2],
    worked: [u64; 2],
    idle: u64,
    /// Promised, got and reading at t = H.
    panel: [(f64, f64, Reading); 2],
    desk: &'static str,
}

impl Case {
    fn check(&self) {
        self.check_session();
        self.check_solo_parts();
        self.check_panel();
        let input = [&self.table[..], &self.log[..]].concat();
        assert_eq!(String::from_utf8(desk(&input)).unwrap(), self.desk);
    }

    fn outcome(&self) -> Outcome {
        let [row_0, row_1] = self.rows.map(|row| OwnTick(row.len() as u64));
        let none = OwnTick(0);
        Outcome {
            refused: None,
            refusal: Refusal::ACCEPTED,
            booths: 2,
            own_clocks: [row_0, row_1, none, none, none, none, none, none],
            worked: [self.worked[0], self.worked[1], 0, 0, 0, 0, 0, 0],
            idle: self.idle,
        }
    }

    /// Verdict, place, counts, and each lent byte, five and seven of them spare.
    fn check_session(&self) {
        let h = self.wall.len();
        let played = play(&self.table, &self.log, h + 5, 2 * h + 7);
        assert_eq!(played.outcome, self.outcome());
        assert_eq!(played.wall[..h], sung(self.wall));
        assert!(untouched(&played.wall[h..]));
        for (booth, expected) in self.rows.iter().enumerate() {
            let count = expected.len();
            let (refusal, part) = row(&played.own, WallTick(h as u64), booth, count as u64);
            assert_eq!(refusal, Refusal::ACCEPTED);
            assert_eq!(part, sung(expected));
            assert!(untouched(&played.own[booth * h + count..(booth + 1) * h]));
        }
        assert!(untouched(&played.own[2 * h..]));
    }

    /// Every row here is as long as due(H), so the solo part asked for is the row.
    fn check_solo_parts(&self) {
        for (booth, expected) in self.rows.iter().enumerate() {
            let mut part = vec![lent::BEFORE; expected.len() + 3];
            let n = OwnTick(expected.len() as u64);
            let refusal = ask_solo(&self.table, &self.log, booth, n, &mut part);
            assert_eq!(refusal, Refusal::ACCEPTED);
            assert_eq!(part[..expected.len()], sung(expected));
            assert!(untouched(&part[expected.len()..]));
        }
    }

    fn check_panel(&self) {
        let wall = sung(self.wall);
        let t = WallTick(wall.len() as u64);
        for (booth, &(promised, got, reading)) in self.panel.iter().enumerate() {
            let answer = panel(&self.table, &wall, booth, t);
            assert_eq!(answer, shown(promised, got, reading));
        }
    }
}

/// The panel row of a booth, whole.
fn shown(promised: f64, got: f64, reading: Reading) -> (Refusal, PanelRow) {
    let row = PanelRow {
        promised,
        got,
        reading,
    };
    (Refusal::ACCEPTED, row)
}

/// A refused case: number, place, no counts, nothing written, the desk's line.
fn check_refused(table: &[u8], log: &[u8], refused: Refused, refusal: (u8, u64), line: &str) {
    let played = play(table, log, 30, 60);
    let expected = Outcome {
        refused: Some(refused),
        refusal: Refusal {
            number: refusal.0,
            place: refusal.1,
        },
        booths: 0,
        own_clocks: [OwnTick(0); 8],
        worked: [0; 8],
        idle: 0,
    };
    assert_eq!(played.outcome, expected);
    assert!(untouched(&played.wall) && untouched(&played.own));
    assert_eq!(
        String::from_utf8(desk(&[table, log].concat())).unwrap(),
        line
    );
}

/// The text on the page.
const AUDITION_TEXT: &str = "admitted 2
wall 101110......
booth 0 own 6 worked 2 .00...
booth 1 own 6 worked 4 1101..
idle 6
";

/// Both booths' due(12) is 6 in the audition.
const TWO_OF_12: f64 = 2.0 / 12.0;
const FOUR_OF_12: f64 = 4.0 / 12.0;
const BELOW_2: Reading = Reading::Below(TWO_OF_12);
const BELOW_4: Reading = Reading::Below(FOUR_OF_12);

fn audition() -> Case {
    Case {
        table: TABLE.to_vec(),
        log: LOG.to_vec(),
        wall: "101110......",
        rows: [".00...", "1101.."],
        worked: [2, 4],
        idle: 6,
        panel: [(0.4, TWO_OF_12, BELOW_2), (0.4, FOUR_OF_12, BELOW_4)],
        desk: AUDITION_TEXT,
    }
}

#[test]
fn m1_the_audition() {
    audition().check();
}

#[test]
fn m1_the_desk_program_prints_the_page() {
    let mut program = Command::new(env!("CARGO_BIN_EXE_desk"))
        .stdin(Stdio::piped())
        .stdout(Stdio::piped())
        .spawn()
        .unwrap();
    let mut input = program.stdin.take().unwrap();
    input.write_all(&[&TABLE[..], &LOG[..]].concat()).unwrap();
    drop(input);
    let printed = program.wait_with_output().unwrap();
    assert!(printed.status.success());
    assert_eq!(String::from_utf8(printed.stdout).unwrap(), AUDITION_TEXT);
}

/// Booth 1 alone on the stage. Tick 0: task 1 (u 1). Tick 1: task 1 (u 2).
/// Tick 2: the entry of task 0 is released at due(2) = 2, task 0 (u 3). Tick 3:
/// task 1 (u 4). Then silence; due(12) = 6 for both booths.
#[test]
fn m2_without_the_entry_of_booth_0() {
    let mut log = vec![1, 0, 0, 0, 0x16, 0, 0, 0, 0x0C];
    log.extend([8, 0, 0, 0, 0, 1, 1, 0, 3]);
    log.extend([8, 0, 0, 0, 2, 1, 0, 0, 1]);
    let case = Case {
        table: TABLE.to_vec(),
        log,
        wall: "1111........",
        rows: ["......", "1101.."],
        worked: [0, 4],
        idle: 8,
        panel: [(0.4, 0.0, Reading::Below(0.0)), (0.4, FOUR_OF_12, BELOW_4)],
        desk: "admitted 2
wall 1111........
booth 0 own 6 worked 0 ......
booth 1 own 6 worked 4 1101..
idle 8
",
    };
    case.check();
}

/// With B 6 the ticks of the audition stay: booth 1's entries are released at
/// due(0) = 0 and due(2) = 2 as before. Only its clock ends at due(12) = 6 + 2.
#[test]
fn m3_allowance_6_passes() {
    let case = Case {
        table: with(&TABLE, &[(14, 6)]),
        rows: [".00...", "1101...."],
        panel: [(0.4, TWO_OF_12, BELOW_2), (0.6, FOUR_OF_12, BELOW_4)],
        desk: "admitted 2
wall 101110......
booth 0 own 6 worked 2 .00...
booth 1 own 8 worked 4 1101....
idle 6
",
        ..audition()
    };
    case.check();
}

#[test]
fn m4_allowance_7_gives_7_at_10() {
    let table = with(&TABLE, &[(14, 7)]);
    check_refused(
        &table,
        &LOG,
        Refused::Table,
        (7, 10),
        "refused table 7 at 10\n",
    );
    let refused = PanelRow {
        promised: 0.0,
        got: 0.0,
        reading: Reading::NoneYet,
    };
    let seven = Refusal {
        number: 7,
        place: 10,
    };
    assert_eq!(panel(&table, &[0; 8], 0, WallTick(8)), (seven, refused));
}

#[test]
fn m5_due() {
    let line = Line {
        period: 5,
        allowance: 2,
        longest_jobs: vec![2],
    };
    let due = |t| line.due(WallTick(t)).0;
    assert_eq!((due(7), due(4), due(5), due(6)), (4, 2, 2, 3));
}

#[test]
fn m6_no_wall_tick_and_no_entry() {
    let case = Case {
        table: TABLE.to_vec(),
        log: vec![1, 0, 0, 0, 4, 0, 0, 0, 0],
        wall: "",
        rows: ["", ""],
        worked: [0, 0],
        idle: 0,
        panel: [(0.4, 0.0, Reading::NoneYet), (0.4, 0.0, Reading::NoneYet)],
        desk: "admitted 2\nwall \nbooth 0 own 0 worked 0 \nbooth 1 own 0 worked 0 \nidle 0\n",
    };
    case.check();
}

/// Task 0 of booth 1 arrives at 11 and is released at due(11) = 4 + 1 = 5.
/// Ticks 0, 2, 3: task 1 (u 1, 2, 3), tick 1: booth 0. Tick 4: booth 1 is
/// silent and moves to due(4) = 4; booth 0 stands at due(5) = 2. Tick 5: booth 0
/// plays its second. Tick 11: booth 1 moves from due(10) = 4 to 5 and plays task
/// 0 at 5, below due(12) = 6.
#[test]
fn m7_tick_11_is_accepted() {
    let case = Case {
        log: with(&LOG, &[(31, 11)]),
        wall: "1011.0.....1",
        rows: [".00...", "111..0"],
        desk: "admitted 2
wall 1011.0.....1
booth 0 own 6 worked 2 .00...
booth 1 own 6 worked 4 111..0
idle 6
",
        ..audition()
    };
    case.check();
}

#[test]
fn m8_tick_12_gives_8() {
    let last = with(&LOG, &[(31, 12)]);
    check_refused(
        &TABLE,
        &last,
        Refused::Log,
        (8, 27),
        "refused log 8 at 27\n",
    );
    let first = with(&LOG, &[(13, 12)]);
    check_refused(&TABLE, &first, Refused::Log, (8, 9), "refused log 8 at 9\n");
}

/// Promised is 2 over 5 and 4 over 10; in the first eight wall bytes 10111 0..
/// booth 1 stands 4 times, due(8) = 4, and booth 0 twice, due(8) = 4.
#[test]
fn m9_the_panel_of_the_audition() {
    let wall = sung("101110......");
    let rows = [
        (1, 8, 0.5, Reading::AtCeiling(0.5)),
        (0, 8, 0.25, Reading::Below(0.25)),
        (0, 0, 0.0, Reading::NoneYet),
        (1, 0, 0.0, Reading::NoneYet),
        // One of one at due(1) = 1; four of twelve below due(12) = 6.
        (1, 1, 1.0, Reading::AtCeiling(1.0)),
        (1, 12, 4.0 / 12.0, Reading::Below(4.0 / 12.0)),
    ];
    for (booth, t, got, reading) in rows {
        let answer = panel(&TABLE, &wall, booth, WallTick(t));
        assert_eq!(answer, shown(0.4, got, reading));
    }
}

/// 10,000 is 27 10: booth 1 passes (R = 8: 4 + 2 times 2), and the ticks are the
/// audition's; its clock ends at due(12) = 4. 10,001 is 27 11.
#[test]
fn m10_the_longest_period() {
    let case = Case {
        table: with(&TABLE, &[(11, 0x27), (12, 0x10)]),
        rows: [".00...", "1101"],
        // Four of four due: at the ceiling.
        panel: [
            (0.4, TWO_OF_12, BELOW_2),
            (4.0 / 10_000.0, FOUR_OF_12, Reading::AtCeiling(FOUR_OF_12)),
        ],
        desk: "admitted 2
wall 101110......
booth 0 own 6 worked 2 .00...
booth 1 own 4 worked 4 1101
idle 6
",
        ..audition()
    };
    case.check();
    let second = with(&TABLE, &[(11, 0x27), (12, 0x11)]);
    let line = "refused table 6 at 10\n";
    check_refused(&second, &LOG, Refused::Table, (6, 10), line);
    let first = with(&TABLE, &[(4, 0x27), (5, 0x11)]);
    let line = "refused table 6 at 3\n";
    check_refused(&first, &LOG, Refused::Table, (6, 3), line);
}
