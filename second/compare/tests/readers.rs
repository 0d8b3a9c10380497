//! Both readers on several hundred thousand files: which file is refused, the
//! number and the place are those of the second program.

use compare::answers::{Verdict, ARRIVAL_LOG, BOOTH_TABLE, NOTHING};
use compare::inputs::{kinds_at_the_edge, kinds_of_log, kinds_of_table, Files, Kind};
use compare::judge;
use compare::players::READERS;
use compare::tally::Tally;
use second::random::first_seed;

fn compare_table(kind: &str, table: &[u8]) -> Verdict {
    let expected = judge::table_verdict(table);
    for reader in READERS {
        let said = (reader.table_verdict)(table);
        assert_eq!(said, expected, "{}, {kind}: {table:02X?}", reader.name);
    }
    expected
}

fn compare_files(kind: &str, Files { table, log }: &Files) -> Verdict {
    let expected = judge::files_verdict(table, log);
    for reader in READERS {
        let said = (reader.files_verdict)(table, log);
        let name = reader.name;
        assert_eq!(said, expected, "{name}, {kind}: {table:02X?} {log:02X?}");
    }
    expected
}

fn compare_tables(title: &str, kinds: Vec<Kind<Vec<u8>>>) -> Tally {
    let mut tally = Tally::default();
    for kind in kinds {
        for table in kind.inputs {
            tally.add(kind.name, compare_table(kind.name, &table));
        }
    }
    tally.print(title);
    tally
}

#[test]
fn booth_tables() {
    let tally = compare_tables("booth tables", kinds_of_table(first_seed(20_000_000)));
    assert!(tally.inputs() >= 200_000);
    for number in 1..=7 {
        let times = tally.times(BOOTH_TABLE, number);
        assert!(times >= 1_000, "table {number} only {times} times");
    }
}

/// The second program tries every R, which neither of the others does. One own tick
/// less or more can leave an allowance out of range, and no R is tried then.
#[test]
fn tables_at_the_edge_of_admission() {
    let kinds = kinds_at_the_edge(first_seed(30_000_000));
    let tally = compare_tables("tables at the edge of admission", kinds);
    let (admitted, refused) = (tally.times(NOTHING, 0), tally.times(BOOTH_TABLE, 7));
    assert!(admitted + refused >= 300_000);
    assert!(admitted >= 100_000 && refused >= 100_000);
}

/// 7 is a table's number alone; where both files are bad it is the answer too.
#[test]
fn arrival_logs() {
    let mut tally = Tally::default();
    for kind in kinds_of_log(first_seed(40_000_000)) {
        for files in kind.inputs {
            tally.add(kind.name, compare_files(kind.name, &files));
        }
    }
    tally.print("arrival logs");
    assert!(tally.inputs() >= 200_000);
    for number in [1, 2, 3, 4, 5, 6, 8, 9, 10] {
        let times = tally.times(ARRIVAL_LOG, number);
        assert!(times >= 1_000, "log {number} only {times} times");
    }
    assert!(tally.times(BOOTH_TABLE, 7) > 0);
}
