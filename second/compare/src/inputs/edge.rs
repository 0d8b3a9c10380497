//! Tables at the edge of admission.

use second::generate::{
    greatest_allowance, random_table, table_bytes, Shape, AT_THE_EDGE, LONG_AND_SPARSE,
    WHOLE_EVENING,
};
use second::random::Random;
use second::table::{Line, Table};

use super::{randoms, Kind};

/// One booth's allowance is one below all that admission leaves it, then just
/// that, then one above. The booths below stay half the time.
fn around_the_edge(shape: &Shape, random: &mut Random) -> [Vec<u8>; 3] {
    let mut table = random_table(shape, random);
    let booth = random.below(table.lines.len());
    if random.one_in(2) {
        table.lines.truncate(booth + 1);
    }
    let (earlier, rest) = table.lines.split_at(booth);
    let greatest = greatest_allowance(earlier, rest[0].period);
    [greatest - 1, greatest, greatest + 1].map(|allowance| {
        table.lines[booth].allowance = allowance;
        table_bytes(&table)
    })
}

/// All that admission leaves one booth, and one own tick more.
pub fn at_the_edge(random: &mut Random) -> [Vec<u8>; 2] {
    let periods_up_to_10000 = random.one_in(20);
    let shape = if periods_up_to_10000 {
        WHOLE_EVENING
    } else {
        AT_THE_EDGE
    };
    let [_, at, above] = around_the_edge(&shape, random);
    [at, above]
}

/// Three tables for each draw.
pub fn kinds_at_the_edge(first_seed: u64) -> Vec<Kind<Vec<u8>>> {
    let tables = |kind, draws, shape: Shape| {
        let randoms = randoms(first_seed, kind, draws);
        randoms.flat_map(move |mut random| around_the_edge(&shape, &mut random))
    };
    vec![
        Kind::new("periods up to 30", tables(0, 48_000, AT_THE_EDGE)),
        Kind::new("periods up to 600", tables(1, 36_000, LONG_AND_SPARSE)),
        Kind::new("periods up to 10,000", tables(2, 37_000, WHOLE_EVENING)),
    ]
}

fn with_eight_tasks((period, allowance): (u64, u64)) -> Line {
    Line {
        period,
        allowance,
        longest_jobs: vec![65_535; 8],
    }
}

/// Eight booths with periods from 9,000 to 10,000, of which the last has all that
/// admission leaves it, for an R in whose reach most booths above begin a second
/// period; and the same table failing at the last booth by one own tick.
pub fn long_periods_at_the_edge() -> [Vec<u8>; 2] {
    let above = (0..7).map(|booth| (9_000 + 150 * booth, 100));
    let mut lines: Vec<Line> = above.map(with_eight_tasks).collect();
    let greatest = greatest_allowance(&lines, 10_000);
    [greatest, greatest + 1].map(|allowance| {
        lines.truncate(7);
        lines.push(with_eight_tasks((10_000, allowance)));
        table_bytes(&Table {
            lines: lines.clone(),
        })
    })
}

/// The booth above works in every tick, so that each R asks for one more than R:
/// the longest climb there is.
pub fn asks_more_and_more() -> Vec<u8> {
    let lines = [(1, 1), (10_000, 1)].map(with_eight_tasks).to_vec();
    table_bytes(&Table { lines })
}
