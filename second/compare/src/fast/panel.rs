//! The panel.

use std::cmp::Ordering;

use super::admitted_table;
use super::arrivals::MOST_WALL_TICKS;
use super::table::Promise;
use crate::answers::{
    refused_panel_row, PanelRow, Verdict, ABSENT_BOOTH, AT_THE_CEILING, BELOW, NONE_YET, OVER,
    UNFIT,
};

/// The panel row of a booth after `t` ticks of a wall record.
pub fn panel(table: &[u8], wall: &[u8], booth: usize, t: usize) -> PanelRow {
    let table = match admitted_table(table) {
        Ok(table) => table,
        Err(verdict) => return refused_panel_row(verdict),
    };
    if booth >= table.booths {
        return refused_panel_row(ABSENT_BOOTH);
    }
    if t > wall.len() || t > MOST_WALL_TICKS as usize {
        return refused_panel_row(UNFIT);
    }
    let worked = times_in(&wall[..t], booth as u8);
    panel_row(&table.promises[booth], worked, t as u32)
}

/// Bytes counted side by side, so that the compiler fills whole registers.
const LANES: usize = 64;
/// A count of one byte holds that many.
const MOST_IN_LANE: usize = 255;

/// How often the byte stands in the record.
fn times_in(record: &[u8], byte: u8) -> u32 {
    let (blocks, rest) = record.as_chunks::<LANES>();
    let counted = blocks.chunks(MOST_IN_LANE);
    let in_blocks: u32 = counted.map(|blocks| times_in_blocks(blocks, byte)).sum();
    in_blocks + rest.iter().map(|&b| u32::from(b == byte)).sum::<u32>()
}

/// How often the byte stands in at most 255 blocks.
fn times_in_blocks(blocks: &[[u8; LANES]], byte: u8) -> u32 {
    let mut counts = [0u8; LANES];
    for block in blocks {
        for (count, &b) in counts.iter_mut().zip(block) {
            *count += u8::from(b == byte);
        }
    }
    counts.iter().map(|&count| u32::from(count)).sum()
}

fn panel_row(promise: &Promise, worked: u32, t: u32) -> PanelRow {
    let reading = match worked.cmp(&promise.due(t)) {
        _ if t == 0 => NONE_YET,
        Ordering::Less => BELOW,
        Ordering::Equal => AT_THE_CEILING,
        Ordering::Greater => OVER,
    };
    PanelRow {
        verdict: Verdict::ACCEPTED,
        promised: f64::from(promise.allowance) / f64::from(promise.period),
        got: if t == 0 {
            0.0
        } else {
            f64::from(worked) / f64::from(t)
        },
        reading,
    }
}
