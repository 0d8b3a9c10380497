//! The box's work in plain optimised Rust, tick by tick: what the proved
//! library's speed is measured against. Nothing is allocated.

mod arrivals;
mod booth;
mod demand;
mod head;
mod panel;
mod session;
mod solo;
mod stage;
mod table;
mod waiting;

pub use panel::panel;
pub use session::session;
pub use solo::solo_part;

use crate::answers::{Verdict, ARRIVAL_LOG, BOOTH_TABLE};
use arrivals::{read_log, Log};
use head::Refusal;
use table::{read_table, Table};

/// The verdict on a booth table.
pub fn table_verdict(bytes: &[u8]) -> Verdict {
    match admitted_table(bytes) {
        Ok(_) => Verdict::ACCEPTED,
        Err(verdict) => verdict,
    }
}

/// The verdict on a booth table with an arrival log.
pub fn files_verdict(table: &[u8], log: &[u8]) -> Verdict {
    match accepted_files(table, log) {
        Ok(_) => Verdict::ACCEPTED,
        Err(verdict) => verdict,
    }
}

fn admitted_table(bytes: &[u8]) -> Result<Table, Verdict> {
    read_table(bytes).map_err(|refusal| refused(BOOTH_TABLE, refusal))
}

fn accepted_files<'a>(bytes: &[u8], log: &'a [u8]) -> Result<(Table, Log<'a>), Verdict> {
    let table = admitted_table(bytes)?;
    match read_log(log, &table) {
        Ok(log) => Ok((table, log)),
        Err(refusal) => Err(refused(ARRIVAL_LOG, refusal)),
    }
}

fn refused(refused: u32, refusal: Refusal) -> Verdict {
    Verdict {
        refused,
        number: refusal.number,
        place: refusal.place as u64,
    }
}
