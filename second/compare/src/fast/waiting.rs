//! The entries of each booth, laid out once before the first tick.

use super::arrivals::{Entry, Log, MOST_ENTRIES};
use super::table::{Promise, Table};

/// An entry of one booth; its tick is converted here, once.
#[derive(Clone, Copy)]
pub struct Arrival {
    pub tick: u32,
    pub release_point: u32,
    pub task: u32,
    pub demand: u32,
}

/// A tick and a release point that are never reached.
pub const NEVER: Arrival = Arrival {
    tick: u32::MAX,
    release_point: u32::MAX,
    task: 0,
    demand: 0,
};

impl Arrival {
    #[inline]
    fn new(entry: &Entry, promise: &Promise) -> Arrival {
        Arrival {
            tick: entry.tick,
            release_point: promise.due(entry.tick),
            task: u32::from(entry.task()),
            demand: u32::from(entry.demand),
        }
    }
}

/// Booth by booth, each in the log's order. Ticks never fall along the log and
/// due never falls as ticks grow, so a booth's release points never fall either.
pub struct Waiting {
    arrivals: [Arrival; MOST_ENTRIES],
    /// Booth i's arrivals stand from begins[i] to begins[i + 1].
    begins: [usize; 9],
}

impl Waiting {
    pub fn new(table: &Table, log: &Log) -> Waiting {
        let mut begins = [0; 9];
        for bytes in log.entries {
            begins[Entry::read(bytes).booth() + 1] += 1;
        }
        for booth in 0..8 {
            begins[booth + 1] += begins[booth];
        }
        let mut arrivals = [NEVER; MOST_ENTRIES];
        let mut places = begins;
        for bytes in log.entries {
            let entry = Entry::read(bytes);
            let place = &mut places[entry.booth()];
            arrivals[*place] = Arrival::new(&entry, &table.promises[entry.booth()]);
            *place += 1;
        }
        Waiting { arrivals, begins }
    }

    pub fn of_booth(&self, booth: usize) -> &[Arrival] {
        &self.arrivals[self.begins[booth]..self.begins[booth + 1]]
    }
}

/// The entries of one booth alone, each converted as it is asked for.
pub fn own_arrivals<'a>(
    log: &Log<'a>,
    booth: usize,
    promise: &'a Promise,
) -> impl Iterator<Item = Arrival> + 'a {
    let entries = log.entries.iter().map(Entry::read);
    let own = entries.filter(move |entry| entry.booth() == booth);
    own.map(|entry| Arrival::new(&entry, promise))
}
