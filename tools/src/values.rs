//! The promises of a booth table and the arrivals of a log. The library has
//! accepted both, so nothing is checked here.

/// So many own ticks in every period.
pub struct Promise {
    pub period: usize,
    pub allowance: usize,
}

/// A job: its task asks for so many ticks from this wall tick on.
#[derive(Clone, Copy)]
pub struct Arrival {
    pub tick: usize,
    pub booth: usize,
    pub task: u8,
    pub demand: usize,
}

fn number(big_endian: &[u8]) -> usize {
    let digits = big_endian.iter();
    digits.fold(0, |number, &byte| number * 256 + usize::from(byte))
}

/// What each booth is promised, behind a head of 3 bytes.
pub fn promises(table: &[u8]) -> Vec<Promise> {
    let mut records = &table[3..];
    let mut promises = Vec::new();
    while let [length, behind @ ..] = records {
        let (record, others) = behind.split_at(usize::from(*length));
        promises.push(Promise {
            period: number(&record[..2]),
            allowance: number(&record[2..4]),
        });
        records = others;
    }
    promises
}

/// The entries, 9 bytes each behind a head of 9.
pub fn arrivals(log: &[u8]) -> Vec<Arrival> {
    let entries = log[9..].chunks_exact(9);
    let arrivals = entries.map(|entry| Arrival {
        tick: number(&entry[1..5]),
        booth: usize::from(entry[5]),
        task: entry[6],
        demand: number(&entry[7..]),
    });
    arrivals.collect()
}
