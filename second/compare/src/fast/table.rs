//! The booth table's reader, and admission.

use super::head::{check_head, refuse, Refusal};

const FIRST_RECORD: usize = 3;

/// What a booth is promised.
#[derive(Clone, Copy, Default)]
pub struct Promise {
    pub period: u32,
    pub allowance: u32,
}

impl Promise {
    #[inline]
    pub fn due(&self, t: u32) -> u32 {
        t / self.period * self.allowance + (t % self.period).min(self.allowance)
    }

    /// What a booth below may lose to this one within R ticks; in the first period
    /// nothing is divided.
    #[inline]
    fn taken_within(&self, r: u32) -> u32 {
        if r <= self.period {
            return self.allowance;
        }
        self.allowance * r.div_ceil(self.period)
    }
}

/// Booth by booth; behind the last, zeros.
#[derive(Default)]
pub struct Table {
    pub booths: usize,
    pub promises: [Promise; 8],
    /// 0 stands for a task that the booth does not have.
    pub longest_jobs: [[u16; 8]; 8],
}

pub fn read_table(bytes: &[u8]) -> Result<Table, Refusal> {
    check_head::<2>(bytes)?;
    if bytes.len() == FIRST_RECORD {
        return refuse(4, FIRST_RECORD);
    }
    let mut table = Table::default();
    let mut starts = [0; 8];
    let mut start = FIRST_RECORD;
    while start < bytes.len() {
        let booth = table.booths;
        if booth == 8 {
            return refuse(4, start);
        }
        let length = usize::from(bytes[start]);
        if !(6..=20).contains(&length) || length % 2 == 1 {
            return refuse(5, start);
        }
        let Some(record) = bytes.get(start + 1..start + 1 + length) else {
            return refuse(1, start);
        };
        let Some(promise) = read_record(record, &mut table.longest_jobs[booth]) else {
            return refuse(6, start);
        };
        table.promises[booth] = promise;
        table.booths += 1;
        starts[booth] = start;
        start += 1 + length;
    }
    match first_not_admitted(&table.promises[..table.booths]) {
        Some(booth) => refuse(7, starts[booth]),
        None => Ok(table),
    }
}

/// The promise in a record of at least six bytes, and its longest jobs into zeros;
/// nothing if a value is out of range.
fn read_record(record: &[u8], longest_jobs: &mut [u16; 8]) -> Option<Promise> {
    let (values, _) = record.as_chunks::<2>();
    let value = |place: usize| u32::from(u16::from_be_bytes(values[place]));
    let (period, allowance) = (value(0), value(1));
    let mut in_range = period <= 10_000 && 1 <= allowance && allowance <= period;
    for (job, &bytes) in longest_jobs.iter_mut().zip(&values[2..]) {
        *job = u16::from_be_bytes(bytes);
        in_range &= *job > 0;
    }
    in_range.then_some(Promise { period, allowance })
}

fn first_not_admitted(promises: &[Promise]) -> Option<usize> {
    (0..promises.len()).find(|&booth| !passes(&promises[..booth], &promises[booth]))
}

/// What is asked within R ticks never falls as R grows, so climbing by what is
/// asked meets the least R that has room, if there is one. It begins where every
/// booth above has taken its allowance once, for less is never asked.
fn passes(earlier: &[Promise], own: &Promise) -> bool {
    let allowances = earlier.iter().map(|above| above.allowance);
    let mut r = own.allowance + allowances.sum::<u32>();
    while r <= own.period {
        let taken = earlier.iter().map(|above| above.taken_within(r));
        let asked = own.allowance + taken.sum::<u32>();
        if asked <= r {
            return true;
        }
        r = asked;
    }
    false
}
