//! What the booth table and the arrival log have in common: big-endian numbers,
//! the version and N at the head, and parts that begin with a length byte.

use crate::refusal::{Refusal, BYTES_LEFT_OVER, BYTES_MISSING, LENGTH_BYTE, VERSION};

/// The value of at most eight bytes, the first weighing most.
pub fn big_endian(bytes: &[u8]) -> u64 {
    bytes
        .iter()
        .fold(0, |value, &byte| value * 256 + u64::from(byte))
}

/// Checks the head of a file whose N is `n_bytes` long, in the order both files
/// share: no byte, version, head too short, fewer than N, more; answers N.
pub fn read_head(bytes: &[u8], n_bytes: usize) -> Result<u64, Refusal> {
    let head = 1 + n_bytes;
    let lent = bytes.len();
    if lent == 0 {
        return Err(Refusal::at(BYTES_MISSING, 0));
    }
    if bytes[0] != 1 {
        return Err(Refusal::at(VERSION, 0));
    }
    if lent < head {
        return Err(Refusal::at(BYTES_MISSING, lent));
    }
    let n = big_endian(&bytes[1..head]);
    let following = (lent - head) as u64;
    if following < n {
        return Err(Refusal::at(BYTES_MISSING, lent));
    }
    if following > n {
        // N is below `following` here, so it is a length in memory.
        return Err(Refusal::at(BYTES_LEFT_OVER, head + n as usize));
    }
    Ok(n)
}

/// The bytes behind the length byte at `start`.
///
/// Document 01 says "record's start" for number 5 also where the log is meant;
/// read here as the start of the entry.
pub fn read_part(bytes: &[u8], start: usize, allowed: fn(usize) -> bool) -> Result<&[u8], Refusal> {
    let length = usize::from(bytes[start]);
    if !allowed(length) {
        return Err(Refusal::at(LENGTH_BYTE, start));
    }
    let first = start + 1;
    bytes
        .get(first..first + length)
        .ok_or(Refusal::at(BYTES_MISSING, start))
}
