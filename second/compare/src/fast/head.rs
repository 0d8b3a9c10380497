//! The version and N at the head of a file, and what a reader refuses with.

#[derive(Clone, Copy)]
pub struct Refusal {
    pub number: u32,
    pub place: usize,
}

pub fn refuse<Read>(number: u32, place: usize) -> Result<Read, Refusal> {
    Err(Refusal { number, place })
}

/// Checks the head of a file whose N is `N_BYTES` long, and that N is the number
/// of bytes that follow.
pub fn check_head<const N_BYTES: usize>(bytes: &[u8]) -> Result<(), Refusal> {
    let lent = bytes.len();
    let Some((&version, rest)) = bytes.split_first() else {
        return refuse(1, 0);
    };
    if version != 1 {
        return refuse(2, 0);
    }
    let Some(n) = rest.first_chunk::<N_BYTES>() else {
        return refuse(1, lent);
    };
    let n = n.iter().fold(0, |n, &byte| n << 8 | usize::from(byte));
    let end = 1 + N_BYTES + n;
    if lent < end {
        return refuse(1, lent);
    }
    if lent > end {
        return refuse(3, end);
    }
    Ok(())
}
