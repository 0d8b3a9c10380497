//! Files with some of their bytes changed by hand.

/// The same bytes with other values at some places.
pub fn with(bytes: &[u8], changes: &[(usize, u8)]) -> Vec<u8> {
    let mut changed = bytes.to_vec();
    for &(place, value) in changes {
        changed[place] = value;
    }
    changed
}
