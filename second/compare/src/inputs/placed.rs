//! Bytes that lie where they are asked to lie, since the speed of a reader may
//! depend on it.

const PAGE: usize = 4_096;

/// A file's bytes in a larger room.
pub struct Placed {
    room: Vec<u8>,
    begin: usize,
    end: usize,
}

impl Placed {
    /// The first byte stands `offset` bytes behind the begin of a page, and not only
    /// of a line of 64 bytes, so that two places differ in the offset alone.
    pub fn new(bytes: &[u8], offset: usize) -> Placed {
        let mut room = vec![0; 2 * PAGE + bytes.len()];
        let begin = room.as_ptr().align_offset(PAGE) + offset;
        let end = begin + bytes.len();
        room[begin..end].copy_from_slice(bytes);
        let placed = Placed { room, begin, end };
        assert_eq!(placed.bytes().as_ptr() as usize % PAGE, offset);
        placed
    }

    pub fn bytes(&self) -> &[u8] {
        &self.room[self.begin..self.end]
    }
}
