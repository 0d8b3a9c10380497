//! Damaged files: tables and logs after an accident.

use crate::arrivals;
use crate::generate::{number_bytes, with_head};
use crate::random::Random;
use crate::table;

/// Which of the two files is damaged; they differ in the width of N and in how
/// much they may hold.
#[derive(Clone, Copy, Debug, PartialEq, Eq)]
pub enum File {
    Table,
    Log,
}

impl File {
    fn n_bytes(self) -> usize {
        match self {
            File::Table => table::N_BYTES,
            File::Log => arrivals::N_BYTES,
        }
    }

    /// Where the records or entries begin.
    fn body(self) -> usize {
        match self {
            File::Table => table::FIRST_RECORD,
            File::Log => arrivals::FIRST_ENTRY,
        }
    }

    fn most_bytes(self) -> usize {
        let (parts, longest) = match self {
            File::Table => (table::MOST_BOOTHS, 21),
            File::Log => (arrivals::MOST_ENTRIES, 1 + arrivals::ENTRY_LENGTH),
        };
        self.body() + parts * longest
    }
}

/// The file with every single byte changed to every other value, one by one.
pub fn each_byte_changed(bytes: &[u8]) -> impl Iterator<Item = Vec<u8>> + '_ {
    let changes = (0..bytes.len()).flat_map(|place| (1..=255).map(move |by| (place, by)));
    changes.map(|(place, by)| {
        let mut changed = bytes.to_vec();
        changed[place] = changed[place].wrapping_add(by);
        changed
    })
}

/// The file cut at every place, longest last.
pub fn each_cut(bytes: &[u8]) -> impl Iterator<Item = Vec<u8>> + '_ {
    (0..bytes.len()).map(|length| bytes[..length].to_vec())
}

/// The file after one accident; a change of its length is hidden half the time
/// by an N that was mended.
pub fn damaged(file: File, bytes: &[u8], random: &mut Random) -> Vec<u8> {
    let broken = match random.between(0, 15) {
        0..=5 => one_byte_changed(bytes, random),
        6..=7 => cut(bytes, random),
        8..=9 => part_doubled(bytes, random),
        10 => bytes_added(bytes, random),
        11 => grown_too_long(file, bytes, random),
        12..=13 => return head_that_lies(file, bytes, random),
        14 => random_bytes(60, random),
        _ => return with_head(random_bytes(60, random), file.n_bytes()),
    };
    if random.one_in(2) {
        return mended(file, broken);
    }
    broken
}

fn one_byte_changed(bytes: &[u8], random: &mut Random) -> Vec<u8> {
    let mut changed = bytes.to_vec();
    let place = random.below(bytes.len());
    changed[place] = match random.between(0, 4) {
        0 => 0,
        1 => changed[place].wrapping_add(1),
        2 => changed[place].wrapping_sub(1),
        _ => random.byte(),
    };
    changed
}

fn cut(bytes: &[u8], random: &mut Random) -> Vec<u8> {
    bytes[..random.below(bytes.len())].to_vec()
}

fn part_doubled(bytes: &[u8], random: &mut Random) -> Vec<u8> {
    let begin = random.below(bytes.len());
    let end = begin + random.below(bytes.len() - begin) + 1;
    [&bytes[..end], &bytes[begin..]].concat()
}

fn bytes_added(bytes: &[u8], random: &mut Random) -> Vec<u8> {
    [bytes, &random_bytes(12, random)].concat()
}

/// The body again and again until the file holds more than its most.
fn grown_too_long(file: File, bytes: &[u8], random: &mut Random) -> Vec<u8> {
    let body = &bytes[file.body()..];
    let mut grown = bytes.to_vec();
    while !body.is_empty() && grown.len() <= file.most_bytes() {
        grown.extend(body);
    }
    // Sometimes only a byte or so too many.
    if random.one_in(2) {
        grown.truncate(file.most_bytes() + random.below(3));
    }
    grown
}

/// The file with an N that is not the number of bytes that follow.
pub fn head_that_lies(file: File, bytes: &[u8], random: &mut Random) -> Vec<u8> {
    let head = 1 + file.n_bytes();
    let n = (bytes.len() - head) as u64;
    let lie = match random.between(0, 4) {
        0 => random.between(0, 4),
        1 => n + random.between(1, 20),
        2 => n.saturating_sub(random.between(1, 20)),
        3 => u64::MAX,
        _ => random.between(0, u64::from(u32::MAX)),
    };
    let mut lying = bytes.to_vec();
    lying[1..head].copy_from_slice(&number_bytes(lie, file.n_bytes()));
    lying
}

/// At most `most` bytes of any value.
pub fn random_bytes(most: u64, random: &mut Random) -> Vec<u8> {
    let length = random.between(0, most);
    (0..length).map(|_| random.byte()).collect()
}

/// The same bytes with an N that tells their true number.
pub fn mended(file: File, mut bytes: Vec<u8>) -> Vec<u8> {
    let head = 1 + file.n_bytes();
    if bytes.len() >= head {
        let n = number_bytes((bytes.len() - head) as u64, file.n_bytes());
        bytes[1..head].copy_from_slice(&n);
    }
    bytes
}
