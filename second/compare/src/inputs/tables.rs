//! Booth tables of every kind.

use second::damage::{
    damaged, each_byte_changed, each_cut, head_that_lies, mended, random_bytes, File,
};
use second::random::Random;

use super::edge::at_the_edge;
use super::good::{dozen, random_files};
use super::{randoms, Kind};

pub fn kinds_of_table(first_seed: u64) -> Vec<Kind<Vec<u8>>> {
    let randoms = move |kind, count| randoms(first_seed, kind, count);
    let good = |random: &mut Random| random_files(random).table;
    let of_dozen = move || dozen(first_seed, 1).into_iter().map(|files| files.table);
    let all_changes = |table: Vec<u8>| each_byte_changed(&table).collect::<Vec<_>>();
    let all_cuts = |table: Vec<u8>| each_cut(&table).collect::<Vec<_>>();
    let lying = move |mut random: Random| {
        let table = good(&mut random);
        head_that_lies(File::Table, &table, &mut random)
    };
    let broken = move |mut random: Random| {
        let table = good(&mut random);
        damaged(File::Table, &table, &mut random)
    };
    vec![
        Kind::new(
            "random good files",
            randoms(0, 20_000).map(move |mut random| good(&mut random)),
        ),
        Kind::new("single bytes changed", of_dozen().flat_map(all_changes)),
        Kind::new("cuts", of_dozen().flat_map(all_cuts)),
        Kind::new("lying lengths", randoms(2, 20_000).map(lying)),
        Kind::new(
            "random bytes",
            randoms(3, 20_000).map(|mut random| any_bytes(File::Table, &mut random)),
        ),
        Kind::new("damaged", randoms(4, 60_000).map(broken)),
        Kind::new(
            "edge of admission",
            randoms(5, 20_000).flat_map(|mut random| at_the_edge(&mut random)),
        ),
    ]
}

/// Random bytes; with the version right, or N too, more of them are looked at.
pub fn any_bytes(file: File, random: &mut Random) -> Vec<u8> {
    let mut bytes = random_bytes(80, random);
    let right = random.between(0, 2);
    if right > 0 {
        bytes.iter_mut().take(1).for_each(|version| *version = 1);
    }
    if right > 1 {
        return mended(file, bytes);
    }
    bytes
}
