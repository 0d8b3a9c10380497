//! Each refusal: what is refused, the number, the place, and the sentence.

use hallanupp::{
    desk_text, files_verdict, panel, play, raw, row_back, session, solo_part, table_verdict,
    Number, Refusal, Refused, TEXT_ROOM,
};

const HEADER: &str = include_str!("../../../include/hallanupp.h");
const SENTENCES: &str = include_str!("../../../docs/refusals.txt");

const TABLE: [u8; 19] = [1, 0, 16, 6, 0, 5, 0, 2, 0, 2, 8, 0, 10, 0, 4, 0, 3, 0, 4];
/// The audition's log, cut to its first entry.
const LOG: [u8; 18] = [1, 0, 0, 0, 13, 0, 0, 0, 12, 8, 0, 0, 0, 0, 1, 1, 0, 3];

fn refusal(refused: Refused, number: Number, place: usize) -> Refusal {
    Refusal {
        refused,
        number,
        place,
    }
}

/// The bytes with others from this place on.
fn with(bytes: &[u8], place: usize, others: &[u8]) -> Vec<u8> {
    let mut bytes = bytes.to_vec();
    bytes[place..place + others.len()].copy_from_slice(others);
    bytes
}

/// Numbers and places typed from the page's order for the table.
#[test]
fn every_number_of_a_table() {
    let cases = [
        (vec![], Number::BytesMissing, 0),
        (TABLE[..10].to_vec(), Number::BytesMissing, 10),
        (with(&TABLE, 0, &[2]), Number::WrongVersion, 0),
        ([&TABLE[..], &[0]].concat(), Number::BytesLeftOver, 19),
        (vec![1, 0, 0], Number::TooFewOrMany, 3),
        (with(&TABLE, 10, &[7]), Number::WrongLengthByte, 10),
        (with(&TABLE, 4, &[0, 0]), Number::OutOfRange, 3),
        (with(&TABLE, 13, &[0, 7]), Number::NotAdmitted, 10),
    ];
    for (table, number, place) in cases {
        let expected = Err(refusal(Refused::BoothTable, number, place));
        assert_eq!(table_verdict(&table), expected, "{table:?}");
        assert_eq!(files_verdict(&table, &LOG), expected, "{table:?}");
        assert_eq!(play(&table, &LOG).map(drop), expected, "{table:?}");
        assert_eq!(panel(&table, &[], 0, 0).map(drop), expected, "{table:?}");
    }
}

/// Numbers and places typed from the page's order for the log.
#[test]
fn every_number_of_a_log() {
    let many = [&[1, 0, 0, 0x90, 0x0D, 0, 0, 0, 12][..], &[0; 36_873]].concat();
    let cases = [
        (vec![], Number::BytesMissing, 0),
        (LOG[..4].to_vec(), Number::BytesMissing, 4),
        (with(&LOG, 0, &[2]), Number::WrongVersion, 0),
        ([&LOG[..], &[0]].concat(), Number::BytesLeftOver, 18),
        (many, Number::TooFewOrMany, 1),
        (with(&LOG, 9, &[9]), Number::WrongLengthByte, 9),
        (with(&LOG, 5, &[0, 15, 66, 65]), Number::OutOfRange, 5),
        (with(&LOG, 13, &[12]), Number::WrongTick, 9),
        (with(&LOG, 14, &[2]), Number::NoSuchBoothOrTask, 9),
        (with(&LOG, 16, &[0, 5]), Number::WrongDemand, 9),
    ];
    for (log, number, place) in cases {
        let expected = Err(refusal(Refused::ArrivalLog, number, place));
        assert_eq!(files_verdict(&TABLE, &log), expected, "{number:?}");
        assert_eq!(play(&TABLE, &log).map(drop), expected, "{number:?}");
        let part = solo_part(&TABLE, &log, 0, 0, &mut []).map(drop);
        assert_eq!(part, expected, "{number:?}");
    }
}

#[test]
fn every_number_of_a_call() {
    let unfit = Refusal {
        refused: Refused::Call,
        number: Number::DoesNotFit,
        place: 0,
    };
    let absent = Refusal {
        number: Number::NoSuchBoothOrTask,
        ..unfit
    };
    let mut room = [7; 24];
    let (wall, own) = room.split_at_mut(12);
    assert_eq!(session(&TABLE, &LOG, wall, own).map(drop), Err(unfit));
    let part = solo_part(&TABLE, &LOG, 2, 1, &mut room).map(drop);
    assert_eq!(part, Err(absent));
    let part = solo_part(&TABLE, &LOG, 0, 7, &mut room).map(drop);
    assert_eq!(part, Err(unfit));
    assert_eq!(room, [7; 24], "a refused call writes nothing");
    assert_eq!(row_back(&room, 12, 1, 13), Err(unfit));
    assert_eq!(panel(&TABLE, &room, 2, 1).map(drop), Err(absent));
    assert_eq!(panel(&TABLE, &room, 0, 25).map(drop), Err(unfit));
    let mut short = [7; TEXT_ROOM - 1];
    assert_eq!(desk_text(&[], &mut short).map(drop), Err(unfit));
}

/// A name of the header, `WORDS_LIKE_THIS`, as Rust spells it.
fn camel(name: &str) -> String {
    let word = |word: &str| word[..1].to_owned() + &word[1..].to_lowercase();
    name.split('_').map(word).collect()
}

/// The header's names for the values of one of its lists.
fn in_header(first: &str) -> Vec<(String, u32)> {
    let list = HEADER.split("enum {").find(|list| list.contains(first));
    let list = list.and_then(|list| list.split("};").next()).expect(first);
    let named = list.lines().filter_map(|line| {
        let (name, rest) = line.trim().strip_prefix("HALLANUPP_")?.split_once(" = ")?;
        let digits: String = rest.chars().take_while(char::is_ascii_digit).collect();
        Some((camel(name), digits.parse().expect(name)))
    });
    named.collect()
}

#[test]
fn the_names_are_the_header_s() {
    let numbers = Number::ALL.map(|number| (format!("{number:?}"), number as u32));
    assert_eq!(in_header("HALLANUPP_BYTES_MISSING")[1..], numbers);
    let refused = Refused::ALL.map(|refused| (format!("{refused:?}"), refused as u32));
    assert_eq!(in_header("HALLANUPP_BOOTH_TABLE")[1..], refused);
    let readings = [
        ("NoneYet", raw::NONE_YET),
        ("Below", raw::BELOW),
        ("AtTheCeiling", raw::AT_THE_CEILING),
        ("Over", raw::OVER),
    ];
    let readings = readings.map(|(name, number)| (name.to_owned(), number));
    assert_eq!(in_header("HALLANUPP_OVER"), readings);
    let room = format!("#define HALLANUPP_TEXT_ROOM {TEXT_ROOM}\n");
    assert!(HEADER.contains(&room), "{room}");
}

/// What the list of sentences says of a word and a number.
fn listed(word: &str, number: Number) -> Option<&'static str> {
    let key = format!("{word} {} ", number as u32);
    SENTENCES.lines().find_map(|line| line.strip_prefix(&key))
}

/// A refusal that can be given has its sentence of the list, with the byte in it.
#[test]
fn every_refusal_has_its_sentence() {
    let table = Number::ALL[..7]
        .iter()
        .map(|&number| (Refused::BoothTable, number));
    let log = Number::ALL[..10]
        .iter()
        .map(|&number| (Refused::ArrivalLog, number));
    let log = log.filter(|(_, number)| *number != Number::NotAdmitted);
    let call = [Number::NoSuchBoothOrTask, Number::DoesNotFit];
    let call = call.map(|number| (Refused::Call, number));
    for (refused, number) in table.chain(log).chain(call) {
        let sentence = listed(refused.word(), number).expect("a sentence");
        let said = refusal(refused, number, 4_711).to_string();
        assert_eq!(said, sentence.replace("{place}", "4711"));
        assert_eq!(said.contains("4711"), refused != Refused::Call, "{said}");
    }
}
