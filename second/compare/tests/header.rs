//! What the C header says of the library that is linked.

use hallanupp::raw;

const HEADER: &str = include_str!("../../../include/hallanupp.h");

/// The number that the header gives this name.
fn defined(name: &str) -> u32 {
    let before = format!("#define {name} ");
    let mut lines = HEADER.lines();
    let number = lines.find_map(|line| line.strip_prefix(&before));
    number.and_then(|number| number.parse().ok()).expect(name)
}

#[test]
fn version_of_the_library() {
    assert_eq!(raw::version(), defined("HALLANUPP_VERSION"));
}

#[test]
fn room_of_the_desks_text() {
    assert_eq!(raw::TEXT_ROOM, defined("HALLANUPP_TEXT_ROOM") as usize);
}
