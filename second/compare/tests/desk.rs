//! The desk's text: the answer and every lent byte are those of the second
//! program.

use std::collections::BTreeMap;
use std::str::from_utf8;

use compare::answers::{first_difference, TEXT_ROOM};
use compare::inputs::{audition, full_house, full_log, kinds_of_input, lent_record, Session};
use compare::judge;
use compare::tally::Tally;
use hallanupp::raw;
use second::arrivals::Log;
use second::random::{first_seed, Random};
use second::table::{Line, Table};
use second::ticks::WallTick;

/// The text into copies of the lent bytes; answers the second program's.
fn compare(kind: &str, input: &[u8], lent: &[u8]) -> Vec<u8> {
    let (mut after, mut text) = (lent.to_vec(), lent.to_vec());
    let expected = judge::desk_text(input, &mut after);
    let said = raw::desk_text(input, &mut text);
    let what = || format!("{kind}, {} bytes lent: {input:02X?}", lent.len());
    assert_eq!(said, expected, "{}", what());
    assert_eq!(first_difference(&text, &after), None, "{}", what());
    after.truncate(expected);
    after
}

const REFUSED: [&str; 4] = ["table", "log", "session", "input"];

/// What the first line says: how many booths are admitted, or what is refused
/// with which number.
fn first_line(text: &[u8]) -> (&'static str, u32) {
    let line = from_utf8(text).expect("letters").lines().next();
    let words: Vec<&str> = line.unwrap_or_default().split(' ').collect();
    let number = |word: &str| word.parse().expect("a whole number");
    let name = |word: &str| REFUSED.into_iter().find(|name| *name == word);
    match words[..] {
        ["admitted", booths] => ("admitted", number(booths)),
        ["refused", word, said, "at", _] => (name(word).expect("a name"), number(said)),
        _ => panic!("{words:?} begins no text"),
    }
}

/// How long the session was: the second line is the wall record.
fn wall_ticks(text: &[u8]) -> &'static str {
    let line = from_utf8(text).expect("letters").lines().nth(1);
    match line.map(|line| line.len() - "wall ".len()) {
        None => "refused",
        Some(0) => "H 0",
        Some(1..=100) => "H up to 100",
        Some(101..=1_000) => "H up to 1,000",
        Some(_) => "H up to 2,000",
    }
}

/// What was compared so far, and random bytes to lend.
struct Compared {
    lendable: Vec<u8>,
    random: Random,
    inputs: Tally,
    buffers: BTreeMap<&'static str, u64>,
    sessions: BTreeMap<&'static str, u64>,
    longest_text: usize,
}

impl Compared {
    fn begin(seed: u64) -> Compared {
        let mut random = Random::new(seed);
        Compared {
            lendable: lent_record(4 * TEXT_ROOM, &mut random),
            random,
            inputs: Tally::default(),
            buffers: BTreeMap::new(),
            sessions: BTreeMap::new(),
            longest_text: 0,
        }
    }

    /// Lends a buffer with room, then, since that one prints, one without.
    fn lend_each_way(&mut self, kind: &'static str, input: &[u8]) -> Vec<u8> {
        let longer = TEXT_ROOM + 1 + self.random.below(300);
        let shorter = 1 + self.random.below(TEXT_ROOM - 1);
        let with_room = [("exactly right", TEXT_ROOM), ("longer", longer)];
        let with_room = with_room[self.random.below(2)];
        let without = [
            ("one byte short", TEXT_ROOM - 1),
            ("shorter", shorter),
            ("empty", 0),
        ];
        let without = without[self.random.below(3)];
        let text = self.lend(with_room, kind, input);
        self.lend(without, kind, input);
        self.inputs.add_in_words(kind, first_line(&text));
        *self.sessions.entry(wall_ticks(&text)).or_default() += 1;
        self.longest_text = self.longest_text.max(text.len());
        text
    }

    fn lend(&mut self, (name, length): (&'static str, usize), kind: &str, input: &[u8]) -> Vec<u8> {
        let begin = self.random.below(self.lendable.len() - length);
        let text = compare(kind, input, &self.lendable[begin..begin + length]);
        assert_eq!(text.is_empty(), length < TEXT_ROOM, "{kind}");
        *self.buffers.entry(name).or_default() += 1;
        text
    }

    fn print(&self) {
        self.inputs.print("the desk's text");
        println!("lent {:?}", self.buffers);
        println!("of them {:?}", self.sessions);
        println!("the longest text has {} bytes", self.longest_text);
    }

    /// Of these numbers, how often the rarest was said.
    fn rarest(&self, about: &'static str, numbers: impl IntoIterator<Item = u32>) -> u64 {
        let times = |number| self.inputs.times_in_words((about, number));
        let times = numbers.into_iter().map(times);
        times.min().expect("some numbers")
    }
}

/// The table ends where its N says, so no byte of it is left over (3).
#[test]
fn every_kind_of_input() {
    let seed = first_seed(80_000_000);
    let mut compared = Compared::begin(seed);
    for kind in kinds_of_input(seed) {
        for input in kind.inputs {
            compared.lend_each_way(kind.name, &input);
        }
    }
    compared.print();
    assert!(compared.inputs.inputs() - compared.sessions["refused"] >= 50_000);
    assert!(compared.rarest("admitted", 1..=8) >= 1_000);
    assert!(compared.rarest("table", [1, 2, 4, 5, 6, 7]) >= 1_000);
    assert!(compared.rarest("log", [1, 2, 3, 5, 6, 8, 9, 10]) >= 1_000);
    assert!(compared.rarest("log", [4]) >= 100);
    assert!(compared.rarest("session", [11]) >= 1_000);
    assert!(compared.rarest("input", [12]) >= 100);
    assert!(compared.buffers.len() == 5 && compared.sessions.len() == 5);
    assert!(compared.buffers.values().all(|&times| times >= 10_000));
    assert!(compared.sessions.values().all(|&times| times >= 500));
}

/// All eight booths sing to the end. With 4,096 entries these are 37,044 bytes.
fn busy(h: u64) -> Vec<u8> {
    let session = Session::new(full_house(65_535), full_log(h, 4_096, 65_535));
    session.files.joined()
}

/// Booths without an entry, so that each row is as long as the booth is promised.
fn silent(h: u64, booths: usize, allowance: u64) -> Vec<u8> {
    let line = Line {
        period: 10_000,
        allowance,
        longest_jobs: vec![1],
    };
    let table = Table {
        lines: vec![line; booths],
    };
    let log = Log {
        wall_ticks: WallTick(h),
        entries: vec![],
    };
    Session::new(table, log).files.joined()
}

fn lengthened(mut input: Vec<u8>, by: usize) -> Vec<u8> {
    input.resize(input.len() + by, 1);
    input
}

#[test]
fn at_the_limits() {
    let mut compared = Compared::begin(first_seed(81_000_000));
    assert_eq!(busy(2_000).len(), 37_044);
    let cases = [
        ("no byte", vec![], ("table", 1)),
        ("H 0", silent(0, 8, 1), ("admitted", 8)),
        ("H 1,999, busy", busy(1_999), ("admitted", 8)),
        ("H 2,000, busy", busy(2_000), ("admitted", 8)),
        ("H 2,001, busy", busy(2_001), ("session", 11)),
        ("H 1,999, silent", silent(1_999, 8, 1_250), ("admitted", 8)),
        ("H 2,000, silent", silent(2_000, 8, 1_250), ("admitted", 8)),
        ("H 2,001, silent", silent(2_001, 8, 1_250), ("session", 11)),
        ("rows of 2,000", silent(2_000, 5, 2_000), ("admitted", 5)),
        ("H 1,000,000", silent(1_000_000, 1, 1), ("session", 11)),
        ("37,045 bytes", lengthened(busy(2_000), 1), ("input", 12)),
        ("37,044 bytes of 1", vec![1; 37_044], ("table", 5)),
        ("37,045 bytes of 1", vec![1; 37_045], ("input", 12)),
        ("1,000,000 bytes", vec![1; 1_000_000], ("input", 12)),
    ];
    for (name, input, expected) in cases {
        let text = compared.lend_each_way(name, &input);
        assert_eq!(first_line(&text), expected, "{name}");
    }
    compared.print();
    // "admitted 8", wall, eight rows of 1,250 and "idle 2000", each with its end.
    assert_eq!(compared.longest_text, 11 + 2_006 + 8 * 1_277 + 10);
}

/// The audition and one refusal of each kind, typed from the page.
#[test]
fn the_texts_of_the_page() {
    let text = "admitted 2\n\
                wall 101110......\n\
                booth 0 own 6 worked 2 .00...\n\
                booth 1 own 6 worked 4 1101..\n\
                idle 6\n";
    let (good, log) = (audition().joined(), audition().table.len());
    let changed = |place: usize, to: u8| {
        let mut input = good.clone();
        input[place] = to;
        input
    };
    let pages = [
        (good.clone(), text),
        (changed(14, 7), "refused table 7 at 10\n"),
        (changed(log + 13, 12), "refused log 8 at 9\n"),
        (changed(log + 7, 8), "refused session 11 at 0\n"),
        (vec![0; 37_045], "refused input 12 at 37044\n"),
    ];
    for (input, expected) in pages {
        let said = compare("the page", &input, &[7; TEXT_ROOM]);
        assert_eq!(from_utf8(&said), Ok(expected));
    }
}
