//! The picture held against the session's bytes: every mark is there once and in
//! its place, read off the picture's own axis.

mod svg;

use std::fs;
use std::path::PathBuf;
use std::process::Command;
use std::sync::atomic::{AtomicUsize, Ordering};

use hallanupp::{Session, IDLE};
use svg::{attribute, definition, placed, words, Axis, Placed};

/// A sample, its booths' promises and what its picture shows.
struct Drawn {
    session: Session<Vec<u8>>,
    promises: Vec<(usize, usize)>,
    svg: String,
    placed: Vec<Placed>,
    axis: Axis,
}

fn sample(name: &str) -> PathBuf {
    PathBuf::from(env!("CARGO_MANIFEST_DIR"))
        .join("../examples/samples")
        .join(name)
}

/// How many pictures were drawn.
static PICTURES: AtomicUsize = AtomicUsize::new(0);

/// The promises, period then allowance, are those that examples/README.md says.
fn draw(name: &str, promises: &[(usize, usize)]) -> Drawn {
    let (table, log) = (
        sample(&format!("{name}.table")),
        sample(&format!("{name}.log")),
    );
    // Tests run side by side, so no two draw into one file.
    let number = PICTURES.fetch_add(1, Ordering::Relaxed);
    let file = PathBuf::from(env!("CARGO_TARGET_TMPDIR")).join(format!("{number}.svg"));
    let tool = Command::new(env!("CARGO_BIN_EXE_hallanupp"))
        .arg("draw")
        .args([&table, &log])
        .arg("-o")
        .arg(&file)
        .status();
    assert!(tool.expect("the tool starts").success());
    let svg = fs::read_to_string(&file).expect("a picture");
    let placed = placed(&svg);
    let bytes = |name| fs::read(name).expect("a sample");
    Drawn {
        session: hallanupp::play(&bytes(table), &bytes(log)).expect("a session"),
        promises: promises.to_vec(),
        axis: Axis::of(&svg, &placed),
        svg,
        placed,
    }
}

/// Wall tick and what the mark says, a dot where it has no digit.
type Mark = (usize, String);

impl Drawn {
    /// What stands in the lanes of this class.
    fn lane(&self, class: &str) -> impl Iterator<Item = &Placed> {
        let class = class.to_owned();
        let within = move |placed: &&Placed| placed.groups.len() == 2 && placed.groups[1] == class;
        self.placed.iter().filter(within)
    }

    /// The marks of a lane, each at the left edge of its wall tick.
    fn marks(&self, class: &str) -> Vec<Mark> {
        let uses = self
            .lane(class)
            .filter(|placed| placed.element.starts_with("<use "));
        let marks = uses.map(|placed| {
            let (tick, right) = self.axis.tick(placed.x, placed.y);
            assert_eq!(right, 0.0, "{placed:?} stands between two ticks");
            let id = attribute(&placed.element, "href").expect("a mark");
            (tick, self.said(id.trim_start_matches('#')))
        });
        marks.collect()
    }

    /// The digit that a mark shows, "." with a dot, "" with neither.
    fn said(&self, id: &str) -> String {
        let mark = definition(&self.svg, id);
        match words(mark) {
            "" if mark.contains("<circle") => ".".to_owned(),
            digit => digit.to_owned(),
        }
    }

    /// For each arrival its task and wall tick, and the wall tick to which its line leads.
    fn jobs(&self, booth: usize) -> Vec<(String, usize, usize)> {
        let lane: Vec<&Placed> = self.lane(&format!("arrivals booth{booth}")).collect();
        let lines = lane
            .iter()
            .filter(|placed| placed.element.starts_with("<path "));
        let flags = lane
            .iter()
            .filter(|placed| placed.element.starts_with("<rect "));
        let tasks = lane
            .iter()
            .filter(|placed| placed.element.contains("class=\"flag\""));
        let jobs = lines.zip(flags).zip(tasks).map(|((line, flag), task)| {
            let way = attribute(&line.element, "d").expect("a way");
            let down = way.split(['H', 'V']).nth(1).expect("across, then down");
            let x = line.x + down.parse::<f64>().expect("a number");
            let arrival = self.axis.tick(flag.x, flag.y);
            assert_eq!(arrival.1, 0.0, "a flag stands at the left edge of its tick");
            let label = self.axis.tick(task.x, task.y).0;
            assert_eq!(label, arrival.0, "the task stands in its flag");
            (
                words(&task.element).to_owned(),
                arrival.0,
                self.axis.tick(x, line.y).0,
            )
        });
        jobs.collect()
    }
}

/// As the text of the desk has it.
fn letter(byte: u8) -> String {
    match byte {
        IDLE => ".".to_owned(),
        number => number.to_string(),
    }
}

/// What each booth played at each wall tick: by the moves of the rules, the next
/// own tick of its row that is not 255.
fn played(session: &Session<Vec<u8>>, booth: usize) -> Vec<Mark> {
    let row = session.row(booth).expect("a booth");
    let mut next = row.iter().filter(|&&task| task != IDLE);
    let mut marks = Vec::new();
    for (tick, &worked) in session.wall().iter().enumerate() {
        if usize::from(worked) == booth {
            marks.push((
                tick,
                letter(*next.next().expect("a task for every tick worked")),
            ));
        }
    }
    assert_eq!(next.next(), None);
    marks
}

/// Own tick n is due from wall tick (n / B) T + n mod B on.
fn allowance(
    session: &Session<Vec<u8>>,
    booth: usize,
    (period, allowance): (usize, usize),
) -> Vec<Mark> {
    let row = session.row(booth).expect("a booth");
    let places = (0..).map(|n| n / allowance * period + n % allowance);
    let places = places.take_while(|&place| place < session.wall_ticks());
    let own = |n: usize| row.get(n).map_or(String::new(), |&task| letter(task));
    places
        .enumerate()
        .map(|(n, place)| (place, own(n)))
        .collect()
}

fn holds(name: &str, promises: &[(usize, usize)]) -> usize {
    let drawn = draw(name, promises);
    let wall = drawn
        .session
        .wall()
        .iter()
        .map(|&booth| letter(booth))
        .enumerate();
    assert_eq!(drawn.marks("wall"), wall.collect::<Vec<_>>(), "{name}");
    let mut worked = 0;
    for (booth, &promise) in drawn.promises.iter().enumerate() {
        let works = drawn.marks(&format!("works booth{booth}"));
        assert_eq!(
            works,
            played(&drawn.session, booth),
            "{name}, booth {booth}"
        );
        let own = drawn.marks(&format!("allowance booth{booth}"));
        assert_eq!(
            own,
            allowance(&drawn.session, booth, promise),
            "{name}, booth {booth}"
        );
        worked += works.len();
    }
    assert_eq!(drawn.promises.len(), drawn.session.booths());
    worked
}

/// The worked ticks are those that the kept texts of the desk say.
#[test]
fn as_many_marks_as_worked_ticks_each_in_its_place() {
    assert_eq!(holds("audition", &[(5, 2), (10, 4)]), 6);
    assert_eq!(holds("audition-without-booth-0", &[(5, 2), (10, 4)]), 4);
    assert_eq!(holds("eight-booths", &[(16, 2); 8]), 20);
    assert_eq!(holds("lone-booth", &[(16, 2)]), 3);
    assert_eq!(holds("tick-11-accepted", &[(5, 2), (10, 4)]), 1);
    assert_eq!(holds("no-ticks", &[(5, 2), (10, 4)]), 0);
    assert_eq!(holds("room-for-2000-ticks", &[(5, 2), (10, 4)]), 1_600);
    assert_eq!(holds("no-room-for-2001-ticks", &[(5, 2), (10, 4)]), 1_601);
}

fn marks(marks: &[(usize, &str)]) -> Vec<Mark> {
    let marks = marks.iter().map(|&(tick, said)| (tick, said.to_owned()));
    marks.collect()
}

/// The audition, reckoned by hand from the page.
#[test]
fn the_audition() {
    let drawn = draw("audition", &[(5, 2), (10, 4)]);
    assert_eq!(drawn.marks("works booth0"), marks(&[(1, "0"), (5, "0")]));
    let booth_1 = [(0, "1"), (2, "1"), (3, "0"), (4, "1")];
    assert_eq!(drawn.marks("works booth1"), marks(&booth_1));
    let own_1 = [(0, "1"), (1, "1"), (2, "0"), (3, "1"), (10, "."), (11, ".")];
    assert_eq!(drawn.marks("allowance booth1"), marks(&own_1));
    let counts = |class| {
        drawn
            .lane(class)
            .filter(|placed| placed.element.contains("\"count\""))
    };
    let told = |class| {
        counts(class)
            .map(|count| words(&count.element))
            .collect::<Vec<_>>()
    };
    assert_eq!(told("allowance booth0"), ["spent 2 of 2 due"; 2]);
    assert_eq!(told("allowance booth1"), ["spent 4 of 4 due"]);
}

/// Task, wall tick of arrival and wall tick at which it is first played, by hand.
#[test]
fn arrivals_and_where_they_lead() {
    let told = |drawn: &Drawn| {
        let booths = 0..drawn.promises.len();
        booths.map(|booth| drawn.jobs(booth)).collect::<Vec<_>>()
    };
    let job =
        |&(task, arrives, played): &(usize, usize, usize)| (task.to_string(), arrives, played);
    let expected = |booths: &[&[(usize, usize, usize)]]| {
        let jobs = |jobs: &&[(usize, usize, usize)]| jobs.iter().map(job).collect::<Vec<_>>();
        booths.iter().map(jobs).collect::<Vec<_>>()
    };
    let audition: [&[_]; 2] = [&[(0, 1, 1)], &[(1, 0, 0), (0, 2, 3)]];
    assert_eq!(
        told(&draw("audition", &[(5, 2), (10, 4)])),
        expected(&audition)
    );
    let eight: [&[_]; 8] = [
        &[(0, 0, 0), (0, 16, 16)],
        &[(0, 0, 2)],
        &[],
        &[(0, 0, 4), (0, 3, 19)],
        &[(1, 0, 6), (0, 0, 5)],
        &[(1, 16, 20)],
        &[(1, 0, 7), (0, 17, 23)],
        &[(1, 0, 9), (0, 1, 10)],
    ];
    assert_eq!(told(&draw("eight-booths", &[(16, 2); 8])), expected(&eight));
}

/// How high a mark or a flag is.
fn height(drawn: &Drawn, placed: &Placed) -> f64 {
    let height = match attribute(&placed.element, "href") {
        Some(id) => attribute(definition(&drawn.svg, &id[1..]), "height"),
        None => attribute(&placed.element, "height"),
    };
    height.map_or(0.0, |height| height.parse().expect("a number"))
}

/// Lanes stand one below the other: none begins before the one above it has ended.
fn lanes_apart(drawn: &Drawn) {
    let (mut lane, mut foot) = ("", 0.0);
    for placed in drawn
        .placed
        .iter()
        .filter(|placed| placed.groups.len() == 2)
    {
        if !placed.element.starts_with("<use ") && !placed.element.starts_with("<rect ") {
            continue;
        }
        let here = placed.groups[1].as_str();
        assert!(here == lane || placed.y >= foot, "{placed:?} over {lane}");
        let above = if here == lane { foot } else { 0.0 };
        foot = f64::max(above, placed.y + height(drawn, placed));
        lane = here;
    }
    assert!(foot > 0.0);
}

#[test]
fn no_lane_covers_another() {
    lanes_apart(&draw("eight-booths", &[(16, 2); 8]));
    lanes_apart(&draw("room-for-2000-ticks", &[(5, 2), (10, 4)]));
}
