//! A picture read back: what stands where, by the numbers of its own axis.

/// A mark, flag or number at its place in the whole picture.
#[derive(Clone, Debug)]
pub struct Placed {
    /// The classes of the groups around it, outermost first.
    pub groups: Vec<String>,
    pub element: String,
    pub x: f64,
    pub y: f64,
}

/// The value of an attribute.
pub fn attribute<'a>(element: &'a str, name: &str) -> Option<&'a str> {
    let behind = element.split_once(&format!(" {name}=\""))?.1;
    behind.split('"').next()
}

/// What stands between the tags of a text.
pub fn words(element: &str) -> &str {
    let inner = element
        .split_once("<text")
        .and_then(|(_, text)| text.split_once('>'));
    inner
        .and_then(|(_, text)| text.split('<').next())
        .unwrap_or("")
}

fn number(element: &str, name: &str) -> f64 {
    attribute(element, name).map_or(0.0, |value| value.parse().expect("a number"))
}

fn translation(element: &str) -> (f64, f64) {
    let moved = attribute(element, "transform").expect("a group has its place");
    let inner = moved.trim_start_matches("translate(").trim_end_matches(')');
    let (x, y) = inner.split_once(' ').expect("two numbers");
    (x.parse().expect("a number"), y.parse().expect("a number"))
}

/// Every element that is drawn, in the order of the picture.
pub fn placed(svg: &str) -> Vec<Placed> {
    let drawn = svg.split_once("</defs>").expect("definitions first").1;
    let mut groups: Vec<(String, (f64, f64))> = Vec::new();
    let mut found = Vec::new();
    for element in drawn.lines() {
        if element.starts_with("<g ") {
            let class = attribute(element, "class").unwrap_or("").to_owned();
            groups.push((class, translation(element)));
        } else if element == "</g>" {
            groups.pop().expect("a group to end");
        } else {
            let moved = groups
                .iter()
                .fold((0.0, 0.0), |sum, (_, by)| (sum.0 + by.0, sum.1 + by.1));
            found.push(Placed {
                groups: groups.iter().map(|(class, _)| class.clone()).collect(),
                x: moved.0 + number(element, "x"),
                y: moved.1 + number(element, "y"),
                element: element.to_owned(),
            });
        }
    }
    found
}

/// The definition of a mark.
pub fn definition<'a>(svg: &'a str, id: &str) -> &'a str {
    let begin = format!("<g id=\"{id}\">");
    let line = svg.lines().find(|line| line.starts_with(&begin));
    line.unwrap_or_else(|| panic!("no mark {id} is defined"))
}

/// How wide a wall tick is drawn: all marks that stand for a tick are that wide.
pub fn cell(svg: &str) -> f64 {
    let marks = svg
        .lines()
        .filter(|line| line.starts_with("<g id=") && line.contains("width="));
    let widths: Vec<f64> = marks.map(|mark| number(mark, "width")).collect();
    assert!(
        widths.windows(2).all(|two| two[0] == two[1]),
        "marks of one width"
    );
    widths[0]
}

/// The wall tick at a place: read off the axis of the line that the place is in.
pub struct Axis {
    cell: f64,
    /// For each line of the picture its place down the page and the left edge of wall tick 0,
    /// were the line long enough.
    lines: Vec<(f64, f64)>,
}

impl Axis {
    pub fn of(svg: &str, placed: &[Placed]) -> Axis {
        let cell = cell(svg);
        let mut lines: Vec<(f64, f64)> = Vec::new();
        for tick in placed
            .iter()
            .filter(|placed| placed.element.starts_with("<text class=\"tick"))
        {
            let number: f64 = words(&tick.element).parse().expect("a tick's number");
            let middle = tick.element.contains("tick middle");
            let edge = tick.x - if middle { cell / 2.0 } else { 0.0 };
            let begin = edge - number * cell;
            match lines.last() {
                Some(&(y, same)) if y == tick.y => {
                    assert_eq!(same, begin, "ticks are evenly spaced")
                }
                _ => lines.push((tick.y, begin)),
            }
        }
        Axis { cell, lines }
    }

    /// The wall tick in which this place lies, and how far right of its left edge.
    pub fn tick(&self, x: f64, y: f64) -> (usize, f64) {
        let line = self.lines.iter().rev().find(|(top, _)| *top <= y);
        let (_, begin) = line.expect("an axis above");
        let tick = ((x - begin) / self.cell).floor();
        (tick as usize, x - begin - tick * self.cell)
    }
}
