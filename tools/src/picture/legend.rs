//! What the marks mean, below the picture.

use super::arrivals::samples;
use super::marks::{tasks, LOW, TALL};
use super::svg::Svg;
use super::Drawn;

const ROW: usize = 22;

/// Rows of marks, each with its meaning behind it.
#[derive(Default)]
struct Legend {
    rows: Svg,
    height: usize,
}

impl Legend {
    /// All meanings begin at one place, behind room for two marks.
    fn row(&mut self, drawn: &Drawn, mut marks: Svg, meaning: &str) {
        marks.text(
            "meaning",
            (2 * (drawn.scale.cell + 4) + 8, TALL - 5),
            meaning,
        );
        self.rows.group("row", (0, self.height), &marks);
        self.height += ROW;
    }

    /// A row of up to two marks that are defined; each bears its number, so two of a kind will do.
    fn defined(&mut self, drawn: &Drawn, ids: impl IntoIterator<Item = String>, meaning: &str) {
        let mut marks = Svg::default();
        for (number, id) in ids.into_iter().take(2).enumerate() {
            marks.mark(id, number * (drawn.scale.cell + 4));
        }
        self.row(drawn, marks, meaning);
    }

    fn jobs(&mut self, drawn: &Drawn, task: u8) {
        let [played, goes_on, never] = samples(&drawn.scale, task);
        self.row(
            drawn,
            played,
            "a job of this task arrives; the wall tick at which it is first played",
        );
        if drawn.scale.lines().count() > 1 {
            self.row(
                drawn,
                goes_on,
                "first played in a later line, which its line enters at the left",
            );
        }
        let mut jobs = drawn.booths.iter().flat_map(|booth| &booth.jobs);
        if jobs.any(|job| job.first_played.is_none()) {
            self.row(drawn, never, "a job that the session does not come to");
        }
    }
}

/// Draws the legend and answers how high it is.
pub fn legend(drawn: &Drawn, place: (usize, usize), svg: &mut Svg) -> usize {
    let mut legend = Legend::default();
    let wall = ["booth0", "idle"].map(str::to_owned);
    legend.defined(
        drawn,
        wall,
        "the booth that works at this wall tick; a dot: nobody",
    );
    let tasks = tasks(drawn);
    if let Some(&first) = tasks.first() {
        let of_tasks = |kind| tasks.iter().map(move |task| format!("{kind}{task}"));
        legend.defined(
            drawn,
            of_tasks("task"),
            "the task that the booth plays at this wall tick",
        );
        legend.jobs(drawn, first);
        let meaning = "an own tick, played, at the wall tick from which it is due";
        legend.defined(drawn, of_tasks("own"), meaning);
    }
    let others = ["passed", "unspent"].map(str::to_owned);
    legend.defined(
        drawn,
        others,
        "an own tick passed over, which spends it too; dashed: one not spent",
    );
    let mut bar = Svg::default();
    bar.push(format_args!(r#"<path class="period" d="M1 0V{LOW}"/>"#));
    legend.row(
        drawn,
        bar,
        "a period begins; behind its own ticks, how many are spent of those due",
    );
    svg.group("legend", place, &legend.rows);
    legend.height
}
