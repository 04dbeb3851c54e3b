//! The picture: the time of a run from empty and of each of its stages against
//! L, all axes logarithmic.

use crate::timing::{Pair, Row};
use against::engine;

const WIDTH: f64 = 1_060.0;
const HEIGHT: f64 = 800.0;
/// A panel's plot, and the room it takes with its margins.
const PLOT_WIDTH: f64 = 350.0;
const PLOT_HEIGHT: f64 = 300.0;
const PANEL_WIDTH: f64 = 440.0;
const PANEL_HEIGHT: f64 = 390.0;
/// The upper left corner of the first panel's plot.
const LEFT: f64 = 70.0;
const TOP: f64 = 40.0;
/// The legend's left edge.
const LEGEND: f64 = 890.0;

const COLOURS: [&str; 6] = [
    "#1b6ca8", "#c0392b", "#2e8b57", "#8e44ad", "#b9770e", "#4d4d4d",
];

/// One thing of a row that was timed.
type Timed = fn(&Row) -> Pair;

/// The panels with their titles.
const PANELS: [(&str, Timed); 4] = [
    ("the whole run", |row| row.from_empty),
    ("reading", |row| row.reading),
    ("listing", |row| row.listing),
    ("the rest", |row| row.rest),
];

/// One engine's median of what was timed.
type Median = fn(Pair) -> f64;

/// The engines with their strokes.
const ENGINES: [(&str, &str, Median); 2] = [
    (engine::NAME, "", |pair| pair.under_test.median),
    ("fast sibling (dashed)", "6 4", |pair| pair.fast.median),
];

/// A logarithmic axis between two powers of ten, drawn from `from` to `to`.
struct Axis {
    low: i32,
    high: i32,
    from: f64,
    to: f64,
}

impl Axis {
    /// The axis that has room for all values.
    fn around(values: impl Iterator<Item = f64> + Clone, from: f64, to: f64) -> Axis {
        let least = values.clone().fold(f64::INFINITY, f64::min);
        let most = values.fold(f64::MIN_POSITIVE, f64::max);
        let low = least.log10().floor() as i32;
        let high = (most.log10().ceil() as i32).max(low + 1);
        Axis {
            low,
            high,
            from,
            to,
        }
    }

    fn place(&self, value: f64) -> f64 {
        let share = (value.log10() - f64::from(self.low)) / f64::from(self.high - self.low);
        self.from + share * (self.to - self.from)
    }

    fn powers(&self) -> impl Iterator<Item = f64> {
        (self.low..=self.high).map(|power| 10f64.powi(power))
    }
}

pub fn svg(rows: &[Row]) -> String {
    let mut text = format!(
        "<svg xmlns=\"http://www.w3.org/2000/svg\" viewBox=\"0 0 {WIDTH} {HEIGHT}\" \
         font-family=\"sans-serif\" font-size=\"13\">\n\
         <rect width=\"{WIDTH}\" height=\"{HEIGHT}\" fill=\"white\"/>\n"
    );
    for (count, (title, timed)) in PANELS.into_iter().enumerate() {
        let left = LEFT + PANEL_WIDTH * (count % 2) as f64;
        let top = TOP + PANEL_HEIGHT * (count / 2) as f64;
        text += &panel(rows, title, timed, left, top);
    }
    text + &legend(&kinds(rows)) + "</svg>\n"
}

/// The time of one thing against L, with the plot's upper left corner.
fn panel(rows: &[Row], title: &str, timed: Timed, left: f64, top: f64) -> String {
    let listed = rows.iter().map(|row| row.listed as f64);
    let times = rows
        .iter()
        .flat_map(|row| ENGINES.map(|(.., of)| of(timed(row))));
    let across = Axis::around(listed, left, left + PLOT_WIDTH);
    let upwards = Axis::around(times, top + PLOT_HEIGHT, top);
    let mut text = grid(&across, &upwards, title);
    for (kind, colour) in kinds(rows).iter().zip(COLOURS) {
        for (_, dashes, of) in ENGINES {
            let rows = rows.iter().filter(|row| row.kind == *kind);
            let points = rows.map(|row| {
                (
                    across.place(row.listed as f64),
                    upwards.place(of(timed(row))),
                )
            });
            text += &line(points.collect(), colour, dashes);
        }
    }
    text
}

/// The kinds of files in the order in which they come.
fn kinds(rows: &[Row]) -> Vec<&'static str> {
    let mut kinds: Vec<&str> = rows.iter().map(|row| row.kind).collect();
    kinds.dedup();
    kinds
}

fn grid(across: &Axis, upwards: &Axis, title: &str) -> String {
    let (left, right) = (across.from, across.to);
    let (bottom, top) = (upwards.from, upwards.to);
    let mut text = String::new();
    for power in across.powers() {
        let x = across.place(power);
        text += &stroke(x, top, x, bottom);
        text += &label(x, bottom + 18.0, "middle", &power.to_string());
    }
    for power in upwards.powers() {
        let y = upwards.place(power);
        text += &stroke(left, y, right, y);
        text += &label(left - 8.0, y + 4.0, "end", &power.to_string());
    }
    text += &label((left + right) / 2.0, bottom + 36.0, "middle", "L");
    text + &label(left, top - 12.0, "start", &format!("{title}, microseconds"))
}

fn stroke(x1: f64, y1: f64, x2: f64, y2: f64) -> String {
    format!("<path d=\"M{x1:.1} {y1:.1}L{x2:.1} {y2:.1}\" stroke=\"#ccc\"/>\n")
}

fn label(x: f64, y: f64, anchor: &str, words: &str) -> String {
    format!("<text x=\"{x:.1}\" y=\"{y:.1}\" text-anchor=\"{anchor}\">{words}</text>\n")
}

fn line(points: Vec<(f64, f64)>, colour: &str, dashes: &str) -> String {
    let path: Vec<String> = points
        .iter()
        .map(|(x, y)| format!("{x:.1},{y:.1}"))
        .collect();
    let dots: String = points
        .iter()
        .map(|(x, y)| format!("<circle cx=\"{x:.1}\" cy=\"{y:.1}\" r=\"3\" fill=\"{colour}\"/>\n"))
        .collect();
    format!(
        "<polyline points=\"{}\" fill=\"none\" stroke=\"{colour}\" stroke-width=\"2\" \
         stroke-dasharray=\"{dashes}\"/>\n{dots}",
        path.join(" ")
    )
}

fn legend(kinds: &[&str]) -> String {
    let mut text = String::new();
    for (count, (name, ..)) in ENGINES.iter().enumerate() {
        text += &label(LEGEND, TOP + 20.0 * count as f64 + 10.0, "start", name);
    }
    for (count, (kind, colour)) in kinds.iter().zip(COLOURS).enumerate() {
        let y = TOP + 20.0 * count as f64 + 70.0;
        text += &format!(
            "<circle cx=\"{LEGEND:.1}\" cy=\"{:.1}\" r=\"5\" fill=\"{colour}\"/>\n",
            y - 4.0
        );
        text += &label(LEGEND + 14.0, y, "start", kind);
    }
    text
}
