//! A plot as SVG: lines over logarithmic scales.

use std::fmt::Write;

/// A line with its name, through its points.
pub struct Line {
    /// What stands beside its last point.
    pub name: String,
    /// Dashed, where it is compared with another.
    pub dashed: bool,
    /// Across and up, both above zero.
    pub points: Vec<(f64, f64)>,
}

/// Lines, and what the two scales count.
pub struct Plot {
    /// What is counted from left to right.
    pub across: String,
    /// What is counted from the bottom up.
    pub up: String,
    /// Two lines that belong together, whole and dashed, stand one behind the other and have one colour.
    pub lines: Vec<Line>,
}

const COLOURS: [&str; 4] = ["#0b62a4", "#b8460e", "#2e7d32", "#7b3f98"];
const LEFT: f64 = 70.0;
const TOP: f64 = 20.0;
const WIDTH: f64 = 420.0;
const HEIGHT: f64 = 340.0;

/// A logarithmic scale from the power of ten at or below the least value to the one at or above the greatest.
struct Scale {
    low: f64,
    high: f64,
}

impl Scale {
    fn of(values: impl Iterator<Item = f64> + Clone) -> Scale {
        let least = values.clone().fold(f64::INFINITY, f64::min);
        let greatest = values.fold(0.0, f64::max);
        Scale { low: least.log10().floor(), high: greatest.log10().ceil().max(least.log10().floor() + 1.0) }
    }

    /// Where a value stands, 0 at the low end and 1 at the high one.
    fn place(&self, value: f64) -> f64 {
        (value.log10() - self.low) / (self.high - self.low)
    }

    /// The powers of ten on it.
    fn marks(&self) -> impl Iterator<Item = f64> {
        (self.low as i32..=self.high as i32).map(|power| 10_f64.powi(power))
    }
}

impl Plot {
    /// The plot as a file of its own.
    pub fn svg(&self) -> String {
        let points = || self.lines.iter().flat_map(|line| &line.points);
        let across = Scale::of(points().map(|point| point.0));
        let up = Scale::of(points().map(|point| point.1));
        let x = |value: f64| LEFT + WIDTH * across.place(value);
        let y = |value: f64| TOP + HEIGHT * (1.0 - up.place(value));
        let (right, bottom) = (LEFT + WIDTH, TOP + HEIGHT);
        let mut out = String::new();
        let mut say = |text: String| writeln!(out, "{text}").expect("a string takes all");
        say(format!("<svg xmlns=\"http://www.w3.org/2000/svg\" viewBox=\"0 0 {} {}\"", right + 190.0, bottom + 50.0));
        say("  font-family=\"sans-serif\" font-size=\"12\">".into());
        say("<rect width=\"100%\" height=\"100%\" fill=\"white\"/>".into());
        for mark in across.marks() {
            let at = x(mark);
            say(format!("<path d=\"M{at:.1} {TOP}V{bottom}\" stroke=\"#ddd\"/>"));
            say(format!("<text x=\"{at:.1}\" y=\"{}\" text-anchor=\"middle\">{mark}</text>", bottom + 18.0));
        }
        for mark in up.marks() {
            let at = y(mark);
            say(format!("<path d=\"M{LEFT} {at:.1}H{right}\" stroke=\"#ddd\"/>"));
            say(format!("<text x=\"{}\" y=\"{:.1}\" text-anchor=\"end\">{mark}</text>", LEFT - 8.0, at + 4.0));
        }
        let middle = LEFT + WIDTH / 2.0;
        say(format!("<text x=\"{middle}\" y=\"{}\" text-anchor=\"middle\">{}</text>", bottom + 40.0, self.across));
        let side = TOP + HEIGHT / 2.0;
        say(format!(
            "<text x=\"16\" y=\"{side}\" text-anchor=\"middle\" transform=\"rotate(-90 16 {side})\">{}</text>",
            self.up
        ));
        for (index, line) in self.lines.iter().enumerate() {
            let colour = COLOURS[index / 2 % COLOURS.len()];
            let dash = if line.dashed { " stroke-dasharray=\"5 4\"" } else { "" };
            let way: Vec<String> = line.points.iter().map(|&(a, b)| format!("{:.1} {:.1}", x(a), y(b))).collect();
            say(format!("<path d=\"M{}\" fill=\"none\" stroke=\"{colour}\"{dash}/>", way.join("L")));
            let row = TOP + 14.0 + 20.0 * index as f64;
            let from = right + 14.0;
            say(format!("<path d=\"M{from} {row}h26\" stroke=\"{colour}\"{dash}/>"));
            say(format!("<text x=\"{}\" y=\"{}\">{}</text>", from + 32.0, row + 4.0, line.name));
        }
        say("</svg>".into());
        out
    }
}

#[cfg(test)]
mod tests {
    use super::*;

    #[test]
    fn points_stand_where_the_scale_has_them() {
        let scale = Scale::of([20.0, 3000.0].into_iter());
        assert_eq!((scale.low, scale.high), (1.0, 4.0));
        assert!((scale.place(10.0) - 0.0).abs() < 1e-9);
        assert!((scale.place(100.0) - 1.0 / 3.0).abs() < 1e-9);
        assert_eq!(scale.marks().collect::<Vec<_>>(), [10.0, 100.0, 1000.0, 10000.0]);
    }

    #[test]
    fn each_line_is_drawn_and_named() {
        let line = |name: &str, dashed| Line { name: name.into(), dashed, points: vec![(10.0, 5.0), (1000.0, 50.0)] };
        let plot = Plot { across: "a".into(), up: "b".into(), lines: vec![line("one", false), line("two", true)] };
        let svg = plot.svg();
        assert!(svg.contains(">one</text>") && svg.contains(">two</text>"));
        assert_eq!(svg.matches("stroke-dasharray").count(), 2);
        assert!(svg.contains("M70.0 241.2L490.0 71.2"));
    }
}
