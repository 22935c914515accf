//! Charts as SVG. Each is a card with a background of its own, so that it reads on a light page and on a dark one. Numbers have one
//! decimal, so that files are small.

use std::fmt::Write;

/// The card, and the part of it that the axes enclose, in pixels.
const CARD: [f32; 2] = [480.0, 320.0];
const LEFT: f32 = 46.0;
const RIGHT: f32 = 466.0;
const TOP: f32 = 34.0;
const BOTTOM: f32 = 276.0;

const PAPER: &str = "#fbf9f4";
const INK: &str = "#2b2a28";
const FAINT: &str = "#dcd7cb";

/// How words stand to their point.
const BEHIND: &str = r#"text-anchor="start""#;
const ABOUT: &str = r#"text-anchor="middle""#;
const BEFORE: &str = r#"text-anchor="end""#;

/// An axis from 0 to `end`, with a number at every `tick`.
pub struct Axis {
    pub label: &'static str,
    pub end: f32,
    pub tick: f32,
}

impl Axis {
    fn ticks(&self) -> impl Iterator<Item = f32> {
        let tick = self.tick;
        (0..=(self.end / tick) as usize).map(move |place| place as f32 * tick)
    }
}

/// What is drawn on a card with two axes.
pub struct Chart {
    axes: [Axis; 2],
    text: String,
}

impl Chart {
    /// A card with a title, the axes' labels and numbers, and nothing in it yet.
    pub fn new(title: &str, axes: [Axis; 2]) -> Chart {
        let mut chart = Chart { axes, text: String::new() };
        let [width, height] = CARD;
        let size = format!(r#"viewBox="0 0 {0} {1}" width="{0}" height="{1}""#, width, height);
        let font = r#"font-family="Helvetica, Arial, sans-serif" font-size="12""#;
        chart.put(&format!(r#"<svg xmlns="http://www.w3.org/2000/svg" {} role="img" {} fill="{}">"#, size, font, INK));
        chart.put(&format!("<title>{}</title>", title));
        chart.put(&format!(r#"<rect width="{}" height="{}" rx="8" fill="{}"/>"#, width, height, PAPER));
        chart.words([LEFT, 22.0], &format!(r#"{} font-size="14" font-weight="bold""#, BEHIND), title);
        chart.scales();
        chart
    }

    /// Faint lines at the ticks with their numbers, and the labels.
    fn scales(&mut self) {
        let [across, up] = [0, 1].map(|axis| self.axes[axis].ticks());
        let mut lines = String::new();
        for number in across {
            let [x, _] = self.at([number, 0.0]);
            let _ = write!(lines, "M{:.1} {}V{}", x, TOP, BOTTOM);
            self.words([x, BOTTOM + 16.0], ABOUT, &number.to_string());
        }
        for number in up {
            let [_, y] = self.at([0.0, number]);
            let _ = write!(lines, "M{} {:.1}H{}", LEFT, y, RIGHT);
            self.words([LEFT - 7.0, y + 4.0], BEFORE, &number.to_string());
        }
        self.path(&lines, FAINT, r#"stroke-width="1""#);
        let [across, up] = [self.axes[0].label, self.axes[1].label];
        self.words([(LEFT + RIGHT) * 0.5, BOTTOM + 34.0], ABOUT, across);
        let turn = format!(r#"{} transform="translate(14 {}) rotate(-90)""#, ABOUT, (TOP + BOTTOM) * 0.5);
        self.words([0.0, 0.0], &turn, up);
    }

    /// Where a point of the axes lies on the card.
    fn at(&self, [x, y]: [f32; 2]) -> [f32; 2] {
        let [across, up] = [x / self.axes[0].end, y / self.axes[1].end];
        [LEFT + across * (RIGHT - LEFT), BOTTOM - up * (BOTTOM - TOP)]
    }

    fn put(&mut self, line: &str) {
        self.text.push_str(line);
        self.text.push('\n');
    }

    fn path(&mut self, steps: &str, colour: &str, with: &str) {
        self.put(&format!(r#"<path d="{}" fill="none" stroke="{}" {}/>"#, steps, colour, with));
    }

    fn words(&mut self, [x, y]: [f32; 2], with: &str, words: &str) {
        self.put(&format!(r#"<text x="{:.1}" y="{:.1}" {}>{}</text>"#, x, y, with, words));
    }

    /// A line through points, so many pixels thick.
    pub fn line(&mut self, points: &[[f32; 2]], colour: &str, thick: f32) {
        let mut steps = String::new();
        for (place, point) in points.iter().enumerate() {
            let [x, y] = self.at(*point);
            let _ = write!(steps, "{}{:.1} {:.1}", if place == 0 { 'M' } else { 'L' }, x, y);
        }
        self.path(&steps, colour, &format!(r#"stroke-width="{}" stroke-linejoin="round""#, thick));
    }

    /// Dots of one colour, so many pixels across: lines of no length with round ends.
    pub fn dots(&mut self, points: &[[f32; 2]], colour: &str, across: f32) {
        let mut steps = String::new();
        for point in points {
            let [x, y] = self.at(*point);
            let _ = write!(steps, "M{:.1} {:.1}h0", x, y);
        }
        self.path(&steps, colour, &format!(r#"stroke-width="{}" stroke-linecap="round""#, across));
    }

    /// Words of one colour that end at a point.
    pub fn note(&mut self, point: [f32; 2], words: &str, colour: &str) {
        let at = self.at(point);
        self.words(at, &format!(r#"{} fill="{}""#, BEFORE, colour), words);
    }

    pub fn finished(mut self) -> String {
        self.put("</svg>");
        self.text
    }
}

#[cfg(test)]
mod tests {
    use super::*;

    fn chart() -> Chart {
        Chart::new("title", [Axis { label: "across", end: 10.0, tick: 4.0 }, Axis { label: "up", end: 2.0, tick: 1.0 }])
    }

    #[test]
    fn the_axes_enclose_the_chart() {
        assert_eq!(chart().at([0.0, 0.0]), [LEFT, BOTTOM]);
        assert_eq!(chart().at([10.0, 2.0]), [RIGHT, TOP]);
        assert_eq!(chart().axes[0].ticks().collect::<Vec<_>>(), [0.0, 4.0, 8.0]);
    }

    #[test]
    fn what_is_drawn_stands_in_the_text() {
        let mut chart = chart();
        chart.dots(&[[0.0, 0.0], [5.0, 1.0]], "red", 2.0);
        chart.line(&[[0.0, 0.0], [5.0, 1.0]], "blue", 1.5);
        chart.note([10.0, 2.0], "note", "green");
        let text = chart.finished();
        let parts = [
            r#"d="M46.0 276.0h0M256.0 155.0h0" fill="none" stroke="red" stroke-width="2" stroke-linecap="round""#,
            r#"d="M46.0 276.0L256.0 155.0" fill="none" stroke="blue" stroke-width="1.5""#,
            r#"<text x="466.0" y="34.0" text-anchor="end" fill="green">note</text>"#,
            "<title>title</title>",
            ">across</text>",
            ">up</text>",
        ];
        parts.iter().for_each(|part| assert!(text.contains(part), "{} in {}", part, text));
        assert!(text.starts_with("<svg ") && text.ends_with("</svg>\n"));
    }
}
