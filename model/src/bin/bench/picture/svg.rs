//! The few shapes that the picture is made of.

use std::fmt::Write;

const INK: &str = "#1c2430";

pub struct Svg {
    text: String,
}

impl Svg {
    pub fn new(width: f64, height: f64) -> Svg {
        let text = format!(
            "<svg xmlns=\"http://www.w3.org/2000/svg\" viewBox=\"0 0 {width} {height}\" width=\"{width}\" \
             height=\"{height}\" font-family=\"Helvetica, Arial, sans-serif\">\n\
             <rect width=\"{width}\" height=\"{height}\" fill=\"#ffffff\"/>\n"
        );
        Svg { text }
    }

    pub fn end(self) -> String {
        self.text + "</svg>\n"
    }

    fn add(&mut self, shape: std::fmt::Arguments) {
        self.text.write_fmt(shape).expect("text grows");
        self.text.push('\n');
    }

    /// Words that begin at the place.
    pub fn text(&mut self, x: f64, y: f64, size: u32, words: &str) {
        self.anchored(x, y, size, "start", words);
    }

    /// Words of which the place is the `start`, the `middle` or the `end`.
    pub fn anchored(&mut self, x: f64, y: f64, size: u32, anchor: &str, words: &str) {
        self.add(format_args!(
            "<text x=\"{x:.1}\" y=\"{y:.1}\" font-size=\"{size}\" text-anchor=\"{anchor}\" fill=\"{INK}\">{words}</text>"
        ));
    }

    pub fn line(&mut self, from: (f64, f64), to: (f64, f64), colour: &str) {
        self.add(format_args!(
            "<line x1=\"{:.1}\" y1=\"{:.1}\" x2=\"{:.1}\" y2=\"{:.1}\" stroke=\"{colour}\" stroke-width=\"1\"/>",
            from.0, from.1, to.0, to.1
        ));
    }

    /// A line through the points, with a dot at each.
    pub fn curve(&mut self, points: &[(f64, f64)], colour: &str) {
        let path: Vec<String> = points.iter().map(|(x, y)| format!("{x:.1},{y:.1}")).collect();
        self.add(format_args!(
            "<polyline points=\"{}\" fill=\"none\" stroke=\"{colour}\" stroke-width=\"2.2\"/>",
            path.join(" ")
        ));
        for (x, y) in points {
            self.add(format_args!(
                "<circle cx=\"{x:.1}\" cy=\"{y:.1}\" r=\"2.8\" fill=\"{colour}\"/>"
            ));
        }
    }
}
