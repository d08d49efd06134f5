//! Plots as SVG: panels side by side, two lines in each.

use std::fmt::Write;

/// A line of a panel, a value for each place across.
pub struct Line {
    pub name: &'static str,
    pub values: Vec<f64>,
}

pub struct Panel {
    pub title: String,
    /// The places across, each twice the one before.
    pub across: Vec<u32>,
    /// What the height means.
    pub up: &'static str,
    pub lines: [Line; 2],
    /// By powers, upwards from 1 and across; else in proportion, from 0.
    pub powers: bool,
}

const COLOURS: [&str; 2] = ["#0b62a4", "#c2571a"];
const WIDTH: f64 = 320.0;
const HEIGHT: f64 = 240.0;
/// Around the field of a panel: left, top, right, bottom.
const EDGES: [f64; 4] = [52.0, 40.0, 14.0, 38.0];

impl Panel {
    /// The greatest value of the lines, and 1 at the least.
    fn greatest(&self) -> f64 {
        self.lines.iter().flat_map(|line| &line.values).fold(1.0, |most, &value| value.max(most))
    }

    /// The values that have a line across the field: powers of ten, or a few multiples of 1, 2 or 5 times such a power.
    fn steps(&self) -> Vec<f64> {
        let greatest = self.greatest();
        if self.powers {
            let end = greatest.log10().ceil() as i32;
            return (0..=end.max(1)).map(|power| 10f64.powi(power)).collect();
        }
        let power = 10f64.powf(greatest.log10().floor() - 1.0);
        let step = [2.0, 5.0, 10.0, 20.0, 50.0].into_iter().map(|times| times * power);
        let step = step.into_iter().find(|step| greatest / step <= 5.0).expect("the last is half of the next power");
        (0..=(greatest / step).ceil() as u32).map(|i| f64::from(i) * step).collect()
    }

    /// How high a value stands, 0 to 1.
    fn height(&self, value: f64) -> f64 {
        let top = self.steps().pop().expect("there is a step");
        if self.powers {
            value.max(1.0).log10() / top.log10()
        } else {
            value / top
        }
    }

    /// How far to the right a place stands, 0 to 1.
    fn place(&self, i: usize) -> f64 {
        if self.powers {
            return i as f64 / (self.across.len() - 1) as f64;
        }
        f64::from(self.across[i]) / f64::from(self.across[self.across.len() - 1])
    }

    fn draw(&self, svg: &mut String, left: f64, top: f64) {
        let [before, above, behind, below] = EDGES;
        let (wide, high) = (WIDTH - before - behind, HEIGHT - above - below);
        let x = |place: f64| left + before + place * wide;
        let y = |height: f64| top + above + (1.0 - height) * high;
        text(svg, left + before, top + 16.0, "start", "bold", &self.title);
        text(svg, left + before, top + 31.0, "start", "normal", self.up);
        for value in self.steps() {
            let at = y(self.height(value));
            rule(svg, [x(0.0), at, x(1.0), at]);
            text(svg, x(0.0) - 5.0, at + 4.0, "end", "normal", &value.to_string());
        }
        for (i, across) in self.across.iter().enumerate() {
            text(svg, x(self.place(i)), y(0.0) + 16.0, "middle", "normal", &across.to_string());
        }
        for (line, colour) in self.lines.iter().zip(COLOURS) {
            let spots: Vec<_> =
                line.values.iter().enumerate().map(|(i, &value)| (x(self.place(i)), y(self.height(value)))).collect();
            let joined: Vec<_> = spots.iter().map(|(x, y)| format!("{x:.1},{y:.1}")).collect();
            let points = joined.join(" ");
            writeln!(svg, "<polyline points=\"{points}\" fill=\"none\" stroke=\"{colour}\" stroke-width=\"2\"/>")
                .unwrap();
            for (x, y) in spots {
                writeln!(svg, "<circle cx=\"{x:.1}\" cy=\"{y:.1}\" r=\"3\" fill=\"{colour}\"/>").unwrap();
            }
        }
    }
}

fn text(svg: &mut String, x: f64, y: f64, anchor: &str, weight: &str, said: &str) {
    let said = said.replace('&', "&amp;").replace('<', "&lt;");
    writeln!(svg, "<text x=\"{x:.1}\" y=\"{y:.1}\" text-anchor=\"{anchor}\" font-weight=\"{weight}\">{said}</text>")
        .unwrap();
}

fn rule(svg: &mut String, [x1, y1, x2, y2]: [f64; 4]) {
    writeln!(svg, "<line x1=\"{x1:.1}\" y1=\"{y1:.1}\" x2=\"{x2:.1}\" y2=\"{y2:.1}\" stroke=\"#cccccc\"/>").unwrap();
}

/// A plot of panels, so many in a row, with the names of the lines; `below` says what stands across.
pub fn svg(panels: &[Panel], in_row: usize, below: &str) -> String {
    let (wide, high) = (WIDTH * in_row as f64, HEIGHT * panels.len().div_ceil(in_row) as f64 + 34.0);
    let mut svg = format!(
        "<svg xmlns=\"http://www.w3.org/2000/svg\" viewBox=\"0 0 {wide} {high}\" width=\"{wide}\" height=\"{high}\" \
         font-family=\"sans-serif\" font-size=\"12\">\n<rect width=\"100%\" height=\"100%\" fill=\"white\"/>\n"
    );
    for (i, panel) in panels.iter().enumerate() {
        panel.draw(&mut svg, (i % in_row) as f64 * WIDTH, (i / in_row) as f64 * HEIGHT);
    }
    let mut x = EDGES[0];
    for (line, colour) in panels[0].lines.iter().zip(COLOURS) {
        writeln!(svg, "<circle cx=\"{x:.1}\" cy=\"{:.1}\" r=\"5\" fill=\"{colour}\"/>", high - 20.0).unwrap();
        text(&mut svg, x + 10.0, high - 16.0, "start", "normal", line.name);
        x += 40.0 + 7.0 * line.name.len() as f64;
    }
    text(&mut svg, x, high - 16.0, "start", "normal", below);
    svg + "</svg>\n"
}

#[cfg(test)]
mod tests {
    use super::*;

    fn panel(powers: bool) -> Panel {
        let line = |name, values: [f64; 3]| Line { name, values: values.to_vec() };
        let lines = [line("one", [1.0, 10.0, 40.0]), line("two", [2.0, 30.0, 35.0])];
        Panel { title: "a < b".to_string(), across: vec![1, 2, 4], up: "up", lines, powers }
    }

    #[test]
    fn scales() {
        let (even, powers) = (panel(false), panel(true));
        assert_eq!((even.steps(), even.height(20.0), even.place(1)), (vec![0.0, 10.0, 20.0, 30.0, 40.0], 0.5, 0.5));
        assert_eq!((powers.steps(), powers.height(10.0), powers.place(1)), (vec![1.0, 10.0, 100.0], 0.5, 0.5));
    }

    #[test]
    fn a_plot_holds_its_lines() {
        let svg = svg(&[panel(false), panel(true)], 2, "across");
        assert_eq!(svg.matches("<polyline").count(), 4);
        assert!(svg.contains("a &lt; b") && svg.ends_with("</svg>\n"));
    }
}
