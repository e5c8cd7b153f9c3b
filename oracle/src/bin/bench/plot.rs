//! The picture of the pace of pairs, as SVG text: four lines over the number of pairs, on a logarithmic axis. Its
//! background is white, so that it reads alike on a light page and on a dark one.

use std::fmt::Write;

use crate::ratios::grouped;
use crate::stream_table::Pace;

/// The whole picture, and the area inside its axes.
const SIZE: (f64, f64) = (760.0, 420.0);
const LEFT: f64 = 70.0;
const RIGHT: f64 = 725.0;
const TOP: f64 = 60.0;
const BOTTOM: f64 = 360.0;

/// The numbers of pairs that the axis names.
const NAMED: [u64; 5] = [64, 1_000, 10_000, 100_000, 600_000];

/// About so many steps has the axis of paces.
const STEPS: f64 = 6.0;

/// A side has a colour, reading a whole line and full dots, writing a broken line and hollow dots.
struct Line {
    name: &'static str,
    colour: &'static str,
    is_broken: bool,
    pace: fn(&Pace) -> f64,
}

const OURS: &str = "#0b62a8";
const RUST: &str = "#c2541b";

const LINES: [Line; 4] = [
    Line {
        name: "Bridgenook reads",
        colour: OURS,
        is_broken: false,
        pace: |pace| pace.read.0,
    },
    Line {
        name: "the Rust reads",
        colour: RUST,
        is_broken: false,
        pace: |pace| pace.read.1,
    },
    Line {
        name: "Bridgenook writes",
        colour: OURS,
        is_broken: true,
        pace: |pace| pace.written.0,
    },
    Line {
        name: "the Rust writes",
        colour: RUST,
        is_broken: true,
        pace: |pace| pace.written.1,
    },
];

/// Where numbers lie in the picture.
struct Axes {
    least: f64,
    most: f64,
    step: f64,
    steps: u32,
}

impl Axes {
    fn around(paces: &[Pace]) -> Self {
        let pairs = || paces.iter().map(|pace| pace.pairs as f64);
        let all = paces
            .iter()
            .flat_map(|pace| LINES.map(|line| (line.pace)(pace)));
        let highest = all.fold(1.0, f64::max);
        let step = round_step(highest / STEPS);
        Self {
            least: pairs().fold(f64::INFINITY, f64::min),
            most: pairs().fold(1.0, f64::max),
            step,
            steps: (highest / step).ceil() as u32,
        }
    }

    fn x(&self, pairs: f64) -> f64 {
        LEFT + (RIGHT - LEFT) * (pairs / self.least).ln() / (self.most / self.least).ln()
    }

    fn y(&self, pace: f64) -> f64 {
        BOTTOM - (BOTTOM - TOP) * pace / (f64::from(self.steps) * self.step)
    }
}

/// 1, 2 or 5 with zeros: the least such number that is not below.
fn round_step(step: f64) -> f64 {
    let tens = 10f64.powf(step.log10().floor());
    let rounds = [1.0, 2.0, 5.0, 10.0].map(|round| round * tens);
    rounds
        .into_iter()
        .find(|&round| round >= step)
        .unwrap_or(step)
}

pub fn picture(paces: &[Pace]) -> String {
    let axes = Axes::around(paces);
    let (width, height) = SIZE;
    let mut svg = format!(
        "<svg xmlns=\"http://www.w3.org/2000/svg\" viewBox=\"0 0 {width} {height}\" width=\"{width}\" height=\"{height}\" \
         role=\"img\" font-family=\"sans-serif\" font-size=\"13\" fill=\"#222\">\n\
         <title>Million pairs read and written in a second, by the number of pairs in the list</title>\n\
         <rect width=\"{width}\" height=\"{height}\" fill=\"#fff\"/>\n"
    );
    draw_axes(&mut svg, &axes);
    let mut name_at = LEFT;
    for line in &LINES {
        name_at = line.draw_name(&mut svg, name_at);
        line.draw(&mut svg, &axes, paces);
    }
    svg + "</svg>\n"
}

fn draw_axes(svg: &mut String, axes: &Axes) {
    for step in 0..=axes.steps {
        let level = f64::from(step) * axes.step;
        let (y, colour) = (axes.y(level), if step == 0 { "#555" } else { "#ddd" });
        draw_stroke(svg, colour, (LEFT, y), (RIGHT, y));
        draw_text(svg, "end", (LEFT - 8.0, y + 4.5), &level.to_string());
    }
    for pairs in NAMED {
        let x = axes.x(pairs as f64);
        draw_stroke(svg, "#555", (x, BOTTOM), (x, BOTTOM + 5.0));
        draw_text(svg, "middle", (x, BOTTOM + 20.0), &grouped(pairs));
    }
    let (across, down) = ((LEFT + RIGHT) / 2.0, (TOP + BOTTOM) / 2.0);
    draw_text(svg, "middle", (across, BOTTOM + 44.0), "pairs in the list");
    let _ = writeln!(
        svg,
        "<text transform=\"translate(20 {down}) rotate(-90)\" text-anchor=\"middle\">million pairs in a second</text>"
    );
}

fn draw_stroke(svg: &mut String, colour: &str, from: (f64, f64), to: (f64, f64)) {
    let ((x1, y1), (x2, y2)) = (from, to);
    let _ = writeln!(
        svg,
        "<line x1=\"{x1:.1}\" y1=\"{y1:.1}\" x2=\"{x2:.1}\" y2=\"{y2:.1}\" stroke=\"{colour}\"/>"
    );
}

fn draw_text(svg: &mut String, anchor: &str, (x, y): (f64, f64), text: &str) {
    let _ = writeln!(
        svg,
        "<text x=\"{x:.1}\" y=\"{y:.1}\" text-anchor=\"{anchor}\">{text}</text>"
    );
}

impl Line {
    fn draw(&self, svg: &mut String, axes: &Axes, paces: &[Pace]) {
        let at = |pace: &Pace| (axes.x(pace.pairs as f64), axes.y((self.pace)(pace)));
        self.draw_through(svg, &paces.iter().map(at).collect::<Vec<_>>());
    }

    /// In a row above the axes, from here on. Where the next one may begin, by the width that letters have on average.
    fn draw_name(&self, svg: &mut String, x: f64) -> f64 {
        let y = TOP - 28.0;
        self.draw_through(svg, &[(x, y), (x + 15.0, y), (x + 30.0, y)]);
        draw_text(svg, "start", (x + 38.0, y + 4.5), self.name);
        x + 38.0 + 7.2 * self.name.len() as f64 + 20.0
    }

    fn draw_through(&self, svg: &mut String, points: &[(f64, f64)]) {
        let colour = self.colour;
        let (dashes, dot) = match self.is_broken {
            true => (" stroke-dasharray=\"6 4\"", "#fff"),
            false => ("", colour),
        };
        let places: Vec<_> = points
            .iter()
            .map(|(x, y)| format!("{x:.1},{y:.1}"))
            .collect();
        let _ = writeln!(
            svg,
            "<polyline points=\"{}\" fill=\"none\" stroke=\"{colour}\" stroke-width=\"2\"{dashes}/>",
            places.join(" ")
        );
        for (x, y) in points {
            let _ = writeln!(
                svg,
                "<circle cx=\"{x:.1}\" cy=\"{y:.1}\" r=\"3\" fill=\"{dot}\" stroke=\"{colour}\" stroke-width=\"1.5\"/>"
            );
        }
    }
}
