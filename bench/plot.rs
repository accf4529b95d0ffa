//! The growth as a picture: lines of points on logarithmic axes, as plain SVG text.
use std::fmt::Write;

/// One operation: (size, ours, plain Rust), times in nanoseconds.
pub struct Line {
    pub name: &'static str,
    pub points: Vec<(f64, f64, f64)>,
}

pub struct Panel {
    pub title: String,
    pub axis: &'static str,
    pub lines: Vec<Line>,
}

impl Panel {
    /// Takes the lesser time of each point of two panels of the same lines.
    pub fn take_better(&mut self, other: &Panel) {
        for (line, other) in self.lines.iter_mut().zip(&other.lines) {
            for (point, other) in line.points.iter_mut().zip(&other.points) {
                *point = (point.0, point.1.min(other.1), point.2.min(other.2));
            }
        }
    }
}

const WIDTH: f64 = 310.0;
const HEIGHT: f64 = 400.0;
const LEFT: f64 = 72.0;
const TOP: f64 = 50.0;
const ACROSS: f64 = 490.0;
const DOWN: f64 = 490.0;

/// The decades of the time axis: 1 µs to 10 s.
const FLOOR: f64 = 3.0;
const CEILING: f64 = 10.0;

fn height_of(time: f64) -> f64 {
    HEIGHT * (CEILING - time.log10()) / (CEILING - FLOOR)
}

fn path(points: impl Iterator<Item = (f64, f64)>) -> String {
    points.map(|(x, y)| format!("{x:.1},{y:.1}")).collect::<Vec<_>>().join(" ")
}

fn draw_panel(svg: &mut String, panel: &Panel, left: f64, top: f64) {
    let sizes: Vec<f64> = panel.lines[0].points.iter().map(|point| point.0).collect();
    let (least, most) = (sizes[0].ln(), sizes[sizes.len() - 1].ln());
    let across = |size: f64| 12.0 + (WIDTH - 24.0) * (size.ln() - least) / (most - least);
    writeln!(svg, "<g transform=\"translate({left},{top})\">").unwrap();
    writeln!(svg, "<text x=\"{}\" y=\"-12\" text-anchor=\"middle\" font-weight=\"bold\">{}</text>", WIDTH / 2.0, panel.title)
        .unwrap();
    writeln!(svg, "<rect width=\"{WIDTH}\" height=\"{HEIGHT}\" fill=\"none\" stroke=\"black\"/>").unwrap();
    for (decade, label) in ["1 µs", "10 µs", "100 µs", "1 ms", "10 ms", "100 ms", "1 s", "10 s"].iter().enumerate() {
        let y = height_of(10f64.powf(FLOOR + decade as f64));
        writeln!(svg, "<path d=\"M0 {y:.1}H{WIDTH}\" stroke=\"#bbb\" stroke-width=\"0.6\"/>").unwrap();
        writeln!(svg, "<text x=\"-6\" y=\"{:.1}\" text-anchor=\"end\">{label}</text>", y + 4.0).unwrap();
    }
    for size in &sizes {
        let x = across(*size);
        writeln!(svg, "<path d=\"M{x:.1} 0V{HEIGHT}\" stroke=\"#bbb\" stroke-width=\"0.6\"/>").unwrap();
        let label = crate::grouped(*size as usize);
        writeln!(svg, "<text x=\"{x:.1}\" y=\"{}\" text-anchor=\"middle\">{label}</text>", HEIGHT + 16.0).unwrap();
    }
    writeln!(svg, "<text x=\"{}\" y=\"{}\" text-anchor=\"middle\">{}</text>", WIDTH / 2.0, HEIGHT + 34.0, panel.axis).unwrap();
    let middle = HEIGHT / 2.0;
    writeln!(svg, "<text transform=\"translate(-58,{middle}) rotate(-90)\" text-anchor=\"middle\">time</text>").unwrap();
    let mut labels = vec![];
    for line in &panel.lines {
        let ours = path(line.points.iter().map(|(size, ours, _)| (across(*size), height_of(*ours))));
        let plain = path(line.points.iter().map(|(size, _, plain)| (across(*size), height_of(*plain))));
        writeln!(svg, "<polyline points=\"{plain}\" fill=\"none\" stroke=\"black\" stroke-dasharray=\"4 3\"/>").unwrap();
        writeln!(svg, "<polyline points=\"{ours}\" fill=\"none\" stroke=\"black\" stroke-width=\"1.6\"/>").unwrap();
        for (size, ours, _) in &line.points {
            writeln!(svg, "<circle cx=\"{:.1}\" cy=\"{:.1}\" r=\"2.6\"/>", across(*size), height_of(*ours)).unwrap();
        }
        labels.push((height_of(line.points[line.points.len() - 1].1), line.name));
    }
    labels.sort_by(|a, b| a.0.total_cmp(&b.0));
    let mut above = f64::MIN;
    for (y, name) in labels {
        above = f64::max(y + 4.0, above + 14.0);
        writeln!(svg, "<text x=\"{}\" y=\"{above:.1}\">{name}</text>", WIDTH + 6.0).unwrap();
    }
    writeln!(svg, "</g>").unwrap();
}

/// The panels, two in a row.
pub fn draw(panels: &[Panel]) -> String {
    let rows = panels.len().div_ceil(2) as f64;
    let (width, height) = (2.0 * ACROSS, DOWN * rows + 30.0);
    let mut svg = format!(
        "<svg xmlns=\"http://www.w3.org/2000/svg\" width=\"{width}\" height=\"{height}\" viewBox=\"0 0 {width} {height}\" \
         font-family=\"sans-serif\" font-size=\"12\">\n<rect width=\"{width}\" height=\"{height}\" fill=\"white\"/>\n"
    );
    for (k, panel) in panels.iter().enumerate() {
        draw_panel(&mut svg, panel, LEFT + ACROSS * (k % 2) as f64, TOP + DOWN * (k / 2) as f64);
    }
    let legend = "Solid with dots: ours. Dashed: the same method in plain Rust. Serving tells sums 1 to f; \
                  judging is of 8 stations, f strays at one.";
    writeln!(svg, "<text x=\"{LEFT}\" y=\"{}\">{legend}</text>", height - 12.0).unwrap();
    svg + "</svg>\n"
}
