//! The cost of reading against the size of the file, as a picture.
use super::artifacts::{measure, Walk};
use beside::inputs::artifacts::measured::{file, Of};
use beside::inputs::artifacts::Style;
use std::fmt::Write;
use std::path::Path;

const SIZES: [usize; 11] = [1, 50, 100, 150, 200, 300, 400, 500, 650, 800, 1_000];
const WIDTH: f64 = 720.0;
const HEIGHT: f64 = 420.0;
const EDGE: f64 = 60.0;
/// For the names behind the lines.
const RIGHT: f64 = 140.0;

/// Kilobytes of a file, and milliseconds of the original and of ours.
type Point = [f64; 3];

/// Measures stripped files of up to a megabyte, and writes the picture.
pub fn draw(to: &Path) {
    let points: Vec<Point> = SIZES.iter().map(|&kilobytes| point(kilobytes * 1_000)).collect();
    for [kilobytes, theirs, ours] in &points {
        println!("{kilobytes:>8.1} KB: Rust {theirs:>8.3} ms, ours {ours:>8.3} ms, ratio {:.2}", theirs / ours);
    }
    std::fs::write(to, picture(&points)).unwrap();
}

fn point(size: usize) -> Point {
    let bytes = file(Of::All, Style::Plain, size);
    let (least, items) = measure(&bytes, Walk(true));
    let [theirs, ours] = least.map(|time| time.as_secs_f64() * 1e3 * bytes.len() as f64 / items as f64);
    [bytes.len() as f64 / 1e3, theirs, ours]
}

/// Where a point stands in the picture, given what its edges stand for.
struct Scale {
    kilobytes: f64,
    milliseconds: f64,
}

impl Scale {
    fn place(&self, kilobytes: f64, milliseconds: f64) -> [f64; 2] {
        let x = EDGE + (WIDTH - EDGE - RIGHT) * kilobytes / self.kilobytes;
        [x, HEIGHT - EDGE - (HEIGHT - 2.0 * EDGE) * milliseconds / self.milliseconds]
    }
}

fn picture(points: &[Point]) -> String {
    let most = points.iter().map(|point| point[1].max(point[2])).fold(0.0, f64::max);
    let scale = Scale { kilobytes: 1_000.0, milliseconds: (most / 5.0).ceil() * 5.0 };
    let mut svg = format!(
        "<svg xmlns=\"http://www.w3.org/2000/svg\" viewBox=\"0 0 {WIDTH} {HEIGHT}\" font-family=\"sans-serif\" font-size=\"13\">\n\
         <rect width=\"{WIDTH}\" height=\"{HEIGHT}\" fill=\"#fff\"/>\n"
    );
    axes(&mut svg, &scale);
    line(&mut svg, &scale, points, 1, "the Rust original", "#b3541e");
    line(&mut svg, &scale, points, 2, "the proved reader", "#1b6ca8");
    svg + "</svg>\n"
}

fn text(svg: &mut String, [x, y]: [f64; 2], anchor: &str, words: &str) {
    writeln!(svg, "<text x=\"{x:.1}\" y=\"{y:.1}\" text-anchor=\"{anchor}\">{words}</text>").unwrap();
}

fn axes(svg: &mut String, scale: &Scale) {
    for k in 0..=5 {
        let milliseconds = scale.milliseconds * f64::from(k) / 5.0;
        let [x, y] = scale.place(0.0, milliseconds);
        let right = WIDTH - RIGHT;
        writeln!(svg, "<line x1=\"{x}\" y1=\"{y:.1}\" x2=\"{right}\" y2=\"{y:.1}\" stroke=\"#ddd\"/>").unwrap();
        text(svg, [x - 8.0, y + 4.0], "end", &format!("{milliseconds:.0}"));
    }
    for kilobytes in (0..=1_000).step_by(200) {
        let [x, y] = scale.place(f64::from(kilobytes), 0.0);
        text(svg, [x, y + 20.0], "middle", &kilobytes.to_string());
    }
    text(svg, [(WIDTH - RIGHT + EDGE) / 2.0, HEIGHT - 14.0], "middle", "size of a stripped artifact, in kilobytes");
    text(svg, [EDGE - 40.0, EDGE - 22.0], "start", "milliseconds to read it, best of 200");
}

/// One side's points, joined, with its name behind the line.
fn line(svg: &mut String, scale: &Scale, points: &[Point], side: usize, name: &str, colour: &str) {
    let places: Vec<[f64; 2]> = points.iter().map(|point| scale.place(point[0], point[side])).collect();
    let path: Vec<String> = places.iter().map(|[x, y]| format!("{x:.1},{y:.1}")).collect();
    writeln!(svg, "<polyline points=\"{}\" fill=\"none\" stroke=\"{colour}\" stroke-width=\"2\"/>", path.join(" ")).unwrap();
    for [x, y] in &places {
        writeln!(svg, "<circle cx=\"{x:.1}\" cy=\"{y:.1}\" r=\"3\" fill=\"{colour}\"/>").unwrap();
    }
    let [x, y] = places[places.len() - 1];
    text(svg, [x + 12.0, y + 4.0], "start", name);
}
