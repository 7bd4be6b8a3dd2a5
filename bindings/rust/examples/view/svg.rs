//! The picture: x to the right, y up, seen from above.

use crate::scene::{Dot, Scene};
use std::fmt::Write;

/// The plot is at most so large, in pixels, with room around it.
const WIDTH: f64 = 820.0;
const HEIGHT: f64 = 620.0;
const LEFT: f64 = 74.0;
const RIGHT: f64 = 118.0;
const BOTTOM: f64 = 92.0;

/// From one line of the caption to the next.
const LINE: f64 = 18.0;

/// Where the plot starts: below the caption, with room for two lines or more.
fn top(caption: &[String]) -> f64 {
    56.0 + LINE * caption.len().max(2) as f64
}

/// From near to far.
const COLOURS: [[f64; 3]; 5] = [
    [250.0, 168.0, 50.0],
    [226.0, 82.0, 62.0],
    [176.0, 42.0, 111.0],
    [106.0, 30.0, 150.0],
    [40.0, 50.0, 140.0],
];

/// As many colours as are told apart in the picture.
const SHADES: usize = 32;

fn colour(shade: usize) -> String {
    let along = shade as f64 / (SHADES - 1) as f64 * (COLOURS.len() - 1) as f64;
    let first = (along as usize).min(COLOURS.len() - 2);
    let part = along - first as f64;
    let mixed = |i: usize| COLOURS[first][i] * (1.0 - part) + COLOURS[first + 1][i] * part;
    format!(
        "#{:02x}{:02x}{:02x}",
        mixed(0) as u8,
        mixed(1) as u8,
        mixed(2) as u8
    )
}

/// A rectangle in metres.
#[derive(Clone, Copy, Debug, PartialEq)]
struct Bounds {
    x: [f64; 2],
    y: [f64; 2],
}

impl Bounds {
    /// All dots and the sensor, with some room around them, and no thin strip.
    fn new(dots: &[Dot]) -> Bounds {
        let mut x = [0.0f64; 2];
        let mut y = [0.0f64; 2];
        for dot in dots {
            x = [x[0].min(dot.x), x[1].max(dot.x)];
            y = [y[0].min(dot.y), y[1].max(dot.y)];
        }
        let larger = (x[1] - x[0]).max(y[1] - y[0]);
        let room = if larger == 0.0 { 1.0 } else { 0.05 * larger };
        let widen = |side: [f64; 2]| {
            let least = 0.3 * larger - (side[1] - side[0]);
            let more = room + (least / 2.0 - room).max(0.0);
            [side[0] - more, side[1] + more]
        };
        Bounds {
            x: widen(x),
            y: widen(y),
        }
    }

    fn width(&self) -> f64 {
        self.x[1] - self.x[0]
    }

    fn height(&self) -> f64 {
        self.y[1] - self.y[0]
    }
}

/// 1, 2 or 5 times a power of ten: the smallest that is at least so much.
fn round_step(least: f64) -> f64 {
    let power = 10f64.powf(least.log10().floor());
    let steps = [1.0, 2.0, 5.0, 10.0].map(|factor| factor * power);
    let fits = |step: &&f64| **step >= least * (1.0 - 1e-9);
    *steps.iter().find(fits).unwrap_or(&steps[3])
}

/// A whole number of steps, with the decimals that the step has.
fn label(value: f64, step: f64) -> String {
    let decimals = (-step.log10().floor()).max(0.0) as usize;
    let text = format!("{value:.decimals$}");
    text.replace('-', "\u{2212}")
}

/// Text that XML takes: no mark of its own, and no control character.
fn escaped(text: &str) -> String {
    let mut out = String::new();
    for letter in text.chars() {
        match letter {
            '&' => out += "&amp;",
            '<' => out += "&lt;",
            '>' => out += "&gt;",
            '"' => out += "&quot;",
            _ if letter.is_control() || ('\u{FFFE}'..='\u{FFFF}').contains(&letter) => {
                out.push('\u{FFFD}');
            }
            _ => out.push(letter),
        }
    }
    out
}

/// Where metres stand in the picture.
struct Plot {
    bounds: Bounds,
    top: f64,
    /// Pixels a metre.
    scale: f64,
    width: f64,
    height: f64,
    step: f64,
}

impl Plot {
    fn new(bounds: Bounds, top: f64) -> Plot {
        let scale = (WIDTH / bounds.width()).min(HEIGHT / bounds.height());
        let (width, height) = (scale * bounds.width(), scale * bounds.height());
        Plot {
            bounds,
            top,
            scale,
            width,
            height,
            step: round_step(75.0 / scale),
        }
    }

    fn x(&self, metres: f64) -> f64 {
        LEFT + (metres - self.bounds.x[0]) * self.scale
    }

    fn y(&self, metres: f64) -> f64 {
        self.top + (self.bounds.y[1] - metres) * self.scale
    }

    /// The whole numbers of steps inside a side.
    fn ticks(&self, side: [f64; 2]) -> impl Iterator<Item = f64> + '_ {
        let (first, last) = ((side[0] / self.step).ceil(), (side[1] / self.step).floor());
        // Adding 0.0 makes the zero of a negative side a plain one.
        (first as i64..=last as i64).map(|i| i as f64 * self.step + 0.0)
    }
}

/// The dots that are seen from above, at most one for each pixel: the highest.
fn seen<'a>(plot: &Plot, dots: &'a [Dot]) -> Vec<&'a Dot> {
    let columns = plot.width as usize + 1;
    let rows = plot.height as usize + 1;
    let mut pixels: Vec<Option<&Dot>> = vec![None; columns * rows];
    for dot in dots {
        let column = ((plot.x(dot.x) - LEFT) as usize).min(columns - 1);
        let row = ((plot.y(dot.y) - plot.top) as usize).min(rows - 1);
        let pixel = &mut pixels[row * columns + column];
        if !matches!(pixel, Some(other) if other.z >= dot.z) {
            *pixel = Some(dot);
        }
    }
    pixels.into_iter().flatten().collect()
}

/// The nearest and the farthest range, apart from each other.
fn ranges(dots: &[Dot]) -> [f64; 2] {
    let near = dots
        .iter()
        .map(|dot| dot.range)
        .fold(f64::INFINITY, f64::min);
    let far = dots.iter().map(|dot| dot.range).fold(0.0, f64::max);
    if near > far {
        [0.0, 1.0]
    } else {
        [near, far.max(near + 1e-3)]
    }
}

pub fn draw(scene: &Scene, title: &str, caption: &[String]) -> String {
    let plot = Plot::new(Bounds::new(&scene.dots), top(caption));
    let (width, height) = (
        LEFT + plot.width.max(420.0) + RIGHT,
        plot.top + plot.height + BOTTOM,
    );
    let mut out = String::new();
    // Writing to a string does not fail.
    let _ = write!(
        out,
        "<svg xmlns=\"http://www.w3.org/2000/svg\" width=\"{width:.0}\" height=\"{height:.0}\" \
         viewBox=\"0 0 {width:.0} {height:.0}\" font-family=\"Helvetica, Arial, 'DejaVu Sans', sans-serif\" \
         font-size=\"13\" fill=\"#444\">\n\
         <title>{0}</title>\n\
         <rect width=\"100%\" height=\"100%\" fill=\"#fff\"/>\n\
         <text x=\"{LEFT}\" y=\"34\" font-size=\"19\" font-weight=\"bold\" fill=\"#222\">{0}</text>\n",
        escaped(title)
    );
    for (i, line) in caption.iter().enumerate() {
        let y = 56.0 + LINE * i as f64;
        let _ = writeln!(out, "<text x=\"{LEFT}\" y=\"{y}\">{}</text>", escaped(line));
    }
    grid(&mut out, &plot);
    let ranges = ranges(&scene.dots);
    points(&mut out, &plot, &scene.dots, ranges);
    axis(&mut out, &plot);
    if !scene.dots.is_empty() {
        legend(&mut out, &plot, ranges);
    }
    out += "</svg>\n";
    out
}

fn grid(out: &mut String, plot: &Plot) {
    let top = plot.top;
    let (right, bottom) = (LEFT + plot.width, top + plot.height);
    let _ = writeln!(
        out,
        "<rect x=\"{LEFT}\" y=\"{top}\" width=\"{:.1}\" height=\"{:.1}\" fill=\"#fafafa\" stroke=\"#ccc\"/>",
        plot.width, plot.height
    );
    let mut lines = String::new();
    for value in plot.ticks(plot.bounds.x) {
        let (x, text) = (plot.x(value), label(value, plot.step));
        let _ = write!(lines, "M{x:.1} {top}V{bottom:.1}");
        let y = bottom + 18.0;
        let _ = writeln!(
            out,
            "<text x=\"{x:.1}\" y=\"{y:.1}\" text-anchor=\"middle\">{text}</text>"
        );
    }
    for value in plot.ticks(plot.bounds.y) {
        let (y, text) = (plot.y(value), label(value, plot.step));
        let _ = write!(lines, "M{LEFT} {y:.1}H{right:.1}");
        let (x, y) = (LEFT - 8.0, y + 4.0);
        let _ = writeln!(
            out,
            "<text x=\"{x:.1}\" y=\"{y:.1}\" text-anchor=\"end\">{text}</text>"
        );
    }
    let _ = writeln!(
        out,
        "<path d=\"{lines}\" stroke=\"#e4e4e4\" fill=\"none\"/>"
    );
    let (x, y) = (LEFT - 46.0, top + plot.height / 2.0);
    let _ = writeln!(
        out,
        "<text x=\"{x:.1}\" y=\"{y:.1}\" text-anchor=\"middle\" transform=\"rotate(-90 {x:.1} {y:.1})\">y in m</text>"
    );
    // The scale: one step of the grid.
    let (x, y, long) = (LEFT, bottom + 52.0, plot.step * plot.scale);
    let _ = writeln!(
        out,
        "<path d=\"M{x} {:.1}v8m0 -4h{long:.1}m0 -4v8\" stroke=\"#444\" stroke-width=\"1.5\" fill=\"none\"/>\n\
         <text x=\"{:.1}\" y=\"{:.1}\">{} m</text>",
        y - 4.0,
        x + long + 8.0,
        y + 4.5,
        label(plot.step, plot.step)
    );
}

fn points(out: &mut String, plot: &Plot, dots: &[Dot], [near, far]: [f64; 2]) {
    let dots = seen(plot, dots);
    let size = match dots.len() {
        0..=999 => 5.5,
        1000..=4999 => 3.0,
        5000..=49_999 => 2.0,
        _ => 1.3,
    };
    let mut shades = vec![String::new(); SHADES];
    for dot in dots {
        let along = (dot.range - near) / (far - near) * (SHADES - 1) as f64;
        let shade = &mut shades[(along.round() as usize).min(SHADES - 1)];
        let _ = write!(shade, "M{:.1} {:.1}h0", plot.x(dot.x), plot.y(dot.y));
    }
    // A line of no length with round ends is a dot.
    let _ = writeln!(
        out,
        "<g fill=\"none\" stroke-linecap=\"round\" stroke-width=\"{size}\">"
    );
    // The nearest come last, and lie above.
    for (shade, path) in shades.iter().enumerate().rev() {
        if !path.is_empty() {
            let _ = writeln!(out, "<path stroke=\"{}\" d=\"{path}\"/>", colour(shade));
        }
    }
    *out += "</g>\n";
}

/// The belt's axis, and the sensor at its 0.
fn axis(out: &mut String, plot: &Plot) {
    let (x, y, right) = (plot.x(0.0), plot.y(0.0), LEFT + plot.width);
    let _ = writeln!(
        out,
        "<path d=\"M{LEFT} {y:.1}H{:.1}\" stroke=\"#222\" stroke-width=\"1.2\" stroke-dasharray=\"7 4\" fill=\"none\"/>\n\
         <path d=\"M{right:.1} {y:.1}m12 0l-12 -5v10z\" fill=\"#222\"/>\n\
         <text x=\"{:.1}\" y=\"{:.1}\" fill=\"#222\">x, the</text>\n\
         <text x=\"{:.1}\" y=\"{:.1}\" fill=\"#222\">belt's axis</text>\n\
         <circle cx=\"{x:.1}\" cy=\"{y:.1}\" r=\"6\" fill=\"#fff\" stroke=\"#222\" stroke-width=\"1.5\"/>\n\
         <circle cx=\"{x:.1}\" cy=\"{y:.1}\" r=\"1.8\" fill=\"#222\"/>",
        right,
        right + 18.0,
        y - 3.0,
        right + 18.0,
        y + 13.0,
    );
    let (x, y) = (LEFT + plot.width, plot.top + plot.height + 56.5);
    let _ = writeln!(
        out,
        "<g transform=\"translate({:.1} {:.1})\"><circle cx=\"0\" cy=\"-4.5\" r=\"6\" fill=\"#fff\" stroke=\"#222\" stroke-width=\"1.5\"/>\
         <circle cx=\"0\" cy=\"-4.5\" r=\"1.8\" fill=\"#222\"/><text x=\"12\">sensor</text></g>\n\
         <text x=\"{:.1}\" y=\"{:.1}\" text-anchor=\"middle\">x in m</text>",
        sensor_start(plot),
        y,
        (LEFT + x) / 2.0,
        plot.top + plot.height + 38.0,
    );
}

/// How long the band of colours is.
const LEGEND: f64 = 160.0;

/// Where the mark of the sensor stands below the plot: after the scale and its label.
fn sensor_start(plot: &Plot) -> f64 {
    LEFT + plot.step * plot.scale + 80.0
}

/// Where the band of colours starts: it ends with the plot, unless the mark of the sensor is there.
fn legend_start(plot: &Plot) -> f64 {
    (LEFT + plot.width - LEGEND).max(sensor_start(plot) + 90.0)
}

/// The colours, from the nearest to the farthest range.
fn legend(out: &mut String, plot: &Plot, [near, far]: [f64; 2]) {
    let (x, long, thick) = (legend_start(plot), LEGEND, 10.0);
    let y = plot.top + plot.height + 46.0;
    let part = long / SHADES as f64;
    for shade in 0..SHADES {
        // A little wider than its part, so that no gap shows between two.
        let _ = writeln!(
            out,
            "<rect x=\"{:.2}\" y=\"{y:.1}\" width=\"{:.2}\" height=\"{thick}\" fill=\"{}\"/>",
            x + shade as f64 * part,
            part + 0.4,
            colour(shade)
        );
    }
    let below = y + thick + 16.0;
    let _ = writeln!(
        out,
        "<text x=\"{x:.1}\" y=\"{below:.1}\">{near:.1} m</text>\n\
         <text x=\"{:.1}\" y=\"{below:.1}\" text-anchor=\"middle\">range</text>\n\
         <text x=\"{:.1}\" y=\"{below:.1}\" text-anchor=\"end\">{far:.1} m</text>",
        x + long / 2.0,
        x + long,
    );
}

#[cfg(test)]
mod tests {
    use super::*;
    use crate::scene::Angles;
    use lidar::Point;

    fn dot(x: f64, y: f64, z: f64) -> Dot {
        let range = (x * x + y * y + z * z).sqrt();
        Dot { x, y, z, range }
    }

    #[test]
    fn steps_are_round() {
        for (least, step) in [
            (0.9, 1.0),
            (1.0, 1.0),
            (1.1, 2.0),
            (2.0, 2.0),
            (2.1, 5.0),
            (5.0, 5.0),
            (5.1, 10.0),
            (0.011, 0.02),
            (130.0, 200.0),
        ] {
            assert!((round_step(least) - step).abs() < 1e-9 * step, "{least}");
        }
        assert_eq!(label(-1.5, 0.5), "\u{2212}1.5");
        assert_eq!(label(20.0, 10.0), "20");
        assert_eq!(label(0.04, 0.02), "0.04");
    }

    #[test]
    fn bounds_hold_the_dots_and_the_sensor() {
        for dots in [
            vec![],
            vec![dot(0.0, 0.0, 0.0)],
            vec![dot(3.0, 0.0, 0.0), dot(5.0, 0.5, 0.0)],
            vec![dot(-900.0, 1.0, 0.0)],
        ] {
            let bounds = Bounds::new(&dots);
            for Dot { x, y, .. } in dots.iter().copied().chain([dot(0.0, 0.0, 0.0)]) {
                assert!(bounds.x[0] < x && x < bounds.x[1], "{bounds:?}");
                assert!(bounds.y[0] < y && y < bounds.y[1], "{bounds:?}");
            }
            let ratio = bounds.width() / bounds.height();
            assert!((0.29..3.7).contains(&ratio), "{ratio}");
        }
    }

    #[test]
    fn of_dots_in_one_pixel_the_highest_is_seen() {
        let dots = [
            dot(1.0, 1.0, -2.0),
            dot(1.0, 1.0, -1.0),
            dot(1.0, 1.0, -3.0),
            dot(2.0, 1.0, -5.0),
            // Near the lower edge, one below the other.
            dot(2.0, 0.1, -6.0),
            dot(2.0, 0.0, -7.0),
        ];
        let plot = Plot::new(Bounds::new(&dots), top(&[]));
        let mut heights: Vec<_> = seen(&plot, &dots).iter().map(|dot| dot.z).collect();
        heights.sort_by(f64::total_cmp);
        assert_eq!(heights, [-7.0, -6.0, -5.0, -1.0]);
    }

    #[test]
    fn each_dot_is_drawn_where_it_stands() {
        let points = [
            Point::Cartesian {
                x: 2.0,
                y: 1.0,
                z: 0.0,
            },
            Point::Cartesian {
                x: -2.0,
                y: -1.0,
                z: 0.0,
            },
        ];
        let scene = Scene::new(&points, Angles::Livox, 1000.0);
        let picture = draw(&scene, "a", &[]);
        let plot = Plot::new(Bounds::new(&scene.dots), top(&[]));
        // x to the right, and y up.
        assert!(plot.x(2.0) > plot.x(-2.0) && plot.y(1.0) < plot.y(-1.0));
        for (x, y) in [(2.0, 1.0), (-2.0, -1.0)] {
            assert!(picture.contains(&format!("M{:.1} {:.1}h0", plot.x(x), plot.y(y))));
        }
        assert_eq!(picture.matches("h0").count(), 2);
        assert!(!picture.contains("NaN") && !picture.contains("inf"));
    }

    #[test]
    fn the_plot_starts_below_the_caption() {
        let scene = Scene::new(&[], Angles::Livox, 1.0);
        for (lines, start) in [(0, 92), (1, 92), (2, 92), (3, 110)] {
            let caption = vec!["line".to_string(); lines];
            let picture = draw(&scene, "a", &caption);
            assert!(picture.contains(&format!("<rect x=\"74\" y=\"{start}\"")));
            assert_eq!(picture.matches(">line</text>").count(), lines);
            let last = 56 + 18 * (lines as i32 - 1);
            assert!(lines == 0 || picture.contains(&format!("y=\"{last}\">line</text>")));
            assert!(last + 18 <= start);
        }
    }

    #[test]
    fn a_picture_of_nothing_is_a_picture() {
        let picture = draw(&Scene::new(&[], Angles::Livox, 1.0), "a", &[]);
        assert!(picture.starts_with("<svg ") && picture.ends_with("</svg>\n"));
        assert!(!picture.contains("NaN") && !picture.contains("inf"));
    }

    #[test]
    fn names_are_escaped() {
        assert_eq!(
            escaped("a<b>&\"c\"\u{1}\n"),
            "a&lt;b&gt;&amp;&quot;c&quot;\u{FFFD}\u{FFFD}"
        );
        let scene = Scene::new(&[], Angles::Livox, 1.0);
        assert!(draw(&scene, "<&>", &["<".into()]).contains("<title>&lt;&amp;&gt;</title>"));
    }

    #[test]
    fn colours_run_from_near_to_far() {
        assert_eq!(
            (colour(0), colour(SHADES - 1)),
            ("#faa832".into(), "#28328c".into())
        );
        assert_eq!(
            ranges(&[dot(2.0, 0.0, 0.0), dot(5.0, 0.0, 0.0)]),
            [2.0, 5.0]
        );
        // One range alone still makes a scale.
        let [near, far] = ranges(&[dot(2.0, 0.0, 0.0)]);
        assert!(near == 2.0 && far > near);
    }
}
