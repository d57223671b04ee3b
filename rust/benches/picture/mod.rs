//! A picture of lines over two logarithmic axes, as SVG.

use std::fmt::Write;

const WIDTH: f64 = 900.0;
const HEIGHT: f64 = 540.0;
/// The room of the lines: left, right, top and bottom.
const LEFT: f64 = 72.0;
const RIGHT: f64 = 656.0;
const TOP: f64 = 84.0;
const BOTTOM: f64 = 480.0;
/// From one name to the next.
const NAMES_APART: f64 = 19.0;

/// A line and how it is drawn.
pub struct Line<'a> {
    pub name: &'a str,
    pub colour: &'a str,
    /// The lengths of its strokes and gaps; a whole line has none.
    pub dashes: &'a str,
    pub width: f64,
    /// For each place on the axis across one on the axis up, all above 0.
    pub points: Vec<(f64, f64)>,
}

/// What is written above the lines, and along the two axes.
pub struct Words<'a> {
    pub title: &'a str,
    pub below_title: [&'a str; 2],
    pub across: &'a str,
    pub up: &'a str,
}

/// Where the values of an axis stand: `first` at `start` and `last` at `end`, and between
/// them equal ratios at equal distances.
pub struct Scale {
    pub first: f64,
    pub last: f64,
    pub start: f64,
    pub end: f64,
}

impl Scale {
    /// From the last of the marks below all values to the first above them.
    fn around<M: Iterator<Item = f64>>(
        values: impl Iterator<Item = f64> + Clone,
        marks: fn() -> M,
        start: f64,
        end: f64,
    ) -> Scale {
        let least = values.clone().fold(f64::INFINITY, f64::min);
        let most = values.fold(0.0, f64::max);
        Scale {
            first: marks()
                .take_while(|&mark| mark <= least)
                .last()
                .unwrap_or(least),
            last: marks().find(|&mark| most <= mark).unwrap_or(most),
            start,
            end,
        }
    }

    pub fn place(&self, value: f64) -> f64 {
        let part = (value / self.first).ln() / (self.last / self.first).ln();
        self.start + part * (self.end - self.start)
    }
}

/// The picture of the lines.
pub fn svg(words: &Words, lines: &[Line]) -> String {
    let points = || lines.iter().flat_map(|line| &line.points);
    let across = Scale::around(points().map(|point| point.0), powers_of_four, LEFT, RIGHT);
    let up = Scale::around(points().map(|point| point.1), round_values, BOTTOM, TOP);
    let mut out = String::new();
    draw(&mut out, words, lines, &across, &up).expect("a string takes all that is written");
    out
}

/// 0.1, 0.2, 0.5, 1 and so on: where the axis up has a line.
fn round_values() -> impl Iterator<Item = f64> {
    (-1..9).flat_map(|power| [1.0, 2.0, 5.0].map(|digit| digit * 10f64.powi(power)))
}

/// 1, 4, 16 and so on: where the axis across has a line.
fn powers_of_four() -> impl Iterator<Item = f64> {
    (0..16).map(|power| 4f64.powi(power))
}

fn draw(
    out: &mut String,
    words: &Words,
    lines: &[Line],
    across: &Scale,
    up: &Scale,
) -> std::fmt::Result {
    writeln!(
        out,
        "<svg xmlns=\"http://www.w3.org/2000/svg\" width=\"{WIDTH}\" height=\"{HEIGHT}\" \
         viewBox=\"0 0 {WIDTH} {HEIGHT}\" font-family=\"sans-serif\" font-size=\"13\">\n\
         <rect width=\"{WIDTH}\" height=\"{HEIGHT}\" fill=\"white\"/>"
    )?;
    write_words(out, words)?;
    grid(out, across, up)?;
    for line in lines {
        path(out, line, across, up)?;
    }
    names(out, lines, across, up)?;
    writeln!(out, "</svg>")
}

fn write_words(out: &mut String, words: &Words) -> std::fmt::Result {
    let [first, second] = words.below_title.map(escaped);
    let middle = (TOP + BOTTOM) / 2.0;
    writeln!(
        out,
        "<text x=\"{LEFT}\" y=\"28\" font-size=\"18\">{}</text>\n\
         <text x=\"{LEFT}\" y=\"48\" fill=\"#444444\">{first}</text>\n\
         <text x=\"{LEFT}\" y=\"66\" fill=\"#444444\">{second}</text>\n\
         <text x=\"{}\" y=\"{}\" text-anchor=\"middle\">{}</text>\n\
         <text x=\"20\" y=\"{middle}\" text-anchor=\"middle\" \
         transform=\"rotate(-90 20 {middle})\">{}</text>",
        escaped(words.title),
        (LEFT + RIGHT) / 2.0,
        BOTTOM + 42.0,
        escaped(words.across),
        escaped(words.up),
    )
}

fn escaped(text: &str) -> String {
    text.replace('&', "&amp;").replace('<', "&lt;")
}

/// The lines of round values with their numbers.
fn grid(out: &mut String, across: &Scale, up: &Scale) -> std::fmt::Result {
    let within = |scale: &Scale, value: f64| scale.first <= value && value <= scale.last;
    for value in powers_of_four().filter(|&value| within(across, value)) {
        let x = across.place(value);
        writeln!(
            out,
            "<path d=\"M{x:.1} {TOP}V{BOTTOM}\" stroke=\"#dddddd\"/>\n\
             <text x=\"{x:.1}\" y=\"{}\" text-anchor=\"middle\">{value}</text>",
            BOTTOM + 20.0
        )?;
    }
    for value in round_values().filter(|&value| within(up, value)) {
        let y = up.place(value);
        writeln!(
            out,
            "<path d=\"M{LEFT} {y:.1}H{RIGHT}\" stroke=\"#dddddd\"/>\n\
             <text x=\"{}\" y=\"{:.1}\" text-anchor=\"end\">{value}</text>",
            LEFT - 8.0,
            y + 4.5
        )?;
    }
    writeln!(
        out,
        "<path d=\"M{LEFT} {TOP}V{BOTTOM}H{RIGHT}\" fill=\"none\" stroke=\"#444444\"/>"
    )
}

fn path(out: &mut String, line: &Line, across: &Scale, up: &Scale) -> std::fmt::Result {
    let mut steps = String::new();
    for (number, &(x, y)) in line.points.iter().enumerate() {
        let step = if number == 0 { 'M' } else { 'L' };
        write!(steps, "{step}{:.1} {:.1}", across.place(x), up.place(y))?;
    }
    writeln!(
        out,
        "<path class=\"line\" d=\"{steps}\" fill=\"none\" stroke=\"{}\" stroke-width=\"{}\" \
         stroke-dasharray=\"{}\" stroke-linejoin=\"round\"/>",
        line.colour, line.width, line.dashes
    )
}

/// Each line's name and last value, right of its end.
fn names(out: &mut String, lines: &[Line], across: &Scale, up: &Scale) -> std::fmt::Result {
    let mut ends: Vec<(&Line, f64, f64)> = lines
        .iter()
        .filter_map(|line| line.points.last().map(|&(x, y)| (line, across.place(x), y)))
        .collect();
    ends.sort_by(|a, b| b.2.total_cmp(&a.2));
    let wanted: Vec<f64> = ends.iter().map(|end| up.place(end.2)).collect();
    for ((line, x, value), y) in ends.into_iter().zip(spread(&wanted, BOTTOM)) {
        let (colour, name) = (line.colour, escaped(line.name));
        writeln!(
            out,
            "<path d=\"M{:.1} {:.1}L{:.1} {y:.1}\" stroke=\"{colour}\"/>\n\
             <path d=\"M{:.1} {y:.1}h26\" stroke=\"{colour}\" stroke-width=\"{}\" \
             stroke-dasharray=\"{}\"/>\n\
             <text x=\"{:.1}\" y=\"{:.1}\">{name}: {value:.1}</text>",
            x + 2.0,
            up.place(value),
            x + 18.0,
            x + 18.0,
            line.width,
            line.dashes,
            x + 50.0,
            y + 4.5,
        )?;
    }
    Ok(())
}

/// The places, which come from the top down, moved so that no two names overlap and none
/// is below the bottom. Names that would overlap share the way that they have to move.
pub fn spread(wanted: &[f64], bottom: f64) -> Vec<f64> {
    // Without the distances that have to be between them, places need only not fall.
    let mut groups: Vec<(f64, usize)> = Vec::new();
    for (n, place) in wanted.iter().enumerate() {
        let mut group = (place - n as f64 * NAMES_APART, 1);
        while let Some((mean, count)) = groups.pop_if(|last| group.0 < last.0) {
            let all = count + group.1;
            let sum = mean * count as f64 + group.0 * group.1 as f64;
            group = (sum / all as f64, all);
        }
        groups.push(group);
    }
    let lowest = bottom - wanted.len().saturating_sub(1) as f64 * NAMES_APART;
    let places = groups
        .into_iter()
        .flat_map(|(mean, count)| vec![mean.min(lowest); count]);
    let numbered = places.enumerate();
    numbered
        .map(|(n, place)| place + n as f64 * NAMES_APART)
        .collect()
}
