//! Plots of costs: panels with two logarithmic axes, one below the other, their lines told apart by
//! colour, marker and dashes.

use crate::svg::{short, At, Picture};

const LEFT: f64 = 84.0;
const WIDTH: f64 = 640.0;
const HEIGHT: f64 = 300.0;
/// The picture's name and what is said below it.
const HEADING: f64 = 56.0;
/// What a panel has above its axes, but for the legend, and below them.
const ABOVE: f64 = 50.0;
const BELOW: f64 = 68.0;
/// A row of the legend has three entries, and begins at the picture's edge, as their names are long.
const ENTRIES: usize = 3;
const ENTRY: f64 = 236.0;
const EDGE: f64 = 24.0;
const ROW: f64 = 22.0;
const STYLE: &str = "\
text { font: 13px sans-serif; fill: #222 }
.h { font-size: 17px; font-weight: bold }
.p { font-size: 14px; font-weight: bold }
.g { font-size: 12px; fill: #555 }
.e { text-anchor: end }
.m { text-anchor: middle }
path { fill: none }
.decade { stroke: #bbb }
.minor { stroke: #e8e8e8 }
.frame { fill: none; stroke: #444 }
.l0 { stroke: #1a5a9c; stroke-width: 2 }
.l1 { stroke: #cc7000; stroke-width: 2 }
.l2 { stroke: #2e7d4f; stroke-width: 2 }
.dashed { stroke-dasharray: 6 4 }
.f0 { stroke: #1a5a9c; fill: #1a5a9c; stroke-width: 1.5 }
.f1 { stroke: #cc7000; fill: #cc7000; stroke-width: 1.5 }
.f2 { stroke: #2e7d4f; fill: #2e7d4f; stroke-width: 1.5 }
.hollow { fill: #fff }
";

/// A measured point. One that stands alone is hollow, and no line goes through it.
#[derive(Clone, Debug)]
pub struct Point {
    pub at: At,
    pub tooltip: String,
    pub alone: bool,
}

/// Points of one kind, from left to right.
#[derive(Clone, Debug)]
pub struct Line {
    pub name: String,
    /// Which of three colours and markers.
    pub kind: usize,
    pub dashed: bool,
    pub points: Vec<Point>,
}

/// A pair of axes with what is said above and beside them.
#[derive(Clone, Debug)]
pub struct Panel {
    pub title: String,
    pub across: String,
    pub up: String,
    pub lines: Vec<Line>,
}

impl Panel {
    fn legend_rows(&self) -> f64 {
        self.lines.len().div_ceil(ENTRIES) as f64
    }

    /// From its title to the title of the next one.
    fn height(&self) -> f64 {
        ABOVE + ROW * self.legend_rows() + HEIGHT + BELOW
    }
}

/// A logarithmic axis between two round numbers, and the places at which they are drawn.
struct Axis {
    from: f64,
    to: f64,
    start: f64,
    end: f64,
}

/// The numbers 1 to 9 times the powers of ten that measured values may have.
fn grid() -> impl Iterator<Item = (i32, u8)> {
    (-6..=9).flat_map(|power| (1..=9).map(move |digit| (power, digit)))
}

fn value((power, digit): (i32, u8)) -> f64 {
    f64::from(digit) * 10_f64.powi(power)
}

impl Axis {
    /// Round numbers are 1, 2 and 5 times a power of ten. All values are within with a little room.
    fn of(values: impl Iterator<Item = f64>, start: f64, end: f64) -> Axis {
        let (least, most) = values.fold((f64::INFINITY, 0.0_f64), |(least, most), value| {
            (least.min(value), most.max(value))
        });
        let round = || grid().filter(|(_, digit)| [1, 2, 5].contains(digit));
        let below = round().map(value).filter(|round| *round < least / 1.1);
        let mut above = round().map(value).filter(|round| *round > most * 1.1);
        Axis {
            from: below.last().expect("a value to be drawn"),
            to: above.next().expect("values that are not too large"),
            start,
            end,
        }
    }

    fn place(&self, value: f64) -> f64 {
        let share = (value / self.from).log10() / (self.to / self.from).log10();
        self.start + share * (self.end - self.start)
    }

    /// The grid's numbers on the axis, each with its place, its class and what is written at it.
    fn ticks(&self) -> Vec<(f64, &'static str, String)> {
        let few = (self.to / self.from).log10() < 3.5;
        let within = |&at: &(i32, u8)| {
            let slack = 1e-9;
            value(at) > self.from * (1.0 - slack) && value(at) < self.to * (1.0 + slack)
        };
        grid()
            .filter(within)
            .map(|at| {
                let class = if at.1 == 1 { "decade" } else { "minor" };
                let written = at.1 == 1 || few && [2, 5].contains(&at.1);
                let text = if written { number(at) } else { String::new() };
                (self.place(value(at)), class, text)
            })
            .collect()
    }
}

/// `0.05`, `2`, `10,000`.
fn number((power, digit): (i32, u8)) -> String {
    if power < 0 {
        let decimals = power.unsigned_abs() as usize;
        return format!("{:.decimals$}", value((power, digit)));
    }
    let mut text = format!("{digit}{}", "0".repeat(power as usize));
    for at in (1..text.len()).rev() {
        if (text.len() - at) % 4 == 3 {
            text.insert(at, ',');
        }
    }
    text
}

/// The picture of panels, each of which has a point at least; all values are above 0.
pub fn draw(title: &str, subtitle: &str, panels: &[Panel]) -> String {
    let height = HEADING + panels.iter().map(Panel::height).sum::<f64>();
    let mut picture = Picture::new(LEFT + WIDTH + 36.0, height);
    picture.text("h", (EDGE, 30.0), title);
    picture.text("g", (EDGE, 50.0), subtitle);
    let mut top = HEADING;
    for panel in panels {
        draw_panel(&mut picture, panel, top);
        top += panel.height();
    }
    picture.finish(title, STYLE)
}

fn draw_panel(picture: &mut Picture, panel: &Panel, above: f64) {
    let top = above + ABOVE + ROW * panel.legend_rows();
    let bottom = top + HEIGHT;
    picture.text("p", (EDGE, above + 28.0), &panel.title);
    draw_legend(picture, &panel.lines, above + ABOVE + 2.0);
    let all = || panel.lines.iter().flat_map(|line| &line.points);
    let across = Axis::of(all().map(|point| point.at.0), LEFT, LEFT + WIDTH);
    let up = Axis::of(all().map(|point| point.at.1), bottom, top);
    for (x, class, text) in across.ticks() {
        picture.line(class, (x, top), (x, bottom));
        if !text.is_empty() {
            picture.text("m", (x, bottom + 20.0), &text);
        }
    }
    for (y, class, text) in up.ticks() {
        picture.line(class, (LEFT, y), (LEFT + WIDTH, y));
        if !text.is_empty() {
            picture.text("e", (LEFT - 8.0, y + 4.5), &text);
        }
    }
    picture.rectangle("frame", (LEFT, top), (WIDTH, HEIGHT));
    picture.text("m", (LEFT + WIDTH / 2.0, bottom + 44.0), &panel.across);
    picture.upward_text("m", (20.0, top + HEIGHT / 2.0), &panel.up);
    let place = |(x, y): At| (across.place(x), up.place(y));
    for line in &panel.lines {
        draw_line(picture, line, place);
    }
    for line in &panel.lines {
        for point in &line.points {
            let class = if point.alone { " hollow" } else { "" };
            let class = format!("f{}{class}", line.kind);
            let data = marker(place(point.at), line.kind);
            picture.path(&class, &data, &point.tooltip);
        }
    }
}

fn line_class(line: &Line) -> String {
    let dashed = if line.dashed { " dashed" } else { "" };
    format!("l{}{dashed}", line.kind)
}

/// The points that do not stand alone, joined.
fn draw_line(picture: &mut Picture, line: &Line, place: impl Fn(At) -> At) {
    let mut data = String::new();
    for point in line.points.iter().filter(|point| !point.alone) {
        let letter = if data.is_empty() { 'M' } else { 'L' };
        let (x, y) = place(point.at);
        data.push_str(&format!("{letter}{} {}", short(x), short(y)));
    }
    if !data.is_empty() {
        picture.path(&line_class(line), &data, "");
    }
}

/// A disc, a square or a triangle.
fn marker((x, y): At, kind: usize) -> String {
    let (x, y) = (short(x), short(y));
    match kind {
        0 => format!("M{x} {y}m-4 0a4 4 0 1 0 8 0a4 4 0 1 0 -8 0z"),
        1 => format!("M{x} {y}m-3.5 -3.5h7v7h-7z"),
        _ => format!("M{x} {y}m0 -5l4.5 8h-9z"),
    }
}

/// Rows above the axes, where no line can be covered.
fn draw_legend(picture: &mut Picture, lines: &[Line], top: f64) {
    for (at, line) in lines.iter().enumerate() {
        let x = EDGE + ENTRY * (at % ENTRIES) as f64;
        let y = top + ROW * (at / ENTRIES) as f64;
        picture.line(&line_class(line), (x, y), (x + 28.0, y));
        let class = format!("f{}", line.kind);
        picture.path(&class, &marker((x + 14.0, y), line.kind), "");
        picture.text("", (x + 36.0, y + 4.5), &line.name);
    }
}

#[cfg(test)]
mod tests {
    use super::{draw, number, Axis, Line, Panel, Point, ABOVE, HEADING, HEIGHT, LEFT, ROW, WIDTH};
    use crate::svg::{tags_balance, At};

    fn panel(points: &[At]) -> Panel {
        let points = points.iter().enumerate().map(|(at, &place)| Point {
            at: place,
            tooltip: format!("<{at}>"),
            alone: at % 3 == 1,
        });
        Panel {
            title: "a & b".into(),
            across: "n".into(),
            up: "ns".into(),
            lines: vec![Line {
                name: "program".into(),
                kind: 0,
                dashed: true,
                points: points.collect(),
            }],
        }
    }

    /// The places of the markers that have a tooltip.
    fn markers(svg: &str) -> Vec<At> {
        let drawn = svg.lines().filter(|line| line.contains("&lt;"));
        drawn
            .map(|line| {
                let (_, data) = line.split_once("d=\"M").expect("a path");
                let (place, _) = data.split_once('m').expect("a marker");
                let (x, y) = place.split_once(' ').expect("two numbers");
                let parsed = |text: &str| text.parse::<f64>().expect("a number");
                (parsed(x), parsed(y))
            })
            .collect()
    }

    #[test]
    fn every_point_is_inside() {
        let sets: [&[At]; 4] = [
            &[(7.0, 12.5), (155.0, 0.031), (1023.0, 0.9)],
            &[(1.0, 1.0), (65_535.0, 1_000_000.0)],
            &[(10.0, 10.0)],
            &[(1.0, 0.01), (2.0, 0.02), (5.0, 0.05), (9.99, 0.0999)],
        ];
        let top = HEADING + ABOVE + ROW;
        for points in sets {
            let svg = draw("x", "y", &[panel(points), panel(points)]);
            assert!(tags_balance(&svg).is_ok(), "{:?}", tags_balance(&svg));
            assert!(!svg.contains("NaN") && !svg.contains("inf"));
            let places = markers(&svg);
            assert_eq!(places.len(), 2 * points.len());
            for (at, &(x, y)) in places.iter().enumerate() {
                let lower = if at < points.len() {
                    0.0
                } else {
                    panel(points).height()
                };
                // With room for the marker itself.
                assert!(x > LEFT + 4.0 && x < LEFT + WIDTH - 4.0, "{x}");
                assert!(
                    y > top + lower + 4.0 && y < top + lower + HEIGHT - 4.0,
                    "{y}"
                );
            }
        }
    }

    #[test]
    fn axes() {
        let axis = Axis::of([7.0, 1023.0].into_iter(), 0.0, 100.0);
        assert_eq!((axis.from, axis.to), (5.0, 2000.0));
        assert_eq!((axis.place(5.0), axis.place(2000.0)), (0.0, 100.0));
        assert!((axis.place(100.0) - 50.0).abs() < 1e-9);
        let written: Vec<String> = axis.ticks().into_iter().map(|(_, _, text)| text).collect();
        let written: Vec<&String> = written.iter().filter(|text| !text.is_empty()).collect();
        let expected = ["5", "10", "20", "50", "100", "200", "500", "1,000", "2,000"];
        assert_eq!(written, expected);
        for (at, text) in [
            ((-2, 5), "0.05"),
            ((0, 2), "2"),
            ((4, 1), "10,000"),
            ((6, 2), "2,000,000"),
        ] {
            assert_eq!(number(at), text);
        }
    }
}
