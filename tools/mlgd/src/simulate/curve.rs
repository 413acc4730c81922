//! The curve: frame and bit error rates over Eb/N0, on a logarithmic axis, with 95 % bars.

use super::tally::{Point, Rate};
use crate::svg::{short, Picture};

const LEFT: f64 = 84.0;
const TOP: f64 = 96.0;
const WIDTH: f64 = 640.0;
const HEIGHT: f64 = 400.0;
const STYLE: &str = "\
text { font: 13px sans-serif; fill: #222 }
.h { font-size: 17px; font-weight: bold }
.g { font-size: 12px; fill: #555 }
.e { text-anchor: end }
.m { text-anchor: middle }
path { fill: none }
.decade { stroke: #bbb }
.minor { stroke: #e8e8e8 }
.frame { fill: none; stroke: #444 }
.f { stroke: #1a5a9c; stroke-width: 2 }
.b { stroke: #cc7000; stroke-width: 2; stroke-dasharray: 6 4 }
.fm { stroke: #1a5a9c; fill: #1a5a9c }
.bm { stroke: #cc7000; fill: #fff; stroke-width: 1.5 }
.fbar { stroke: #1a5a9c; stroke-width: 1.3 }
.bbar { stroke: #cc7000; stroke-width: 1.3 }
";

/// Down from the right end of a cap.
const ARROW: &str = "m-4 0v16m-4 -5l4 5l4 -5";

/// What a curve shows, and the lines above it.
pub struct Curve<'a> {
    pub title: String,
    pub subtitle: String,
    pub points: &'a [Point],
}

/// One of the two rates: how it is called and drawn.
struct Series {
    name: &'static str,
    line: &'static str,
    marker: &'static str,
    bar: &'static str,
    round: bool,
    of: fn(&Point) -> Rate,
}

const SERIES: [Series; 2] = [
    Series {
        name: "frame error rate",
        line: "f",
        marker: "fm",
        bar: "fbar",
        round: true,
        of: |point| point.frames,
    },
    Series {
        name: "bit error rate",
        line: "b",
        marker: "bm",
        bar: "bbar",
        round: false,
        of: |point| point.bits,
    },
];

/// From decibels and rates to places.
struct Scale {
    from: f64,
    to: f64,
    /// The axis ends at 10 to the power of minus this.
    decades: i32,
}

impl Scale {
    fn of(points: &[Point]) -> Scale {
        let all = || points.iter().map(|point| point.db.value());
        let (first, last) = (
            all().fold(f64::INFINITY, f64::min),
            all().fold(f64::NEG_INFINITY, f64::max),
        );
        let room = ((last - first) / 25.0).max(0.05);
        let lowest = points
            .iter()
            .flat_map(|point| SERIES.iter().map(|series| (series.of)(point)))
            .map(|rate| if rate.low > 0.0 { rate.low } else { rate.high })
            .fold(1.0, f64::min);
        Scale {
            from: first - room,
            to: last + room,
            decades: (-lowest.log10()).ceil().clamp(1.0, 15.0) as i32,
        }
    }

    fn x(&self, db: f64) -> f64 {
        LEFT + (db - self.from) / (self.to - self.from) * WIDTH
    }

    fn y(&self, rate: f64) -> f64 {
        let down = -rate.max(1e-300).log10() / f64::from(self.decades);
        TOP + down.clamp(0.0, 1.0) * HEIGHT
    }
}

/// The picture of a curve, which has at least one point.
pub fn draw(curve: &Curve) -> String {
    let scale = Scale::of(curve.points);
    let mut picture = Picture::new(LEFT + WIDTH + 30.0, TOP + HEIGHT + 62.0);
    picture.text("h", (24.0, 30.0), &curve.title);
    picture.text("g", (24.0, 52.0), &curve.subtitle);
    draw_rates(&mut picture, &scale);
    draw_decibels(&mut picture, &scale);
    picture.rectangle("frame", (LEFT, TOP), (WIDTH, HEIGHT));
    for series in &SERIES {
        draw_bars(&mut picture, &scale, curve.points, series);
    }
    for series in &SERIES {
        draw_line(&mut picture, &scale, curve.points, series);
        draw_markers(&mut picture, &scale, curve.points, series);
    }
    let unseen = |point: &Point| point.tally.frame_errors == 0;
    draw_legend(&mut picture, curve.points.iter().any(unseen));
    picture.finish(&curve.title, STYLE)
}

/// The logarithmic axis: a line for each decade and for each tenth between them.
fn draw_rates(picture: &mut Picture, scale: &Scale) {
    for decade in 0..=scale.decades {
        let rate = 10_f64.powi(-decade);
        let y = scale.y(rate);
        if decade > 0 {
            for tenth in 2..10 {
                let y = scale.y(rate * f64::from(tenth));
                picture.line("minor", (LEFT, y), (LEFT + WIDTH, y));
            }
        }
        picture.line("decade", (LEFT, y), (LEFT + WIDTH, y));
        picture.text("e", (LEFT - 8.0, y + 4.5), &power_of_ten(decade));
    }
    let middle = TOP + HEIGHT / 2.0;
    picture.upward_text("m", (26.0, middle), "error rate");
}

/// `1`, `10⁻¹`, `10⁻²`.
fn power_of_ten(decade: i32) -> String {
    if decade == 0 {
        return "1".into();
    }
    let digits = ['⁰', '¹', '²', '³', '⁴', '⁵', '⁶', '⁷', '⁸', '⁹'];
    let values = decade.to_string().into_bytes();
    let raised: String = values
        .iter()
        .map(|digit| digits[usize::from(digit - b'0')])
        .collect();
    format!("10⁻{raised}")
}

/// The axis of decibels, with a line at each round number.
fn draw_decibels(picture: &mut Picture, scale: &Scale) {
    let step = decibel_step(scale.to - scale.from);
    let (first, last) = (scale.from / step, scale.to / step);
    let bottom = TOP + HEIGHT;
    for tick in first.ceil() as i64..=last.floor() as i64 {
        let db = tick as f64 * step;
        let x = scale.x(db);
        picture.line("decade", (x, TOP), (x, bottom));
        picture.text("m", (x, bottom + 20.0), &short(db));
    }
    picture.text("m", (LEFT + WIDTH / 2.0, bottom + 44.0), "Eb/N0 in dB");
}

/// A round step that makes at most ten parts.
fn decibel_step(range: f64) -> f64 {
    let steps = [0.05, 0.1, 0.25, 0.5, 1.0, 2.0, 5.0, 10.0];
    let few = |step: &f64| range / step <= 10.0;
    steps.into_iter().find(few).unwrap_or(20.0)
}

/// The 95 % intervals. Where no frame was wrong an arrow comes down from the upper end, one for
/// both rates.
fn draw_bars(picture: &mut Picture, scale: &Scale, points: &[Point], series: &Series) {
    for point in points {
        let rate = (series.of)(point);
        let x = scale.x(point.db.value());
        let (high, low) = (scale.y(rate.high), scale.y(rate.low));
        let cap = format!("M{} {}h8", short(x - 4.0), short(high));
        let data = if rate.rate > 0.0 {
            format!("{cap}m-4 0V{}m-4 0h8", short(low))
        } else if point.tally.frame_errors == 0 && series.round {
            format!("{cap}{ARROW}")
        } else {
            continue;
        };
        picture.path(series.bar, &data, &tooltip(point, series));
    }
}

/// The points where something went wrong, joined.
fn draw_line(picture: &mut Picture, scale: &Scale, points: &[Point], series: &Series) {
    let mut data = String::new();
    for point in points {
        let rate = (series.of)(point).rate;
        if rate > 0.0 {
            let letter = if data.is_empty() { 'M' } else { 'L' };
            let (x, y) = (scale.x(point.db.value()), scale.y(rate));
            data.push_str(&format!("{letter}{} {}", short(x), short(y)));
        }
    }
    if !data.is_empty() {
        picture.path(series.line, &data, "");
    }
}

fn draw_markers(picture: &mut Picture, scale: &Scale, points: &[Point], series: &Series) {
    for point in points {
        let rate = (series.of)(point).rate;
        if rate > 0.0 {
            let (x, y) = (scale.x(point.db.value()), scale.y(rate));
            let data = marker(x, y, series.round);
            picture.path(series.marker, &data, &tooltip(point, series));
        }
    }
}

/// A disc or a square.
fn marker(x: f64, y: f64, round: bool) -> String {
    let (left, x, y) = (short(x - 4.0), short(x - 3.5), short(y));
    if round {
        format!("M{left} {y}a4 4 0 1 0 8 0a4 4 0 1 0 -8 0z")
    } else {
        format!("M{x} {y}v-3.5h7v7h-7z")
    }
}

/// `4 dB: frame error rate 4.00e-3 (3.50e-3 to 4.60e-3), 200 of 49,012 blocks wrong`.
fn tooltip(point: &Point, series: &Series) -> String {
    let Rate { rate, low, high } = (series.of)(point);
    format!(
        "{} dB: {} {rate:.2e} ({low:.2e} to {high:.2e}), {}",
        short(point.db.value()),
        series.name,
        point.tally.wrong()
    )
}

/// One row above the axes, where no curve can be covered.
fn draw_legend(picture: &mut Picture, with_arrow: bool) {
    let y = TOP - 18.0;
    let mut x = LEFT;
    for (series, width) in SERIES.iter().zip([176.0, 152.0]) {
        picture.line(series.line, (x, y), (x + 34.0, y));
        picture.path(series.marker, &marker(x + 17.0, y, series.round), "");
        picture.text("", (x + 42.0, y + 4.5), series.name);
        x += width;
    }
    let bar = format!("M{} {}h8m-4 0v14m-4 0h8", short(x), short(y - 7.0));
    picture.path("frame", &bar, "");
    picture.text("", (x + 16.0, y + 4.5), "95 % interval");
    if with_arrow {
        x += 128.0;
        let arrow = format!("M{} {}h8{ARROW}", short(x), short(y - 8.0));
        picture.path("fbar", &arrow, "");
        picture.text("", (x + 16.0, y + 4.5), "none wrong: below this");
    }
}

#[cfg(test)]
mod tests {
    use super::{decibel_step, draw, power_of_ten, Curve};
    use crate::simulate::points::Decibels;
    use crate::simulate::tally::{Fate, Point, Tally};
    use crate::svg::tags_balance;

    fn point(db: i64, blocks: u32, wrong_frames: u32) -> Point {
        let mut tally = Tally::default();
        for block in 0..blocks {
            tally.add(Fate {
                decoded: block >= wrong_frames,
                rounds: 1,
                wrong: if block < wrong_frames { 7 } else { 0 },
                arrived_wrong: 7,
            });
        }
        Point::new(Decibels(db), 0.5, 100, tally)
    }

    #[test]
    fn a_curve_is_well_formed_and_has_its_parts() {
        let points = [
            point(3_000_000, 50, 50),
            point(4_000_000, 1000, 20),
            point(5_000_000, 1000, 0),
        ];
        let svg = draw(&Curve {
            title: "a & b".into(),
            subtitle: "c".into(),
            points: &points,
        });
        assert!(tags_balance(&svg).is_ok(), "{:?}", tags_balance(&svg));
        assert_eq!(svg.matches("class=\"fm\"").count(), 2 + 1);
        assert_eq!(svg.matches("class=\"bm\"").count(), 2 + 1);
        assert_eq!(svg.matches("class=\"fbar\"").count(), 3 + 1);
        assert_eq!(svg.matches("class=\"bbar\"").count(), 2);
        // Nothing went wrong at 5 dB: an arrow, and one in the legend.
        assert_eq!(svg.matches("l4 5l4 -5").count(), 2);
        assert!(svg.contains(
            "4 dB: frame error rate 2.00e-2 (1.30e-2 to 3.07e-2), 20 of 1,000 blocks wrong"
        ));
        assert!(svg.contains(">10⁻³</text>") && svg.contains(">4.5</text>"));
        assert!(!svg.contains("NaN") && !svg.contains("inf"));
    }

    #[test]
    fn one_point_is_a_curve() {
        let svg = draw(&Curve {
            title: String::new(),
            subtitle: String::new(),
            points: &[point(4_000_000, 10, 0)],
        });
        assert!(tags_balance(&svg).is_ok() && !svg.contains("NaN"));
    }

    #[test]
    fn axes() {
        assert_eq!(power_of_ten(0), "1");
        assert_eq!(power_of_ten(12), "10⁻¹²");
        assert_eq!(decibel_step(2.0), 0.25);
        assert_eq!(decibel_step(0.1), 0.05);
        assert_eq!(decibel_step(60.0), 10.0);
    }
}
