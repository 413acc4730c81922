//! The points of a simulation: values of Eb/N0 in decibels, kept as whole millionths.

const MILLION: f64 = 1e6;
/// Beyond this the noise says nothing about a code.
const MOST: i64 = 100_000_000;
const MOST_POINTS: i64 = 1_000;

/// Eb/N0 in millionths of a decibel, so that `3:5:0.1` has no rounding.
#[derive(Clone, Copy, Debug, PartialEq, Eq)]
pub struct Decibels(pub i64);

impl Decibels {
    pub fn value(self) -> f64 {
        self.0 as f64 / MILLION
    }

    /// The deviation of the noise for symbols ±1 and k bits carried by n.
    pub fn deviation(self, k: usize, n: usize) -> f64 {
        let rate = k as f64 / n as f64;
        (2.0 * rate * 10_f64.powf(self.value() / 10.0))
            .sqrt()
            .recip()
    }
}

/// `4`, or from, to and step: `3:5:0.25`; or what is wrong with it.
pub fn read(text: &str) -> Result<Vec<Decibels>, String> {
    let numbers: Option<Vec<i64>> = text.split(':').map(millionths).collect();
    let (from, to, step) = match numbers.as_deref() {
        Some(&[only]) => (only, only, 1),
        Some(&[from, to]) => (from, to, 1_000_000),
        Some(&[from, to, step]) => (from, to, step),
        _ => {
            return Err(format!(
                "--db is a number or from:to:step as 3:5:0.25, and not `{text}`"
            ))
        }
    };
    if step <= 0 || to < from {
        return Err(format!("--db {text} has no points"));
    }
    if (to - from) / step >= MOST_POINTS {
        return Err(format!("--db {text} has more than {MOST_POINTS} points"));
    }
    let points = (0..=(to - from) / step).map(|at| Decibels(from + at * step));
    Ok(points.collect())
}

fn millionths(text: &str) -> Option<i64> {
    let number: f64 = text.trim().parse().ok()?;
    let scaled = (number * MILLION).round();
    (scaled.abs() <= MOST as f64).then_some(scaled as i64)
}

#[cfg(test)]
mod tests {
    use super::{read, Decibels};

    #[test]
    fn ranges() {
        let values = |text: &str| -> Vec<f64> {
            let points = read(text).unwrap();
            points.into_iter().map(Decibels::value).collect()
        };
        assert_eq!(values("4"), [4.0]);
        assert_eq!(values("3:5"), [3.0, 4.0, 5.0]);
        assert_eq!(values("3:4:0.25"), [3.0, 3.25, 3.5, 3.75, 4.0]);
        assert_eq!(values("-0.1:0.25:0.1"), [-0.1, 0.0, 0.1, 0.2]);
        assert_eq!(values("0:1:0.1").len(), 11);
        for bad in [
            "",
            "x",
            "3:",
            "5:3:1",
            "3:5:0",
            "3:5:-1",
            "1:2:3:4",
            "nan",
            "1e9",
            "0:100:0.001",
        ] {
            assert!(read(bad).is_err(), "{bad}");
        }
    }

    #[test]
    fn deviations() {
        // Rate 1/2 at 0 dB: the noise is as strong as the symbols.
        assert!((Decibels(0).deviation(1, 2) - 1.0).abs() < 1e-12);
        // (961, 721) at 4 dB.
        let deviation = Decibels(4_000_000).deviation(721, 961);
        assert!((deviation - 0.515_1).abs() < 1e-4, "{deviation}");
    }
}
