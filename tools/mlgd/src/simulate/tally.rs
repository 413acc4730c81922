//! What is counted at a point, and the rates with their intervals.

use super::points::Decibels;
use crate::amount::{counted, thousands};
use std::fmt::Write;

/// A point ends when so many frames were wrong.
pub const ENOUGH: u64 = 200;
/// Two-sided, 95 %.
const Z: f64 = 1.959_963_984_540_054;

/// How one block fared.
#[derive(Clone, Copy, Debug, PartialEq, Eq)]
pub struct Fate {
    pub decoded: bool,
    pub rounds: usize,
    /// Bits in which the word handed back differs from the one sent.
    pub wrong: usize,
    /// Bits that were wrong on arrival.
    pub arrived_wrong: usize,
}

/// The sums over the blocks of a point.
#[derive(Clone, Debug, Default, PartialEq, Eq)]
pub struct Tally {
    pub blocks: u64,
    pub frame_errors: u64,
    pub undetected: u64,
    pub bit_errors: u64,
    bit_error_squares: u64,
    rounds: u64,
    arrived_wrong: u64,
}

impl Tally {
    pub fn add(&mut self, fate: Fate) {
        self.blocks += 1;
        self.frame_errors += u64::from(!fate.decoded || fate.wrong > 0);
        self.undetected += u64::from(fate.decoded && fate.wrong > 0);
        self.bit_errors += fate.wrong as u64;
        self.bit_error_squares += (fate.wrong as u64).pow(2);
        self.rounds += fate.rounds as u64;
        self.arrived_wrong += fate.arrived_wrong as u64;
    }

    /// `200 of 49,012 blocks wrong`.
    pub fn wrong(&self) -> String {
        let blocks = counted(self.blocks as usize, "block");
        format!("{} of {blocks} wrong", thousands(self.frame_errors))
    }

    /// Whether the point may end.
    pub fn is_enough(&self) -> bool {
        self.frame_errors >= ENOUGH
    }
}

/// A rate with its 95 % interval.
#[derive(Clone, Copy, Debug, PartialEq)]
pub struct Rate {
    pub rate: f64,
    pub low: f64,
    pub high: f64,
}

impl Rate {
    /// Wilson's interval for `share` of so many trials, which need not be whole numbers.
    pub fn wilson(share: f64, trials: f64) -> Rate {
        let square = Z * Z;
        let middle = share + square / (2.0 * trials);
        let spread = (share * (1.0 - share) / trials + square / (4.0 * trials * trials)).sqrt();
        let below = 1.0 + square / trials;
        let low = ((middle - Z * spread) / below).max(0.0);
        let high = ((middle + Z * spread) / below).min(1.0);
        Rate {
            rate: share,
            low: if share == 0.0 { 0.0 } else { low },
            high: if share == 1.0 { 1.0 } else { high },
        }
    }

    /// The rate of so many in so many trials that do not depend on each other.
    fn of(count: u64, trials: u64) -> Rate {
        Rate::wilson(count as f64 / trials as f64, trials as f64)
    }
}

/// A point of the curve.
#[derive(Clone, Debug)]
pub struct Point {
    pub db: Decibels,
    pub deviation: f64,
    pub tally: Tally,
    pub frames: Rate,
    pub undetected: Rate,
    pub bits: Rate,
}

impl Point {
    /// From the sums over blocks of n bits, of which there is at least one.
    pub fn new(db: Decibels, deviation: f64, n: usize, tally: Tally) -> Point {
        Point {
            db,
            deviation,
            frames: Rate::of(tally.frame_errors, tally.blocks),
            undetected: Rate::of(tally.undetected, tally.blocks),
            bits: bit_rate(n, &tally),
            tally,
        }
    }
}

/// The bit error rate. Wrong bits come in clusters, a wrong frame's together, so that n bits of a
/// frame are no n trials: Wilson's interval is taken for as many trials as would, independent of
/// each other, spread the rate as much as the frames do.
fn bit_rate(n: usize, tally: &Tally) -> Rate {
    let (n, blocks) = (n as f64, tally.blocks as f64);
    let share = tally.bit_errors as f64 / (n * blocks);
    let mean = tally.bit_errors as f64 / blocks;
    let variance = tally.bit_error_squares as f64 / blocks - mean * mean;
    let independent = n * share * (1.0 - share);
    let clustered = if independent > 0.0 {
        (variance / independent).clamp(1.0, n)
    } else {
        n
    };
    Rate::wilson(share, n * blocks / clustered)
}

const HEADER: &str = "db,deviation,blocks,ended_by,\
    frame_errors,frame_error_rate,frame_low,frame_high,\
    undetected,undetected_rate,undetected_low,undetected_high,\
    bit_errors,bit_error_rate,bit_low,bit_high,\
    mean_rounds,mean_wrong_on_arrival\n";

/// The table of all points, with a header line.
pub fn csv(points: &[Point]) -> String {
    let mut text = String::from(HEADER);
    for point in points {
        let tally = &point.tally;
        let blocks = tally.blocks as f64;
        let ended_by = if tally.is_enough() {
            "errors"
        } else {
            "blocks"
        };
        write!(
            text,
            "{},{:.6},{},{ended_by}",
            point.db.value(),
            point.deviation,
            tally.blocks
        )
        .expect("writing to a string");
        for (count, rate) in [
            (tally.frame_errors, point.frames),
            (tally.undetected, point.undetected),
            (tally.bit_errors, point.bits),
        ] {
            let Rate { rate, low, high } = rate;
            write!(text, ",{count},{rate:.4e},{low:.4e},{high:.4e}").expect("writing to a string");
        }
        let (rounds, arrived) = (tally.rounds as f64, tally.arrived_wrong as f64);
        writeln!(text, ",{:.4},{:.4}", rounds / blocks, arrived / blocks)
            .expect("writing to a string");
    }
    text
}

#[cfg(test)]
mod tests {
    use super::{bit_rate, csv, Decibels, Fate, Point, Rate, Tally};

    fn near(found: f64, expected: f64) -> bool {
        (found - expected).abs() < 5e-5
    }

    /// Figures from the literature (Newcombe 1998, method 3; Brown, Cai and DasGupta 2001).
    #[test]
    fn wilson_intervals_as_published() {
        for (count, trials, low, high) in [
            (81, 263, 0.2553, 0.3662),
            (15, 148, 0.0624, 0.1605),
            (0, 20, 0.0, 0.1611),
            (1, 29, 0.0061, 0.1718),
            (20, 20, 0.8389, 1.0),
        ] {
            let rate = Rate::of(count, trials);
            assert!(near(rate.low, low) && near(rate.high, high), "{rate:?}");
        }
    }

    fn fates(wrong: &[usize]) -> Tally {
        let mut tally = Tally::default();
        for &wrong in wrong {
            tally.add(Fate {
                decoded: wrong != 5,
                rounds: 2,
                wrong,
                arrived_wrong: 3,
            });
        }
        tally
    }

    #[test]
    fn sums() {
        let tally = fates(&[0, 5, 20, 0]);
        assert_eq!((tally.blocks, tally.frame_errors), (4, 2));
        assert_eq!((tally.undetected, tally.bit_errors), (1, 25));
        assert!(!tally.is_enough() && fates(&[5; 200]).is_enough());
        assert_eq!(fates(&[5]).wrong(), "1 of 1 block wrong");
        assert_eq!(fates(&[5; 1200]).wrong(), "1,200 of 1,200 blocks wrong");
    }

    /// As many bits wrong in one frame as count as one event, not as many.
    #[test]
    fn clustered_bits_widen_the_interval() {
        let mut wrong = vec![0; 10_000];
        wrong[17] = 5;
        let rate = bit_rate(100, &fates(&wrong));
        let frames = Rate::of(1, 10_000);
        assert!((rate.rate - 5e-6).abs() < 1e-12);
        assert!((rate.high / rate.rate / (frames.high / frames.rate) - 1.0).abs() < 1e-2);
        let none = bit_rate(100, &fates(&[0; 50]));
        assert_eq!(none, Rate::of(0, 50));
    }

    #[test]
    fn the_table() {
        let point = Point::new(Decibels(3_250_000), 0.5, 10, fates(&[0, 5, 20, 0]));
        let text = csv(&[point]);
        let lines: Vec<&str> = text.lines().collect();
        assert_eq!(lines.len(), 2);
        assert_eq!(lines[0].split(',').count(), lines[1].split(',').count());
        assert!(lines[1].starts_with("3.25,0.500000,4,blocks,2,5.0000e-1,1.5004e-1,8.4996e-1,1,"));
        assert!(lines[1].ends_with(",2.0000,3.0000"), "{}", lines[1]);
    }
}
