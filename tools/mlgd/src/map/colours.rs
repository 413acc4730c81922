//! What the cells of a map are coloured by: the kind of a block, from good to bad.
//!
//! The colours get darker from kind to kind, so that they can be told apart without hue.

use super::blocks::{Block, End};
use crate::amount::counted;

/// Blocks decoded within the half, from few changed bits to many.
pub const WITHIN: [&str; 6] = [
    "#dceaf7", "#c8def0", "#b3d1e8", "#9ec4e0", "#88b6d8", "#71a8cf",
];
pub const BEYOND: &str = "#c26a00";
pub const FAILED: &str = "#a01818";
pub const REFUSED: &str = "#1c1c1c";

/// The kinds of a map: some counts of changed bits within the half, then beyond it, failed and
/// refused.
pub struct Kinds {
    /// The least and the most changed bits of each shade.
    pub within: Vec<(u32, u32)>,
}

impl Kinds {
    /// A shade for each count up to 5; where there are larger ones, equally many counts from 1 on
    /// share a shade.
    pub fn of(blocks: &[Block]) -> Kinds {
        let counts = blocks.iter().filter_map(|block| match block.end {
            End::Within(count) => Some(count),
            _ => None,
        });
        let most = counts.max().unwrap_or(0);
        let width = most.div_ceil(WITHIN.len() as u32 - 1).max(1) as usize;
        let shades = (1..=most).step_by(width);
        let last = |least: u32| most.min(least + width as u32 - 1);
        let within = [(0, 0)].into_iter();
        let within = within
            .chain(shades.map(|least| (least, last(least))))
            .collect();
        Kinds { within }
    }

    pub fn count(&self) -> usize {
        self.within.len() + 3
    }

    /// The kind of a block; the higher, the worse.
    pub fn kind(&self, end: End) -> usize {
        let shades = self.within.len();
        match end {
            End::Within(count) => {
                let found = self.within.iter().position(|&(_, most)| count <= most);
                found.unwrap_or(shades - 1)
            }
            End::Beyond(_) => shades,
            End::Failed(_) => shades + 1,
            End::Refused => shades + 2,
        }
    }

    pub fn colour(&self, kind: usize) -> &'static str {
        let shades = self.within.len();
        match kind.checked_sub(shades) {
            None => WITHIN[kind * (WITHIN.len() - 1) / (shades - 1).max(1)],
            Some(0) => BEYOND,
            Some(1) => FAILED,
            Some(_) => REFUSED,
        }
    }

    /// Whether a text on this colour has to be white.
    pub fn is_dark(&self, kind: usize) -> bool {
        kind > self.within.len()
    }

    /// What the legend calls it.
    pub fn name(&self, kind: usize) -> String {
        let shades = self.within.len();
        match kind.checked_sub(shades) {
            None => match self.within[kind] {
                (0, _) => "no bit changed".into(),
                (least, most) if least == most => bits_changed(least),
                (least, most) => format!("{least} to {most} bits changed"),
            },
            Some(0) => "decoded beyond the half".into(),
            Some(1) => "failed: open".into(),
            Some(_) => "refused: open".into(),
        }
    }

    /// How many blocks there are of each kind.
    pub fn counts(&self, blocks: &[Block]) -> Vec<u64> {
        let mut counts = vec![0; self.count()];
        for block in blocks {
            counts[self.kind(block.end)] += 1;
        }
        counts
    }
}

/// `no bit changed`, `1 bit changed`, `2 bits changed`.
pub fn bits_changed(count: u32) -> String {
    match count {
        0 => "no bit changed".into(),
        _ => format!("{} changed", counted(count as usize, "bit")),
    }
}

#[cfg(test)]
mod tests {
    use super::{bits_changed, Kinds, BEYOND, FAILED, REFUSED, WITHIN};
    use crate::map::blocks::{Blocks, End};

    fn kinds(ends: &[End]) -> Kinds {
        Kinds::of(&ends.iter().copied().collect::<Blocks>().all)
    }

    /// The lightness L* of a colour, from 0 to 100.
    fn lightness(colour: &str) -> f64 {
        let part = |at: usize| {
            let value = u8::from_str_radix(&colour[at..at + 2], 16).unwrap();
            let value = f64::from(value) / 255.0;
            if value <= 0.04045 {
                value / 12.92
            } else {
                ((value + 0.055) / 1.055).powf(2.4)
            }
        };
        let y = 0.2126 * part(1) + 0.7152 * part(3) + 0.0722 * part(5);
        116.0 * y.cbrt() - 16.0
    }

    #[test]
    fn each_colour_is_darker_than_the_one_before() {
        let all: Vec<f64> = WITHIN
            .iter()
            .chain([&BEYOND, &FAILED, &REFUSED])
            .map(|colour| lightness(colour))
            .collect();
        for pair in all.windows(2) {
            assert!(pair[0] - pair[1] >= 4.5, "{all:.1?}");
        }
        for pair in all[WITHIN.len() - 1..].windows(2) {
            assert!(pair[0] - pair[1] >= 7.5, "{all:.1?}");
        }
    }

    #[test]
    fn shades_of_few_and_of_many_counts() {
        let names = |ends: &[End]| {
            let kinds = kinds(ends);
            let within = 0..kinds.count() - 3;
            let names: Vec<String> = within.map(|kind| kinds.name(kind)).collect();
            names.join(", ")
        };
        assert_eq!(names(&[]), "no bit changed");
        assert_eq!(names(&[End::Within(1)]), "no bit changed, 1 bit changed");
        assert_eq!(
            names(&[End::Within(15), End::Beyond(40)]),
            "no bit changed, 1 to 3 bits changed, 4 to 6 bits changed, 7 to 9 bits changed, \
             10 to 12 bits changed, 13 to 15 bits changed"
        );
        assert_eq!(
            names(&[End::Within(7)]),
            "no bit changed, 1 to 2 bits changed, 3 to 4 bits changed, 5 to 6 bits changed, \
             7 bits changed"
        );
    }

    #[test]
    fn colours_and_counts() {
        let ends = [
            End::Within(0),
            End::Within(1),
            End::Beyond(2),
            End::Failed(3),
            End::Refused,
            End::Refused,
        ];
        let all: Blocks = ends.into_iter().collect();
        let found = kinds(&ends);
        assert_eq!(found.counts(&all.all), [1, 1, 1, 1, 2]);
        let colours: Vec<&str> = (0..found.count()).map(|kind| found.colour(kind)).collect();
        assert_eq!(colours, [WITHIN[0], WITHIN[5], BEYOND, FAILED, REFUSED]);
        for most in 0..40 {
            let kinds = kinds(&[End::Within(most)]);
            assert_eq!(kinds.kind(End::Within(most)), kinds.count() - 4, "{most}");
            assert!(kinds.within.len() <= WITHIN.len(), "{most}");
        }
    }

    #[test]
    fn words() {
        assert_eq!(bits_changed(0), "no bit changed");
        assert_eq!(bits_changed(1), "1 bit changed");
        assert_eq!(bits_changed(12), "12 bits changed");
    }
}
