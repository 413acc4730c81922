//! The setting: `bits 3 limit 5 level-step 0.5` or `bits 3 limit 5 full-scale 4`.

use crate::fault::{short, Fault};
use crate::number;
use crate::text::{Line, Text};
use std::fmt;
use std::path::Path;

/// Width, round limit, kind of step (0 level step, 1 full scale) and step, as the program reads
/// them. Whether they are accepted is for the proved code to say: see [`crate::checked`].
#[derive(Clone, Copy, Debug)]
pub struct Setting {
    pub bits: u8,
    pub limit: u8,
    pub kind: u8,
    pub step: f32,
}

const EXAMPLE: &str = "bits 8 limit 64 level-step 0.1";

/// The largest width that the proved code accepts.
pub const MOST_BITS: u8 = 12;

/// The words that have a number after them.
const WORDS: [&str; 4] = ["bits", "limit", "level-step", "full-scale"];

impl Setting {
    /// From an option's value: the words themselves, or the name of a file with them.
    pub fn open(value: &str) -> Result<Setting, Fault> {
        let text = match Setting::is_words(value) {
            true => Text::of(Setting::name(value), value)?,
            false => Text::open(value).map_err(|fault| not_opened(value, fault))?,
        };
        Setting::read(&text)
    }

    /// What messages call it: the file's name, or the option's.
    pub fn name(value: &str) -> &str {
        match Setting::is_words(value) {
            true => "--setting",
            false => value,
        }
    }

    /// Whether a value is words: several, or one of a setting's where no file has that name.
    fn is_words(value: &str) -> bool {
        let mut words = value.split([' ', '\t', '\n', ',', ';', '=']);
        let setting = words.next().is_some_and(|word| WORDS.contains(&word));
        let value = value.trim();
        value.is_empty() || value.contains(' ') || (setting && !Path::new(value).exists())
    }

    /// The words in any order, over as many lines as one likes. `kind` and a number before the
    /// step stands for any other kind, which is refused.
    pub(crate) fn read(text: &Text) -> Result<Setting, Fault> {
        if let Some(line) = text.lines.iter().find(|line| line.has_decimal_comma()) {
            let what = "a decimal comma in the setting".to_string();
            return Err(text.of_line(line, what, "write 0.5 in place of 0,5"));
        }
        let mut found = Found::default();
        let places = text.lines.iter();
        let mut places = places.flat_map(|line| (0..line.len()).map(move |at| (line, at)));
        while let Some((line, at)) = places.next() {
            let word = line.field(at);
            let wanted = match word {
                "kind" => 2,
                word if WORDS.contains(&word) => 1,
                _ => {
                    let what = format!("`{}` is no word of a setting", short(word));
                    return Err(text.at(line, at, what, &format!("write {EXAMPLE}")));
                }
            };
            let values: Vec<(&Line, usize)> = places.by_ref().take(wanted).collect();
            if values.len() < wanted {
                let what = format!("the number after `{word}` is missing");
                return Err(text.at(line, at, what, &format!("write {EXAMPLE}")));
            }
            found.keep(text, (line, at), &values)?;
        }
        found.setting(text)
    }

    /// The largest level: L = 2^(b − 1) − 1, where b is accepted.
    pub fn largest_level(&self) -> u32 {
        (1 << (u32::from(self.bits.clamp(1, MOST_BITS)) - 1)) - 1
    }

    /// The rounds after which so many wrong bits, at most half of gamma, are right at the latest:
    /// with this limit or more the flipping rule for iterative voting holds for them.
    pub fn rounds_for(&self, gamma: usize, wrong: usize) -> u32 {
        let stride = gamma + 2 - 2 * wrong;
        match wrong {
            0 => 0,
            _ => self.largest_level() / stride as u32 + 1,
        }
    }

    /// Whether a finite sample gets level 0. Both sides are exact in the double format.
    pub fn gives_level_0(&self, sample: f32) -> bool {
        let gain = match self.kind {
            0 => 1,
            _ => self.largest_level(),
        };
        2.0 * f64::from(gain) * f64::from(sample.abs()) < f64::from(self.step)
    }
}

/// What to say of a value that is neither words nor a file's name.
fn not_opened(value: &str, fault: Fault) -> Fault {
    match Path::new(value).exists() || value == "-" {
        true => fault,
        false => fault.remedy(format!("is the name right? Or write {EXAMPLE}")),
    }
}

/// The words found so far.
#[derive(Default)]
struct Found {
    bits: Option<u8>,
    limit: Option<u8>,
    step: Option<(u8, f32)>,
}

impl Found {
    /// Keeps what a word says.
    fn keep(
        &mut self,
        text: &Text,
        (line, at): (&Line, usize),
        values: &[(&Line, usize)],
    ) -> Result<(), Fault> {
        let word = line.field(at);
        let (value_line, value_at) = values[0];
        let twice = match word {
            "bits" => {
                let bits = text.whole(value_line, value_at, "bits is 2 to 12", 255)?;
                self.bits.replace(bits).is_some()
            }
            "limit" => {
                let limit = text.whole(value_line, value_at, "limit is 0 to 255", 255)?;
                self.limit.replace(limit).is_some()
            }
            _ => {
                let kind = match word {
                    "level-step" => 0,
                    "full-scale" => 1,
                    _ => text.whole(value_line, value_at, "kind", 255)?,
                };
                let step = float(text, values[values.len() - 1])?;
                self.step.replace((kind, step)).is_some()
            }
        };
        if twice {
            let what = format!("`{word}` comes twice, or beside another step");
            return Err(text.at(line, at, what, "leave one of them out"));
        }
        Ok(())
    }

    /// All of them.
    fn setting(self, text: &Text) -> Result<Setting, Fault> {
        let missing = |word: &str| {
            let what = format!("`{word}` is missing");
            text.at_end(what, &format!("write {EXAMPLE}"))
        };
        let (kind, step) = self
            .step
            .ok_or_else(|| missing("level-step` or `full-scale"))?;
        Ok(Setting {
            bits: self.bits.ok_or_else(|| missing("bits"))?,
            limit: self.limit.ok_or_else(|| missing("limit"))?,
            kind,
            step,
        })
    }
}

fn float(text: &Text, (line, at): (&Line, usize)) -> Result<f32, Fault> {
    let written = line.field(at);
    number::read(written, false).ok_or_else(|| {
        let (what, remedy) = number::complaint(written, false);
        text.at(line, at, what, remedy)
    })
}

impl fmt::Display for Setting {
    fn fmt(&self, f: &mut fmt::Formatter) -> fmt::Result {
        write!(f, "bits {} limit {} ", self.bits, self.limit)?;
        match self.kind {
            0 => write!(f, "level-step")?,
            1 => write!(f, "full-scale")?,
            other => write!(f, "kind {other}")?,
        }
        write!(f, " {}", number::write(self.step))
    }
}

#[cfg(test)]
mod tests {
    use super::Setting;
    use crate::text::Text;

    fn read(line: &str) -> Result<Setting, String> {
        let text = Text::of("--setting", line).map_err(|fault| fault.to_string())?;
        Setting::read(&text).map_err(|fault| fault.to_string())
    }

    #[test]
    fn lines_come_back() {
        for line in [
            "bits 3 limit 5 level-step 0.5",
            "bits 8 limit 255 full-scale 4",
            "bits 12 limit 255 level-step 0.005",
            "bits 0 limit 0 kind 7 -0",
            "bits 255 limit 1 level-step 0x7fc00001",
        ] {
            assert_eq!(read(line).unwrap().to_string(), line);
        }
        let other_order = "level-step 0.5 bits 3\nlimit 5 # as in P6";
        let expected = "bits 3 limit 5 level-step 0.5";
        assert_eq!(read(other_order).unwrap().to_string(), expected);
    }

    /// With half of an even gamma wrong it is L / 2 + 1, with half of an odd one L / 3 + 1.
    #[test]
    fn the_limit_that_carries_the_promise() {
        for (bits, even, odd) in [
            (2, 1, 1),
            (3, 2, 2),
            (8, 64, 43),
            (9, 128, 86),
            (10, 256, 171),
            (11, 512, 342),
            (12, 1024, 683),
        ] {
            let setting = read(&format!("bits {bits} limit 5 level-step 0.5")).unwrap();
            for half in 1..=16 {
                assert_eq!(setting.rounds_for(2 * half, half), even);
                assert_eq!(setting.rounds_for(2 * half + 1, half), odd);
                assert_eq!(setting.rounds_for(2 * half, 0), 0);
            }
        }
    }

    #[test]
    fn level_0_is_the_quantisers() {
        for line in [
            "bits 3 limit 5 level-step 0.5",
            "bits 8 limit 5 full-scale 4.7",
            "bits 12 limit 5 level-step 0.003",
            "bits 12 limit 5 full-scale 4.7",
        ] {
            let setting = read(line).unwrap();
            let same = reference::Setting {
                bits: setting.bits.into(),
                limit: setting.limit.into(),
                kind: setting.kind.into(),
                step: setting.step,
            };
            let edge = match setting.kind {
                0 => setting.step / 2.0,
                _ => setting.step / 2.0 / setting.largest_level() as f32,
            };
            let near = [
                0.0,
                -0.0,
                edge,
                edge.next_down(),
                edge.next_up(),
                1e-40,
                9.0,
                f32::MAX,
            ];
            for sample in near.into_iter().flat_map(|sample| [sample, -sample]) {
                let expected = reference::level(&same, sample) == 0;
                assert_eq!(setting.gives_level_0(sample), expected, "{line}: {sample}");
            }
        }
    }

    #[test]
    fn what_is_wrong() {
        for (line, expected) in [
            ("", "--setting:1: `level-step` or `full-scale` is missing"),
            (
                "bits 3 limit 5",
                "--setting:1: `level-step` or `full-scale` is missing",
            ),
            ("limit 5 level-step 1", "--setting:1: `bits` is missing"),
            ("bits 3 level-step 1", "--setting:1: `limit` is missing"),
            ("bits 3 bits 4", "--setting:1:3: `bits` comes twice"),
            (
                "level-step 1 full-scale 2",
                "--setting:1:3: `full-scale` comes twice",
            ),
            (
                "bits 256",
                "--setting:1:2: bits is 2 to 12: 256 is above 255",
            ),
            (
                "bits -3",
                "--setting:1:2: bits is 2 to 12: `-3` is not a whole number",
            ),
            ("bits", "--setting:1:1: the number after `bits` is missing"),
            (
                "limit 2.5",
                "--setting:1:2: limit is 0 to 255: `2.5` is not",
            ),
            ("full-scale four", "--setting:1:2: `four` is not a number"),
            (
                "bits 3 rounds 5",
                "--setting:1:3: `rounds` is no word of a setting",
            ),
        ] {
            let message = read(line).unwrap_err();
            assert!(message.starts_with(expected), "{message}");
        }
    }

    /// What an option's value is taken for: words that are not whole are no file's name.
    #[test]
    fn values() {
        let remedy = "write bits 8 limit 64 level-step 0.1";
        for (value, expected) in [
            (
                "bits",
                "--setting:1:1: the number after `bits` is missing, ",
            ),
            (
                "bits,8",
                "--setting:1: `level-step` or `full-scale` is missing, ",
            ),
            (
                "bits=8",
                "--setting:1:1: `bits=8` is no word of a setting, ",
            ),
            (
                "level-step",
                "--setting:1:1: the number after `level-step` is missing, ",
            ),
            (
                "limits.txt",
                "limits.txt: No such file or directory, is the name right? Or ",
            ),
            ("8", "8: No such file or directory, is the name right? Or "),
        ] {
            let message = Setting::open(value).unwrap_err().to_string();
            assert_eq!(message, format!("{expected}{remedy}"));
        }
    }
}
