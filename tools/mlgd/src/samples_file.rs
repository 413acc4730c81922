//! A file of samples, one block at a time: decimal numbers or CSV as people have them.
//!
//! A block is one line, or the same number of lines with the same numbers of fields each time. A
//! file that could be read in two ways is refused, with a hint.

mod doubts;
mod hints;

use crate::amount::counted;
use crate::fault::Fault;
use crate::fields::{Fields, Separator};
use crate::lines::{refuse_percent, without_comment, Lines};
use crate::number;

/// How the file is written, as far as it has to be told.
#[derive(Clone, Copy, Debug, Default)]
pub struct Form {
    /// The first line is a heading.
    pub header: bool,
    /// So many fields at the beginning of each line are labels.
    pub skip: usize,
    /// Numbers have a comma in place of the point.
    pub decimal_comma: bool,
}

/// A reader of blocks of n samples.
pub struct SamplesFile {
    lines: Lines,
    form: Form,
    n: usize,
    fields: Fields,
    separator: Option<Separator>,
    /// The numbers of fields of the first block's lines.
    shape: Vec<usize>,
    /// Whether empty lines stand between blocks, once two blocks have been seen.
    apart: Option<bool>,
    /// The first line and its first two fields, while every line could have decimal commas.
    decimals: Option<(usize, String)>,
    heading_due: bool,
    blocks: usize,
}

impl SamplesFile {
    pub fn open(file: &str, n: u16, form: Form) -> Result<SamplesFile, Fault> {
        Ok(SamplesFile::of(Lines::open(file)?, n, form))
    }

    pub fn of(lines: Lines, n: u16, form: Form) -> SamplesFile {
        SamplesFile {
            lines,
            form,
            n: usize::from(n),
            fields: Fields::default(),
            separator: None,
            shape: Vec::new(),
            apart: None,
            decimals: None,
            heading_due: form.header,
            blocks: 0,
        }
    }

    /// Reads the next block into `samples` and gives the number of its first line; none at the
    /// end of the file.
    pub fn next_block(&mut self, samples: &mut Vec<f32>) -> Result<Option<usize>, Fault> {
        samples.clear();
        let (mut first, mut part, mut gap) = (0, 0, false);
        while samples.len() < self.n {
            if !self.lines.advance()? {
                return self.ended(samples.len());
            }
            let line = without_comment(self.lines.text());
            if line.trim().is_empty() {
                // A line that is a comment and nothing else divides nothing.
                if self.lines.text().trim().is_empty() {
                    self.empty_line(samples.len())?;
                    gap = true;
                }
                continue;
            }
            if std::mem::take(&mut self.heading_due) {
                continue;
            }
            if part == 0 {
                first = self.lines.place().line;
            }
            let count = self.read_line(samples)?;
            self.fits(count, part, samples.len())?;
            part += 1;
        }
        self.between(gap, part)?;
        self.blocks += 1;
        Ok(Some(first))
    }

    /// How much of the file has been read, where that is known.
    pub fn share(&self) -> Option<f64> {
        self.lines.share()
    }

    /// How many lines a block takes: 0 before the first.
    pub fn lines_of_block(&self) -> usize {
        self.shape.len()
    }

    /// The numbers of the line, put to the samples; how many they are.
    fn read_line(&mut self, samples: &mut Vec<f32>) -> Result<usize, Fault> {
        let place = self.lines.place();
        let line = without_comment(self.lines.text());
        refuse_percent(place, line)?;
        let comma = self.form.decimal_comma;
        let separator = self.fields.split(place, line, comma, self.form.skip)?;
        let count = self.fields.spans.len();
        if count <= self.form.skip {
            let what = format!("this line has {}", counted(count, "field"));
            let remedy = format!("--skip-columns {} leaves none", self.form.skip);
            return Err(place.fault(what, remedy));
        }
        self.same_separator(separator)?;
        if count > 1 {
            self.separator = Some(separator);
        }
        let before = samples.len();
        for (at, span) in self.fields.spans.iter().enumerate().skip(self.form.skip) {
            let written = span.of(line);
            match number::read(written, comma) {
                Some(sample) => samples.push(sample),
                None => return Err(self.no_number(at, separator)),
            }
        }
        self.two_ways(separator, self.blocks == 0 && before == 0)?;
        Ok(samples.len() - before)
    }

    /// One separator in the whole file. A line of one field has none.
    fn same_separator(&self, separator: Separator) -> Result<(), Fault> {
        match self.separator {
            Some(other) if other != separator && self.fields.spans.len() > 1 => {
                let (now, before) = (separator.shown(), other.shown());
                let what = format!("{now} separates the fields here, and {before} before");
                let remedy = "use one separator in the file";
                Err(self.lines.place().fault(what, remedy))
            }
            _ => Ok(()),
        }
    }

    /// Whether a line of `count` samples has its place in the block, `held` with it.
    fn fits(&mut self, count: usize, part: usize, held: usize) -> Result<(), Fault> {
        let place = self.lines.place();
        let (n, skip) = (self.n, self.form.skip);
        if held > n && part == 0 {
            return Err(self.too_many(count));
        }
        let expected = self.shape.get(part).copied();
        match expected {
            Some(expected) if expected != count => {
                let like = if self.shape.len() == 1 {
                    "the lines before".to_string()
                } else {
                    format!("line {} of the first block", part + 1)
                };
                let what = format!(
                    "this line has {}, and {like} had {expected}",
                    counted(count, "sample")
                );
                let remedy = "is a value missing, or one too many? Write nan for a missing one";
                Err(place.fault(what, remedy))
            }
            None if held > n => {
                let room = n - (held - count);
                let what =
                    format!("block 0 has its {n} samples before this field, and the line goes on");
                let remedy = "put each block on a line of its own";
                Err(place.at(skip + room + 1, what, remedy))
            }
            None => {
                self.shape.push(count);
                Ok(())
            }
            Some(_) => Ok(()),
        }
    }

    /// An empty line may stand between blocks only.
    fn empty_line(&self, held: usize) -> Result<(), Fault> {
        if held == 0 {
            return Ok(());
        }
        let what = format!(
            "an empty line inside block {}, which has {held} of its {} samples",
            self.blocks, self.n
        );
        Err(self
            .lines
            .place()
            .fault(what, "write nan for a missing value"))
    }

    /// Blocks of several lines stand apart by empty lines all, or none: an empty line could be a
    /// value that is missing at a block's beginning.
    fn between(&mut self, gap: bool, parts: usize) -> Result<(), Fault> {
        if self.blocks == 0 || parts == 1 {
            return Ok(());
        }
        if *self.apart.get_or_insert(gap) == gap {
            return Ok(());
        }
        let what = format!(
            "an empty line stands {} block {}, unlike the blocks before",
            if gap { "before" } else { "not before" },
            self.blocks
        );
        let remedy = "is a value missing there? Write nan for it";
        Err(self.lines.place().fault(what, remedy))
    }

    /// The end of the file, which is to be the end of a block.
    fn ended(&self, held: usize) -> Result<Option<usize>, Fault> {
        if held == 0 {
            return self.refuse_decimals().map(|()| None);
        }
        let what = format!(
            "the file ends inside block {}, which has {held} of its {} samples",
            self.blocks, self.n
        );
        let remedy = "is a value missing, or is this another code's matrix?";
        Err(self.lines.place().fault(what, remedy))
    }
}

/// A block as a line that is read again without loss. Its first number has a point or an
/// exponent, so that the line is no heading that counts, and has no decimal commas.
pub fn csv_line(samples: &[f32]) -> String {
    let mut numbers: Vec<String> = samples.iter().map(|&y| number::write(y)).collect();
    if let Some(first) = numbers.first_mut() {
        if first
            .trim_start_matches('-')
            .bytes()
            .all(|b| b.is_ascii_digit())
        {
            first.push_str(".0");
        }
    }
    numbers.join(",") + "\n"
}

#[cfg(test)]
mod tests {
    use super::{csv_line, Form, SamplesFile};
    use crate::lines::Lines;

    /// The first line of each block, and the blocks.
    fn read_with(contents: &str, form: Form) -> Result<(Vec<usize>, Vec<Vec<f32>>), String> {
        let input = std::io::Cursor::new(contents.as_bytes().to_vec());
        let mut file = SamplesFile::of(Lines::of("y.csv", input, None), 3, form);
        let (mut starts, mut blocks, mut samples) = (Vec::new(), Vec::new(), Vec::new());
        while let Some(start) = file
            .next_block(&mut samples)
            .map_err(|fault| fault.to_string())?
        {
            starts.push(start);
            blocks.push(samples.clone());
        }
        Ok((starts, blocks))
    }

    fn read(contents: &str) -> Result<(Vec<usize>, Vec<Vec<f32>>), String> {
        read_with(contents, Form::default())
    }

    #[test]
    fn blocks_as_people_have_them() {
        let two = vec![vec![1.0, -2.5, 0.0], vec![4.0, 5.0, 1e-9]];
        for (contents, starts) in [
            ("1,-2.5,0\n4,5,1e-9\n", [1, 2]),
            ("\u{feff}1;-2.5;0\r\n\r\n4;5;1e-9\r\n", [1, 3]),
            ("1\t-2.5\t0\n4\t5\t1e-9", [1, 2]),
            ("1 -2.5 0\n  4 5   1e-9\n", [1, 2]),
            ("\"1\",\"-2.5\",\"0\"\n\"4\",\"5\",\"1e-9\"\n", [1, 2]),
            ("1\n-2.5\n0\n4\n5\n1e-9\n", [1, 4]),
            ("1\n-2.5\n0\n\n4\n5\n# the last\n1e-9\n", [1, 5]),
            ("# two blocks\n1, -2.5\n0\n4, 5\n1e-9 # the last\n", [2, 4]),
            ("1,\u{2212}2.5,-0\n4,5,1E-9\n", [1, 2]),
        ] {
            let (found, blocks) = read(contents).unwrap();
            assert_eq!(blocks, two, "{contents}");
            assert_eq!(found, starts, "{contents}");
        }
        assert_eq!(read("").unwrap().1, Vec::<Vec<f32>>::new());
        let (_, blocks) = read("NaN,-Inf,INF\n").unwrap();
        assert!(blocks[0][0].is_nan() && blocks[0][1..] == [f32::NEG_INFINITY, f32::INFINITY]);
    }

    #[test]
    fn with_options() {
        let form = Form {
            header: true,
            skip: 2,
            decimal_comma: true,
        };
        let contents = "shade;time;a;b;c\n4109;02:30 h;0,5;-1;2,5\nno. 2;x;1;1;1\n";
        let (starts, blocks) = read_with(contents, form).unwrap();
        assert_eq!(blocks, [[0.5, -1.0, 2.5], [1.0, 1.0, 1.0]]);
        assert_eq!(starts, [2, 3]);
    }

    /// Also where the same numbers could be a heading, or have decimal commas.
    #[test]
    fn lines_come_back() {
        for samples in [
            &[1.0, 2.0, 3.0][..],
            &[0.0, 1.0, 2.0],
            &[-0.0, 5.0, -1.0, 0.0],
            &[1.0, 1.0],
            &[f32::INFINITY, 2.0],
            &[1e30, 5.0],
        ] {
            let line = csv_line(samples);
            let input = std::io::Cursor::new(line.clone().into_bytes());
            let lines = Lines::of("y.csv", input, None);
            let mut file = SamplesFile::of(lines, samples.len() as u16, Form::default());
            let mut found = Vec::new();
            assert_eq!(file.next_block(&mut found), Ok(Some(1)), "{line}");
            assert_eq!(format!("{found:?}"), format!("{samples:?}"), "{line}");
            assert_eq!(file.next_block(&mut found), Ok(None), "{line}");
        }
    }
}
