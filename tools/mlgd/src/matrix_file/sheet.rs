//! A circulant sheet: a grid of blocks, each of zeros or a shifted identity, as bytes. The proved call
//! turns it into a list; what is looked up in its bytes here is for messages alone.

use super::{Form, MatrixFile};
use crate::amount::{counted, thousands};
use crate::checked;
use crate::fault::Fault;
use std::fs::File;
use std::io::Read;
use std::path::Path;

/// What is wrong, and what to do about it.
type Wrong = (String, &'static str);

/// Whether a file is a sheet: its name says so.
pub(super) fn is_named(file: &str) -> bool {
    let extension = Path::new(file).extension();
    extension.is_some_and(|extension| extension.eq_ignore_ascii_case("sheet"))
}

/// Reads a sheet that the proved call accepts.
pub(super) fn open(file: &str) -> Result<MatrixFile, Fault> {
    let bytes = bytes_of(file)?;
    let fault = |(what, remedy): Wrong| Fault::new(file, what).remedy(remedy);
    let read = checked::matrix_of_sheet(&bytes);
    let matrix = read.map_err(|(number, place)| fault(refused(&bytes, number, place)))?;
    let number = |at: usize| u16::from_le_bytes([bytes[at], bytes[at + 1]]);
    Ok(MatrixFile {
        file: file.into(),
        form: Form::Sheet([0, 2, 4].map(number)),
        matrix,
        first: 0,
        sizes: [None; 4],
        entries: Vec::new(),
    })
}

/// A file's bytes, no more than a sheet can have.
fn bytes_of(file: &str) -> Result<Vec<u8>, Fault> {
    let most = checked::MOST_SHEET_BYTES;
    let system = |error| Fault::system(file, &error);
    let opened = File::open(file).map_err(system)?;
    let mut bytes = Vec::new();
    let mut first = opened.take(most as u64 + 1);
    first.read_to_end(&mut bytes).map_err(system)?;
    if bytes.len() > most {
        let most = thousands(most as u64);
        let what = format!("it has more than {most} bytes, the most of a sheet that is accepted");
        return Err(Fault::new(file, what).remedy("is this the right file?"));
    }
    Ok(bytes)
}

/// What a refusal of the proved call means for these bytes.
fn refused(bytes: &[u8], number: u64, place: usize) -> Wrong {
    let unknown = || {
        let what = format!("refusal {number} at {place}");
        (what, "README has what it means")
    };
    let Some(sheet) = Sheet::of(bytes) else {
        let what = format!(
            "it has {}, and a sheet begins with J, K and Z, two bytes each",
            counted(bytes.len(), "byte")
        );
        return (what, WHOLE);
    };
    match number {
        1 => sheet.sizes().unwrap_or_else(unknown),
        4 => sheet.heavy_column(place),
        5 => sheet.overlap(place),
        11 => sheet.no_sheet().unwrap_or_else(unknown),
        _ => unknown(),
    }
}

const WHOLE: &str = "is it a whole sheet?";

/// What a sheet's bytes say, as far as they go. Block rows and block columns are counted from 0.
struct Sheet<'a> {
    bytes: &'a [u8],
    rows: usize,
    columns: usize,
    size: usize,
}

impl Sheet<'_> {
    /// None if there are fewer than six bytes.
    fn of(bytes: &[u8]) -> Option<Sheet<'_>> {
        let number = |at: usize| u16::from_le_bytes([bytes[at], bytes[at + 1]]);
        (bytes.len() >= 6).then(|| Sheet {
            bytes,
            rows: number(0).into(),
            columns: number(2).into(),
            size: number(4).into(),
        })
    }

    fn places(&self) -> usize {
        self.rows * self.columns
    }

    /// Where the shifts begin.
    fn map_end(&self) -> usize {
        6 + self.places().div_ceil(8)
    }

    /// A place of the map, which is there.
    fn is_set(&self, place: usize) -> bool {
        self.bytes[6 + place / 8] >> (7 - place % 8) & 1 == 1
    }

    fn set_in_row(&self, r: usize) -> usize {
        let places = r * self.columns..(r + 1) * self.columns;
        places.filter(|&place| self.is_set(place)).count()
    }

    fn set_in_column(&self, c: usize) -> usize {
        let places = (0..self.rows).map(|r| r * self.columns + c);
        places.filter(|&place| self.is_set(place)).count()
    }

    /// "3 × 5 blocks"
    fn blocks(&self) -> String {
        format!("{} × {} blocks", self.rows, self.columns)
    }

    /// Refusal 11: the first fault that is found.
    fn no_sheet(&self) -> Option<Wrong> {
        self.zero()
            .or_else(|| self.cut_map())
            .or_else(|| self.spare())
            .or_else(|| self.unlike_rows())
            .or_else(|| self.other_length())
            .or_else(|| self.far_shift())
    }

    fn zero(&self) -> Option<Wrong> {
        let sizes = [
            ("J, the block rows,", self.rows),
            ("K, the block columns,", self.columns),
            ("Z, the block size,", self.size),
        ];
        let (name, _) = sizes.into_iter().find(|(_, size)| *size == 0)?;
        Some((format!("{name} is 0"), "is this a sheet?"))
    }

    fn cut_map(&self) -> Option<Wrong> {
        let (bytes, end) = (self.bytes.len(), self.map_end());
        let what = format!(
            "it has {}, and the map of {} ends after {}",
            counted(bytes, "byte"),
            self.blocks(),
            thousands(end as u64)
        );
        (bytes < end).then_some((what, WHOLE))
    }

    fn spare(&self) -> Option<Wrong> {
        let spare = self.places()..8 * (self.map_end() - 6);
        let place = spare.into_iter().find(|&place| self.is_set(place))?;
        let what = format!(
            "byte {}: a place behind the map of {} is set",
            6 + place / 8,
            self.blocks()
        );
        Some((what, "write the map's spare places as 0"))
    }

    fn unlike_rows(&self) -> Option<Wrong> {
        let first = self.set_in_row(0);
        let r = (1..self.rows).find(|&r| self.set_in_row(r) != first)?;
        let what = format!(
            "block row {r} has {}, and block row 0 has {first}: the decoder takes rows of one weight",
            counted(self.set_in_row(r), "set place")
        );
        Some((what, "is a place of the map wrong?"))
    }

    fn other_length(&self) -> Option<Wrong> {
        let set = self.rows * self.set_in_row(0);
        let (bytes, needed) = (self.bytes.len(), self.map_end() + 2 * set);
        let what = format!(
            "it has {}, and a sheet of {}, {} of them set, has {}",
            counted(bytes, "byte"),
            self.blocks(),
            thousands(set as u64),
            thousands(needed as u64)
        );
        (bytes != needed).then_some((what, "is the file whole, and the map right?"))
    }

    fn far_shift(&self) -> Option<Wrong> {
        let shifts = self.bytes[self.map_end()..].chunks_exact(2);
        let shift = |pair: &[u8]| usize::from(u16::from_le_bytes([pair[0], pair[1]]));
        let mut far = shifts.map(shift).enumerate();
        let (at, shift) = far.find(|(_, shift)| *shift >= self.size)?;
        let byte = self.map_end() + 2 * at;
        let what = format!("byte {byte}: shift {at} is {shift}, and Z is {}", self.size);
        Some((what, "shifts are below Z"))
    }

    /// Refusal 1: which size it is.
    fn sizes(&self) -> Option<Wrong> {
        let weights: Vec<usize> = (0..self.columns).map(|c| self.set_in_column(c)).collect();
        let gamma = *weights.iter().min()?;
        let (n, m) = (self.columns * self.size, self.rows * self.size);
        let (_, what) = checked::out_of_range([n, m, self.set_in_row(0), gamma])?;
        match weights.iter().position(|&weight| weight == 0) {
            Some(c) if what.starts_with("gamma") => {
                let what = format!(
                    "block column {c} has no set place, and a column stands in 1 row or more"
                );
                Some((what, "leave the block column out"))
            }
            _ => Some((what, "take another code")),
        }
    }

    /// Refusal 4: a block column of more than 32 set places. The column is its first.
    fn heavy_column(&self, column: usize) -> Wrong {
        let c = column / self.size;
        let rows = counted(self.set_in_column(c), "set place");
        let what = format!("block column {c} has {rows}, and a column stands in 32 rows at most");
        (what, "take another code")
    }

    /// Refusal 5: two rows share two columns or more.
    fn overlap(&self, row: usize) -> Wrong {
        let r = row / self.size;
        let what =
            format!("row {row}, of block row {r}, shares two columns or more with a row after it");
        (what, checked::OVERLAP_REMEDY)
    }
}

#[cfg(test)]
mod tests {
    use super::{is_named, refused, Sheet};

    /// 2 × 3 blocks of 3, four of them set.
    const SMALL: [u8; 15] = [2, 0, 3, 0, 3, 0, 0b1100_1100, 0, 0, 1, 0, 0, 0, 2, 0];

    fn with(at: usize, byte: u8) -> Vec<u8> {
        let mut bytes = SMALL.to_vec();
        bytes[at] = byte;
        bytes
    }

    #[test]
    fn names() {
        for (file, named) in [
            ("a.sheet", true),
            ("b/c.SHEET", true),
            ("a.sheet.txt", false),
            ("sheet", false),
            (".sheet", false),
            ("-", false),
        ] {
            assert_eq!(is_named(file), named, "{file}");
        }
    }

    #[test]
    fn every_fault_is_named() {
        let sheet = Sheet::of(&SMALL).unwrap();
        assert!(sheet.no_sheet().is_none());
        for (bytes, expected) in [
            (
                SMALL[..5].to_vec(),
                "it has 5 bytes, and a sheet begins with J, K and Z",
            ),
            (
                SMALL[..6].to_vec(),
                "it has 6 bytes, and the map of 2 × 3 blocks ends after 7",
            ),
            (with(0, 0), "J, the block rows, is 0"),
            (with(2, 0), "K, the block columns, is 0"),
            (with(4, 0), "Z, the block size, is 0"),
            (
                with(3, 255),
                "it has 15 bytes, and the map of 2 × 65283 blocks ends after 16,327",
            ),
            (
                SMALL[..14].to_vec(),
                "it has 14 bytes, and a sheet of 2 × 3 blocks, 4 of them set, has 15",
            ),
            (
                with(6, 0b1100_1110),
                "byte 6: a place behind the map of 2 × 3 blocks is set",
            ),
            (
                with(6, 0b1110_1100),
                "block row 1 has 2 set places, and block row 0 has 3",
            ),
            (with(13, 3), "byte 13: shift 3 is 3, and Z is 3"),
            (with(8, 1), "byte 7: shift 0 is 256, and Z is 3"),
        ] {
            let (what, _) = refused(&bytes, 11, 0);
            assert!(what.starts_with(expected), "{what}");
        }
    }

    #[test]
    fn refused_matrices() {
        let what = |bytes: &[u8], number: u64, place: usize| refused(bytes, number, place).0;
        let wide = with(5, 2);
        assert!(what(&wide, 1, 0).starts_with("n is 1545: the decoder takes 2 to 1023"));
        let empty = with(6, 0b1101_1000);
        let expected = "block column 2 has no set place, and a column stands in 1 row or more";
        assert_eq!(what(&empty, 1, 0), expected);
        let expected = "block column 1 has 2 set places, and a column stands in 32 rows at most";
        assert_eq!(what(&SMALL, 4, 3), expected);
        let expected = "row 4, of block row 1, shares two columns or more with a row after it";
        assert_eq!(what(&SMALL, 5, 4), expected);
        assert_eq!(what(&SMALL, 99, 7), "refusal 99 at 7");
    }
}
