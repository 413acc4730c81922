//! What the proved library says, in words: the matrix check, the check of a setting, one-step
//! voting, circulant sheets. No verdict is formed here; a refusal is only looked up in the file.

use crate::amount::counted;
use crate::fault::Fault;
use crate::matrix_file::{At, Form, Matrix, MatrixFile, COUNTED_FROM_1};
use crate::setting::Setting;
use ffi_face::{LentMatrix, Packed};

impl<'a> From<&'a Matrix> for LentMatrix<'a> {
    fn from(h: &'a Matrix) -> LentMatrix<'a> {
        LentMatrix {
            n: h.n,
            m: h.m,
            rho: h.rho,
            gamma: h.gamma,
            list: &h.list,
        }
    }
}

/// The proved matrix check. A refusal comes with the file's line and a remedy.
pub fn matrix(file: &MatrixFile) -> Result<(), Fault> {
    let answer = ffi_face::check((&file.matrix).into());
    let place = answer.place() as usize;
    match answer.refusal() {
        0 => Ok(()),
        1 => Err(sizes(file)),
        3 => Err(entry(file, place)),
        4 => Err(weight(file, place)),
        5 => Err(overlap(file, place)),
        number => {
            let what = format!("refusal {number} at {place}");
            Err(Fault::new(&file.file, what).remedy("README has what it means"))
        }
    }
}

/// A fault at a place of the file, or at its first row if it does not have that place.
fn at(file: &MatrixFile, place: Option<At>, what: String, remedy: &str) -> Fault {
    let fault = Fault::new(&file.file, what).remedy(remedy);
    match place {
        Some((line, field)) => fault.line(line).field(field),
        None => fault.line(file.line_of_row(0)),
    }
}

/// The first of n, m, rho and gamma that is out of its range: which one, and what to say of it.
pub(crate) fn out_of_range(sizes: [usize; 4]) -> Option<(usize, String)> {
    let ranges = [
        ("n", 2..=1023, "columns"),
        ("m", 1..=1023, "rows"),
        ("rho", 2..=32, "ones in each row"),
        ("gamma", 1..=32, "ones in each column"),
    ];
    let mut all = ranges.into_iter().zip(sizes).enumerate();
    all.find_map(|(k, ((size, range, what), value))| {
        let (least, most) = (range.start(), range.end());
        let said = format!("{size} is {value}: the decoder takes {least} to {most} {what}");
        (!range.contains(&value)).then_some((k, said))
    })
}

/// Refusal 1: which size it is.
fn sizes(file: &MatrixFile) -> Fault {
    let h = &file.matrix;
    if let Some((k, what)) = out_of_range([h.n, h.m, h.rho, h.gamma].map(usize::from)) {
        if k == 3 && h.gamma == 0 && file.sizes[k].is_none() {
            let nowhere = h.weights().iter().position(|&weight| weight == 0);
            return weight(file, nowhere.unwrap_or(0));
        }
        return at(file, file.sizes[k], what, "take another code");
    }
    let ones = |a: u16, b: u16| u32::from(a) * u32::from(b);
    let (rows, columns) = (ones(h.m, h.rho), ones(h.n, h.gamma));
    let what = format!(
        "m × rho is {rows} and n × gamma is {columns}: the rows have too few ones for columns of \
         gamma or more"
    );
    at(file, file.sizes[0], what, "correct the sizes")
}

/// Refusal 3: an entry not below n, or not above the one before it.
fn entry(file: &MatrixFile, index: usize) -> Fault {
    let h = &file.matrix;
    let (place, entry) = (file.entries.get(index).copied(), h.list[index]);
    let shown = |entry: u16| usize::from(entry) + file.first;
    if entry >= h.n {
        let what = format!("column {} is not below n = {}", shown(entry), h.n);
        let from_one = entry == h.n && !h.list.contains(&0) && file.form == Form::List;
        let remedy = match from_one {
            true => COUNTED_FROM_1,
            false => "correct n or the column",
        };
        return at(file, place, what, remedy);
    }
    let before = shown(h.list[index - 1]);
    let (entry, what) = (shown(entry), "not above the one before it in its row");
    let remedy = match entry == before {
        true => "a column stands once in a row",
        false => "sort the row",
    };
    at(
        file,
        place,
        format!("column {entry} after {before} is {what}"),
        remedy,
    )
}

/// Refusal 4: a column's weight is below gamma or above 32; with place n, no weight is gamma.
fn weight(file: &MatrixFile, column: usize) -> Fault {
    let h = &file.matrix;
    if column == usize::from(h.n) {
        return none_least(file);
    }
    let stands = |&index: &usize| usize::from(h.list[index]) == column;
    let found: Vec<usize> = (0..h.list.len()).filter(stands).collect();
    let place = found
        .last()
        .and_then(|&index| file.entries.get(index).copied());
    let rows = counted(found.len(), "row");
    let (why, remedy) = match found.len() {
        0 => ("a column stands in 1 or more".into(), nowhere(file, column)),
        33.. => ("a column stands in 32 at most".into(), "take another code"),
        _ => (
            format!("gamma is {}", h.gamma),
            "gamma is the smallest column weight",
        ),
    };
    let what = format!("column {} stands in {rows}, and {why}", column + file.first);
    at(file, place, what, remedy)
}

/// What to do about a column that stands nowhere.
fn nowhere(file: &MatrixFile, column: usize) -> &'static str {
    match (column, file.first, file.form) {
        (0, 0, _) => COUNTED_FROM_1,
        (_, _, Form::Dense) => "leave the column out",
        _ => "is a column's number wrong? Else count on without it",
    }
}

/// Refusal 4 with place n: every column weighs more than gamma.
fn none_least(file: &MatrixFile) -> Fault {
    let least = file.matrix.weights().into_iter().min().unwrap_or(0);
    let rows = counted(least, "row");
    let what = format!(
        "every column stands in {rows} or more, and gamma is {}",
        file.matrix.gamma
    );
    let remedy = format!("gamma is the smallest column weight: write {least}");
    at(file, file.sizes[3], what, &remedy)
}

/// Refusal 5: two rows share two columns or more.
fn overlap(file: &MatrixFile, row: usize) -> Fault {
    let rows: Vec<&[u16]> = file.matrix.rows().collect();
    let shared = |other: usize| -> Vec<String> {
        let common = rows[row]
            .iter()
            .filter(|column| rows[other].contains(column));
        common
            .map(|&column| (usize::from(column) + file.first).to_string())
            .collect()
    };
    let other = (row + 1..rows.len()).find(|&other| shared(other).len() >= 2);
    let other = other.unwrap_or(row);
    let what = format!(
        "rows {} and {} (lines {} and {}) share columns {}",
        row + file.first,
        other + file.first,
        file.line_of_row(row),
        file.line_of_row(other),
        shared(other).join(" and ")
    );
    Fault::new(&file.file, what)
        .line(file.line_of_row(row))
        .remedy(OVERLAP_REMEDY)
}

pub(crate) const OVERLAP_REMEDY: &str =
    "take another code: with two columns in common the promise does not hold";

/// The entries of the longest list, 1,023 × 32.
const MOST_ENTRIES: usize = 32_736;

/// The bytes of the longest sheet of an accepted matrix: 1,023 × 1,023 places, 1,023 × 32 shifts.
pub(crate) const MOST_SHEET_BYTES: usize = 196_295;

/// The matrix of a circulant sheet, by the proved call. The refusal's number and place where it is
/// refused.
pub(crate) fn matrix_of_sheet(bytes: &[u8]) -> Result<Matrix, (u64, usize)> {
    let (mut sizes, mut list) = ([0; 4], vec![0; MOST_ENTRIES]);
    let answer = ffi_face::sheet_to_list(bytes, &mut sizes, &mut list);
    if answer.refusal() != 0 {
        return Err((answer.refusal(), answer.place() as usize));
    }
    let [n, m, rho, gamma] = sizes;
    list.truncate(usize::from(m) * usize::from(rho));
    Ok(Matrix {
        n,
        m,
        rho,
        gamma,
        list,
    })
}

/// The sheet of an accepted matrix with blocks of z × z, by the proved call, if it is such a grid.
fn sheet_of(matrix: &Matrix, z: u16) -> Option<Vec<u8>> {
    let mut bytes = vec![0; MOST_SHEET_BYTES];
    let answer = ffi_face::list_to_sheet(matrix.into(), z, &mut bytes);
    bytes.truncate(answer.bytes());
    (answer.refusal() == 0).then_some(bytes)
}

/// The same of a file's matrix. Where there is none, the largest z that has one is told.
pub fn sheet(file: &MatrixFile, z: u16) -> Result<Vec<u8>, Fault> {
    let h = &file.matrix;
    sheet_of(h, z).ok_or_else(|| {
        let divides = |z: &u16| h.n.is_multiple_of(*z) && h.m.is_multiple_of(*z);
        let mut divisors = (1..=h.n.min(h.m)).rev().filter(divides);
        let largest = divisors.find(|&z| sheet_of(h, z).is_some());
        let what = format!("this matrix is no grid of zeros and shifted identities of {z} × {z}");
        let remedy = format!("with --z {} it is one", largest.unwrap_or(1));
        Fault::new(&file.file, what).remedy(remedy)
    })
}

/// A setting that the proved check accepts, from an option's value: by the quantiser on no
/// samples.
pub fn setting(value: &str) -> Result<Setting, Fault> {
    let setting = Setting::open(value)?;
    accepted(&setting, Setting::name(value))?;
    Ok(setting)
}

fn accepted(setting: &Setting, name: &str) -> Result<(), Fault> {
    let lent = reference::Setting {
        bits: setting.bits.into(),
        limit: setting.limit.into(),
        kind: setting.kind.into(),
        step: setting.step,
    };
    if ffi_face::quantise(&lent, &[], &mut [], &mut []).refusal() == 0 {
        return Ok(());
    }
    let (what, remedy) = match setting {
        Setting {
            bits: ..=1 | 13.., ..
        } => (
            format!("bits is 2 to 12, and not {}", setting.bits),
            "correct it",
        ),
        Setting { kind: 2.., .. } => (
            format!("the kind of step is {}", setting.kind),
            "give level-step or full-scale",
        ),
        Setting { kind, step, .. } => (
            format!("the step is from 2^-20 to 2^20, and not {step}"),
            match (*step > 0.0 && step.is_finite(), kind) {
                (true, _) => "scale samples and step alike",
                (false, 0) => "give one above 0, such as level-step 0.1",
                (false, _) => "give one above 0, such as full-scale 4",
            },
        ),
    };
    Err(Fault::new(name, what).remedy(remedy))
}

/// An answer of voting.
#[derive(Clone, Copy, Debug, PartialEq, Eq)]
pub struct Answer {
    pub decoded: bool,
    pub rounds: usize,
    pub failing: usize,
    pub changed: usize,
}

/// Proved one-step voting. The refusal's number where it is refused.
pub fn one_step(matrix: &Matrix, received: &[u8], word: &mut [u8]) -> Result<Answer, u64> {
    let answer = ffi_face::one_step(matrix.into(), received, word);
    match answer.refusal() {
        0 => Ok(answer_of(answer)),
        number => Err(number),
    }
}

/// The counts of an answer: rounds in 8 bits, failing in 12, changed in 12.
fn answer_of(answer: Packed) -> Answer {
    let counts = answer.0 >> 32;
    Answer {
        decoded: answer.place() == 0,
        rounds: (counts % 256) as usize,
        failing: (counts / 256 % 4096) as usize,
        changed: (counts / 256 / 4096) as usize,
    }
}
