//! Single-format floats as text, and back without loss.

use crate::fault::short;

/// A decimal number, the nearest float; `nan` and `inf` in any case, with or without a sign; or
/// `0x` and the eight digits of the float's bits. None for anything else.
pub fn read(written: &str, decimal_comma: bool) -> Option<f32> {
    let decimal = |byte: u8| byte.is_ascii_digit() || b"+-.eE".contains(&byte);
    if written.bytes().all(decimal) {
        if decimal_comma && written.contains('.') {
            return None;
        }
        return written
            .parse()
            .ok()
            .filter(|number: &f32| number.is_finite());
    }
    if let Some(digits) = written.strip_prefix("0x") {
        let whole = digits.len() == 8 && digits.bytes().all(|byte| byte.is_ascii_hexdigit());
        let bits = u32::from_str_radix(digits, 16).ok().filter(|_| whole);
        return bits.map(f32::from_bits);
    }
    if written.contains(',') && decimal_comma {
        return with_point(written).and_then(|written| read(&written, false));
    }
    if written.contains('\u{2212}') {
        return read(&written.replace('\u{2212}', "-"), decimal_comma);
    }
    not_finite(written)
}

/// A number with one comma between digits, with a point in its place.
fn with_point(written: &str) -> Option<String> {
    let (whole, fraction) = written.split_once(',')?;
    let digit = |byte: Option<u8>| byte.is_some_and(|byte| byte.is_ascii_digit());
    let plain = digit(whole.bytes().last()) && digit(fraction.bytes().next());
    let once = !fraction.contains(',') && !written.contains('.');
    (plain && once).then(|| format!("{whole}.{fraction}"))
}

/// `nan`, `inf` or `infinity`, in any case.
fn not_finite(written: &str) -> Option<f32> {
    let (negative, name) = match written.as_bytes().first()? {
        b'-' => (true, &written[1..]),
        b'+' => (false, &written[1..]),
        _ => (false, written),
    };
    let magnitude = match name.to_ascii_lowercase().as_str() {
        "nan" => f32::NAN,
        "inf" | "infinity" => f32::INFINITY,
        _ => return None,
    };
    Some(if negative { -magnitude } else { magnitude })
}

/// The shortest decimal number that is read as this float; a NaN by its bits.
pub fn write(number: f32) -> String {
    let magnitude = number.abs();
    if number.is_nan() {
        format!("0x{:08x}", number.to_bits())
    } else if magnitude == 0.0 || (1e-5..1e7).contains(&magnitude) || number.is_infinite() {
        number.to_string()
    } else {
        format!("{number:e}")
    }
}

/// Why a text is no number, and what to do about it.
pub fn complaint(written: &str, decimal_comma: bool) -> (String, &'static str) {
    let missing = "write nan there: then this block alone is refused";
    let said = |what: &str| format!("`{}` {what}", short(written));
    if written.is_empty() {
        return ("the field is empty".into(), missing);
    }
    if written.starts_with('#') && !is_error(written) {
        return (
            said("is not a number"),
            "a comment has a blank before its #",
        );
    }
    if is_missing(written) {
        return (said("is a missing value"), missing);
    }
    if decimal_comma && written.matches(',').count() > 1 {
        let remedy = "if commas separate the fields, leave --decimal-comma out; \
                      if they do both, save it with ; or tabs between the fields";
        return (said("has several commas beside --decimal-comma"), remedy);
    }
    if decimal_comma && written.contains('.') {
        return (
            said("has a point beside --decimal-comma"),
            "it could divide thousands: write 1234,5, or leave --decimal-comma out",
        );
    }
    if !decimal_comma && written.contains(',') && read(written, true).is_some() {
        return (said("has a decimal comma"), "give --decimal-comma");
    }
    let (what, remedy) = odd_character(written);
    (said(&what), remedy)
}

/// What else is wrong with a text that is no number.
fn odd_character(written: &str) -> (String, &'static str) {
    match written.chars().find(|c| !c.is_ascii()) {
        Some(c @ '\u{2010}'..='\u{2015}') => (code(c, "a dash"), "write - for a minus"),
        Some(c) if c.is_control() || c == '\u{feff}' => {
            (code(c, "which cannot be seen"), "take it away")
        }
        Some(c) if c.is_whitespace() => (code(c, "a blank of its own kind"), "take it away"),
        _ if overflows(written) => (
            "is beyond the single format".into(),
            "its largest number is 3.4e38: write nan to have this block refused",
        ),
        _ => (
            "is not a number".into(),
            "write decimal numbers such as -0.75",
        ),
    }
}

/// A character that cannot be seen for what it is.
fn code(character: char, what: &str) -> String {
    format!("has U+{:04X}, {what}", u32::from(character))
}

/// What spreadsheets and statistics programs write for a value that is not there. Nothing that
/// begins with `#` is a label.
pub fn is_missing(written: &str) -> bool {
    let names = ["na", "n/a", "null", "none", "-", "--", "?"];
    let lower = written.to_ascii_lowercase();
    written.starts_with('#') || names.contains(&lower.as_str())
}

/// `#N/A`, `#DIV/0!` and the like.
pub fn is_error(written: &str) -> bool {
    let upper = |byte: u8| byte.is_ascii_uppercase() || b"/0".contains(&byte);
    written.strip_prefix('#').is_some_and(|rest| {
        let name = rest.trim_end_matches(['!', '?']);
        !name.is_empty() && name.bytes().all(upper)
    })
}

/// Whether this is a decimal number, but too large.
fn overflows(written: &str) -> bool {
    let decimal = |byte: u8| byte.is_ascii_digit() || b"+-.eE".contains(&byte);
    written.bytes().all(decimal) && written.parse::<f32>().is_ok()
}

#[cfg(test)]
mod tests {
    use super::{complaint, read, write};

    #[test]
    fn every_float_comes_back() {
        let mut bits = 0_u32;
        for _ in 0..200_000 {
            bits = bits.wrapping_mul(1_664_525).wrapping_add(1_013_904_223);
            let number = f32::from_bits(bits);
            let back = read(&write(number), false).unwrap();
            assert_eq!(back.to_bits(), bits, "{}", write(number));
        }
        let ends = [
            0.0,
            -0.0,
            f32::MAX,
            f32::MIN,
            f32::MIN_POSITIVE,
            f32::from_bits(1),
        ];
        for number in ends {
            let back = read(&write(number), false).unwrap();
            assert_eq!(back.to_bits(), number.to_bits());
        }
        assert_eq!(write(f32::NEG_INFINITY), "-inf");
        assert_eq!(write(f32::from_bits(0xFFC0_0001)), "0xffc00001");
        assert_eq!(write(1e30), "1e30");
        assert_eq!(write(0.1), "0.1");
    }

    #[test]
    fn as_people_write_them() {
        for written in ["nan", "NaN", "NAN", "-nan", "+NaN"] {
            assert!(read(written, false).unwrap().is_nan(), "{written}");
        }
        for written in ["inf", "Inf", "INF", "+inf", "Infinity"] {
            assert_eq!(read(written, true), Some(f32::INFINITY), "{written}");
        }
        assert_eq!(read("-INF", false), Some(f32::NEG_INFINITY));
        assert_eq!(read("\u{2212}0.5", false), Some(-0.5));
        assert_eq!(read("\u{2212}0,5", true), Some(-0.5));
        assert_eq!(read("1,5e-3", true), Some(1.5e-3));
        assert_eq!(read(".5", false), Some(0.5));
        assert_eq!(read("7", true), Some(7.0));
    }

    #[test]
    fn what_is_no_number() {
        for written in [
            "",
            "0.5x",
            "1e39",
            "--1",
            "0x123",
            "1,5",
            "0x7fc0000g",
            "in",
            "+",
        ] {
            assert_eq!(read(written, false), None, "{written}");
        }
        for written in ["1.5", "1.234,5", "1,", ",5", "1,2,3", ","] {
            assert_eq!(read(written, true), None, "{written}");
        }
    }

    #[test]
    fn each_complaint_has_a_remedy() {
        for (written, decimal_comma, what) in [
            ("", false, "the field is empty"),
            ("#N/A", false, "`#N/A` is a missing value"),
            ("#DIV/0!", false, "`#DIV/0!` is a missing value"),
            ("NULL", false, "`NULL` is a missing value"),
            ("#six", false, "`#six` is not a number"),
            ("1.5", true, "`1.5` has a point beside --decimal-comma"),
            ("1,5", false, "`1,5` has a decimal comma"),
            (
                "1,2,3",
                true,
                "`1,2,3` has several commas beside --decimal-comma",
            ),
            ("\u{2013}5", false, "`\u{2013}5` has U+2013, a dash"),
            (
                "1\u{a0}000",
                false,
                "`1\u{a0}000` has U+00A0, a blank of its own kind",
            ),
            (
                "\u{feff}5",
                false,
                "`\u{feff}5` has U+FEFF, which cannot be seen",
            ),
            ("1e39", false, "`1e39` is beyond the single format"),
            ("six", false, "`six` is not a number"),
        ] {
            let said = complaint(written, decimal_comma);
            assert_eq!(said.0, what);
            assert!(!said.1.is_empty());
        }
    }
}
