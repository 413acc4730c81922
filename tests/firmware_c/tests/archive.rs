//! What the header says of the archive: one function, no state, little of the C library.

use firmware_c::{archive, is_there, left_out, printed};
use std::process::Command;

/// The names of the archive with their kinds, as `nm` prints them.
fn symbols(words: &[&str]) -> Vec<String> {
    let text = printed(Command::new("nm").args(words).arg(archive()));
    text.lines()
        .filter(|line| !line.ends_with(':'))
        .filter_map(|line| line.split_once(' '))
        .map(|(name, rest)| format!("{name} {}", &rest[..1]))
        .collect()
}

#[test]
fn one_name_and_no_state() {
    if !is_there("nm") {
        return left_out("the names in the archive", "nm");
    }
    assert_eq!(symbols(&["-P", "-g", "--defined-only"]), ["mlgd_decode T"]);
    for symbol in symbols(&["-P", "-u"]) {
        assert!(
            ["memcpy U", "memset U"].contains(&symbol.as_str()),
            "{symbol}"
        );
    }
    // D and B, large or small: data that can be written.
    for symbol in symbols(&["-P"]) {
        assert!(!symbol.ends_with(['D', 'd', 'B', 'b', 'C']), "{symbol}");
    }
}
