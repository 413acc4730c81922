//! The reference's index of every generated matrix, read as card 1 of document 02 describes it.

use generator::codes::{self, Code};
use generator::Random;
use reference::index_of;

/// Starting places from 0 to m × ρ, and from each to the next the rows of a column, ascending.
fn is_read_back(code: &Code) {
    let h = &code.matrix;
    let (n, ones) = (usize::from(h.n), h.list.len());
    let index = index_of(h);
    assert_eq!(index.len(), n + 1 + ones, "{}", code.name);
    let (starts, rows) = index.split_at(n + 1);
    assert_eq!((starts[0], usize::from(starts[n])), (0, ones));
    for (j, expected) in code.columns().iter().enumerate() {
        let [from, to] = [starts[j], starts[j + 1]].map(usize::from);
        let rows: Vec<usize> = rows[from..to].iter().map(|&i| usize::from(i)).collect();
        assert!(rows.is_sorted_by(|a, b| a < b), "{} {j}", code.name);
        assert_eq!(&rows, expected, "{} {j}", code.name);
    }
}

#[test]
fn the_index_holds_the_rows_of_each_column() {
    let mut random = Random::new(5);
    for code in codes::all() {
        is_read_back(&code);
        is_read_back(&code.shuffled(&mut random));
    }
}
