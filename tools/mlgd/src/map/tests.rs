//! The picture of a stored table is the stored picture; large tables stay small pictures.

use super::{draw, Blocks, End, Layout};
use crate::svg::tags_balance;

const RESULTS: &str = concat!(env!("CARGO_MANIFEST_DIR"), "/tests/pictures/results.csv");
const MAP: &str = include_str!("../../tests/pictures/map.svg");

/// Each block of another kind than the one before: no runs.
fn alternating(count: u32) -> Blocks {
    let end = |at: u32| match at % 7 {
        0 => End::Beyond(at % 50),
        1 if at.is_multiple_of(5) => End::Failed(3),
        3 if at.is_multiple_of(11) => End::Refused,
        rest => End::Within(rest * 5 % 16),
    };
    (0..count).map(end).collect()
}

/// WRITE_PICTURES=1 writes the stored picture anew: look at it then.
#[test]
fn the_stored_table_gives_the_stored_picture() {
    let blocks = Blocks::open(RESULTS).unwrap();
    let drawn = draw("results.csv", &blocks, Some(5));
    if std::env::var("WRITE_PICTURES").is_ok_and(|value| value == "1") {
        let path = concat!(env!("CARGO_MANIFEST_DIR"), "/tests/pictures/map.svg");
        std::fs::write(path, &drawn).unwrap();
    }
    assert_eq!(drawn, MAP, "run with WRITE_PICTURES=1 and look at it");
}

#[test]
fn the_stored_picture_has_its_parts() {
    assert!(tags_balance(MAP).is_ok());
    for part in [
        "results.csv: 8 blocks",
        "4 decoded within the half, 1 decoded beyond the half, 1 failed, 2 refused",
        "<title>block 17: decoded, 2 bits changed</title>",
        "<title>block 18: decoded, no bit changed</title>",
        "<title>block 19: decoded, 1 bit changed</title>",
        "<title>block 20: decoded, 11 bits changed, 1 undecided bit turned, beyond the half</title>",
        "<title>block 21: failed, 6 checks fail</title>",
        "<title>block 22: refused, sample 3 is nan, &quot;not&quot; a number</title>",
        "<title>block 23: decoded, no bit changed, 2 undecided bits turned</title>",
        "<title>block 24: refused</title>",
        ">Changed are bits with a level: samples of</text>",
        ">decoded beyond the half</text>",
        ">failed: open</text>",
        ">refused: open</text>",
    ] {
        assert!(MAP.contains(part), "{part}");
    }
    // Rows of five: they begin with blocks 17 and 22.
    assert!(MAP.contains(">17</text>") && MAP.contains(">22</text>"));
}

#[test]
fn the_legend_counts_every_kind() {
    let blocks = alternating(1_500);
    let svg = draw("t", &blocks, None);
    let kinds = super::Kinds::of(&blocks.all);
    let counts = kinds.counts(&blocks.all);
    assert_eq!(counts.iter().sum::<u64>(), 1_500);
    for count in counts {
        assert!(svg.contains(&format!(">{count}</text>")), "{count}");
    }
}

/// Cells with a tooltip each, then rows with one, then several blocks in a cell.
#[test]
fn pictures_stay_small() {
    for (blocks, tooltips, most_bytes) in [
        (0, 0, 4_000),
        (1, 1, 4_000),
        (2_000, 2_000, 200_000),
        (2_001, 41, 40_000),
        (65_535, 219, 700_000),
        (1_000_000, 250, 1_000_000),
    ] {
        let svg = draw("t", &alternating(blocks), None);
        assert!(tags_balance(&svg).is_ok(), "{blocks}");
        assert!(svg.len() < most_bytes, "{blocks}: {}", svg.len());
        assert_eq!(svg.matches("<title>").count(), tooltips + 1, "{blocks}");
        let folded = svg.contains("A cell is 10 blocks, coloured by the worst of them.");
        assert_eq!(folded, blocks > 100_000);
    }
}

/// Two open blocks among a million can be seen: the worst block colours its cell.
#[test]
fn the_worst_block_of_a_cell_is_shown() {
    let end = |at: u32| match at {
        123_456 | 777_777 => End::Failed(2),
        _ => End::Within(0),
    };
    let svg = draw("t", &(0..1_000_000).map(end).collect(), None);
    assert!(svg.contains("d=\"M345 30h1M177 194h1\""));
}

#[test]
fn layouts() {
    let sizes = |blocks, columns| {
        let layout = Layout::of(blocks, columns);
        (
            layout.columns,
            layout.rows(),
            layout.side,
            layout.labelled(),
        )
    };
    assert_eq!(sizes(12, None), (10, 2, 24.0, 1));
    assert_eq!(sizes(2_000, None), (50, 40, 18.0, 1));
    assert_eq!(sizes(65_535, None), (300, 219, 3.0, 5));
    assert_eq!(sizes(1_000_000, None), (400, 250, 2.0, 10));
    assert_eq!(sizes(100, Some(7)), (7, 15, 24.0, 1));
    assert_eq!(sizes(100, Some(1_000)), (1_000, 1, 1.0, 20));
}
