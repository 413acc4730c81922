//! The same seed gives the same table: by the reference decoder in place of the program.

use super::{batches, rates, tally, Channel, Decibels, Wanted};
use crate::fault::Fault;
use crate::matrix_file::Matrix;
use crate::program::{block_lines, BlockLine};
use crate::setting::Setting;
use generator::codes::{self, Code};

/// A test code's matrix as the tool reads it.
pub(super) fn matrix(code: &Code) -> Matrix {
    let h = &code.matrix;
    Matrix {
        n: h.n,
        m: h.m,
        rho: h.rho,
        gamma: h.gamma,
        list: h.list.clone(),
    }
}

const SETTING: Setting = Setting {
    bits: 8,
    limit: 30,
    kind: 0,
    step: 0.1,
};

/// Decodes as the program does.
fn decoder(input: &[u8], blocks: usize) -> Result<Vec<BlockLine>, Fault> {
    let printed = String::from_utf8(reference::program(input)).expect("text");
    block_lines(&printed, blocks).map_err(|what| Fault::new("reference", what))
}

fn table(seed: usize, points: &[Decibels], blocks: usize, jobs: usize) -> String {
    let channel = Channel::new(&matrix(&codes::tanner155()), &SETTING, seed).unwrap();
    let wanted = Wanted {
        points: points.to_vec(),
        blocks,
        jobs,
    };
    tally::csv(&rates(&channel, &decoder, &wanted).unwrap())
}

#[test]
fn the_table_depends_on_the_seed_and_not_on_the_jobs() {
    let points = [Decibels(2_000_000), Decibels(4_500_000)];
    let one = table(1, &points, 700, 1);
    assert_eq!(table(1, &points, 700, 1), one);
    assert_eq!(table(1, &points, 700, 3), one);
    assert_ne!(table(2, &points, 700, 1), one);
    // A point is the same whatever the others are.
    let alone = table(1, &points[1..], 700, 2);
    assert_eq!(alone.lines().nth(1), one.lines().nth(2));
    // The first point ends early, the second does not.
    let field = |line: &str, at: usize| line.split(',').nth(at).unwrap_or_default().to_string();
    let lines: Vec<&str> = one.lines().skip(1).collect();
    assert_eq!(
        (field(lines[0], 3), field(lines[0], 4)),
        ("errors".into(), "200".into())
    );
    assert_eq!(
        (field(lines[1], 3), field(lines[1], 2)),
        ("blocks".into(), "700".into())
    );
}

#[test]
fn batches_are_all_the_blocks() {
    for blocks in [1, 249, 250, 251, 500, 12_345] {
        let mut next = 0;
        for batch in batches(blocks) {
            assert_eq!(batch.start, next);
            assert!(batch.end - batch.start <= 4_000);
            next = batch.end;
        }
        assert_eq!(next, blocks);
    }
    let sizes: Vec<usize> = batches(10_000)
        .map(|batch| batch.end - batch.start)
        .collect();
    assert_eq!(sizes, [250, 250, 500, 1_000, 2_000, 4_000, 2_000]);
}

/// Without noise to speak of every block arrives as sent, and is decoded in round 0.
#[test]
fn without_noise_nothing_is_wrong() {
    let text = table(5, &[Decibels(60_000_000)], 50, 1);
    let line = text.lines().nth(1).unwrap();
    assert!(
        line.contains(",50,blocks,0,0.0000e0,0.0000e0,7.1348e-2,0,"),
        "{line}"
    );
    assert!(line.ends_with(",0.0000,0.0000"), "{line}");
}

/// The share of bits that arrive wrong is that of the Gaussian tail: 0.0560 at 1.5896 deviations.
#[test]
fn as_many_bits_arrive_wrong_as_the_tail_says() {
    let channel = Channel::new(&matrix(&codes::qc961_721()), &SETTING, 9).unwrap();
    // Rate 721 / 961 at 2.265 dB: 1 / deviation is 1.5896.
    let db = Decibels(2_265_000);
    assert!((channel.deviation(db).recip() - 1.5896).abs() < 1e-3);
    let wrong: usize = (0..300)
        .map(|number| channel.block(db, number).arrived_wrong())
        .sum();
    let share = wrong as f64 / (300.0 * 961.0);
    assert!((share - 0.0560).abs() < 0.002, "{share}");
}

/// A refused block or a word of other sizes is no answer to finite samples.
#[test]
fn odd_answers() {
    let channel = Channel::new(&matrix(&codes::tanner155()), &SETTING, 1).unwrap();
    let wanted = Wanted {
        points: vec![Decibels(0)],
        blocks: 1,
        jobs: 1,
    };
    for (line, what) in [
        ("0 refused 8 2", "decode: it refused block 0"),
        (
            "0 decoded 1 0 1 00",
            "decode: its word of block 0 is too short",
        ),
    ] {
        let printed = format!("block end rounds failing changed word\n{line}\n");
        let odd = |_: &[u8], blocks| {
            block_lines(&printed, blocks).map_err(|what| Fault::new("decode", what))
        };
        let fault = rates(&channel, &odd, &wanted).unwrap_err().to_string();
        assert!(fault.starts_with(what), "{fault}");
    }
}

/// A check on each bit: only the zero word passes them.
#[test]
fn a_code_of_one_word_cannot_be_simulated() {
    let only_zero = Matrix {
        n: 2,
        m: 2,
        rho: 1,
        gamma: 1,
        list: vec![0, 1],
    };
    assert!(Channel::new(&only_zero, &SETTING, 1).is_none());
}
