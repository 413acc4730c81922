//! Sizes at and outside their ranges: refusal 1.

use differential::{cases, random, Subject};
use ffi_face::Packed;
use generator::codes::{self, Code};
use generator::{unlike, Random};
use reference::{byte_count, Matrix};

fn sized([n, m, rho, gamma]: [u16; 4], list: Vec<u16>) -> Matrix {
    Matrix {
        n,
        m,
        rho,
        gamma,
        list,
    }
}

/// All three calls, with a received word and a buffer of some length.
fn compare(h: &Matrix, random: &mut Random) -> Packed {
    let subject = Subject::new(h, random);
    let answer = subject.check();
    let bytes = *random.pick(&[0, 1, 2, byte_count(h.n), 128, 129]);
    let received = random.bytes(bytes);
    subject.failing(&received, random);
    subject.one_step(&received, random.below(130), random);
    answer
}

fn refused_by_1(h: &Matrix, random: &mut Random) {
    let sizes = (h.n, h.m, h.rho, h.gamma);
    assert_eq!(compare(h, random).refusal(), 1, "{sizes:?}");
}

/// Matrices that are right but for one size that is one beyond its range.
#[test]
fn one_beyond_the_range() {
    let mut random = random(600);
    let beyond = [
        codes::single_row(2).copies(512),
        codes::cycle(1024),
        codes::single_row(33),
        codes::complete_graph(34).transposed(),
        // The least sizes: one column, rows of one column.
        Code::from_rows(
            "identity",
            5,
            &[vec![0], vec![1], vec![2], vec![3], vec![4]],
        ),
        Code::from_rows("one place", 1, &[vec![0]]),
        Code::from_rows("one column", 1, &[vec![0], vec![0]]),
    ];
    for code in beyond {
        refused_by_1(&code.matrix, &mut random);
    }
    // No rows, and so no ones in a column.
    for n in [0, 1, 2, 7, 1023] {
        for rho in [0, 2, 32] {
            let h = sized([n, 0, rho, 0], vec![]);
            refused_by_1(&h, &mut random);
        }
    }
}

/// The last value of each range is accepted, in a matrix that is right.
#[test]
fn the_ends_of_the_ranges() {
    let mut random = random(601);
    for code in [
        codes::single_row(2),
        codes::single_row(3).copies(341),
        codes::cycle(1023),
        codes::single_row(32),
        codes::complete_graph(33),
        codes::complete_graph(33).transposed(),
        codes::eg1023(),
    ] {
        let answer = Subject::new(&code.matrix, &mut random).check();
        assert_eq!(answer, Packed::new(0, 0, 0, 0), "{}", code.name);
    }
}

/// n = 1,023 passes the size range, 1,024 doesn't, whatever the list holds.
#[test]
fn n_1023_and_1024() {
    let mut random = random(602);
    let mut h = codes::single_row(3).copies(341).matrix;
    assert_eq!(compare(&h, &mut random).refusal(), 0);
    h.list.clear();
    assert_eq!(compare(&h, &mut random).refusal(), 2);
    h.n = 1024;
    h.m = 512;
    h.rho = 2;
    refused_by_1(&h, &mut random);
    h.list = vec![0; 1024];
    refused_by_1(&h, &mut random);
}

/// Refused by 1 exactly where m × rho is below n × gamma; all sizes are in range.
fn ones_are_enough(h: &Matrix, random: &mut Random) -> bool {
    let by_rows = u32::from(h.m) * u32::from(h.rho);
    let by_columns = u32::from(h.n) * u32::from(h.gamma);
    let refused = compare(h, random).refusal() == 1;
    let sizes = (h.n, h.m, h.rho, h.gamma);
    assert_eq!(refused, by_rows < by_columns, "{sizes:?}");
    !refused
}

/// m × rho one row or one place off n × gamma.
#[test]
fn ones_by_rows_and_by_columns() {
    let mut random = random(603);
    for code in codes::small() {
        let right = &code.matrix;
        for at in 0..8 {
            let mut h = right.clone();
            let size = [&mut h.n, &mut h.m, &mut h.rho, &mut h.gamma].into_iter();
            let size = size.take(1 + at / 2).last().expect("four sizes");
            *size = if at % 2 == 0 { *size + 1 } else { *size - 1 };
            if h.n > 1 && h.m > 0 && h.rho > 1 && h.gamma > 0 {
                ones_are_enough(&h, &mut random);
            } else {
                refused_by_1(&h, &mut random);
            }
        }
    }
}

/// m × rho one below n × gamma, equal to it, and one above, in matrices that are else right.
#[test]
fn one_below_equal_and_one_above() {
    let mut random = random(606);
    for sizes in [
        [5, 2, 2, 1],
        [4, 2, 2, 1],
        [3, 2, 2, 1],
        [1023, 991, 32, 31],
        [1023, 1023, 31, 31],
        [1022, 1023, 31, 31],
        [991, 1023, 31, 32],
    ] {
        ones_are_enough(&sized(sizes, vec![]), &mut random);
    }
    let fork = unlike::star(2, 2).matrix;
    assert_eq!(compare(&fork, &mut random).refusal(), 0);
    let pairs = codes::single_row(2).copies(2).matrix;
    assert_eq!(compare(&pairs, &mut random).refusal(), 0);
}

/// The fewest rows that have enough ones, and one row less.
#[test]
fn the_fewest_rows() {
    let mut random = random(607);
    let mut enough = 0;
    for _ in 0..cases(2000) {
        let n = 2 + random.below(1022);
        let (rho, gamma) = (2 + random.below(31), 1 + random.below(32));
        let fewest = (n * gamma).div_ceil(rho);
        for m in [fewest, fewest - 1] {
            if (1..=1023).contains(&m) {
                let sizes = [n, m, rho, gamma].map(|size| size as u16);
                let h = sized(sizes, vec![0; random.below(3)]);
                enough += usize::from(ones_are_enough(&h, &mut random));
            }
        }
    }
    assert!(enough > 500, "{enough}");
}

/// All combinations of sizes at the ends of ranges and of 16 bits.
#[test]
fn all_extremes() {
    let mut random = random(604);
    let extremes = [
        0, 1, 2, 3, 31, 32, 33, 64, 255, 256, 1022, 1023, 1024, 1025, 32768, 65535,
    ];
    let ascending: Vec<u16> = (0..40_000).map(|at| at as u16).collect();
    for n in extremes {
        for m in extremes {
            for rho in extremes {
                for gamma in extremes {
                    let ones = (usize::from(m) * usize::from(rho)).min(40_000);
                    let length = *random.pick(&[0, 1, ones, ones, ones + 1]);
                    // A long list is copied only where a call may come to read it.
                    let length = if ones == 40_000 {
                        length.min(7)
                    } else {
                        length
                    };
                    let list = ascending[..length.min(40_000)].to_vec();
                    let h = sized([n, m, rho, gamma], list);
                    compare(&h, &mut random);
                }
            }
        }
    }
}

/// Products that are equal or greater only when cut to 16 bits.
#[test]
fn products_cut_to_16_bits() {
    let mut random = random(605);
    for (n, m, rho, gamma) in [
        (1024, 0, 2, 64),
        (2, 32769, 2, 1),
        (1022, 33279, 2, 1),
        (2, 1, 32770, 2),
        (2, 1, 2, 32769),
        (32769, 1, 2, 2),
        (512, 256, 256, 128),
    ] {
        let list = vec![0, 1];
        let h = sized([n, m, rho, gamma], list);
        refused_by_1(&h, &mut random);
    }
}
