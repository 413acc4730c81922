//! Document 02, card 5: sheets by hand, byte by byte, and a refusal of each number.

use reference::{list_to_sheet, matrix_of_sheet, sheet_of, sheet_to_list, Matrix, Refusal};

/// Two block rows and three block columns of blocks of 3:
///
/// ```text
/// shift 0, shift 1, zeros      0 4   1 5   2 3
/// zeros,   shift 0, shift 2    3 8   4 6   5 7
/// ```
///
/// The map is 110 011, and two spare places.
#[rustfmt::skip]
const SMALL: [u8; 15] = [
    2, 0, 3, 0, 3, 0,
    0b1100_1100,
    0, 0, 1, 0, 0, 0, 2, 0,
];

fn small() -> Matrix {
    Matrix {
        n: 9,
        m: 6,
        rho: 2,
        gamma: 1,
        list: vec![0, 4, 1, 5, 2, 3, 3, 8, 4, 6, 5, 7],
    }
}

/// 3 × 5 blocks of 31, all of them set: fifteen places, one spare.
#[rustfmt::skip]
const TANNER: [u8; 38] = [
    3, 0, 5, 0, 31, 0,
    0xFF, 0xFE,
    1, 0, 2, 0, 4, 0, 8, 0, 16, 0,
    5, 0, 10, 0, 20, 0, 9, 0, 18, 0,
    25, 0, 19, 0, 7, 0, 14, 0, 28, 0,
];

/// Code A with Z = 1: its rows are the map, and each shift is 0.
const MAP_OF_CODE_A: [u8; 7] = [
    0b1101_0000,
    0b1101_0000,
    0b1101_0000,
    0b1101_1000,
    0b1100_1000,
    0b1110_1000,
    0b1000_0000,
];

fn code_a() -> Matrix {
    Matrix {
        n: 7,
        m: 7,
        rho: 3,
        gamma: 3,
        list: vec![
            0, 1, 3, 1, 2, 4, 2, 3, 5, 3, 4, 6, 0, 4, 5, 1, 5, 6, 0, 2, 6,
        ],
    }
}

/// Stands in every cell that is lent to be written.
const LENT: u16 = 0xABCD;

/// The refusal of a sheet, with buffers of so many cells, which are not written.
fn refused_into(bytes: &[u8], sizes: usize, list: usize) -> (u16, u16) {
    let (mut sizes, mut list) = (vec![LENT; sizes], vec![LENT; list]);
    let refusal = sheet_to_list(bytes, &mut sizes, &mut list).expect_err("refused");
    assert!(sizes.iter().chain(&list).all(|&cell| cell == LENT));
    (refusal.number, refusal.place)
}

/// The same with buffers that fit.
fn refused(bytes: &[u8]) -> (u16, u16) {
    refused_into(bytes, 4, 32_736)
}

/// A sheet of blocks of `z`: `-` is a clear place, a number a set one with its shift.
fn sheet(z: u16, rows: &[&str]) -> Vec<u8> {
    let rows: Vec<Vec<&str>> = rows.iter().map(|row| row.split(' ').collect()).collect();
    let blocks = rows.concat();
    let sizes = [rows.len() as u16, rows[0].len() as u16, z];
    let mut bytes: Vec<u8> = sizes.iter().flat_map(|size| size.to_le_bytes()).collect();
    for eight in blocks.chunks(8) {
        let bits = eight.iter().zip((0..8).rev());
        bytes.push(bits.map(|(block, at)| u8::from(*block != "-") << at).sum());
    }
    for shift in blocks.iter().filter(|block| **block != "-") {
        bytes.extend(shift.parse::<u16>().unwrap().to_le_bytes());
    }
    bytes
}

#[test]
fn the_small_sheet_both_ways() {
    assert_eq!(matrix_of_sheet(&SMALL), Ok(small()));
    assert_eq!(sheet_of(&small(), 3), Ok(SMALL.to_vec()));
    assert_eq!(sheet(3, &["0 1 -", "- 0 2"]), SMALL);
}

#[test]
fn tanners_code_both_ways() {
    let shifts = [[1, 2, 4, 8, 16], [5, 10, 20, 9, 18], [25, 19, 7, 14, 28]];
    let mut list = Vec::new();
    for block_row in shifts {
        for i in 0..31 {
            let columns = (0..5).zip(block_row);
            list.extend(columns.map(|(c, shift)| 31 * c + (i + shift) % 31));
        }
    }
    let h = Matrix {
        n: 155,
        m: 93,
        rho: 5,
        gamma: 3,
        list,
    };
    assert_eq!(matrix_of_sheet(&TANNER), Ok(h.clone()));
    assert_eq!(sheet_of(&h, 31), Ok(TANNER.to_vec()));
}

/// One block of code A has three ones in each row: only blocks of 1 describe it.
#[test]
fn code_a_in_blocks_of_1() {
    let bytes = [&[7, 0, 7, 0, 1, 0][..], &MAP_OF_CODE_A, &[0; 42]].concat();
    assert_eq!(sheet_of(&code_a(), 1), Ok(bytes.clone()));
    assert_eq!(matrix_of_sheet(&bytes), Ok(code_a()));
    for z in [0, 2, 3, 6, 7, 8, 14, 49, 65_535] {
        assert_eq!(sheet_of(&code_a(), z), Err(Refusal::plain(12)), "{z}");
    }
}

/// "padded with zeros to a byte": the bytes end where the last shift ends.
#[test]
fn every_other_length_is_11() {
    for bytes in [&SMALL[..], &TANNER] {
        for length in 0..bytes.len() {
            assert_eq!(refused(&bytes[..length]), (11, 0), "{length}");
        }
        for more in [&[0][..], &[0, 0], &[1; 9]] {
            assert_eq!(refused(&[bytes, more].concat()), (11, 0));
        }
    }
}

#[test]
fn what_is_no_sheet() {
    let with = |at: usize, byte: u8| {
        let mut bytes = SMALL;
        bytes[at] = byte;
        refused(&bytes)
    };
    for zero in [0, 2, 4] {
        assert_eq!(with(zero, 0), (11, 0));
    }
    // A spare place; a place more, one fewer.
    assert_eq!(with(6, 0b1100_1101), (11, 0));
    assert_eq!(with(6, 0b1110_1100), (11, 0));
    assert_eq!(with(6, 0b1000_1100), (11, 0));
    // Block rows of three and one.
    assert_eq!(with(6, 0b1110_1000), (11, 0));
    // Shifts 3 and 256.
    assert_eq!(with(13, 3), (11, 0));
    assert_eq!(with(8, 1), (11, 0));
    assert_eq!(refused(&sheet(3, &["0 1 -", "0 1 2"])), (11, 0));
    assert_eq!(refused(&sheet(3, &["- - -", "- - 0"])), (11, 0));
    assert_eq!(refused(&[]), (11, 0));
    assert_eq!(refused(&[0xFF; 6]), (11, 0));
}

/// The last shift below Z is accepted, and so is every map of as many places in both rows.
#[test]
fn what_is_a_sheet() {
    let blocks = ["2 2 -", "- 0 2"];
    let list = vec![2, 5, 0, 3, 1, 4, 3, 8, 4, 6, 5, 7];
    let h = Matrix { list, ..small() };
    assert_eq!(matrix_of_sheet(&sheet(3, &blocks)), Ok(h));
    for map in 0..64_u32 {
        let (up, down) = (map >> 3, map & 7);
        let mut bytes = vec![2, 0, 3, 0, 3, 0, (map << 2) as u8];
        bytes.resize(7 + 2 * map.count_ones() as usize, 0);
        let answer = matrix_of_sheet(&bytes);
        let no_sheet = answer == Err(Refusal::plain(11));
        assert_eq!(no_sheet, up.count_ones() != down.count_ones(), "{map:06b}");
    }
}

#[test]
fn sizes_out_of_range() {
    for (z, rows) in [
        // n is 1.
        (1, &["0"][..]),
        // n is 1,024, then m; 65,538 is 2 when cut to 16 bits.
        (512, &["0 0"]),
        (512, &["0 0", "0 0"]),
        (32_769, &["0 0", "0 1"]),
        (65_535, &["0 65534"]),
        // Rho is 0, then 1; gamma is 0.
        (3, &["- -", "- -"]),
        (3, &["0 -", "- 0"]),
        (3, &["0 0 -", "0 1 -"]),
    ] {
        assert_eq!(refused(&sheet(z, rows)), (1, 0), "{rows:?} of {z}");
    }
    // Rho is 33, then gamma.
    let row = ["0"; 33].join(" ");
    assert_eq!(refused(&sheet(31, &[&row])), (1, 0));
    assert_eq!(refused(&sheet(31, &["0 0"; 33])), (1, 0));
    let h = matrix_of_sheet(&sheet(31, &[&row[2..]])).expect("32 places");
    assert_eq!([h.n, h.m, h.rho, h.gamma], [992, 31, 32, 1]);
}

/// 33 set places in block column 2: its first column is column 2 Z. The rows overlap too.
#[test]
fn a_block_column_of_33() {
    let rows = [["0 - 0"; 17], ["- 0 0"; 17]].concat();
    assert_eq!(refused(&sheet(2, &rows[..33])), (4, 4));
    assert_eq!(refused(&sheet(5, &rows[..33])), (4, 10));
    // With 32 of them the rows overlap, and nothing else is wrong.
    assert_eq!(refused(&sheet(5, &rows[..32])), (5, 0));
}

#[test]
fn rows_that_overlap() {
    assert_eq!(refused(&sheet(3, &["0 0", "1 1"])), (5, 0));
    // Each row of block row 1 is one of block row 2, and row 3 is the first.
    let blocks = ["0 0 -", "- 0 1", "- 1 2"];
    assert_eq!(refused(&sheet(3, &blocks)), (5, 3));
    assert_eq!(
        matrix_of_sheet(&sheet(3, &["0 0", "1 2"])).map(|h| h.m),
        Ok(6)
    );
}

/// Nothing is written unless all fits; longer buffers keep their rest.
#[test]
fn buffers_of_any_length() {
    for (sizes, list) in [(0, 12), (3, 12), (4, 11), (4, 0), (3, 11), (50, 11)] {
        assert_eq!(refused_into(&SMALL, sizes, list), (7, 0));
    }
    for (more, rest) in [(0, 0), (1, 0), (0, 1), (5, 9)] {
        let (mut sizes, mut list) = (vec![LENT; 4 + more], vec![LENT; 12 + rest]);
        assert_eq!(sheet_to_list(&SMALL, &mut sizes, &mut list), Ok(()));
        assert_eq!(sizes[..4], [9, 6, 2, 1]);
        assert_eq!(list[..12], small().list);
        assert_eq!(
            (&sizes[4..], &list[12..]),
            (&vec![LENT; more][..], &vec![LENT; rest][..])
        );
    }
    for room in 0..20 {
        let mut bytes = vec![0xA5; room];
        let answer = list_to_sheet(&small(), 3, &mut bytes);
        if room < 15 {
            assert_eq!((answer, bytes), (Err(Refusal::plain(7)), vec![0xA5; room]));
        } else {
            assert_eq!((answer, &bytes[..15]), (Ok(15), &SMALL[..]));
            assert_eq!(bytes[15..], vec![0xA5; room - 15]);
        }
    }
}

/// Matrices that are accepted, and that no blocks of 3 describe.
#[test]
fn no_grid() {
    let described = |list: &[u16], gamma: u16| {
        let list = list.to_vec();
        let h = Matrix {
            list,
            gamma,
            ..small()
        };
        reference::check(&h).expect("an accepted matrix");
        sheet_of(&h, 3).map_err(|refusal| (refusal.number, refusal.place))
    };
    let no_sheet = Err((12, 0));
    // The last block's ones descend.
    assert_eq!(
        described(&[0, 4, 1, 5, 2, 3, 3, 8, 4, 7, 5, 6], 1),
        no_sheet
    );
    // Row 0 has both of its ones in one block.
    assert_eq!(
        described(&[0, 1, 2, 3, 4, 5, 5, 8, 3, 6, 4, 7], 1),
        no_sheet
    );
    // The block of rows 0 to 2 and columns 3 to 5 has no one in its second row.
    assert_eq!(
        described(&[0, 4, 1, 6, 2, 3, 3, 8, 5, 7, 5, 6], 1),
        no_sheet
    );
}

/// "comes before all others", "comes after 5"; 7 is asked last.
#[test]
fn the_order() {
    // 11 before 1: shift 1,024 in blocks of 1,024, and n is 3,072.
    assert_eq!(refused_into(&sheet(1024, &["1024 0 0"]), 0, 0), (11, 0));
    // 1 before 4: gamma is 0, and block column 0 has 33 places.
    assert_eq!(refused_into(&sheet(1, &["0 0 -"; 33]), 0, 0), (1, 0));
    // 4 before 5, 5 before 7.
    let rows = [["0 - 0"; 17], ["- 0 0"; 17]].concat();
    assert_eq!(refused_into(&sheet(2, &rows[..33]), 0, 0), (4, 4));
    assert_eq!(refused_into(&sheet(2, &rows[..32]), 0, 0), (5, 0));
    assert_eq!(refused_into(&SMALL, 0, 0), (7, 0));
    // 5 before 12, 12 before 7.
    let refused = |h: &Matrix, z: u16| {
        let refusal = list_to_sheet(h, z, &mut []).expect_err("refused");
        (refusal.number, refusal.place)
    };
    let overlap = Matrix {
        n: 4,
        m: 4,
        rho: 2,
        gamma: 2,
        list: vec![0, 1, 2, 3, 0, 1, 2, 3],
    };
    assert_eq!(refused(&overlap, 0), (5, 0));
    assert_eq!(
        refused(
            &Matrix {
                gamma: 3,
                ..overlap
            },
            0
        ),
        (1, 0)
    );
    assert_eq!(refused(&small(), 0), (12, 0));
    assert_eq!(refused(&small(), 2), (12, 0));
    assert_eq!(refused(&small(), 3), (7, 0));
}
