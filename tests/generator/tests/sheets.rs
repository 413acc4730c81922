//! Sheets and their matrices: the reference reads from the bytes what the blocks were made to be.

use generator::sheets::{self, Grid};
use generator::{codes, Random};
use reference::{matrix_of_sheet, sheet_of, sheet_of_accepted, Refusal};

#[test]
fn accepted_grids_are_accepted() {
    let mut random = Random::new(8);
    let (mut unlike, mut clear) = (0, 0);
    for _ in 0..400 {
        let grid = sheets::accepted(&mut random);
        let (bytes, code) = (grid.bytes(), grid.code());
        assert_eq!(matrix_of_sheet(&bytes).as_ref(), Ok(&code.matrix));
        assert_eq!(sheet_of(&code.matrix, grid.size as u16), Ok(bytes));
        unlike += usize::from(!code.is_regular());
        clear += usize::from(grid.blocks.concat().contains(&None));
    }
    assert!(unlike > 50 && clear > 50, "{unlike} {clear}");
}

/// What blocks by chance lead to: accepted, and refusals 1 and 5.
#[test]
fn grids_by_chance_are_sheets() {
    let mut random = Random::new(9);
    let mut seen = [0; 13];
    for _ in 0..2000 {
        let answer = matrix_of_sheet(&sheets::some(&mut random).bytes());
        seen[usize::from(answer.map_or_else(|refusal| refusal.number, |_| 0))] += 1;
    }
    assert!(seen[0] > 50 && seen[1] > 50 && seen[5] > 50, "{seen:?}");
    assert_eq!(seen[0] + seen[1] + seen[4] + seen[5], 2000, "{seen:?}");
}

#[test]
fn changed_sheets_are_refused_or_others() {
    let mut random = Random::new(10);
    let mut seen = [0; 13];
    for _ in 0..4000 {
        let mut bytes = sheets::accepted(&mut random).bytes();
        sheets::change(&mut bytes, &mut random);
        let answer = matrix_of_sheet(&bytes);
        seen[usize::from(answer.map_or_else(|refusal| refusal.number, |_| 0))] += 1;
    }
    assert!(seen[0] > 50 && seen[11] > 1000, "{seen:?}");
}

#[test]
fn known_codes_are_grids() {
    for (code, z) in sheets::known() {
        let bytes = sheet_of_accepted(&code.matrix, z).expect(&code.name);
        assert_eq!(matrix_of_sheet(&bytes), Ok(code.matrix), "{}", code.name);
    }
}

/// Tanner's code and QC961, block by block. Code B has rows of three ones in a block of 3.
#[test]
fn the_bytes_of_a_grid() {
    let shifts = [[1, 2, 4, 8, 16], [5, 10, 20, 9, 18], [25, 19, 7, 14, 28]];
    let tanner = Grid::by([3, 5, 31], |r, c| Some(shifts[r][c]));
    let matrix = codes::tanner155().matrix;
    assert_eq!(sheet_of(&matrix, 31), Ok(tanner.bytes()));
    let array = Grid::by([31, 31, 31], |r, c| (r != c).then_some(r * c % 31));
    assert_eq!(sheet_of(&codes::qc961().matrix, 31), Ok(array.bytes()));
    let none = Err(Refusal::plain(12));
    assert_eq!(sheet_of(&codes::code_b().matrix, 3), none);
}
