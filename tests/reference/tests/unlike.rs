//! Document 02, card 2: columns of unlike weight, worked by hand.
//!
//! Code U: n = 9, m = 7, ρ = 3, γ = 2, rows 0 1 2, 0 3 4, 0 5 6, 0 7 8, 1 3 5, 2 4 7, 1 6 8. Column
//! 0 weighs 4, column 1 weighs 3, the others 2. Code V: n = 5, m = 2, ρ = 3, γ = 1, rows 0 1 2 and
//! 0 3 4. Column 0 weighs 2, the others 1.

use reference::{
    check, index_of, iterative, one_step, open, program, step, Answer, Matrix, Outcome, Refusal,
    Session, Setting,
};

/// A matrix with the sizes n, m, ρ and γ.
fn matrix([n, m, rho, gamma]: [u16; 4], list: &[u16]) -> Matrix {
    let list = list.to_vec();
    Matrix {
        n,
        m,
        rho,
        gamma,
        list,
    }
}

fn code_u() -> Matrix {
    let rows = [
        [0, 1, 2],
        [0, 3, 4],
        [0, 5, 6],
        [0, 7, 8],
        [1, 3, 5],
        [2, 4, 7],
        [1, 6, 8],
    ];
    matrix([9, 7, 3, 2], &rows.concat())
}

fn code_v() -> Matrix {
    matrix([5, 2, 3, 1], &[0, 1, 2, 0, 3, 4])
}

const SETTING: Setting = Setting {
    bits: 4,
    limit: 5,
    kind: 0,
    step: 0.5,
};

/// One weak bit of four checks.
const SAMPLES: [f32; 9] = [0.5, -1.0, -1.0, -1.0, -1.0, -1.0, -1.0, -1.0, -1.0];

/// E of bit 0 is −4. Bit 1 has the odd row 0 1 2 and two even ones: −1. The others have an odd row
/// with bit 0 and an even one: 0.
const LEVELS: [i16; 9] = [-3, -3, -2, -2, -2, -2, -2, -2, -2];

fn answer(outcome: Outcome, rounds: usize, failing: usize, changed: usize) -> Answer {
    Answer {
        outcome,
        rounds,
        failing,
        changed,
    }
}

fn voted<const BYTES: usize>(h: &Matrix, received: [u8; BYTES]) -> (Answer, [u8; BYTES]) {
    let mut word = [0xA5; BYTES];
    let answer = one_step(h, &received, &mut word).expect("no refusal applies");
    (answer, word)
}

#[test]
fn both_codes_are_accepted() {
    assert_eq!(check(&code_u()), Ok(()));
    assert_eq!(check(&code_v()), Ok(()));
}

/// γ is the smallest weight: one less is no column's weight, one more asks for more ones than
/// there are.
#[test]
fn the_gamma_of_the_call_is_the_smallest_weight() {
    let with = |gamma| check(&Matrix { gamma, ..code_u() });
    assert_eq!(with(1), Err(Refusal::at(4, 9)));
    assert_eq!(with(3), Err(Refusal::plain(1)));
    assert_eq!(with(0), Err(Refusal::plain(1)));
    // Rows 0 1 and 0 2 alone: m × ρ is 4, and 3 × 1 is below it, 3 × 2 above.
    let fork = matrix([3, 2, 2, 1], &[0, 1, 0, 2]);
    assert_eq!(check(&fork), Ok(()));
    assert_eq!(check(&Matrix { gamma: 2, ..fork }), Err(Refusal::plain(1)));
}

/// Row 2 4 7 becomes 4 7 8 or 0 4 7: column 2 is too light. With γ = 1 it is the lightest.
#[test]
fn a_column_below_gamma_has_its_place() {
    let mut light = code_u();
    light.list[15..18].copy_from_slice(&[4, 7, 8]);
    assert_eq!(check(&light), Err(Refusal::at(4, 2)));
    // Rows 0 7 8 and 4 7 8 share two columns, which is asked after the weights.
    light.gamma = 1;
    assert_eq!(check(&light), Err(Refusal::at(5, 3)));
    // Column 0 is heavier than before and passed over.
    let mut heavy = code_u();
    heavy.list[15..18].copy_from_slice(&[0, 4, 7]);
    assert_eq!(check(&heavy), Err(Refusal::at(4, 2)));
}

/// Rows 0 j for j from 1 on: column 0 has as many ones as there are rows.
fn star(rows: u16) -> Matrix {
    let list: Vec<u16> = (1..=rows).flat_map(|j| [0, j]).collect();
    matrix([rows + 1, rows, 2, 1], &list)
}

#[test]
fn a_column_has_at_most_32_ones() {
    assert_eq!(check(&star(31)), Ok(()));
    assert_eq!(check(&star(32)), Ok(()));
    assert_eq!(check(&star(33)), Err(Refusal::at(4, 0)));
    assert_eq!(check(&star(1022)), Err(Refusal::at(4, 0)));
    // With γ = 2 columns 1 to 32 are too light as well, and 1 is asked first.
    let two = Matrix {
        gamma: 2,
        ..star(32)
    };
    assert_eq!(check(&two), Err(Refusal::plain(1)));
}

/// P10's triangle with γ = 1: no column weighs 1. Two equal rows of it, and an entry out of range.
#[test]
fn no_column_of_weight_gamma_is_asked_between_3_and_5() {
    let triangle = matrix([3, 3, 2, 1], &[0, 1, 1, 2, 0, 2]);
    assert_eq!(check(&triangle), Err(Refusal::at(4, 3)));
    let equal_rows = matrix([2, 2, 2, 1], &[0, 1, 0, 1]);
    assert_eq!(check(&equal_rows), Err(Refusal::at(4, 2)));
    let entry = Matrix {
        list: vec![0, 1, 1, 2, 0, 3],
        ..triangle
    };
    assert_eq!(check(&entry), Err(Refusal::at(3, 5)));
}

/// Each bit alone is undone, though bit 0 has four checks, bit 1 three, and the others two.
#[test]
fn one_flip_is_undone() {
    for j in 0..9 {
        let received = (0x8000_u16 >> j).to_be_bytes();
        let expected = answer(Outcome::Decoded, 1, 0, 1);
        assert_eq!(voted(&code_u(), received), (expected, [0, 0]));
    }
}

/// Bits 1 and 3: rows 0 1 2, 0 3 4 and 1 6 8 fail. Bit 0 has two of four, a tie; bit 1 two of
/// three, and is flipped; bits 2, 3, 4, 6 and 8 have one of two. Bit 3 alone is left, with rows
/// 0 3 4 and 1 3 5.
#[test]
fn a_tie_is_half_of_the_bits_own_checks() {
    let expected = answer(Outcome::Failed, 1, 2, 1);
    assert_eq!(voted(&code_u(), [0x50, 0]), (expected, [0x10, 0]));
}

/// Bit 1 of code V: bit 0 has one of two checks, a tie; bits 1 and 2 have one of one. Bit 0 of it:
/// all five are flipped, which is a codeword.
#[test]
fn bits_of_one_check_beside_a_bit_of_two() {
    let expected = answer(Outcome::Failed, 1, 1, 2);
    assert_eq!(voted(&code_v(), [0x40]), (expected, [0x20]));
    let expected = answer(Outcome::Decoded, 1, 0, 5);
    assert_eq!(voted(&code_v(), [0x80]), (expected, [0x78]));
}

#[test]
fn e_sums_over_the_bits_own_checks() {
    let (mut word, mut levels) = ([0xA5; 2], [99; 9]);
    let answered = iterative(&code_u(), &SETTING, &SAMPLES, &mut word, &mut levels);
    assert_eq!(answered, Ok(answer(Outcome::Decoded, 1, 0, 1)));
    assert_eq!((word, levels), ([0, 0], LEVELS));
}

#[test]
fn the_same_in_single_rounds() {
    let u = code_u();
    let mut record = Session::EMPTY;
    let (mut word, mut levels) = ([0xA5; 2], [99; 9]);
    let opened = open(&mut record, &u, &SETTING, &SAMPLES, &mut word, &mut levels);
    assert_eq!(opened, Ok(answer(Outcome::Working, 0, 4, 0)));
    assert_eq!((record.n, record.gamma), (9, 2));
    let at_opening = [1, -2, -2, -2, -2, -2, -2, -2, -2];
    assert_eq!(levels, at_opening);
    let received = [0x80, 0];
    // The record's γ is the lent one.
    let mut other = Session { gamma: 1, ..record };
    let stepped = step(
        &mut other,
        &u,
        &received,
        &at_opening,
        &mut word,
        &mut levels,
    );
    assert_eq!(stepped, Err(Refusal::plain(22)));
    let stepped = step(
        &mut record,
        &u,
        &received,
        &at_opening,
        &mut word,
        &mut levels,
    );
    assert_eq!(stepped, Ok(answer(Outcome::Decoded, 1, 0, 1)));
    assert_eq!((word, levels), ([0, 0], LEVELS));
}

/// The starting places are sums of the columns' own weights.
#[test]
fn the_index_by_hand() {
    let starts = [0, 4, 7, 9, 11, 13, 15, 17, 19, 21];
    let rows = [
        0, 1, 2, 3, 0, 4, 6, 0, 5, 1, 4, 1, 5, 2, 4, 2, 6, 3, 5, 3, 6,
    ];
    assert_eq!(index_of(&code_u()), [&starts[..], &rows[..]].concat());
    assert_eq!(index_of(&code_v()), [0, 2, 3, 4, 5, 6, 0, 1, 0, 0, 1, 1]);
}

/// The program's input for a matrix and `SETTING`.
fn head(h: &Matrix) -> Vec<u8> {
    let mut input = Vec::new();
    for number in [h.n, h.m, h.rho, h.gamma].iter().chain(&h.list) {
        input.extend(number.to_le_bytes());
    }
    input.extend([4, 5, 0]);
    input.extend(0.5_f32.to_le_bytes());
    input
}

fn printed(input: &[u8]) -> String {
    let heading = "block end rounds failing changed word\n";
    let printed = String::from_utf8(program(input)).unwrap();
    printed.strip_prefix(heading).expect("the heading").into()
}

#[test]
fn the_program_reads_the_list_of_unlike_columns() {
    let mut whole = head(&code_u());
    let step_ends = whole.len();
    whole.extend(SAMPLES.iter().flat_map(|sample| sample.to_le_bytes()));
    assert_eq!(printed(&whole), "0 decoded 1 0 1 0000\n");
    for cut in (0..step_ends).chain(step_ends + 1..whole.len()) {
        assert_eq!(printed(&whole[..cut]), "short\n", "cut at {cut}");
    }
    assert_eq!(printed(&whole[..step_ends]), "");
    let one_below = Matrix {
        gamma: 1,
        ..code_u()
    };
    assert_eq!(printed(&head(&one_below)), "refused 4 9\n");
    let one_above = Matrix {
        gamma: 3,
        ..code_u()
    };
    assert_eq!(printed(&head(&one_above)[..8]), "refused 1 0\n");
}
