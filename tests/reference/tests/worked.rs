//! "Worked by hand": P1 to P5, P9, P10 and the size cases, as document 01 gives them.

use reference::{
    byte_count, check, failing, one_step, pack, unpack, Answer, Matrix, Outcome, Refusal,
};

fn code_a() -> Matrix {
    Matrix {
        n: 7,
        m: 7,
        rho: 3,
        gamma: 3,
        list: vec![
            0, 1, 3, 1, 2, 4, 2, 3, 5, 3, 4, 6, 0, 4, 5, 1, 5, 6, 0, 2, 6,
        ],
    }
}

fn code_b() -> Matrix {
    Matrix {
        n: 9,
        m: 6,
        rho: 3,
        gamma: 2,
        list: vec![0, 1, 2, 3, 4, 5, 6, 7, 8, 0, 3, 6, 1, 4, 7, 2, 5, 8],
    }
}

/// One-step voting into a buffer with two bytes more than needed, which stay.
fn voted(h: &Matrix, received: &[u8]) -> (Answer, Vec<u8>) {
    let needed = byte_count(h.n);
    let mut word = vec![0xA5; needed + 2];
    let answer = one_step(h, received, &mut word).expect("no refusal applies");
    assert_eq!(word[needed..], [0xA5, 0xA5]);
    word.truncate(needed);
    (answer, word)
}

fn answer(outcome: Outcome, rounds: usize, failing: usize, changed: usize) -> Answer {
    Answer {
        outcome,
        rounds,
        failing,
        changed,
    }
}

#[test]
fn p1_a_codeword_stays() {
    let expected = answer(Outcome::Decoded, 0, 0, 0);
    assert_eq!(voted(&code_a(), &[0x2E]), (expected, vec![0x2E]));
    assert_eq!(failing(&code_a(), &[0x2E]), Ok(0));
}

#[test]
fn p2_one_flip_is_undone() {
    let expected = answer(Outcome::Decoded, 1, 0, 1);
    assert_eq!(failing(&code_a(), &[0xAE]), Ok(3));
    assert_eq!(voted(&code_a(), &[0xAE]), (expected, vec![0x2E]));
}

#[test]
fn p3_two_flips_give_another_codeword() {
    let expected = answer(Outcome::Decoded, 1, 0, 6);
    assert_eq!(voted(&code_a(), &[0xC0]), (expected, vec![0x2E]));
}

#[test]
fn p4_a_tie_keeps_the_bit() {
    let expected = answer(Outcome::Decoded, 1, 0, 1);
    assert_eq!(voted(&code_b(), &[0x08, 0]), (expected, vec![0, 0]));
}

#[test]
fn p5_a_failed_word_is_written() {
    let expected = answer(Outcome::Failed, 1, 4, 4);
    assert_eq!(voted(&code_b(), &[0x88, 0]), (expected, vec![0x50, 0]));
}

#[test]
fn p9_two_equal_rows_are_refused() {
    let h = Matrix {
        n: 2,
        m: 2,
        rho: 2,
        gamma: 2,
        list: vec![0, 1, 0, 1],
    };
    let refusal = Refusal {
        number: 5,
        place: 0,
    };
    assert_eq!(check(&h), Err(refusal));
}

#[test]
fn p10_the_triangle_is_accepted() {
    let h = Matrix {
        n: 3,
        m: 3,
        rho: 2,
        gamma: 2,
        list: vec![0, 1, 1, 2, 0, 2],
    };
    assert_eq!(check(&h), Ok(()));
}

#[test]
fn n_1023_passes_and_1024_is_refusal_1() {
    // Rows of three columns each, then rows of two: both fit but for the range of n.
    let largest = Matrix {
        n: 1023,
        m: 341,
        rho: 3,
        gamma: 1,
        list: (0..1023).collect(),
    };
    assert_eq!(check(&largest), Ok(()));
    let too_large = Matrix {
        n: 1024,
        m: 512,
        rho: 2,
        gamma: 1,
        list: (0..1024).collect(),
    };
    assert_eq!(check(&too_large), Err(Refusal::plain(1)));
}

#[test]
fn each_refusal_has_its_place() {
    let refused = |damage: fn(&mut Matrix)| {
        let mut h = code_b();
        damage(&mut h);
        let refusal = check(&h).expect_err("the matrix is damaged");
        (refusal.number, refusal.place)
    };
    assert_eq!(refused(|h| h.gamma = 3), (1, 0));
    assert_eq!(refused(|h| h.list.truncate(17)), (2, 0));
    assert_eq!(refused(|h| h.list[17] = 9), (3, 17));
    assert_eq!(refused(|h| h.list[4] = 3), (3, 4));
    assert_eq!(refused(|h| h.list[17] = 5), (3, 17));
    // Columns 6 and 8 lose and gain a one.
    assert_eq!(refused(|h| h.list[11] = 8), (4, 6));
    // Rows 4 and 5 exchange columns 4 and 8: row 1 then shares two columns with row 5, and row 2
    // two with row 4.
    let overlaps = |h: &mut Matrix| h.list[12..].copy_from_slice(&[1, 7, 8, 2, 4, 5]);
    assert_eq!(refused(overlaps), (5, 1));
}

#[test]
fn received_words_and_buffers_are_refused_by_7_and_9() {
    let b = code_b();
    let refused = |received: &[u8], room: usize| {
        let mut word = vec![0x5A; room];
        let refusal = one_step(&b, received, &mut word).expect_err("refused");
        assert_eq!(word, vec![0x5A; room]);
        (refusal.number, refusal.place)
    };
    assert_eq!(refused(&[0], 2), (7, 0));
    assert_eq!(refused(&[0, 0, 0], 2), (7, 0));
    assert_eq!(refused(&[0, 0], 1), (7, 0));
    assert_eq!(refused(&[0, 1], 1), (7, 0));
    assert_eq!(refused(&[0, 1], 2), (9, 0));
    assert_eq!(refused(&[0, 0x40], 2), (9, 0));
    assert_eq!(failing(&b, &[0]), Err(Refusal::plain(7)));
    assert_eq!(failing(&b, &[0, 0x40]), Err(Refusal::plain(9)));
    assert_eq!(failing(&b, &[0, 0x80]), Ok(2));
}

#[test]
fn bit_0_is_in_the_highest_place_of_byte_0() {
    let mut word = vec![false; 9];
    word[0] = true;
    word[8] = true;
    assert_eq!(pack(&word), [0x80, 0x80]);
    assert_eq!(unpack(9, &[0x80, 0x80]), word);
    assert_eq!(unpack(7, &[0x2E]), unpack(9, &[0x2E, 0])[..7]);
}
