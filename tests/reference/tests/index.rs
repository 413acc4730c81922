//! Document 02, card 1: the index by hand, refusal 10, and its place among the others.

use reference::{
    index, index_of, iterative, iterative_indexed, one_step, one_step_indexed, Matrix, Refusal,
    Setting,
};

fn code_a() -> Matrix {
    Matrix {
        n: 7,
        m: 7,
        rho: 3,
        gamma: 3,
        list: vec![
            0, 1, 3, 1, 2, 4, 2, 3, 5, 3, 4, 6, 0, 4, 5, 1, 5, 6, 0, 2, 6,
        ],
    }
}

fn code_b() -> Matrix {
    Matrix {
        n: 9,
        m: 6,
        rho: 3,
        gamma: 2,
        list: vec![0, 1, 2, 3, 4, 5, 6, 7, 8, 0, 3, 6, 1, 4, 7, 2, 5, 8],
    }
}

const P6: Setting = Setting {
    bits: 3,
    limit: 5,
    kind: 0,
    step: 0.5,
};

#[test]
fn the_index_by_hand() {
    // Eight starting places, then columns 0 to 6.
    let starts = [0, 3, 6, 9, 12, 15, 18, 21];
    let rows = [
        0, 4, 6, 0, 1, 5, 1, 2, 6, 0, 2, 3, 1, 3, 4, 2, 4, 5, 3, 5, 6,
    ];
    assert_eq!(index_of(&code_a()), [&starts[..], &rows[..]].concat());

    // Ten, then columns 0 to 8: a row of the grid and one of its columns.
    let starts = [0, 2, 4, 6, 8, 10, 12, 14, 16, 18];
    let rows = [0, 3, 0, 4, 0, 5, 1, 3, 1, 4, 1, 5, 2, 3, 2, 4, 2, 5];
    assert_eq!(index_of(&code_b()), [&starts[..], &rows[..]].concat());

    let one_row = Matrix {
        n: 3,
        m: 1,
        rho: 3,
        gamma: 1,
        list: vec![0, 1, 2],
    };
    assert_eq!(index_of(&one_row), [0, 1, 2, 3, 0, 0, 0]);
}

/// An index has n + 1 + m × ρ numbers: 28 for code B.
#[test]
fn building_into_buffers_of_any_length() {
    let b = code_b();
    let own = index_of(&b);
    assert_eq!(own.len(), 28);
    for room in 0..28 {
        let mut buffer = vec![0xABCD; room];
        assert_eq!(index(&b, &mut buffer), Err(Refusal::plain(10)));
        assert_eq!(buffer, vec![0xABCD; room]);
    }
    for more in 0..4 {
        let mut buffer = vec![0xABCD; 28 + more];
        assert_eq!(index(&b, &mut buffer), Ok(()));
        assert_eq!(buffer[..28], own);
        assert_eq!(buffer[28..], vec![0xABCD; more]);
    }
}

#[test]
fn a_refused_matrix_comes_before_a_short_buffer() {
    let bad = Matrix {
        gamma: 3,
        ..code_b()
    };
    for room in [0, 27, 28, 40] {
        let mut buffer = vec![0xABCD; room];
        assert_eq!(index(&bad, &mut buffer), Err(Refusal::plain(1)));
        assert_eq!(buffer, vec![0xABCD; room]);
    }
    let mut entry = code_b();
    entry.list[17] = 9;
    assert_eq!(index(&entry, &mut []), Err(Refusal::at(3, 17)));
}

/// Every index but the own one: a number changed, one more, one fewer.
fn others(own: &[u16]) -> Vec<Vec<u16>> {
    let mut others = vec![Vec::new(), own[1..].to_vec(), own[..own.len() - 1].to_vec()];
    others.push([own, &[0]].concat());
    others.push([own, own].concat());
    for at in 0..own.len() {
        for change in [1, 0xFFFF] {
            let mut other = own.to_vec();
            other[at] = other[at].wrapping_add(change);
            others.push(other);
        }
    }
    others
}

#[test]
fn another_index_is_refused_by_10() {
    for h in [code_a(), code_b()] {
        let n = usize::from(h.n);
        let received = vec![0; n.div_ceil(8)];
        for lent in others(&index_of(&h)) {
            let mut word = vec![0x5A; 3];
            let answer = one_step_indexed(&h, &lent, &received, &mut word);
            assert_eq!(answer, Err(Refusal::plain(10)));
            let mut levels = vec![99; n];
            let samples = vec![0.5; n];
            let answer = iterative_indexed(&h, &lent, &P6, &samples, &mut word, &mut levels);
            assert_eq!(answer, Err(Refusal::plain(10)));
            assert_eq!((word, levels), (vec![0x5A; 3], vec![99; n]));
        }
    }
}

#[test]
fn the_own_index_changes_no_answer() {
    let b = code_b();
    let own = index_of(&b);
    for number in 0..512_u16 {
        let received = (number << 7).to_be_bytes();
        let (mut word, mut without) = ([0x5A; 3], [0x5A; 3]);
        let answer = one_step_indexed(&b, &own, &received, &mut word);
        assert_eq!(answer, one_step(&b, &received, &mut without));
        assert_eq!(word, without);

        let sample = |j: u16| [-0.6, 0.3][usize::from(number >> j & 1)];
        let samples: Vec<f32> = (0..9).map(sample).collect();
        let (mut levels, mut levels_without) = ([99; 10], [99; 10]);
        let answer = iterative_indexed(&b, &own, &P6, &samples, &mut word, &mut levels);
        let expected = iterative(&b, &P6, &samples, &mut without, &mut levels_without);
        assert_eq!(answer, expected);
        assert_eq!((word, levels), (without, levels_without));
    }
}

#[test]
fn one_step_asks_the_matrix_then_10_then_7_and_9() {
    let refused = |h: &Matrix, lent: &[u16], received: &[u8], room: usize| {
        let mut word = vec![0x5A; room];
        let refusal = one_step_indexed(h, lent, received, &mut word).expect_err("refused");
        assert_eq!(word, vec![0x5A; room]);
        refusal.number
    };
    let b = code_b();
    let own = index_of(&b);
    let bad = Matrix {
        gamma: 3,
        ..code_b()
    };
    assert_eq!(refused(&bad, &own[1..], &[0, 1], 1), 1);
    assert_eq!(refused(&b, &own[1..], &[0, 1], 1), 10);
    assert_eq!(refused(&b, &own[1..], &[0, 1], 2), 10);
    assert_eq!(refused(&b, &own, &[0, 1], 1), 7);
    assert_eq!(refused(&b, &own, &[0], 2), 7);
    assert_eq!(refused(&b, &own, &[0, 1], 2), 9);
}

#[test]
fn iterative_asks_the_matrix_then_10_then_6_to_8() {
    let refused = |h: &Matrix, lent: &[u16], bits: u16, samples: &[f32], room: usize| {
        let setting = Setting { bits, ..P6 };
        let (mut word, mut levels) = (vec![0x5A; room], vec![99; 9]);
        let answer = iterative_indexed(h, lent, &setting, samples, &mut word, &mut levels);
        assert_eq!((word, levels), (vec![0x5A; room], vec![99; 9]));
        let refusal = answer.expect_err("refused");
        (refusal.number, refusal.place)
    };
    let b = code_b();
    let own = index_of(&b);
    let bad = Matrix {
        gamma: 3,
        ..code_b()
    };
    let mut samples = [1.0; 9];
    samples[4] = f32::NAN;
    assert_eq!(refused(&bad, &own[1..], 13, &samples, 1), (1, 0));
    assert_eq!(refused(&b, &own[1..], 13, &samples, 1), (10, 0));
    assert_eq!(refused(&b, &own[1..], 3, &samples, 2), (10, 0));
    assert_eq!(refused(&b, &own, 13, &samples, 1), (6, 0));
    assert_eq!(refused(&b, &own, 3, &samples, 1), (7, 0));
    assert_eq!(refused(&b, &own, 3, &samples[1..], 2), (7, 0));
    assert_eq!(refused(&b, &own, 3, &samples, 2), (8, 4));
}
