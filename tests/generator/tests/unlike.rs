//! Codes of unlike columns: accepted, unlike, and with the weights that they are named for.

use generator::{codes, unlike, Random};
use reference::{check, Refusal};

#[test]
fn their_columns_are_unlike() {
    for code in [unlike::small(), unlike::medium(), unlike::large()].concat() {
        assert!(!code.is_regular(), "{}", code.name);
    }
    for code in [codes::code_a(), codes::tanner155(), codes::eg1023()] {
        assert!(code.is_regular(), "{}", code.name);
    }
}

/// So many columns of each weight, in ascending order.
fn census(mut weights: Vec<usize>) -> Vec<(usize, usize)> {
    weights.sort_unstable();
    let alike = weights.chunk_by(|a, b| a == b);
    alike.map(|chunk| (chunk.len(), chunk[0])).collect()
}

#[test]
fn weights_are_those_asked_for() {
    let code = unlike::irregular1000();
    let h = &code.matrix;
    assert_eq!([h.n, h.m, h.rho, h.gamma], [1000, 500, 12, 4]);
    assert_eq!(census(code.weights()), [(600, 4), (200, 8), (200, 10)]);
    assert_eq!(census(unlike::star(32, 2).weights()), [(32, 1), (1, 32)]);
    assert_eq!(census(unlike::wheel(32).weights()), [(32, 3), (1, 32)]);
    let plane = unlike::without_rows_of_column_0(&codes::projective(2), 2);
    assert_eq!(census(plane.weights()), [(1, 3), (8, 4), (12, 5)]);
    assert_eq!(plane.weights()[0], 3);
}

/// A column of 32 ones is accepted, one of 33 is not.
#[test]
fn stars_and_wheels_end_at_32() {
    for (accepted, refused) in [
        (unlike::star(32, 2), unlike::star(33, 2)),
        (unlike::star(32, 31), unlike::star(33, 31)),
        (unlike::wheel(32), unlike::wheel(33)),
    ] {
        assert_eq!(check(&accepted.matrix), Ok(()), "{}", accepted.name);
        assert_eq!(check(&refused.matrix), Err(Refusal::at(4, 0)));
    }
}

#[test]
fn matrices_by_chance_are_accepted() {
    let mut random = Random::new(6);
    let mut least = [0; 33];
    for _ in 0..2000 {
        let code = unlike::some(&mut random);
        assert_eq!(check(&code.matrix), Ok(()), "{:?}", code.matrix);
        assert!(!code.is_regular());
        least[usize::from(code.matrix.gamma)] += 1;
    }
    assert!(least[1..4].iter().all(|&times| times > 20), "{least:?}");
}
