//! Column weights around gamma and around 32: refusal 4 with its place, and what comes before it.
//!
//! The place is given here as the weights were made, and by the reference.

use differential::causes::moved;
use differential::{random, refusal};
use generator::codes::{self, Code};
use generator::unlike;
use reference::Matrix;

fn with_gamma(h: &Matrix, gamma: u16) -> Matrix {
    Matrix { gamma, ..h.clone() }
}

/// The lowest column of this weight, as a place.
fn lowest(code: &Code, weight: usize) -> u64 {
    let found = code.weights().iter().position(|&other| other == weight);
    found.expect("a column of the weight") as u64
}

/// All codes of unlike columns.
fn all_unlike() -> Vec<Code> {
    [unlike::small(), unlike::medium(), unlike::large()].concat()
}

/// Pairs of different columns, the lower one first: all of a small code, else some at both ends.
fn pairs(n: u16) -> Vec<(u16, u16)> {
    if n > 16 {
        return vec![(0, 1), (0, n - 1), (n / 2, n - 1), (n - 2, n - 1)];
    }
    (0..n)
        .flat_map(|a| (a + 1..n).map(move |b| (a, b)))
        .collect()
}

/// A one moved between two columns of a regular code: the one that loses it is too light. The one
/// that gets it has at most 32 and is passed over, also where it is the lower one.
#[test]
fn one_below_gamma() {
    let mut random = random(504);
    let mut codes = [codes::small(), codes::medium()].concat();
    codes.extend([codes::single_row(3).copies(341), codes::cycle(1023)]);
    codes.retain(Code::is_regular);
    codes.retain(|code| code.matrix.gamma < 32);
    for code in codes {
        for (low, high) in pairs(code.matrix.n) {
            for (from, to) in [(low, high), (high, low)] {
                if let Some(h) = moved(&code.matrix, from, to) {
                    let place = (4, u64::from(from));
                    assert_eq!(refusal(&h, &mut random), place, "{}", code.name);
                }
            }
        }
    }
}

/// A one moved between columns of weight 32: one is too light, the other too heavy.
#[test]
fn weights_of_eg1023() {
    let mut random = random(505);
    let eg = codes::eg1023();
    for (low, high) in [(0, 1022), (511, 512), (1021, 1022)] {
        for (from, to) in [(low, high), (high, low)] {
            let h = moved(&eg.matrix, from, to).expect("two columns share one row");
            assert_eq!(refusal(&h, &mut random), (4, u64::from(low)));
        }
    }
}

/// Columns of 17 to 32 ones: one that loses a one is still heavy enough, one that gets a one is too
/// heavy where it had 32.
#[test]
fn one_above_32() {
    let mut random = random(516);
    let code = unlike::without_rows_of_column_0(&codes::eg1023(), 16);
    let weights = code.weights();
    let heavy: Vec<u16> = (0..1023)
        .filter(|&j| weights[usize::from(j)] == 32)
        .collect();
    let (first, last) = (heavy[0], heavy[heavy.len() - 1]);
    for (from, to) in [(first, last), (last, first)] {
        let h = moved(&code.matrix, from, to).expect("a row to move a one in");
        assert_eq!(refusal(&h, &mut random), (4, to.into()));
    }
}

/// 31 and 32 ones are accepted, 33 refused, wherever the column stands.
#[test]
fn weights_31_to_33() {
    let mut random = random(517);
    let made: [fn(usize) -> Code; 4] = [
        |weight| unlike::star(weight, 2),
        |weight| unlike::star(weight, 3),
        |weight| unlike::star(weight, 31),
        unlike::wheel,
    ];
    for make in made {
        for weight in [31, 32, 33, 34] {
            let code = make(weight).shuffled(&mut random);
            let expected = match weight {
                31 | 32 => (0, 0),
                _ => (4, lowest(&code, weight)),
            };
            assert_eq!(refusal(&code.matrix, &mut random), expected);
        }
    }
    for copies in [2, 5] {
        let code = unlike::star(33, 2).copies(copies).shuffled(&mut random);
        let expected = (4, lowest(&code, 33));
        assert_eq!(refusal(&code.matrix, &mut random), expected);
    }
}

/// Weights far above 32: some of them are gamma again, or at most 32, when only the low byte is kept.
#[test]
fn weights_far_too_high() {
    let mut random = random(506);
    for ones in [257, 258, 259, 288, 289, 514, 770, 1022, 1023] {
        let mut list = Vec::new();
        for i in 0..1023_u16 {
            let other = 1 + i % 1022;
            if i < ones {
                list.extend([0, other]);
            } else {
                list.extend([other.min(1021), 1022]);
            }
        }
        let h = Matrix {
            n: 1023,
            m: 1023,
            rho: 2,
            gamma: 2,
            list,
        };
        assert_eq!(refusal(&h, &mut random), (4, 0));
        assert_eq!(refusal(&with_gamma(&h, 1), &mut random), (4, 0));
        let star = unlike::star(usize::from(ones.min(1022)), 2);
        assert_eq!(refusal(&star.matrix, &mut random), (4, 0));
    }
}

/// Gamma is the smallest weight. One less is no column's weight; one more is above the lightest
/// column's, or above what the ones allow.
#[test]
fn gamma_one_off() {
    let mut random = random(518);
    let mut seen = [0; 3];
    for code in all_unlike() {
        let h = &code.matrix;
        assert_eq!(refusal(h, &mut random), (0, 0), "{}", code.name);
        if h.gamma > 1 {
            let below = refusal(&with_gamma(h, h.gamma - 1), &mut random);
            assert_eq!(below, (4, h.n.into()), "{}", code.name);
            seen[0] += 1;
        }
        let above = refusal(&with_gamma(h, h.gamma + 1), &mut random);
        if h.list.len() < usize::from(h.n) * usize::from(h.gamma + 1) {
            assert_eq!(above, (1, 0), "{}", code.name);
            seen[1] += 1;
        } else {
            let place = lowest(&code, h.gamma.into());
            assert_eq!(above, (4, place), "{}", code.name);
            seen[2] += 1;
        }
    }
    assert!(seen.iter().all(|&times| times > 5), "{seen:?}");
}

/// All columns weigh more than gamma: place n, which is 1,023 at most.
#[test]
fn no_column_weighs_gamma() {
    let mut random = random(519);
    for code in codes::all() {
        let h = &code.matrix;
        if h.gamma > 1 && (h.n < 300 || random.once_in(3)) {
            for gamma in [1, h.gamma - 1] {
                let none = refusal(&with_gamma(h, gamma), &mut random);
                assert_eq!(none, (4, h.n.into()), "{}", code.name);
            }
        }
    }
    let cycle = with_gamma(&codes::cycle(1023).matrix, 1);
    assert_eq!(refusal(&cycle, &mut random), (4, 1023));
}

/// No column weighs gamma, and the hub has 33 ones: the hub is named.
#[test]
fn the_range_comes_before_no_least() {
    let mut random = random(520);
    for _ in 0..10 {
        let heavy = unlike::wheel(33).shuffled(&mut random);
        let hub = lowest(&heavy, 33);
        for gamma in [1, 2, 3] {
            let h = with_gamma(&heavy.matrix, gamma);
            assert_eq!(refusal(&h, &mut random), (4, hub), "gamma {gamma}");
        }
        let allowed = unlike::wheel(32).shuffled(&mut random);
        for gamma in [1, 2] {
            let h = with_gamma(&allowed.matrix, gamma);
            assert_eq!(refusal(&h, &mut random), (4, 33), "gamma {gamma}");
        }
    }
}

/// A bad entry comes before a column of 33 ones, and before no column of weight gamma.
#[test]
fn an_entry_comes_before_the_weights() {
    let mut random = random(521);
    for code in [unlike::wheel(33), unlike::star(33, 4)] {
        let last = code.matrix.list.len() - 1;
        let mut h = code.matrix;
        h.list[last] = h.n;
        assert_eq!(refusal(&h, &mut random), (3, last as u64));
    }
    let mut h = with_gamma(&codes::code_a().matrix, 2);
    h.list[20] = 7;
    assert_eq!(refusal(&h, &mut random), (3, 20));
}

/// The complete graph of 34 vertices without ten edges at vertex 5, the first of them to 0, 1, 2, 3
/// and 4: column 5 weighs 23, the other ends 32, columns 11 to 33 weigh 33.
#[test]
fn the_lowest_of_light_and_heavy_columns() {
    let mut random = random(522);
    let complete = codes::complete_graph(34).transposed();
    let code = unlike::without_rows(&complete, &complete.columns()[5][..10]);
    let weights = code.weights();
    assert_eq!((weights[4], weights[5], weights[6]), (32, 23, 32));
    assert_eq!((weights[10], weights[11], weights[33]), (32, 33, 33));
    let mut refused = |gamma| refusal(&with_gamma(&code.matrix, gamma), &mut random);
    assert_eq!(refused(24), (4, 5));
    assert_eq!(refused(32), (4, 5));
    assert_eq!(refused(23), (4, 11));
    assert_eq!(refused(22), (4, 11));
}

/// Two columns of the rim lose a one each to the hub.
#[test]
fn the_lower_of_two_light_columns() {
    let mut random = random(523);
    let code = unlike::wheel(16);
    for (low, high) in [(1, 3), (3, 9), (7, 16), (13, 15)] {
        for (first, then) in [(low, high), (high, low)] {
            let h = moved(&code.matrix, first, 0).expect("a row of the rim");
            assert_eq!(refusal(&h, &mut random), (4, first.into()));
            let h = moved(&h, then, 0).expect("a row of the rim");
            assert_eq!(refusal(&h, &mut random), (4, low.into()));
        }
    }
}
