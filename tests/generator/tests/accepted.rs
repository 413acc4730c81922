//! The reference accepts every generated matrix, and its codewords are codewords.

use generator::codes::{self, Code};
use generator::{damage, patterns, unlike, Codewords, Random};
use reference::{check, failing_checks};

fn sizes(code: &Code) -> [u16; 4] {
    let h = &code.matrix;
    [h.n, h.m, h.rho, h.gamma]
}

#[test]
fn every_code_is_accepted() {
    let mut random = Random::new(1);
    for code in codes::all() {
        assert_eq!(check(&code.matrix), Ok(()), "{}", code.name);
        if code.matrix.n < 300 {
            let shuffled = code.shuffled(&mut random);
            assert_eq!(check(&shuffled.matrix), Ok(()), "{}", shuffled.name);
        }
    }
}

#[test]
fn codewords_have_no_failing_check() {
    let mut random = Random::new(2);
    for code in codes::all() {
        for word in Codewords::of(&code.matrix).some(5, &mut random) {
            assert_eq!(failing_checks(&code.matrix, &word), 0, "{}", code.name);
        }
    }
}

#[test]
fn known_codes_have_their_sizes_and_dimensions() {
    let dimension = |code: &Code| Codewords::of(&code.matrix).dimension();
    assert_eq!(sizes(&codes::eg1023()), [1023, 1023, 32, 32]);
    assert_eq!(sizes(&codes::qc961()), [961, 961, 30, 30]);
    assert_eq!(sizes(&codes::tanner155()), [155, 93, 5, 3]);
    assert_eq!(dimension(&codes::tanner155()), 64);
    let example_2 = codes::qc961_721();
    assert_eq!(check(&example_2.matrix), Ok(()));
    assert_eq!(sizes(&example_2), [961, 961, 30, 30]);
    assert_eq!(dimension(&example_2), 721);
    // The other array of the same sizes has another dimension.
    assert_eq!(dimension(&codes::qc961()), 31);
    assert_eq!(sizes(&unlike::irregular504()), [504, 252, 8, 3]);
    assert_eq!(dimension(&unlike::irregular504()), 252);
    assert_eq!(sizes(&unlike::irregular1000()), [1000, 500, 12, 4]);
    assert_eq!(dimension(&unlike::irregular1000()), 501);
    assert_eq!(dimension(&codes::code_a()), 3);
    assert_eq!(dimension(&codes::code_b()), 4);
    for s in 2..=5 {
        // The rank over GF(2) is 3^s - 1 for the lines off the origin, 3^s + 1 for all lines.
        let rank = 3_usize.pow(s as u32);
        let euclidean = codes::euclidean(s);
        let n = usize::from(euclidean.matrix.n);
        assert_eq!(dimension(&euclidean), n - (rank - 1));
        if s < 5 {
            let projective = codes::projective(s);
            let n = usize::from(projective.matrix.n);
            assert_eq!(dimension(&projective), n - (rank + 1));
        }
    }
}

#[test]
fn the_codes_reach_the_limits_of_the_sizes() {
    let all: Vec<[u16; 4]> = codes::all().iter().map(sizes).collect();
    let reached = |at: usize, value: u16| all.iter().any(|sizes| sizes[at] == value);
    for (at, least, most) in [(0, 2, 1023), (1, 1, 1023), (2, 2, 32), (3, 1, 32)] {
        assert!(reached(at, least) && reached(at, most), "size {at}");
    }
    // Every number of spare places.
    for spare in 0..8 {
        assert!(all.iter().any(|sizes| sizes[0] % 8 == spare));
    }
}

#[test]
fn patterns_are_sets_of_their_size() {
    assert_eq!(patterns::of_size(0, 5), [[]]);
    assert_eq!(patterns::of_size(2, 4).len(), 6);
    assert_eq!(patterns::count_up_to(2, 4, 100), 1 + 4 + 6);
    assert_eq!(patterns::count_up_to(16, 1023, 5000), 5000);
    let mut random = Random::new(3);
    for code in codes::small() {
        for size in 0..=usize::from(code.matrix.gamma / 2 + 1).min(2) {
            for mut pattern in patterns::against_one_bit(&code, size, &mut random) {
                assert_eq!(pattern.len(), size);
                pattern.sort_unstable();
                pattern.dedup();
                assert_eq!(pattern.len(), size, "{}", code.name);
            }
        }
    }
}

#[test]
fn changes_lead_to_every_verdict() {
    let mut random = Random::new(4);
    let mut seen = [0; 6];
    let codes = codes::small();
    for _ in 0..3000 {
        let mut h = random.pick(&codes).matrix.clone();
        for _ in 0..1 + random.below(3) {
            damage::change(&mut h, &mut random);
        }
        let verdict = check(&h).map_or_else(|refusal| refusal.number, |()| 0);
        seen[usize::from(verdict)] += 1;
    }
    assert!(seen.iter().all(|&times| times > 50), "{seen:?}");
}
