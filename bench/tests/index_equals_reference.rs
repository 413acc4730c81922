//! The hand-optimised index is the reference's, and no other one is taken for it.

use bench::index;
use generator::codes;
use generator::Random;
use reference::{index_of, Matrix};

#[test]
fn built() {
    for code in codes::all() {
        let own = index_of(&code.matrix);
        let mut built = vec![0xABCD; own.len() + 2];
        // SAFETY: the generated codes are accepted, and the buffer is long enough.
        unsafe { index::build(&code.matrix, &mut built[..own.len()]) };
        assert!(built[..own.len()] == own, "{}", code.name);
        assert_eq!(built[own.len()..], [0xABCD; 2]);
    }
}

/// A form that finds whether an index is the matrix's own.
type Finder = unsafe fn(&Matrix, &[u16]) -> bool;

/// The form finds the own index to be it, and no index of another length or with a number changed.
fn finds_the_own_one(form: Finder) {
    let mut random = Random::new(13);
    for code in codes::all() {
        let own = index_of(&code.matrix);
        // SAFETY: the generated codes are accepted.
        let is_own = |index: &[u16]| unsafe { form(&code.matrix, index) };
        assert!(is_own(&own), "{}", code.name);
        assert!(!is_own(&own[1..]) && !is_own(&[&own[..], &[0]].concat()));
        let n = usize::from(code.matrix.n);
        let mut places = vec![0, n, n + 1, own.len() - 1];
        places.extend((0..20).map(|_| random.below(own.len())));
        for at in places {
            for change in [1, 65_535] {
                let mut other = own.clone();
                other[at] = other[at].wrapping_add(change);
                assert!(!is_own(&other), "{} at {at}", code.name);
            }
        }
    }
}

#[test]
fn found_to_be_the_own_one() {
    finds_the_own_one(index::is_own);
}

#[test]
fn found_to_be_the_own_one_as_in_c() {
    finds_the_own_one(index::is_own_plain);
}
