//! The counts of changed bits in Rust are the reference's.

use bench::distance;
use generator::Random;

#[test]
fn counted() {
    let mut random = Random::new(17);
    for long in 0..=128 {
        for _ in 0..20 {
            let a = random.bytes(long);
            let mut others = vec![random.bytes(long), a.clone()];
            others.push(a.iter().map(|byte| !byte).collect());
            for b in others {
                let expected = reference::changed(&a, &b).unwrap() as u64;
                assert_eq!(distance::bytes_64(&a, &b), expected);
                assert_eq!(u64::from(distance::bytes_32(&a, &b)), expected);
                assert_eq!(u64::from(distance::bytes_16(&a, &b)), expected);
                assert_eq!(distance::words(&a, &b), expected);
            }
        }
    }
}
