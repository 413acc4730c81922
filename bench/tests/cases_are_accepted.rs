//! The codes that costs are measured on: accepted, and from the shortest length to the longest.

use bench::cases::by_length;

#[test]
fn accepted() {
    let all = by_length();
    for (code, _, _) in &all {
        assert_eq!(reference::check(&code.matrix), Ok(()), "{}", code.name);
    }
    let lengths: Vec<u16> = all.iter().map(|(code, _, _)| code.matrix.n).collect();
    assert!(lengths.len() >= 10 && lengths.is_sorted(), "{lengths:?}");
    assert_eq!((lengths[0], lengths[lengths.len() - 1]), (7, 1023));
}
