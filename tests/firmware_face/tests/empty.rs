//! Slices without a byte, which stand nowhere in particular.

use firmware_face::decode;
use reference::firmware::Call;

/// The triangle of P10: rows 0 1, 1 2, 0 2.
const LIST: [u8; 12] = [0, 0, 1, 0, 1, 0, 2, 0, 0, 0, 2, 0];

const CALL: Call = Call {
    n: 3,
    m: 3,
    rho: 2,
    gamma: 2,
    list: &LIST,
    bits: 3,
    limit: 5,
    kind: 0,
    step: 0x3F00_0000,
    samples: &[0; 12],
};

#[test]
fn empty_slices() {
    let nothing_lent = |call: &Call| decode(call, &mut [], &mut [], &mut []);
    let empty = Call {
        list: &[],
        samples: &[],
        ..CALL
    };
    assert_eq!(nothing_lent(&Call { n: 0, ..empty }), 0x1_0000);
    assert_eq!(nothing_lent(&empty), 0x2_0000);
    let no_samples = Call {
        samples: &[],
        ..CALL
    };
    assert_eq!(
        nothing_lent(&Call {
            bits: 1,
            ..no_samples
        }),
        0x6_0000
    );
    assert_eq!(nothing_lent(&no_samples), 0x7_0000);
    assert_eq!(nothing_lent(&CALL), 0x7_0000);

    let (mut word, mut levels, mut report) = ([9], [9; 6], [9; 8]);
    let returned = decode(&no_samples, &mut word, &mut levels, &mut report);
    assert_eq!(
        (returned, word, levels, report),
        (0x7_0000, [9], [9; 6], [9; 8])
    );
    let returned = decode(&CALL, &mut word, &mut levels, &mut report);
    assert_eq!((returned, word, levels, report), (0, [0], [0; 6], [0; 8]));
}
