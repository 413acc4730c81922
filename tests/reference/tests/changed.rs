//! The reference's count of changed bits, by hand.

use reference::{changed, Refusal};

#[test]
fn by_hand() {
    let rows: [(&[u8], &[u8], usize); 9] = [
        (&[], &[], 0),
        (&[0x2E], &[0x2E], 0),
        // P2, P3, P4 and P5: what was received and what was written.
        (&[0xAE], &[0x2E], 1),
        (&[0xC0], &[0x2E], 6),
        (&[0x08, 0x00], &[0x00, 0x00], 1),
        (&[0x88, 0x00], &[0x50, 0x00], 4),
        (&[0xFF], &[0x00], 8),
        (&[0x80, 0x01], &[0x01, 0x80], 4),
        (&[0; 128], &[255; 128], 1024),
    ];
    for (a, b, count) in rows {
        assert_eq!(changed(a, b), Ok(count));
        assert_eq!(changed(b, a), Ok(count));
    }
}

/// Both runs have one length, 128 bytes at most.
#[test]
fn refused_lengths() {
    let bytes = [0; 200];
    for long in 0..bytes.len() {
        for other in 0..bytes.len() {
            let expected = match long == other && long <= 128 {
                true => Ok(0),
                false => Err(Refusal::plain(7)),
            };
            assert_eq!(changed(&bytes[..long], &bytes[..other]), expected);
        }
    }
}
