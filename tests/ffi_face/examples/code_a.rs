//! One-step voting on code A, by the proved library: the worked examples P1 to P3 of the scope.

use ffi_face::{one_step, LentMatrix};

/// Rows 0 1 3, 1 2 4, 2 3 5, 3 4 6, 0 4 5, 1 5 6, 0 2 6.
const LIST: [u16; 21] = [
    0, 1, 3, 1, 2, 4, 2, 3, 5, 3, 4, 6, 0, 4, 5, 1, 5, 6, 0, 2, 6,
];

fn main() {
    let code = LentMatrix {
        n: 7,
        m: 7,
        rho: 3,
        gamma: 3,
        list: &LIST,
    };
    println!("received end rounds failing changed word");
    for received in [0x2e_u8, 0xae, 0xc0] {
        let mut word = [0_u8];
        let answer = one_step(code, &[received], &mut word);
        let end = if answer.place() == 0 {
            "decoded"
        } else {
            "failed"
        };
        let counts = answer.0 >> 32;
        let (rounds, failing, changed) = (counts % 256, counts / 256 % 4096, counts / 256 / 4096);
        println!(
            "{received:02x} {end} {rounds} {failing} {changed} {:02x}",
            word[0]
        );
    }
}
