//! Received words and written buffers: refusals 7 and 9, and which number comes first.

use differential::{cases, random, Subject};
use ffi_face::Packed;
use generator::codes::{self, Code};
use generator::{damage, Random};
use reference::{byte_count, check, pack, Matrix};

/// One code for each number of spare places and size of word.
fn samples() -> Vec<Code> {
    let mut codes = codes::small();
    codes.extend([
        codes::tanner155(),
        codes::euclidean(4),
        codes::projective(4),
        codes::array_code(341, 3, 3),
        codes::single_row(2).copies(511),
        codes::grid(31),
    ]);
    codes
}

fn refused(number: u64) -> Packed {
    Packed::new(number * 65536, 0, 0, 0)
}

/// A word of the matrix by chance, spare places zero.
fn some_word(h: &Matrix, random: &mut Random) -> Vec<u8> {
    pack(&random.bits(usize::from(h.n)))
}

#[test]
fn received_words_of_a_wrong_length() {
    let mut random = random(700);
    for code in samples() {
        let subject = Subject::new(&code.matrix, &mut random);
        let needed = subject.needed();
        for length in [
            0,
            1,
            needed - 1,
            needed + 1,
            needed + 2,
            2 * needed,
            128,
            129,
            256,
        ] {
            if length == needed {
                continue;
            }
            // All places clear, all set, and some.
            for received in [vec![0; length], vec![0xFF; length], random.bytes(length)] {
                assert_eq!(subject.failing(&received, &mut random), refused(7));
                for room in [0, needed - 1, needed, length, needed + 5] {
                    let (answer, _) = subject.one_step(&received, room, &mut random);
                    assert_eq!(answer, refused(7), "{}", code.name);
                }
            }
        }
    }
}

#[test]
fn written_buffers_of_every_length() {
    let mut random = random(701);
    for code in samples() {
        let subject = Subject::new(&code.matrix, &mut random);
        let needed = subject.needed();
        for room in 0..needed + 10 {
            if room > 3 && room + 3 < needed {
                continue;
            }
            let received = some_word(&code.matrix, &mut random);
            let (answer, _) = subject.one_step(&received, room, &mut random);
            assert_eq!(answer == refused(7), room < needed, "{}", code.name);
        }
    }
}

#[test]
fn spare_places() {
    let mut random = random(702);
    for code in samples() {
        let subject = Subject::new(&code.matrix, &mut random);
        let needed = subject.needed();
        let spare = 8 * needed - usize::from(code.matrix.n);
        let mut settings: Vec<u8> = (0..spare).map(|place| 1 << place).collect();
        if spare > 0 {
            settings.push((1 << spare) - 1);
        }
        for set in settings {
            let mut received = some_word(&code.matrix, &mut random);
            received[needed - 1] |= set;
            assert_eq!(subject.failing(&received, &mut random), refused(9));
            for room in [needed, needed + 1, needed + 7] {
                let (answer, _) = subject.one_step(&received, room, &mut random);
                assert_eq!(answer, refused(9), "{}", code.name);
            }
            // A short buffer as well: 7 is lower. A byte more: no longer its bytes.
            let (answer, _) = subject.one_step(&received, needed - 1, &mut random);
            assert_eq!(answer, refused(7), "{}", code.name);
            received.push(0);
            let (answer, _) = subject.one_step(&received, needed, &mut random);
            assert_eq!(answer, refused(7), "{}", code.name);
            assert_eq!(subject.failing(&received, &mut random), refused(7));
        }
        // The lowest place that isn't spare.
        let mut received = vec![0; needed];
        received[needed - 1] = 1 << spare;
        assert_eq!(subject.failing(&received, &mut random).refusal(), 0);
        assert_eq!(subject.word(&received, &mut random).0.refusal(), 0);
    }
}

/// The matrix damaged so that it is refused by this number, if a few tries find such a damage.
fn damaged(code: &Code, number: u16, random: &mut Random) -> Option<Matrix> {
    for _ in 0..200 {
        let mut h = code.matrix.clone();
        if number == 5 {
            damage::exchange_columns(&mut h, random);
        } else {
            damage::change(&mut h, random);
        }
        if check(&h).is_err_and(|refusal| refusal.number == number) {
            return Some(h);
        }
    }
    None
}

/// Every refusal of the matrix with every state of the received word and of the buffer.
#[test]
fn the_matrix_is_asked_first() {
    let mut random = random(703);
    let mut seen = [0; 6];
    for code in codes::small() {
        for number in 0..=5 {
            let h = match number {
                0 => Some(code.matrix.clone()),
                _ => damaged(&code, number, &mut random),
            };
            let Some(h) = h else { continue };
            seen[usize::from(number)] += 1;
            let subject = Subject::new(&h, &mut random);
            let verdict = subject.check();
            let needed = byte_count(h.n).max(1);
            let word = random.bytes(needed - 1);
            let mut whole = word.clone();
            whole.push(0);
            let mut spare = word.clone();
            spare.push(0xFF);
            let long = [&spare[..], &[1]].concat();
            for received in [vec![], word, whole, spare, long] {
                let counted = subject.failing(&received, &mut random);
                assert!(number == 0 || counted == verdict);
                for room in [0, needed - 1, needed, needed + 3] {
                    let (answer, _) = subject.one_step(&received, room, &mut random);
                    assert!(number == 0 || answer == verdict);
                }
            }
        }
    }
    assert!(seen.iter().all(|&times| times > 10), "{seen:?}");
}

/// Everything by chance: matrix, received word and buffer.
#[test]
fn calls_by_chance() {
    let mut random = random(704);
    let codes = codes::small();
    for _ in 0..cases(4000) {
        let mut h = random.pick(&codes).matrix.clone();
        if random.once_in(3) {
            damage::change(&mut h, &mut random);
        }
        let subject = Subject::new(&h, &mut random);
        let needed = byte_count(h.n).min(200);
        let length = match random.below(6) {
            0 => needed + 1,
            1 => needed.saturating_sub(1),
            2 => random.below(needed + 3),
            _ => needed,
        };
        let mut received = random.bytes(length);
        if random.once_in(2) && !h.n.is_multiple_of(8) {
            if let Some(last) = received.last_mut() {
                *last &= 0xFF << (8 - h.n % 8);
            }
        }
        let room = (needed + random.below(5)).saturating_sub(random.below(3));
        subject.failing(&received, &mut random);
        subject.one_step(&received, room, &mut random);
    }
}
