//! Columns of unlike weight in every call: the bit's own checks count. Most tests of this folder
//! have such codes among theirs; here are those that only they can pass or fail.

use differential::{cases, random, Indexed, Lent, Opened, Subject, WORKING};
use ffi_face::Packed;
use generator::codes::{self, Code};
use generator::{damage, noise, patterns, settings, unlike, Codewords, Random};
use reference::{pack, Setting};

fn refused(number: u64, place: u64) -> Packed {
    Packed::new(number * 65536 + place, 0, 0, 0)
}

/// Code U: column 0 weighs 4, column 1 weighs 3, the others 2. The words and levels are worked out
/// in the reference's tests.
#[test]
fn code_u_by_hand() {
    let mut random = random(1900);
    let u = Indexed::new(&unlike::code_u().matrix, &mut random);
    let subject = u.subject();
    assert_eq!(subject.check(), Packed(0));
    let (undone, tie) = (Packed::new(0, 1, 0, 1), Packed::new(1, 1, 2, 1));
    for j in 0..9 {
        let received = (0x8000_u16 >> j).to_be_bytes();
        assert_eq!(subject.word(&received, &mut random), (undone, vec![0, 0]));
        let (answer, word) = u.word(&received, &mut random);
        assert_eq!((answer, &word[..2]), (undone, &[0, 0][..]));
    }
    let voted = subject.word(&[0x50, 0], &mut random);
    assert_eq!(voted, (tie, vec![0x10, 0]));

    let setting = settings::level_step(4, 5, 0.5);
    let mut samples = [-1.0; 9];
    samples[0] = 0.5;
    let levels = [-3, -3, -2, -2, -2, -2, -2, -2, -2];
    let left = subject.iterative(&setting, &samples, 2, 9, &mut random);
    assert_eq!((left.answer, &left.word), (undone, &vec![0, 0]));
    assert_eq!(left.levels, levels);
    let left = u.iterative(u.own(), &setting, &samples, (2, 9), &mut random);
    assert_eq!((left.answer, &left.levels[..]), (undone, &levels[..]));
    assert_eq!(subject.stepped(&setting, &samples, &mut random), 1);

    let starts = [0, 4, 7, 9, 11, 13, 15, 17, 19, 21];
    let (answer, built) = u.build(31, &mut random);
    assert_eq!((answer, &built[..10]), (Packed(0), &starts[..]));
}

/// The star of 32 rows: the zero word with so many of the outer bits flipped. Column 0 is flipped
/// where more than 16 of its 32 checks fail; the outer bits always change with their check.
#[test]
fn half_of_32_checks() {
    let mut random = random(1901);
    let subject = Subject::new(&unlike::star(32, 2).matrix, &mut random);
    for flips in 0..=32 {
        let pattern: Vec<usize> = random.different(flips, 32).iter().map(|j| j + 1).collect();
        let received = pack(&patterns::flipped(&[false; 33], &pattern));
        let (answer, word) = subject.word(&received, &mut random);
        // The outer bits are flipped back; with bit 0 flipped all 32 checks fail.
        let expected = match flips {
            0 => Packed::new(0, 0, 0, 0),
            1..=16 => Packed::new(0, 1, 0, flips),
            _ => Packed::new(1, 1, 32, flips + 1),
        };
        assert_eq!(answer, expected, "{flips} flips");
        assert_eq!(word[0] >> 7, u8::from(flips > 16), "{flips} flips");
    }
}

/// E of the wheel's hub is from −32 to 32: one round takes its level from L to L − 32.
#[test]
fn e_of_32_checks() {
    let mut random = random(1902);
    let subject = Subject::new(&unlike::wheel(32).matrix, &mut random);
    let setting = settings::level_step(8, 1, 1.0);
    let mut samples = [-50.0; 33];
    samples[0] = 127.0;
    let left = subject.iterative(&setting, &samples, 5, 33, &mut random);
    // Each rim bit has the hub's check for it and two against.
    let mut levels = vec![-51; 33];
    levels[0] = 95;
    assert_eq!(left.levels, levels);
    assert_eq!(left.answer, Packed::new(1, 1, 32, 0));
}

/// Starts j × gamma, which were the index's before columns could be unlike; the same with the last
/// start put right, and with the rows cut; and starts by the weights of the columns in another order.
fn starts_by_other_weights(indexed: &Indexed, code: &Code) -> Vec<Vec<u16>> {
    let (n, rows) = (indexed.n(), &indexed.own()[indexed.n() + 1..]);
    let starts = |weights: &[usize]| -> Vec<u16> {
        let mut sum = 0;
        let next = weights.iter().map(|weight| {
            sum += weight;
            sum as u16
        });
        [0].into_iter().chain(next).collect()
    };
    let by_gamma = starts(&vec![code.matrix.gamma.into(); n]);
    let ends_right = [&by_gamma[..n], &[rows.len() as u16]].concat();
    let mut ascending = code.weights();
    ascending.sort_unstable();
    let mut descending = ascending.clone();
    descending.reverse();
    let all = [
        by_gamma,
        ends_right,
        starts(&ascending),
        starts(&descending),
    ];
    let mut lent: Vec<Vec<u16>> = all.iter().map(|starts| [starts, rows].concat()).collect();
    let cut = usize::from(code.matrix.gamma) * n;
    lent.push([&all[0], &rows[..cut]].concat());
    lent.retain(|index| index != indexed.own());
    lent
}

#[test]
fn an_index_of_other_weights_is_refused() {
    let mut random = random(1903);
    for code in [unlike::small(), unlike::medium(), unlike::large()].concat() {
        let indexed = Indexed::new(&code.matrix, &mut random);
        let lent = indexed.lend(indexed.own(), &mut random);
        assert_eq!(lent, (0, 0), "{}", code.name);
        for index in starts_by_other_weights(&indexed, &code) {
            let lent = indexed.lend(&index, &mut random);
            assert_eq!(lent, (10, 0), "{}", code.name);
        }
    }
}

/// Small codes with a smallest weight of 2 to 4: t is 1 or 2.
fn codes_of_the_rule() -> Vec<Code> {
    vec![
        unlike::code_u(),
        unlike::wheel(5),
        unlike::wheel(7),
        unlike::without_rows(&codes::code_a(), &[0]),
        unlike::without_rows(&codes::euclidean(2), &[4]),
        unlike::without_rows(&codes::projective_prime(3), &[12]),
        unlike::without_rows(&codes::complete_graph(6).transposed(), &[0]),
        unlike::without_rows(&codes::projective(2), &[20]),
    ]
}

/// Demand 3 whole: every codeword and every choice of at most gamma / 2 flips.
#[test]
fn every_codeword_changed_within_the_half() {
    let mut random = random(1904);
    for code in codes_of_the_rule() {
        let n = usize::from(code.matrix.n);
        let half = usize::from(code.matrix.gamma / 2);
        let subject = Subject::new(&code.matrix, &mut random);
        let mut seen = std::collections::HashSet::new();
        let all = Codewords::of(&code.matrix).some(1 << 12, &mut random);
        for size in 0..=half {
            for pattern in patterns::of_size(size, n) {
                for sent in &all {
                    let received = pack(&patterns::flipped(sent, &pattern));
                    let voted = subject.one_step(&received, subject.needed(), &mut random);
                    let answer = Packed::new(0, usize::from(size > 0), 0, size);
                    assert_eq!(voted, (answer, pack(sent)), "{}", code.name);
                    assert!(
                        seen.insert(received),
                        "{}: a received word twice",
                        code.name
                    );
                }
            }
        }
    }
}

/// With one flip more than gamma / 2 some word does not come back, in each of these codes.
#[test]
fn one_flip_past_the_half() {
    let mut random = random(1905);
    for code in codes_of_the_rule() {
        let n = usize::from(code.matrix.n);
        let past = usize::from(code.matrix.gamma / 2) + 1;
        let subject = Subject::new(&code.matrix, &mut random);
        let sent = vec![false; n];
        let lost = patterns::of_size(past, n).into_iter().filter(|pattern| {
            let received = pack(&patterns::flipped(&sent, pattern));
            let (_, word) = subject.one_step(&received, subject.needed(), &mut random);
            word != pack(&sent)
        });
        assert!(lost.count() > 0, "{}", code.name);
    }
}

/// Only the smallest weight is a list's gamma: with another one the matrix is refused, before 22 is
/// asked. A record of another gamma is refused by 22.
#[test]
fn a_session_keeps_the_lent_gamma() {
    let mut random = random(1906);
    let plane = unlike::without_rows_of_column_0(&codes::projective(2), 2);
    let n = usize::from(plane.matrix.n);
    let subject = Subject::new(&plane.matrix, &mut random);
    let mut other = plane.matrix.clone();
    other.gamma -= 1;
    let other = Subject::new(&other, &mut random);
    let setting = settings::level_step(5, 9, 0.25);
    let mut lent = Lent::by_chance(&subject, &mut random);
    let mut samples = vec![-1.0; n];
    samples[0] = 3.0;
    let opened = subject.open(&mut lent, &setting, &samples, &mut random);
    assert_eq!(opened.0 % (1 << 32), WORKING);
    assert_eq!(lent.record[7], 3);
    let opened = Opened::of(&subject, &lent);
    let before = lent.clone();
    let step = |subject: &Subject, lent: &mut Lent, random: &mut Random| {
        subject.step(lent, &opened, random)
    };
    assert_eq!(step(&other, &mut lent, &mut random), refused(4, n as u64));
    for gamma in [0, 1, 2, 4, 5, 32, 65535] {
        lent.record[7] = gamma;
        assert_eq!(step(&subject, &mut lent, &mut random), refused(22, 0));
        assert_eq!(step(&other, &mut lent, &mut random), refused(4, n as u64));
    }
    lent = before;
    assert_eq!(step(&subject, &mut lent, &mut random).refusal(), 0);
}

/// A setting of any width and kind, with few rounds.
fn some_setting(random: &mut Random) -> Setting {
    let (bits, kind) = (2 + random.below(11) as u16, random.below(2) as u16);
    let limit = *random.pick(&[0, 1, 2, 5, 30]);
    settings::around_one(bits, limit, kind, random)
}

/// Words and blocks of an accepted matrix, in every call that there is.
fn every_call(code: &Code, random: &mut Random) {
    let n = usize::from(code.matrix.n);
    let indexed = Indexed::new(&code.matrix, random);
    let subject = indexed.subject();
    assert_eq!(subject.check(), Packed(0));
    let (answer, built) = indexed.build(n + 1 + code.matrix.list.len(), random);
    assert_eq!((answer, &built[..]), (Packed(0), indexed.own()));
    let codewords = Codewords::of(&code.matrix);
    for _ in 0..3 {
        let sent = codewords.random(random);
        let flips = random.below(n.min(6));
        let received = pack(&patterns::flipped(&sent, &random.different(flips, n)));
        subject.word(&received, random);
        indexed.word(&received, random);

        let setting = some_setting(random);
        let deviation = *random.pick(&[0.3, 0.5, 0.7, 1.0]);
        let samples = noise::received(&sent, deviation, random);
        subject.stepped(&setting, &samples, random);
        indexed.block(&setting, &samples, random);
    }
}

#[test]
fn matrices_by_chance() {
    let mut random = random(1907);
    for _ in 0..cases(1500) {
        every_call(&unlike::some(&mut random), &mut random);
    }
}

/// The same matrices changed: any of the verdicts 0 to 5, the same in every call.
#[test]
fn changed_matrices_by_chance() {
    let mut random = random(1908);
    let mut seen = [0; 6];
    for _ in 0..cases(4000) {
        let code = unlike::some(&mut random);
        let mut h = code.matrix.clone();
        for _ in 0..1 + random.below(2) {
            damage::change(&mut h, &mut random);
        }
        if h.n > 1100 {
            continue;
        }
        let indexed = Indexed::new(&h, &mut random);
        let answer = indexed.subject().check();
        let room = usize::from(h.n) + 1 + h.list.len();
        let built = indexed.build(room, &mut random).0;
        assert_eq!(built, answer);
        let lent = indexed.lend(&reference::index_of(&code.matrix), &mut random);
        if answer.refusal() != 0 {
            assert_eq!(lent, (answer.refusal(), answer.place()));
            let samples = vec![0.5; h.n.into()];
            let setting = some_setting(&mut random);
            let mut lent = Lent::by_chance(indexed.subject(), &mut random);
            let opened = indexed
                .subject()
                .open(&mut lent, &setting, &samples, &mut random);
            assert_eq!(opened, answer);
        }
        seen[answer.refusal() as usize] += 1;
    }
    assert!(seen.iter().all(|&times| times > 50), "{seen:?}");
}
