//! Refusal 10: every index but the matrix's own, and where 10 stands among the other refusals.

use differential::causes::{matrix_with, subset, PLACES};
use differential::{cases, random, Indexed};
use ffi_face::Packed;
use generator::codes::{self, Code};
use generator::{damage, settings, unlike, Random};
use reference::{index_of, pack, Setting};

fn refused(number: u64, place: u64) -> Packed {
    Packed::new(number * 65536 + place, 0, 0, 0)
}

/// Both calls refuse this index by 10.
fn is_refused(indexed: &Indexed, index: &[u16], what: &str, random: &mut Random) {
    assert!(index != indexed.own(), "{what}: the own index");
    assert_eq!(indexed.lend(index, random), (10, 0), "{what}");
}

/// The own index with a change made.
fn changed(indexed: &Indexed, change: impl FnOnce(&mut Vec<u16>)) -> Vec<u16> {
    let mut index = indexed.own().to_vec();
    change(&mut index);
    index
}

/// Codes of the largest sizes.
fn largest() -> [Code; 6] {
    [
        codes::eg1023(),
        codes::qc961(),
        codes::cycle(1023),
        codes::single_row(3).copies(341),
        unlike::irregular1000(),
        unlike::star(32, 2).copies(31),
    ]
}

/// One number raised or lowered by one, or with one of its bits turned over.
fn every_change_of(indexed: &Indexed, at: usize, random: &mut Random) {
    let own = indexed.own()[at];
    let mut others = vec![own.wrapping_add(1), own.wrapping_sub(1)];
    others.extend((0..16).map(|place| own ^ 1 << place));
    for other in others {
        let index = changed(indexed, |index| index[at] = other);
        is_refused(indexed, &index, &format!("number {at} is {other}"), random);
    }
}

#[test]
fn every_number_of_code_a_code_b_and_code_u() {
    let mut random = random(1800);
    for code in [codes::code_a(), codes::code_b(), unlike::code_u()] {
        let indexed = Indexed::new(&code.matrix, &mut random);
        assert_eq!(indexed.lend(indexed.own(), &mut random), (0, 0));
        for at in 0..indexed.own().len() {
            every_change_of(&indexed, at, &mut random);
        }
    }
}

#[test]
fn every_number_of_small_codes() {
    let mut random = random(1801);
    for code in codes::small() {
        let indexed = Indexed::new(&code.matrix, &mut random);
        for at in 0..indexed.own().len() {
            for change in [1, 65_535] {
                let index = changed(&indexed, |index| index[at] = index[at].wrapping_add(change));
                is_refused(&indexed, &index, &code.name, &mut random);
            }
        }
    }
}

/// Both ends of each part, and some numbers by chance.
#[test]
fn numbers_of_large_codes() {
    let mut random = random(1802);
    for code in largest() {
        let indexed = Indexed::new(&code.matrix, &mut random);
        let (n, count) = (indexed.n(), indexed.own().len());
        let mut places = vec![0, 1, n - 1, n, n + 1, n + 2, count - 2, count - 1];
        places.extend((0..cases(8)).map(|_| random.below(count)));
        for at in places {
            every_change_of(&indexed, at, &mut random);
        }
    }
}

/// The cells of the rows of each column, in the index.
fn cells_of_columns(indexed: &Indexed) -> Vec<std::ops::Range<usize>> {
    let rows = indexed.n() + 1;
    let starts = indexed.own()[..rows].windows(2);
    starts
        .map(|pair| rows + usize::from(pair[0])..rows + usize::from(pair[1]))
        .collect()
}

/// Every two rows of one column exchanged, and each column's rows descending.
#[test]
fn rows_in_another_order() {
    let mut random = random(1803);
    for code in codes::small() {
        let indexed = Indexed::new(&code.matrix, &mut random);
        for cells in cells_of_columns(&indexed) {
            for a in cells.clone() {
                for b in a + 1..cells.end {
                    let index = changed(&indexed, |index| index.swap(a, b));
                    is_refused(&indexed, &index, &code.name, &mut random);
                }
            }
        }
    }
    for code in [codes::tanner155(), codes::eg1023(), codes::cycle(1023)] {
        let indexed = Indexed::new(&code.matrix, &mut random);
        let columns = cells_of_columns(&indexed);
        for cells in [&columns[0], &columns[1], &columns[indexed.n() - 1]] {
            let index = changed(&indexed, |index| index[cells.clone()].reverse());
            is_refused(&indexed, &index, &code.name, &mut random);
        }
        let index = changed(&indexed, |index| {
            for cells in &columns {
                index[cells.clone()].reverse();
            }
        });
        is_refused(&indexed, &index, &code.name, &mut random);
    }
}

/// Rows of two columns exchanged: each of the numbers stands somewhere.
#[test]
fn rows_in_another_column() {
    let mut random = random(1804);
    for code in [codes::small(), codes::medium()].concat() {
        let indexed = Indexed::new(&code.matrix, &mut random);
        let (rows, own) = (indexed.n() + 1, indexed.own());
        for _ in 0..cases(20) {
            let a = rows + random.below(own.len() - rows);
            let b = rows + random.below(own.len() - rows);
            if own[a] != own[b] {
                let index = changed(&indexed, |index| index.swap(a, b));
                is_refused(&indexed, &index, &code.name, &mut random);
            }
        }
    }
}

/// Indices that could be read in another way than document 02's, of the right length.
fn other_readings(indexed: &Indexed) -> Vec<(&'static str, Vec<u16>)> {
    let rows = indexed.n() + 1;
    let starts_moved = |by: u16| {
        changed(indexed, |index| {
            index[..rows]
                .iter_mut()
                .for_each(|x| *x = x.wrapping_add(by));
        })
    };
    let from_one = changed(indexed, |index| {
        index[rows..].iter_mut().for_each(|i| *i += 1);
    });
    let with_rows = |by: u16, turn: fn(&mut [u16])| {
        let mut index = starts_moved(by);
        turn(&mut index[rows..]);
        index
    };
    let forwards = with_rows(1, |rows| rows.rotate_right(1));
    let backwards = with_rows(65_535, |rows| rows.rotate_left(1));
    let rows_first = changed(indexed, |index| index.rotate_left(rows));
    let bytes = changed(indexed, |index| {
        index.iter_mut().for_each(|x| *x = x.swap_bytes());
    });
    vec![
        ("places in the whole list", starts_moved(rows as u16)),
        ("rows counted from 1", from_one),
        ("starts and rows one place on", forwards),
        ("starts and rows one place back", backwards),
        ("rows before starts", rows_first),
        ("high byte first", bytes),
    ]
}

/// The border between each two columns moved: a row of one then belongs to the other.
fn borders_moved(indexed: &Indexed) -> Vec<Vec<u16>> {
    let inside = 1..indexed.n();
    inside
        .flat_map(|j| [1, 65_535].map(|by| (j, by)))
        .map(|(j, by)| changed(indexed, |index| index[j] = index[j].wrapping_add(by)))
        .collect()
}

#[test]
fn starts_moved() {
    let mut random = random(1805);
    let mut all = codes::small();
    all.extend([codes::tanner155(), codes::projective(4)]);
    all.extend(largest());
    for code in all {
        let indexed = Indexed::new(&code.matrix, &mut random);
        for (what, index) in other_readings(&indexed) {
            is_refused(&indexed, &index, what, &mut random);
        }
        if indexed.n() < 40 {
            for index in borders_moved(&indexed) {
                is_refused(&indexed, &index, "a border moved", &mut random);
            }
        }
    }
}

/// The columns' rows in another order of the columns, each start where its rows stand.
#[test]
fn columns_in_another_order() {
    let mut random = random(1806);
    for code in [
        codes::code_a(),
        codes::code_b(),
        unlike::code_u(),
        codes::tanner155(),
        codes::eg1023(),
        unlike::irregular1000(),
    ] {
        let indexed = Indexed::new(&code.matrix, &mut random);
        let columns = cells_of_columns(&indexed);
        for _ in 0..cases(4) {
            let order = random.different(indexed.n(), indexed.n());
            let mut index = indexed.own()[..=indexed.n()].to_vec();
            for &j in &order {
                index[j] = (index.len() - indexed.n() - 1) as u16;
                index.extend(&indexed.own()[columns[j].clone()]);
            }
            is_refused(&indexed, &index, &code.name, &mut random);
        }
    }
}

#[test]
fn other_lengths() {
    let mut random = random(1807);
    let mut all = [codes::small(), codes::medium()].concat();
    all.extend(largest());
    for code in all {
        let indexed = Indexed::new(&code.matrix, &mut random);
        let (own, rows) = (indexed.own(), indexed.n() + 1);
        let last = own[own.len() - 1];
        let mut others = vec![vec![], own[..1].to_vec(), own[1..].to_vec()];
        others.extend([own[..rows].to_vec(), own[rows..].to_vec()]);
        others.extend([own[..own.len() - 1].to_vec(), [own, own].concat()]);
        others.extend([0, last, last + 1, 65_535].map(|more| [own, &[more]].concat()));
        for index in others {
            is_refused(&indexed, &index, &code.name, &mut random);
        }
    }
    // Longer by 65,536: the length as a 16-bit number would be right.
    for code in [codes::code_a(), codes::eg1023()] {
        let indexed = Indexed::new(&code.matrix, &mut random);
        let index = changed(&indexed, |index| index.resize(index.len() + 65_536, 0));
        is_refused(&indexed, &index, &code.name, &mut random);
    }
}

/// The index of another accepted matrix: of the same sizes, and of others.
#[test]
fn indices_of_other_matrices() {
    let mut random = random(1808);
    let all = [codes::small(), codes::medium(), largest().to_vec()].concat();
    for code in &all {
        let indexed = Indexed::new(&code.matrix, &mut random);
        let mut others = vec![code.shuffled(&mut random), random.pick(&all).clone()];
        if code.is_regular() {
            others.push(code.transposed());
        }
        for other in others {
            let index = index_of(&other.matrix);
            if index != indexed.own() {
                is_refused(&indexed, &index, &other.name, &mut random);
            }
        }
    }
}

/// Two rows of the matrix exchanged: an accepted matrix with the same codewords, but not its index.
#[test]
fn the_index_from_before_a_change() {
    let mut random = random(1809);
    for code in [codes::small(), codes::medium()].concat() {
        let m = usize::from(code.matrix.m);
        let rho = usize::from(code.matrix.rho);
        if m < 2 {
            continue;
        }
        let mut h = code.matrix.clone();
        let pair = random.different(2, m);
        for k in 0..rho {
            h.list.swap(pair[0] * rho + k, pair[1] * rho + k);
        }
        let indexed = Indexed::new(&h, &mut random);
        let index = index_of(&code.matrix);
        is_refused(&indexed, &index, &code.name, &mut random);
    }
}

/// An index that is not that of `matrix_with([false; 5])`, whose index is 61 numbers.
fn wrong_index(random: &mut Random) -> Vec<u16> {
    let mut index = index_of(&matrix_with([false; 5]));
    match random.below(5) {
        0 => index.clear(),
        1 => index.truncate(60),
        2 => index.push(0),
        3 => index[random.below(61)] ^= 1,
        _ => index.fill(65_535),
    }
    index
}

/// What is asked first of those present, in the order of the call, with its place.
fn first_of(present: &[bool], asked: &[(u64, u64)]) -> Option<Packed> {
    let at = present.iter().position(|&cause| cause)?;
    let (number, place) = asked[at];
    Some(refused(number, place))
}

/// The matrix's refusals with their places, and 10.
fn asked_first() -> Vec<(u64, u64)> {
    let matrix = PLACES
        .iter()
        .zip(1..)
        .map(|(&place, number)| (number, place));
    matrix.chain([(10, 0)]).collect()
}

/// All 256 sets of the causes of 1 to 5, 10, 7 and 9, in this order.
#[test]
fn every_set_of_causes_of_one_step() {
    let mut random = random(1810);
    for number in 0..256 {
        let present: [bool; 8] = subset(number);
        let [sizes, length, entry, weight, overlap, index, buffer, spare] = present;
        let matrix = matrix_with([sizes, length, entry, weight, overlap]);
        let indexed = Indexed::new(&matrix, &mut random);
        for _ in 0..cases(8) {
            let lent = match index {
                true => wrong_index(&mut random),
                false => index_of(&matrix_with([false; 5])),
            };
            let mut received = pack(&random.bits(20));
            let mut room = 3 + random.below(3);
            if spare {
                received[2] |= 1 << random.below(4);
            }
            if buffer {
                match random.below(3) {
                    0 => room = random.below(3),
                    1 => received.truncate(2),
                    _ => received.push(0),
                }
            }
            let (answer, _) = indexed.one_step(&lent, &received, room, &mut random);
            let asked = [asked_first(), vec![(7, 0), (9, 0)]].concat();
            match first_of(&present, &asked) {
                Some(refusal) => assert_eq!(answer, refusal, "{present:?}"),
                None => assert_eq!(answer.refusal(), 0),
            }
        }
    }
}

/// A setting that is refused.
fn bad_setting(random: &mut Random) -> Setting {
    let good = settings::some(random);
    *random.pick(&settings::refused(&good))
}

/// A block of twenty samples and the rooms for word and levels, with the causes of 7 and 8: a wrong
/// length, and a sample that is not finite at place 5.
fn block(buffer: bool, sample: bool, random: &mut Random) -> (Vec<f32>, (usize, usize)) {
    let mut samples: Vec<f32> = (0..20).map(|_| random.gaussian() as f32).collect();
    let (mut for_word, mut for_levels) = (3 + random.below(3), 20 + random.below(3));
    if sample {
        samples[5] = *random.pick(&[f32::INFINITY, f32::NEG_INFINITY, f32::NAN]);
    }
    if buffer {
        match random.below(4) {
            0 => for_word = random.below(3),
            1 => for_levels = random.below(20),
            2 => samples.truncate(19),
            _ => samples.push(0.0),
        }
    }
    (samples, (for_word, for_levels))
}

/// All 512 sets of the causes of 1 to 5, 10, 6, 7 and 8, in this order.
#[test]
fn every_set_of_causes_of_iterative() {
    let mut random = random(1811);
    for number in 0..512 {
        let present: [bool; 9] = subset(number);
        let [sizes, length, entry, weight, overlap, index, setting, buffer, sample] = present;
        let matrix = matrix_with([sizes, length, entry, weight, overlap]);
        let indexed = Indexed::new(&matrix, &mut random);
        for _ in 0..cases(8) {
            let lent = match index {
                true => wrong_index(&mut random),
                false => index_of(&matrix_with([false; 5])),
            };
            let setting = match setting {
                true => bad_setting(&mut random),
                false => settings::some(&mut random),
            };
            let (samples, rooms) = block(buffer, sample, &mut random);
            let left = indexed.iterative(&lent, &setting, &samples, rooms, &mut random);
            let asked = [asked_first(), vec![(6, 0), (7, 0), (8, 5)]].concat();
            match first_of(&present, &asked) {
                Some(refusal) => assert_eq!(left.answer, refusal, "{present:?}"),
                None => assert_eq!(left.answer.refusal(), 0),
            }
        }
    }
}

/// The index of the code, changed once in three times.
fn some_index(code: &Code, random: &mut Random) -> Vec<u16> {
    let mut index = index_of(&code.matrix);
    if random.once_in(3) {
        let at = random.below(index.len());
        match random.below(4) {
            0 => index.truncate(at),
            1 => index.push(at as u16),
            2 => index[at] = random.number() as u16,
            _ => index[at] = random.below(usize::from(code.matrix.n)) as u16,
        }
    }
    index
}

/// One-step voting on bytes by chance, about as many as needed.
fn some_word(indexed: &Indexed, index: &[u16], random: &mut Random) -> Packed {
    let bits = indexed.n().min(1100) + random.below(12);
    let received = random.bytes(bits.div_ceil(8));
    let room = (received.len() + random.below(3)).saturating_sub(random.below(3));
    indexed.one_step(index, &received, room, random).0
}

/// Iterative voting on samples by chance, at times one too many or one not finite.
fn some_block(indexed: &Indexed, index: &[u16], random: &mut Random) -> Packed {
    let setting = match random.once_in(5) {
        true => bad_setting(random),
        false => settings::some(random),
    };
    let count = indexed.n().min(1100) + usize::from(random.once_in(8));
    let sample = |random: &mut Random| setting.step * 3.0 * random.gaussian() as f32;
    let mut samples: Vec<f32> = (0..count).map(|_| sample(random)).collect();
    if random.once_in(4) && count > 0 {
        samples[random.below(count)] = f32::NAN;
    }
    let rooms = indexed.rooms(random);
    let left = indexed.iterative(index, &setting, &samples, rooms, random);
    left.answer
}

/// Everything by chance: matrix, index, and what else is lent.
#[test]
fn calls_by_chance() {
    let mut random = random(1812);
    let codes = codes::small();
    let mut seen = [0; 11];
    for _ in 0..cases(4000) {
        let code = random.pick(&codes).clone();
        let index = some_index(&code, &mut random);
        let mut h = code.matrix;
        if random.once_in(3) {
            damage::change(&mut h, &mut random);
        }
        let indexed = Indexed::new(&h, &mut random);
        for answer in [
            some_word(&indexed, &index, &mut random),
            some_block(&indexed, &index, &mut random),
        ] {
            seen[answer.refusal() as usize] += 1;
        }
    }
    assert!(seen.iter().all(|&times| times > 50), "{seen:?}");
}
