//! The firmware's face with more than one cause to refuse: the lowest number is given, and nothing
//! is written.

use differential::causes::{matrix_with, subset, PLACES};
use differential::firmware::{list_bytes, refused, sizes_of, Block, Firmware};
use differential::{cases, random};
use generator::{codes, damage, Random};

/// A call of twenty columns: its matrix, in bytes, and its block.
#[derive(Clone)]
struct Case {
    sizes: [u16; 4],
    list: Vec<u8>,
    block: Block,
}

impl Case {
    /// One with these of the refusals 3, 4 and 5 in its list.
    fn with_list([entry, weight, overlap]: [bool; 3], random: &mut Random) -> Case {
        let h = matrix_with([false, false, entry, weight, overlap]);
        Case {
            sizes: sizes_of(&h),
            list: list_bytes(&h.list),
            block: Block::by_chance(20, random),
        }
    }

    fn returned(&self, random: &mut Random) -> u32 {
        let firmware = Firmware::of_bytes(self.sizes, &self.list, random);
        firmware.decode(&self.block, random).returned
    }
}

/// A change of a case that is one cause of a refusal.
type Cause = fn(&mut Case);

/// Where the causes of 8 stand.
const SAMPLE: usize = 17;

/// The causes of 1.
const SIZES: [Cause; 6] = [
    |case| case.sizes[0] = 1,
    |case| case.sizes[0] = 1024,
    |case| case.sizes[1] = 0,
    |case| case.sizes[2] = 33,
    |case| case.sizes[3] = 0,
    |case| case.sizes[3] += 1,
];

/// The causes of 2: the right length is 80 bytes.
const LIST: [Cause; 7] = [
    |case| case.list.truncate(79),
    |case| case.list.truncate(78),
    |case| case.list.truncate(40),
    |case| case.list.clear(),
    |case| case.list.push(0),
    |case| case.list.extend([0, 0]),
    |case| case.list.extend([255; 80]),
];

/// The causes of 6.
const SETTING: [Cause; 11] = [
    |case| case.block.bits = 1,
    |case| case.block.bits = 13,
    |case| case.block.limit = 256,
    |case| case.block.kind = 2,
    |case| case.block.kind = 65_535,
    |case| case.block.step = 0,
    |case| case.block.step = 0x357F_FFFF,
    |case| case.block.step = 0x4980_0001,
    |case| case.block.step = 0x7F80_0000,
    |case| case.block.step = 0x7F80_0001,
    |case| case.block.step = 0xFFFF_FFFF,
];

/// The causes of 7. The samples that stay are those before the last.
const BUFFERS: [Cause; 12] = [
    |case| case.block.samples.truncate(79),
    |case| case.block.samples.truncate(76),
    |case| case.block.samples.push(0),
    |case| case.block.samples.extend([0; 4]),
    |case| case.block.for_word = 2,
    |case| case.block.for_word = 0,
    |case| case.block.for_levels = 39,
    |case| case.block.for_levels = 20,
    |case| case.block.for_levels = 0,
    |case| case.block.for_report = 7,
    |case| case.block.for_report = 6,
    |case| case.block.for_report = 0,
];

/// The causes of 8.
const SAMPLES: [Cause; 4] = [
    |case| case.block = case.block.with_sample(SAMPLE, 0x7F80_0000),
    |case| case.block = case.block.with_sample(SAMPLE, 0xFF80_0000),
    |case| case.block = case.block.with_sample(SAMPLE, 0x7FC0_0000),
    |case| case.block = case.block.with_sample(SAMPLE, 0xFF80_0001),
];

/// The causes of each refusal that are changes; 3, 4 and 5 are in the list from the start. That of
/// 8 comes first, as it needs the samples whole.
const CHANGES: [(u32, &[Cause]); 5] = [
    (8, &SAMPLES),
    (7, &BUFFERS),
    (6, &SETTING),
    (2, &LIST),
    (1, &SIZES),
];

/// What a refusal of this number returns here.
fn expected(number: u32) -> u32 {
    match number {
        8 => refused(8, SAMPLE),
        6 | 7 => refused(number, 0),
        _ => refused(number, PLACES[number as usize - 1] as usize),
    }
}

/// Each cause alone, and any two of different numbers: the lower one is given. Of 3, 4 and 5 each
/// set is in the list in turn.
#[test]
fn any_two_causes() {
    let mut random = random(2110);
    for number in 0..8 {
        let in_list: [bool; 3] = subset(number);
        let right = Case::with_list(in_list, &mut random);
        let lowest = (3..=5).find(|&k| in_list[k as usize - 3]).unwrap_or(9);
        if number == 0 {
            assert!(right.returned(&mut random) <= 1);
        } else {
            assert_eq!(right.returned(&mut random), expected(lowest));
        }
        for (at, (higher, causes)) in CHANGES.iter().enumerate() {
            for first in *causes {
                let mut one = right.clone();
                first(&mut one);
                let number = lowest.min(*higher);
                assert_eq!(one.returned(&mut random), expected(number), "{higher}");
                for (lower, causes) in &CHANGES[at + 1..] {
                    for second in *causes {
                        let mut two = one.clone();
                        second(&mut two);
                        let number = lowest.min(*lower);
                        let returned = two.returned(&mut random);
                        assert_eq!(returned, expected(number), "{higher} and {lower}");
                    }
                }
            }
        }
    }
}

/// All 256 sets of causes, each cause one by chance of its number.
#[test]
fn every_set_of_causes() {
    let mut random = random(2111);
    for set in 0..256 {
        let [sizes, length, entry, weight, overlap, setting, buffer, sample] = subset(set);
        let present = [
            sizes, length, entry, weight, overlap, setting, buffer, sample,
        ];
        for _ in 0..cases(10) {
            let mut case = Case::with_list([entry, weight, overlap], &mut random);
            case.block = case.block.longer(&mut random);
            for (number, causes) in CHANGES {
                if present[number as usize - 1] {
                    random.pick(causes)(&mut case);
                }
            }
            let returned = case.returned(&mut random);
            match present.iter().position(|&cause| cause) {
                None => assert!(returned <= 1),
                Some(at) => assert_eq!(returned, expected(at as u32 + 1), "{present:?}"),
            }
        }
    }
}

/// A byte of the list or of the samples changed by chance, or some of them cut off or added.
fn changed_bytes(bytes: &mut Vec<u8>, random: &mut Random) {
    match random.below(4) {
        0 => bytes.truncate(bytes.len().saturating_sub(1 + random.below(4))),
        1 => bytes.extend(vec![random.byte(); 1 + random.below(4)]),
        _ if bytes.is_empty() => {}
        _ => {
            let at = random.below(bytes.len());
            bytes[at] = random.byte();
        }
    }
}

/// A setting, rooms or samples changed by chance.
fn changed_block(block: &mut Block, random: &mut Random) {
    let fewer = 1 + random.below(2);
    match random.below(9) {
        0 => block.bits = random.byte().into(),
        1 => block.limit = 128 + u16::from(random.byte()),
        2 => block.kind = random.below(4) as u16,
        3 => block.step = random.number() as u32,
        4 => block.for_word = block.for_word.saturating_sub(fewer),
        5 => block.for_levels = block.for_levels.saturating_sub(fewer),
        6 => block.for_report = block.for_report.saturating_sub(fewer),
        7 => changed_bytes(&mut block.samples, random),
        _ if block.samples.len() < 4 => {}
        _ => {
            let place = random.below(block.samples.len() / 4);
            let sign = (random.below(2) as u32) << 31;
            *block = block.with_sample(place, sign + 0x7F80_0000 + random.below(3) as u32);
        }
    }
}

/// Everything by chance: sizes, list, setting, samples and rooms.
#[test]
fn calls_by_chance() {
    let mut random = random(2112);
    let codes = codes::small();
    let mut seen = [0; 9];
    for _ in 0..cases(12_000) {
        let mut h = random.pick(&codes).matrix.clone();
        let n = usize::from(h.n);
        if random.once_in(4) {
            damage::change(&mut h, &mut random);
        }
        let mut list = list_bytes(&h.list);
        if random.once_in(6) {
            changed_bytes(&mut list, &mut random);
        }
        let mut block = Block::by_chance(n, &mut random).longer(&mut random);
        for _ in 0..random.below(3) {
            changed_block(&mut block, &mut random);
        }
        let firmware = Firmware::of_bytes(sizes_of(&h), &list, &mut random);
        let left = firmware.decode(&block, &mut random);
        seen[left.refusal() as usize] += 1;
    }
    assert!(seen.iter().all(|&times| times > 100), "{seen:?}");
}
