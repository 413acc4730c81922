//! Card 7: stored levels of eight bits brought over to sixteen, and taken back; refusals 7 and 13.

use differential::causes::subset;
use differential::{cases, level_by_chance, narrow, random, widen};
use ffi_face::Packed;
use generator::Random;

const DONE: Packed = Packed(0);

fn refused(number: u64, place: usize) -> Packed {
    Packed::new(number * 65536 + place as u64, 0, 0, 0)
}

/// The most levels that are taken back in one call.
const MOST: usize = 65_536;

/// Levels that do not fit: the first ones, those whose low byte would fit, the ends of sixteen bits.
const TOO_FAR: [i16; 18] = [
    128, -128, 129, -129, 255, -255, 256, -256, 257, -257, 383, 2047, -2047, 2048, 32_640, 32_767,
    -32_767, -32_768,
];

/// A level that fits.
fn some_level(random: &mut Random) -> i16 {
    match random.below(4) {
        0 => *random.pick(&[127, -127, 126, -126, 0, 1, -1]),
        _ => random.below(255) as i16 - 127,
    }
}

fn some_levels(count: usize, random: &mut Random) -> Vec<i16> {
    (0..count).map(|_| some_level(random)).collect()
}

/// All 256 in ascending and descending order and each alone: the same number, and back but for −128.
#[test]
fn all_old_numbers_over_and_back() {
    let mut random = random(2800);
    let ascending: Vec<i8> = (-128..=127).collect();
    let mut descending = ascending.clone();
    descending.reverse();
    for (old, first_too_far) in [(&ascending, 0), (&descending, 255)] {
        let (answer, levels) = widen(old, 256, &mut random);
        assert_eq!(answer, DONE);
        let numbers: Vec<i16> = old.iter().map(|&number| number.into()).collect();
        assert_eq!(levels, numbers);
        let (answer, _) = narrow(&levels, 256, &mut random);
        assert_eq!(answer, refused(13, first_too_far));
    }
    let (answer, levels) = widen(&ascending[1..], 255, &mut random);
    assert_eq!((answer, levels[0], levels[254]), (DONE, -127, 127));
    assert_eq!(
        narrow(&levels, 255, &mut random),
        (DONE, ascending[1..].to_vec())
    );
    for number in -128..=127 {
        let (answer, levels) = widen(&[number], 1, &mut random);
        assert_eq!((answer, &levels[..]), (DONE, &[i16::from(number)][..]));
        let (answer, old) = narrow(&levels, 1, &mut random);
        match number {
            -128 => assert_eq!(answer, refused(13, 0)),
            _ => assert_eq!((answer, &old[..]), (DONE, &[number][..])),
        }
    }
}

/// Runs by chance over and back; and levels that fit back and over.
#[test]
fn runs_by_chance() {
    let mut random = random(2801);
    for _ in 0..cases(400) {
        let count = match random.below(4) {
            0 => random.below(9),
            1 => 1023,
            _ => random.below(1200),
        };
        let more = random.below(4);
        let old: Vec<i8> = (0..count).map(|_| random.byte() as i8).collect();
        let (answer, levels) = widen(&old, count + more, &mut random);
        assert_eq!(answer, DONE);
        let (answer, back) = narrow(&levels[..count], count + more, &mut random);
        match old.iter().position(|&number| number == -128) {
            Some(place) => assert_eq!(answer, refused(13, place)),
            None => assert_eq!((answer, &back[..count]), (DONE, &old[..])),
        }

        let levels = some_levels(count, &mut random);
        let (answer, old) = narrow(&levels, count + more, &mut random);
        assert_eq!(answer, DONE);
        let (answer, over) = widen(&old[..count], count + more, &mut random);
        assert_eq!((answer, &over[..count]), (DONE, &levels[..]));
    }
}

/// Every number of sixteen bits alone; and all of them in one list, turned so that another comes first.
#[test]
fn every_number_of_sixteen_bits() {
    let mut random = random(2802);
    for level in i16::MIN..=i16::MAX {
        let mut old = [-99];
        let answer = ffi_face::narrow(&[level], &mut old);
        match i8::try_from(level) {
            Ok(number) if number != -128 => assert_eq!((answer, old), (DONE, [number])),
            _ => assert_eq!((answer, old), (refused(13, 0), [-99]), "{level}"),
        }
    }
    let mut all: Vec<i16> = (i16::MIN..=i16::MAX).collect();
    assert_eq!(all.len(), MOST);
    for (first, place) in [(-32_768, 0), (-128, 0), (-127, 255), (0, 128), (127, 1)] {
        let at = all.iter().position(|&level| level == first);
        all.rotate_left(at.expect("one of all"));
        let (answer, _) = narrow(&all, MOST + 1, &mut random);
        assert_eq!(answer, refused(13, place), "from {first}");
    }
}

/// One level too far at the first place, the last, in the middle, and several: the first is given.
#[test]
fn the_first_level_that_does_not_fit() {
    let mut random = random(2803);
    for count in [1, 2, 3, 7, 8, 9, 16, 255, 256, 257, 1023] {
        let good = some_levels(count, &mut random);
        let mut places = vec![0, count / 2, count - 1];
        places.extend([255, 256].iter().filter(|&&place| place < count));
        for place in places {
            for level in TOO_FAR {
                let mut levels = good.clone();
                levels[place] = level;
                let (answer, _) = narrow(&levels, count + random.below(3), &mut random);
                assert_eq!(answer, refused(13, place), "{level}");
                // Others after it are not the first, however far.
                for later in levels.iter_mut().skip(place + 1) {
                    if random.once_in(3) {
                        *later = *random.pick(&TOO_FAR);
                    }
                }
                let (answer, _) = narrow(&levels, count + random.below(3), &mut random);
                assert_eq!(answer, refused(13, place), "{level}");
            }
        }
        levels_of_one_number(count, &mut random);
    }
}

/// All levels alike: too far, or at the ends of what fits.
fn levels_of_one_number(count: usize, random: &mut Random) {
    for level in TOO_FAR {
        let (answer, _) = narrow(&vec![level; count], count, random);
        assert_eq!(answer, refused(13, 0), "{level}");
    }
    for level in [127, -127, 0] {
        let taken = narrow(&vec![level; count], count, random);
        assert_eq!(taken, (DONE, vec![level as i8; count]));
    }
}

/// Rooms of every length near the needed one, from no level on: fewer cells than levels is 7.
#[test]
fn lengths() {
    let mut random = random(2804);
    for count in [0, 1, 2, 3, 7, 8, 9, 255, 256, 257, 1022, 1023, 1024, 5000] {
        let levels = some_levels(count, &mut random);
        let old: Vec<i8> = (0..count).map(|_| random.byte() as i8).collect();
        let mut rooms = vec![0, count / 2, count, count + 1, count + 2, 2 * count];
        rooms.extend(count.checked_sub(1));
        for room in rooms {
            let expected = match room >= count {
                true => DONE,
                false => refused(7, 0),
            };
            assert_eq!(widen(&old, room, &mut random).0, expected);
            assert_eq!(narrow(&levels, room, &mut random).0, expected);
            // With a level too far as well: 7 is asked first.
            if count > 0 {
                let place = random.below(count);
                let mut levels = levels.clone();
                levels[place] = *random.pick(&TOO_FAR);
                let expected = match room >= count {
                    true => refused(13, place),
                    false => refused(7, 0),
                };
                assert_eq!(narrow(&levels, room, &mut random).0, expected);
            }
        }
    }
}

/// Nothing lent, which stands nowhere in particular.
#[test]
fn no_levels() {
    assert_eq!(ffi_face::widen(&[], &mut []), DONE);
    assert_eq!(ffi_face::narrow(&[], &mut []), DONE);
    let (mut levels, mut old) = ([77; 3], [77; 3]);
    assert_eq!(ffi_face::widen(&[], &mut levels), DONE);
    assert_eq!(ffi_face::narrow(&[], &mut old), DONE);
    assert_eq!((levels, old), ([77; 3], [77; 3]));
    assert_eq!(ffi_face::widen(&[5], &mut []), refused(7, 0));
    assert_eq!(ffi_face::narrow(&[5], &mut []), refused(7, 0));
    assert_eq!(ffi_face::narrow(&[500], &mut []), refused(7, 0));
}

/// 65,536 levels are taken back, the last place can be given, and one level more is 7: with and without
/// a level too far, with and without room.
#[test]
fn the_most_levels() {
    let mut random = random(2805);
    let good = some_levels(MOST + 1, &mut random);
    let (answer, _) = narrow(&good[..MOST], MOST, &mut random);
    assert_eq!(answer, DONE);
    for place in [0, 1, 255, 256, 32_767, 32_768, MOST - 2, MOST - 1] {
        let mut levels = good[..MOST].to_vec();
        levels[place] = *random.pick(&TOO_FAR);
        let (answer, _) = narrow(&levels, MOST, &mut random);
        assert_eq!(answer, refused(13, place));
        levels[MOST - 1] = 128;
        let (answer, _) = narrow(&levels, MOST + 5, &mut random);
        assert_eq!(answer, refused(13, place));
        let (answer, _) = narrow(&levels, MOST - 1, &mut random);
        assert_eq!(answer, refused(7, 0));
    }
    for room in [0, MOST - 1, MOST, MOST + 1, MOST + 2] {
        let (answer, _) = narrow(&good, room, &mut random);
        assert_eq!(answer, refused(7, 0), "{room}");
        for place in [0, 1, MOST - 1, MOST] {
            let mut levels = good.clone();
            levels[place] = *random.pick(&TOO_FAR);
            let (answer, _) = narrow(&levels, room, &mut random);
            assert_eq!(answer, refused(7, 0), "{room}, {place}");
        }
    }
    // So many more that 16 bits have a small count for them.
    for count in [MOST + 7, 2 * MOST, 2 * MOST + 3] {
        let (answer, _) = narrow(&vec![1; count], count, &mut random);
        assert_eq!(answer, refused(7, 0), "{count}");
    }
}

/// No place is named where levels are brought over: any number of them.
#[test]
fn any_number_is_brought_over() {
    let mut random = random(2806);
    for count in [MOST - 1, MOST, MOST + 1, 100_000, 2 * MOST + 3] {
        let old: Vec<i8> = (0..count).map(|_| random.byte() as i8).collect();
        let (answer, _) = widen(&old, count, &mut random);
        assert_eq!(answer, DONE);
        let (answer, _) = widen(&old, count - 1, &mut random);
        assert_eq!(answer, refused(7, 0));
        // A room that is enough for the count of 16 bits alone.
        let (answer, _) = widen(&old, count % MOST, &mut random);
        let fits = count % MOST == count;
        assert_eq!(answer == DONE, fits, "{count}");
    }
}

/// All sets of causes: too many levels, too few cells, a level too far.
#[test]
fn every_set_of_causes() {
    let mut random = random(2807);
    for number in 0..8 {
        let [many, short, far] = subset(number);
        for _ in 0..cases(12) {
            let count = match many {
                true => MOST + 1 + random.below(3),
                false => 1 + random.below(40),
            };
            let mut levels = some_levels(count, &mut random);
            let place = random.below(count);
            if far {
                levels[place] = *random.pick(&TOO_FAR);
            }
            let room = match short {
                true => random.below(count),
                false => count + random.below(3),
            };
            let (answer, _) = narrow(&levels, room, &mut random);
            let expected = match (many || short, far) {
                (true, _) => refused(7, 0),
                (false, true) => refused(13, place),
                (false, false) => DONE,
            };
            assert_eq!(answer, expected, "{many} {short} {far}");
        }
    }
}

/// Everything by chance.
#[test]
fn calls_by_chance() {
    let mut random = random(2808);
    let mut seen = [0; 14];
    for _ in 0..cases(6000) {
        let count = random.below(30);
        let room = (count + random.below(6)).saturating_sub(random.below(3));
        let often_far = random.once_in(3);
        let level = |_| match often_far || random.once_in(40) {
            true => level_by_chance(&mut random),
            false => some_level(&mut random),
        };
        let levels: Vec<i16> = (0..count).map(level).collect();
        let (answer, _) = narrow(&levels, room, &mut random);
        seen[answer.refusal() as usize] += 1;
        let old: Vec<i8> = (0..count).map(|_| random.byte() as i8).collect();
        widen(&old, room, &mut random);
    }
    assert!([0, 7, 13].iter().all(|&at| seen[at] > 500), "{seen:?}");
}
