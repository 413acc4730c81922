//! Circulant sheets into lists and back: known codes, grids by chance, buffers of any length.

use differential::{cases, random, LentSheet, Sheeted, Subject};
use ffi_face::{LentMatrix, Packed};
use generator::codes::{self, Code};
use generator::sheets::{self, Grid};
use generator::{unlike, Random};
use std::path::Path;

const READ: Packed = Packed(0);
const TOO_SHORT: Packed = Packed(7 << 16);

/// Reads a sheet into buffers of exactly the needed cells, one more and one fewer.
fn each_room(sheet: &LentSheet, random: &mut Random) {
    let needed = sheet.needed();
    for sizes in [3, 4, 5] {
        for list in [needed - 1, needed, needed + 1] {
            let (answer, _) = sheet.to_list([sizes, list], random);
            let fits = sizes >= 4 && list >= needed;
            assert_eq!(answer, if fits { READ } else { TOO_SHORT });
        }
    }
    sheet.to_list([4 + random.below(40), needed + random.below(40)], random);
    sheet.to_list([0, 0], random);
}

/// Stores a matrix in exactly the sheet's bytes, one more and one fewer.
fn each_store(sheeted: &Sheeted, random: &mut Random) {
    let needed = sheeted.own().expect("a grid").len();
    let stored = Packed((needed as u64) << 32);
    assert_eq!(sheeted.store(needed, random).0, stored);
    assert_eq!(sheeted.store(needed + 1, random).0, stored);
    assert_eq!(sheeted.store(needed + random.below(99), random).0, stored);
    for room in [needed - 1, random.below(needed), 6, 5, 0] {
        assert_eq!(sheeted.store(room, random).0, TOO_SHORT);
    }
}

/// The library's list of the library's sheet is the list, and its sheet of that is the sheet, byte
/// for byte.
fn there_and_back(code: &Code, z: u16, random: &mut Random) {
    let h = &code.matrix;
    let mut bytes = random.bytes(200_000);
    let stored = ffi_face::list_to_sheet(h.into(), z, &mut bytes);
    assert_eq!(stored.refusal(), 0, "{}", code.name);
    bytes.truncate(stored.bytes());
    let (mut sizes, mut list) = ([0; 4], vec![0; h.list.len()]);
    let answer = ffi_face::sheet_to_list(&bytes, &mut sizes, &mut list);
    assert_eq!(answer, READ, "{}", code.name);
    assert_eq!(sizes, [h.n, h.m, h.rho, h.gamma], "{}", code.name);
    assert!(list == h.list, "{}", code.name);
    let [n, m, rho, gamma] = sizes;
    let list = &list;
    let back = LentMatrix {
        n,
        m,
        rho,
        gamma,
        list,
    };
    let mut again = vec![0; bytes.len()];
    assert_eq!(ffi_face::list_to_sheet(back, z, &mut again), stored);
    assert!(again == bytes, "{}", code.name);
}

/// A code with its block size, both ways, in buffers of each length.
fn both_ways(code: &Code, z: u16, random: &mut Random) {
    let subject = Subject::new(&code.matrix, random);
    let sheeted = Sheeted::new(&subject, z);
    each_store(&sheeted, random);
    let sheet = LentSheet::new(sheeted.own().expect("a grid").to_vec());
    assert_eq!(sheet.matrix(), Some(&code.matrix), "{}", code.name);
    each_room(&sheet, random);
    there_and_back(code, z, random);
}

#[test]
fn known_codes() {
    let mut random = random(2600);
    for (code, z) in sheets::known() {
        both_ways(&code, z, &mut random);
    }
}

#[test]
fn accepted_grids() {
    let mut random = random(2601);
    for _ in 0..cases(400) {
        let grid = sheets::accepted(&mut random);
        both_ways(&grid.code(), grid.size as u16, &mut random);
        let sheet = LentSheet::new(grid.bytes());
        assert_eq!(sheet.matrix(), Some(&grid.code().matrix));
        each_room(&sheet, &mut random);
    }
}

/// Sheets whose matrices may be refused.
#[test]
fn grids_by_chance() {
    let mut random = random(2602);
    let mut seen = [0; 13];
    for _ in 0..cases(3000) {
        let sheet = LentSheet::new(sheets::some(&mut random).bytes());
        let needed = sheet.needed();
        let rooms = [3 + random.below(4), needed + random.below(3)];
        let (answer, _) = sheet.to_list(rooms, &mut random);
        seen[answer.refusal() as usize] += 1;
    }
    for number in [0, 1, 5, 7] {
        assert!(seen[number] > 50, "{seen:?}");
    }
    assert_eq!(seen[11], 0, "{seen:?}");
}

/// Every matrix is a grid of blocks of 1, shuffled or not.
#[test]
fn blocks_of_1() {
    let mut random = random(2603);
    for code in [codes::small(), codes::medium()].concat() {
        both_ways(&code, 1, &mut random);
        both_ways(&code.shuffled(&mut random), 1, &mut random);
    }
    for code in [codes::cycle(1023), unlike::irregular1000()] {
        both_ways(&code, 1, &mut random);
    }
}

/// The longest sheet: 1,023 × 1,023 places and 1,023 × 32 shifts.
#[test]
fn the_longest_sheet() {
    let mut random = random(2604);
    let subject = Subject::new(&codes::eg1023().matrix, &mut random);
    let sheeted = Sheeted::new(&subject, 1);
    assert_eq!(sheeted.own().map(<[u8]>::len), Some(196_295));
    each_store(&sheeted, &mut random);
    there_and_back(&codes::eg1023(), 1, &mut random);
}

#[test]
fn buffers_of_every_length() {
    let mut random = random(2605);
    for (code, z) in sheets::known() {
        if code.matrix.list.len() > 100 {
            continue;
        }
        let subject = Subject::new(&code.matrix, &mut random);
        let sheeted = Sheeted::new(&subject, z);
        let own = sheeted.own().expect("a grid").to_vec();
        for room in 0..own.len() + 10 {
            let (answer, _) = sheeted.store(room, &mut random);
            assert_eq!(answer == TOO_SHORT, room < own.len(), "{}", code.name);
        }
        let sheet = LentSheet::new(own);
        for sizes in 0..8 {
            for list in 0..sheet.needed() + 8 {
                sheet.to_list([sizes, list], &mut random);
            }
        }
    }
}

/// Buffers whose length is too short when only its low 16 bits are kept.
#[test]
fn buffers_beyond_16_bits() {
    let mut random = random(2606);
    for (code, z) in [(codes::triangle(), 1), (codes::tanner155(), 31)] {
        let subject = Subject::new(&code.matrix, &mut random);
        let sheeted = Sheeted::new(&subject, z);
        let own = sheeted.own().expect("a grid").to_vec();
        let sheet = LentSheet::new(own);
        for room in [65_535, 65_536, 65_537, 131_072] {
            assert_eq!(sheeted.store(room, &mut random).0.refusal(), 0);
            for rooms in [[room, sheet.needed()], [4, room], [room, room]] {
                assert_eq!(sheet.to_list(rooms, &mut random).0, READ);
            }
        }
    }
}

/// Sizes at the ends of their ranges: n 2 and 1,023, m 1 and 1,023, rho 2 and 32, gamma 1 (32 is the
/// longest sheet's).
#[test]
fn ends_of_the_ranges() {
    let mut random = random(2607);
    let array = |rows: usize, columns: usize, size: usize| {
        Grid::by([rows, columns, size], |r, c| Some(r * c % size))
    };
    for grid in [
        array(1, 2, 1),
        array(1, 32, 31),
        array(2, 2, 511),
        array(3, 3, 341),
        array(31, 31, 31),
        Grid::by([33, 33, 31], |r, c| {
            (c == r || c == (r + 1) % 33).then_some(30)
        }),
        Grid::by([1, 3, 341], |_, _| Some(340)),
    ] {
        both_ways(&grid.code(), grid.size as u16, &mut random);
    }
}

/// The files in examples/ are the sheets of their codes.
#[test]
fn the_examples() {
    let mut random = random(2608);
    let folder = Path::new(env!("CARGO_MANIFEST_DIR")).join("../../examples");
    for (name, code) in [
        ("tanner155.sheet", codes::tanner155()),
        ("qc961.sheet", codes::qc961_721()),
    ] {
        let bytes = std::fs::read(folder.join(name)).expect(name);
        let sheet = LentSheet::new(bytes.clone());
        assert_eq!(sheet.matrix(), Some(&code.matrix), "{name}");
        each_room(&sheet, &mut random);
        let subject = Subject::new(&code.matrix, &mut random);
        assert!(Sheeted::new(&subject, 31).own() == Some(&bytes), "{name}");
    }
}
