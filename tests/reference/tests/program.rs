//! The program's lines, as document 01 prints them.

use reference::program;

const HEADING: &str = "block end rounds failing changed word\n";

/// The input up to and with the step.
fn head(sizes: [u16; 4], list: &[u16], setting: [u8; 3], step: f32) -> Vec<u8> {
    let mut input = Vec::new();
    for number in sizes.iter().chain(list) {
        input.extend(number.to_le_bytes());
    }
    input.extend(setting);
    input.extend(step.to_le_bytes());
    input
}

const LIST_A: [u16; 21] = [
    0, 1, 3, 1, 2, 4, 2, 3, 5, 3, 4, 6, 0, 4, 5, 1, 5, 6, 0, 2, 6,
];

fn head_a() -> Vec<u8> {
    head([7, 7, 3, 3], &LIST_A, [3, 5, 0], 0.5)
}

fn block(samples: &[f32]) -> Vec<u8> {
    samples.iter().flat_map(|y| y.to_le_bytes()).collect()
}

const P6_SAMPLES: [f32; 7] = [0.5, -1.0, -1.0, -1.0, -1.0, -1.0, -1.0];

fn printed(input: &[u8]) -> String {
    String::from_utf8(program(input)).unwrap()
}

/// The lines after the heading.
fn lines(input: &[u8]) -> String {
    let printed = printed(input);
    printed.strip_prefix(HEADING).expect("the heading").into()
}

#[test]
fn p6() {
    let input = [head_a(), block(&P6_SAMPLES)].concat();
    let expected = "block end rounds failing changed word\n0 decoded 1 0 1 00\n";
    assert_eq!(printed(&input), expected);
}

#[test]
fn refused_blocks_count() {
    let mut not_finite = P6_SAMPLES;
    not_finite[3] = f32::NAN;
    not_finite[5] = f32::INFINITY;
    let input = [
        head_a(),
        block(&not_finite),
        block(&[0.1; 7]),
        block(&not_finite),
        block(&P6_SAMPLES),
    ]
    .concat();
    let expected = "0 refused 8 3\n1 decoded 1 0 0 00\n2 refused 8 3\n3 decoded 1 0 1 00\n";
    assert_eq!(lines(&input), expected);
}

#[test]
fn failed_blocks_show_their_word() {
    let p7 = head([7, 7, 3, 3], &LIST_A, [3, 0, 0], 0.5);
    assert_eq!(
        lines(&[p7, block(&P6_SAMPLES)].concat()),
        "0 failed 0 3 0 80\n"
    );
    let rows = [0, 1, 2, 3, 4, 5, 6, 7, 8, 0, 3, 6, 1, 4, 7, 2, 5, 8];
    let b = head([9, 6, 3, 2], &rows, [3, 0, 0], 0.5);
    let mut samples = [-1.0; 9];
    samples[0] = 1.0;
    samples[7] = 1.0;
    samples[8] = 1.0;
    assert_eq!(
        lines(&[b, block(&samples)].concat()),
        "0 failed 0 4 0 8180\n"
    );
}

#[test]
fn short_inputs() {
    let whole = [head_a(), block(&P6_SAMPLES), block(&P6_SAMPLES)].concat();
    let (step_ends, block_ends) = (head_a().len(), head_a().len() + 28);
    for cut in 0..=whole.len() {
        let mut expected = String::new();
        if cut >= block_ends {
            expected += "0 decoded 1 0 1 00\n";
        }
        if cut == whole.len() {
            expected += "1 decoded 1 0 1 00\n";
        }
        if ![step_ends, block_ends, whole.len()].contains(&cut) {
            expected += "short\n";
        }
        assert_eq!(lines(&whole[..cut]), expected, "cut at {cut}");
    }
}

#[test]
fn refused_runs() {
    let tail = [3, 5, 0];
    // 1 is asked as soon as the sizes are there.
    let sizes = head([7, 7, 3, 4], &LIST_A, tail, 0.5);
    assert_eq!(lines(&sizes), "refused 1 0\n");
    assert_eq!(lines(&sizes[..8]), "refused 1 0\n");
    assert_eq!(lines(&sizes[..7]), "short\n");
    // The others after the step.
    let mut list = LIST_A;
    list[4] = 7;
    let entry = head([7, 7, 3, 3], &list, tail, 0.5);
    assert_eq!(lines(&entry), "refused 3 4\n");
    assert_eq!(lines(&[&entry[..], &[1]].concat()), "refused 3 4\n");
    assert_eq!(lines(&entry[..entry.len() - 1]), "short\n");
    // Row 1 3 4 in place of 1 2 4.
    list[3..6].copy_from_slice(&[1, 3, 4]);
    let weight = head([7, 7, 3, 3], &list, tail, 0.5);
    assert_eq!(lines(&weight), "refused 4 2\n");
    let overlap = head([2, 2, 2, 2], &[0, 1, 0, 1], [13, 5, 7], -1.0);
    assert_eq!(lines(&overlap), "refused 5 0\n");
    for (setting, step) in [
        ([1, 5, 0], 0.5),
        ([13, 5, 0], 0.5),
        ([3, 5, 2], 0.5),
        ([3, 5, 255], 0.5),
        ([3, 5, 1], 0.0),
        ([3, 5, 0], f32::NAN),
        ([3, 5, 0], 1_048_577.0),
    ] {
        let input = head([7, 7, 3, 3], &LIST_A, setting, step);
        assert_eq!(lines(&input), "refused 6 0\n");
        assert_eq!(
            lines(&[input, block(&P6_SAMPLES)].concat()),
            "refused 6 0\n"
        );
    }
}

#[test]
fn no_block_and_no_input() {
    assert_eq!(lines(&head_a()), "");
    assert_eq!(lines(&[]), "short\n");
}

/// "at most 65,535 are read, then the run ends."
#[test]
fn the_last_block_is_65_534() {
    let mut input = head([2, 1, 2, 1], &[0, 1], [8, 1, 0], 1.0);
    for _ in 0..65_534 {
        input.extend(block(&[1.0, 1.0]));
    }
    let at_65_534 = input.clone();
    input.extend(block(&[-1.0, -1.0]));
    let last_line = |input: &[u8]| lines(input).lines().last().unwrap().to_string();
    assert_eq!(last_line(&at_65_534), "65533 decoded 0 0 0 c0");
    assert_eq!(last_line(&input), "65534 decoded 0 0 0 00");
    // What follows is not read: neither a block nor a piece of one.
    assert_eq!(
        last_line(&[&input[..], &[0; 8]].concat()),
        "65534 decoded 0 0 0 00"
    );
    assert_eq!(
        last_line(&[&input[..], &[0; 3]].concat()),
        "65534 decoded 0 0 0 00"
    );
    assert_eq!(last_line(&[&at_65_534[..], &[0; 3]].concat()), "short");
}
