//! What the program prints, for inputs of many kinds.

use generator::{codes, example, inputs, noise, settings, stream, unlike, Codewords, Random};
use program::{assert_same, Program};
use reference::Matrix;
use std::path::Path;

/// Whole runs, refused heads and inputs by chance: more than two hundred.
fn compare_all(inputs: Vec<inputs::Named>, least: usize) {
    let Some(program) = Program::find() else {
        return;
    };
    assert!(inputs.len() >= least, "{} inputs", inputs.len());
    for (name, input) in inputs {
        program.compare(&name, &input);
    }
}

#[test]
fn p6() {
    let Some(program) = Program::find() else {
        return;
    };
    let samples = vec![0.5, -1.0, -1.0, -1.0, -1.0, -1.0, -1.0];
    let setting = settings::level_step(3, 5, 0.5);
    let input = stream::input(&codes::code_a().matrix, &setting, &[samples]);
    let expected = b"block end rounds failing changed word\n0 decoded 1 0 1 00\n";
    assert_same("P6", &program.printed(&input), expected);
}

/// P8, of which no sample has a level, and P6 with a first sample without one: bits are turned, and not
/// counted.
#[test]
fn undecided_samples() {
    let Some(program) = Program::find() else {
        return;
    };
    let p8 = vec![0.1; 7];
    let first = vec![0.1, -1.0, -1.0, -1.0, -1.0, -1.0, -1.0];
    let setting = settings::level_step(3, 5, 0.5);
    let input = stream::input(&codes::code_a().matrix, &setting, &[p8, first]);
    let lines = "0 decoded 1 0 0 00\n1 decoded 1 0 0 00\n";
    let expected = format!("block end rounds failing changed word\n{lines}");
    assert_same("P8", &program.printed(&input), expected.as_bytes());
}

/// P9's matrix: its two rows share two columns.
#[test]
fn rows_that_overlap() {
    let Some(program) = Program::find() else {
        return;
    };
    let matrix = Matrix {
        n: 2,
        m: 2,
        rho: 2,
        gamma: 2,
        list: vec![0, 1, 0, 1],
    };
    let setting = settings::level_step(3, 5, 0.5);
    let input = stream::input(&matrix, &setting, &[vec![1.0, 1.0]]);
    let expected = b"block end rounds failing changed word\nrefused 5 0\n";
    assert_same("P9", &program.printed(&input), expected);
}

#[test]
fn whole_runs() {
    compare_all(inputs::whole_runs(&mut Random::new(41)), 60);
}

#[test]
fn refused_heads() {
    compare_all(inputs::refused_heads(&mut Random::new(42)), 60);
}

#[test]
fn inputs_by_chance() {
    compare_all(inputs::by_chance(80, &mut Random::new(43)), 80);
}

/// The codes of the benchmark with the benchmark's setting.
#[test]
fn large_codes() {
    let Some(program) = Program::find() else {
        return;
    };
    let mut random = Random::new(44);
    for (code, step, deviation) in [
        (codes::eg1023(), 0.015, 0.51),
        (codes::qc961(), 0.025, 0.535),
        (codes::tanner155(), 0.1, 0.585),
        (unlike::irregular1000(), 0.1, 0.55),
    ] {
        let codewords = Codewords::of(&code.matrix);
        let blocks: Vec<Vec<f32>> = (0..8)
            .map(|_| {
                let sent = codewords.random(&mut random);
                noise::received(&sent, deviation, &mut random)
            })
            .collect();
        // The same levels by their share of L.
        for (bits, step) in [(8, step), (12, step / 16.0)] {
            let setting = settings::level_step(bits, 30, step);
            let name = format!("{}, {bits} bits", code.name);
            program.compare(&name, &stream::input(&code.matrix, &setting, &blocks));
        }
    }
}

/// The width is 2 to 12: any other is refusal 6, whatever the byte.
#[test]
fn widths() {
    let Some(program) = Program::find() else {
        return;
    };
    let samples = vec![0.5, -1.0, -1.0, -1.0, -1.0, -1.0, -1.0];
    for bits in 0..=255 {
        let setting = settings::level_step(bits, 255, 0.5);
        let input = stream::input(&codes::code_a().matrix, &setting, &[samples.clone()]);
        let line = match bits {
            2..=12 => "0 decoded 1 0 1 00",
            _ => "refused 6 0",
        };
        let expected = format!("block end rounds failing changed word\n{line}\n");
        let printed = program.printed(&input);
        assert_same(&format!("{bits} bits"), &printed, expected.as_bytes());
    }
}

/// Blocks at each width from 8 on, both kinds of step, with rounds until a level is cut and without; the
/// largest level is a byte's, then more than one.
#[test]
fn finer_levels() {
    let Some(program) = Program::find() else {
        return;
    };
    let mut random = Random::new(46);
    for bits in 8..=12 {
        for (at, code) in [codes::small(), codes::medium()]
            .concat()
            .iter()
            .enumerate()
        {
            let kind = (at % 2) as u16;
            let limit = *random.pick(&[0, 1, 5, 30, 100, 255]);
            let setting = settings::around_one(bits, limit, kind, &mut random);
            let blocks = inputs::blocks(code, 3, 1.0, &mut random);
            let name = format!("{}, {setting:?}", code.name);
            program.compare(&name, &stream::input(&code.matrix, &setting, &blocks));
        }
    }
}

/// Every cut point: P6's code with three blocks, the second of them refused.
#[test]
fn every_cut_point() {
    let Some(program) = Program::find() else {
        return;
    };
    let mut blocks = vec![vec![0.5, -1.0, -1.0, -1.0, -1.0, -1.0, -1.0]; 3];
    blocks[1][4] = f32::NAN;
    let setting = settings::level_step(3, 5, 0.5);
    let input = stream::input(&codes::code_a().matrix, &setting, &blocks);
    for cut in 0..=input.len() {
        program.compare(&format!("cut at {cut}"), &input[..cut]);
    }
    // The same of a head that is refused: n is 255, an entry is above the next, b is 13, the kind is 2.
    for (at, byte, line) in [
        (0, 255, "refused 1 0"),
        (14, 3, "refused 3 4"),
        (50, 13, "refused 6 0"),
        (52, 2, "refused 6 0"),
    ] {
        let mut refused = input.clone();
        refused[at] = byte;
        let expected = reference::program(&refused);
        assert_eq!(
            String::from_utf8(expected).unwrap().lines().nth(1),
            Some(line)
        );
        for cut in [7, 8, 9, 49, 50, 56, 57, 58, refused.len()] {
            program.compare(&format!("{line}, cut at {cut}"), &refused[..cut]);
        }
    }
}

/// Code U, whose m × rho is more than n × gamma, with two blocks: the list is read, and a list that
/// ends too soon is "short". Cut anywhere.
#[test]
fn unlike_columns_cut_anywhere() {
    let Some(program) = Program::find() else {
        return;
    };
    let mut block = vec![-1.0; 9];
    block[0] = 0.5;
    let setting = settings::level_step(4, 5, 0.5);
    let matrix = unlike::code_u().matrix;
    let input = stream::input(&matrix, &setting, &[block.clone(), block]);
    let heading = "block end rounds failing changed word\n";
    let lines = "0 decoded 1 0 1 0000\n1 decoded 1 0 1 0000\n";
    let printed = program.printed(&input);
    assert_same("code U", &printed, (heading.to_owned() + lines).as_bytes());
    for cut in 0..=input.len() {
        program.compare(&format!("code U cut at {cut}"), &input[..cut]);
    }
    // Sizes, 21 numbers of the list, three bytes and the step.
    let head = 8 + 2 * 21 + 3 + 4;
    for cut in 0..head {
        let short = (heading.to_owned() + "short\n").into_bytes();
        assert_same("short", &program.printed(&input[..cut]), &short);
    }
}

/// The line of a run that is refused for its matrix.
fn refused_line(program: &Program, matrix: &Matrix) -> String {
    let setting = settings::level_step(4, 5, 0.5);
    let input = stream::input(matrix, &setting, &[vec![1.0; matrix.n.into()]]);
    program.compare("a refused matrix", &input);
    let printed = String::from_utf8(program.printed(&input)).expect("text");
    printed.lines().nth(1).unwrap_or_default().into()
}

/// The gamma of the input is the smallest weight; a column has at most 32 ones.
#[test]
fn weights_off() {
    let Some(program) = Program::find() else {
        return;
    };
    let code_u = |gamma| Matrix {
        gamma,
        ..unlike::code_u().matrix
    };
    assert_eq!(refused_line(&program, &code_u(1)), "refused 4 9");
    assert_eq!(refused_line(&program, &code_u(3)), "refused 1 0");
    let star = unlike::star(33, 2).matrix;
    assert_eq!(refused_line(&program, &star), "refused 4 0");
    let cycle = Matrix {
        gamma: 1,
        ..codes::cycle(1023).matrix
    };
    assert_eq!(refused_line(&program, &cycle), "refused 4 1023");
}

/// The block sets in examples/ give the lines stored beside them.
#[test]
fn the_examples() {
    let Some(program) = Program::find() else {
        return;
    };
    let folder = Path::new(env!("CARGO_MANIFEST_DIR")).join("../../examples");
    for (set, stored) in [
        (example::of_tanner155(), "expected.txt"),
        (example::of_irregular504(), "irregular504.txt"),
    ] {
        let expected = std::fs::read(folder.join(stored)).expect(stored);
        assert_same(stored, &program.printed(&set.input()), &expected);
    }
}

/// "at most 65,535 are read, then the run ends."
#[test]
fn more_than_65_535_blocks() {
    let Some(program) = Program::find() else {
        return;
    };
    let mut random = Random::new(45);
    let code = codes::single_row(2);
    let setting = settings::full_scale(4, 3, 2.0);
    let mut input = stream::head(&code.matrix, &setting);
    for _ in 0..65_600 {
        let choices = [-1.0, -0.2, -0.0, 0.01, 0.6, 3.0, f32::INFINITY];
        let samples = [*random.pick(&choices), *random.pick(&choices)];
        input.extend(stream::block(&samples));
    }
    let expected = reference::program(&input);
    let lines = expected.iter().filter(|&&byte| byte == b'\n').count();
    assert_eq!(lines, 65_536);
    assert_same("65,600 blocks", &program.printed(&input), &expected);
    let (head, block) = (8 + 4 + 7, 8);
    for end in [
        head + 65_534 * block,
        head + 65_534 * block + 5,
        head + 65_535 * block,
        head + 65_535 * block + 5,
    ] {
        program.compare(&format!("{end} bytes"), &input[..end]);
    }
}
