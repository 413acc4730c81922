//! Whole files against the reference decoder: every line of the table.

use crate::common::{csv, program, Folder, SETTING};
use generator::codes::{self, Code};
use generator::{alist, inputs, settings, stream, unlike, Codewords, Random};
use mlgd::results::{Outcome, Row, Table, COLUMNS};
use reference::{hard_bit, level, pack, Setting};

/// A setting as the tool reads it.
fn words(setting: &Setting) -> String {
    let kind = ["level-step", "full-scale"][usize::from(setting.kind)];
    let step = mlgd::number::write(setting.step);
    format!(
        "bits {} limit {} {kind} {step}",
        setting.bits, setting.limit
    )
}

/// The rows of a table.
fn rows(folder: &Folder, name: &str) -> Vec<Row> {
    let path = folder.0.join(name);
    let mut table = Table::open(path.to_str().unwrap()).unwrap();
    let mut rows = Vec::new();
    while let Some(row) = table.next_row().unwrap() {
        rows.push(row);
    }
    rows
}

/// In how many places two words differ.
fn differing(a: &[u8], b: &[u8]) -> usize {
    let places = a.iter().zip(b).map(|(a, b)| (a ^ b).count_ones() as usize);
    places.sum()
}

/// Compares a row with the reference's line for the same block.
fn compare(row: &Row, line: &str, samples: &[f32], code: &Code, at: usize) {
    let fields: Vec<&str> = line.split(' ').collect();
    assert_eq!((row.line, row.block), (at + 1, at), "{}", code.name);
    assert_eq!(row.outcome.shown(), fields[1], "{}", code.name);
    let Some(counts) = &row.counts else {
        return compare_refused(row, samples, fields[3].parse().unwrap());
    };
    let hex = counts.word.iter().map(|byte| format!("{byte:02x}"));
    let (rounds, failing, changed) = (counts.rounds, counts.failing, counts.changed);
    let found = format!("{rounds} {failing} {changed} {}", hex.collect::<String>());
    assert_eq!(found, fields[2..].join(" "), "{}", code.name);
    let received = pack(&samples.iter().map(|&y| hard_bit(y)).collect::<Vec<_>>());
    assert_eq!(counts.wrong_bits, differing(&counts.word, &received));
    let within =
        row.outcome == Outcome::Decoded && counts.wrong_bits <= usize::from(code.matrix.gamma / 2);
    assert_eq!(row.within_half, within);
    assert_eq!(row.reason.is_empty(), within, "{}", row.reason);
}

/// A refused block's row.
fn compare_refused(row: &Row, samples: &[f32], place: usize) {
    assert!(!row.within_half && !samples[place].is_finite());
    let kind = match samples[place].is_nan() {
        true => "not a number",
        false => "infinite",
    };
    let (column, sample) = (mlgd::fields::column_letters(place + 1), place + 1);
    let reason = format!("sample {sample} (column {column}) is {kind}: send the block again");
    assert_eq!(row.reason, reason);
}

/// The totals that the reference's lines make.
fn totals(lines: &[&str], blocks: &[Vec<f32>], code: &Code) -> String {
    let mut counts = [0; 4];
    for (line, samples) in lines.iter().zip(blocks) {
        let fields: Vec<&str> = line.split(' ').collect();
        counts[match fields[1] {
            "decoded" if within_half(fields[5], samples, code) => 0,
            "decoded" => 1,
            "failed" => 2,
            _ => 3,
        }] += 1;
    }
    let [within, beyond, failed, refused] = counts;
    format!(
        "{} blocks: {within} decoded within the half, {beyond} decoded beyond the half, \
         {failed} failed, {refused} refused\n",
        blocks.len()
    )
}

/// Whether the reference's word differs from the hard bits in at most half of gamma places.
fn within_half(word: &str, samples: &[f32], code: &Code) -> bool {
    let bit = |at: usize| {
        let digit = word.as_bytes()[at / 4] as char;
        digit.to_digit(16).unwrap() >> (3 - at % 4) & 1 == 1
    };
    let differs = |&(at, &sample): &(usize, &f32)| bit(at) != hard_bit(sample);
    let count = samples.iter().enumerate().filter(differs).count();
    count <= usize::from(code.matrix.gamma / 2)
}

/// Decodes blocks by the tool and by the reference.
fn whole_file(program: &str, code: &Code, setting: &Setting, blocks: &[Vec<f32>], jobs: &str) {
    let folder = Folder::new(&format!("table-{}-{}-{jobs}", code.matrix.n, setting.bits));
    folder.write("h", alist::text(code));
    // A comma between two whole numbers could be a decimal comma: only for n = 2.
    folder.write("y", csv(blocks).replace(',', ";"));
    let ran = folder.decode(program, &words(setting), &["--jobs", jobs]);
    let expected = reference::program(&stream::input(&code.matrix, setting, blocks));
    let expected = String::from_utf8(expected).unwrap();
    let lines: Vec<&str> = expected.lines().skip(1).collect();
    let open = lines.iter().any(|line| !line.contains("decoded"));
    assert_eq!(ran.status, i32::from(open), "{}: {ran:?}", code.name);
    assert_eq!(folder.read("r").lines().next(), Some(COLUMNS));
    let rows = rows(&folder, "r");
    assert_eq!(rows.len(), blocks.len(), "{}", code.name);
    for (at, (row, line)) in rows.iter().zip(&lines).enumerate() {
        compare(row, line, &blocks[at], code, at);
    }
    let totals = totals(&lines, blocks, code);
    assert!(ran.said.starts_with(&totals), "{totals}: {}", ran.said);
    let level_0 = |block: &Vec<f32>| {
        let finite = block.iter().filter(|y| y.is_finite());
        finite.filter(|&&y| level(setting, y) == 0).count()
    };
    let count: usize = blocks.iter().map(level_0).sum();
    let said = format!("blocks {}, samples at level 0: {count};", blocks.len());
    assert!(ran.said.contains(&said), "{said}: {}", ran.said);
}

#[test]
fn every_code_against_the_reference() {
    let Some(program) = program() else { return };
    let mut random = Random::new(71);
    let mut all = [codes::small(), codes::medium()].concat();
    all.extend([codes::qc961(), codes::cycle(1023)]);
    for (at, code) in all.iter().enumerate() {
        let (bits, kind) = (2 + (at % 11) as u16, (at / 11 % 2) as u16);
        let limit = *random.pick(&[0, 1, 2, 5, 30, 64, 255]);
        let setting = settings::around_one(bits, limit, kind, &mut random);
        let blocks = inputs::blocks(code, 6, 1.0, &mut random);
        whole_file(&program, code, &setting, &blocks, "1");
    }
}

/// Tanner's code with noise: blocks within the half, beyond it, failed and refused.
#[test]
fn a_file_with_every_outcome() {
    let Some(program) = program() else { return };
    let code = codes::tanner155();
    let blocks = inputs::blocks(&code, 400, 1.0, &mut Random::new(72));
    let setting = settings::level_step(8, 64, 0.1);
    whole_file(&program, &code, &setting, &blocks, "2");
}

/// Wrong samples ten times as strong as the right ones are undone, and the table says so.
#[test]
fn strong_wrong_samples_within_the_half() {
    let Some(program) = program() else { return };
    let mut random = Random::new(73);
    for code in [
        codes::code_a(),
        codes::euclidean(3),
        codes::tanner155(),
        unlike::irregular504(),
        unlike::without_some_rows(&codes::projective(3), 7, 73),
    ] {
        let folder = Folder::new(&format!("half-{}", code.matrix.n));
        let t = usize::from(code.matrix.gamma / 2);
        let codewords = Codewords::of(&code.matrix);
        let mut sent = Vec::new();
        let mut blocks = Vec::new();
        for at in 0..40 {
            let word = codewords.random(&mut random);
            let mut samples: Vec<f32> = word
                .iter()
                .map(|&bit| if bit { 1.0 } else { -1.0 })
                .collect();
            for j in random.different(at % (t + 1), samples.len()) {
                samples[j] *= -10.0;
            }
            sent.push(pack(&word));
            blocks.push(samples);
        }
        folder.write("h", alist::text(&code));
        folder.write("y", csv(&blocks));
        let ran = folder.decode(&program, SETTING, &[]);
        assert_eq!(ran.status, 0, "{}: {ran:?}", code.name);
        for (at, (row, sent)) in rows(&folder, "r").iter().zip(&sent).enumerate() {
            let counts = row.counts.as_ref().unwrap();
            assert!(row.within_half && row.reason.is_empty());
            assert_eq!((&counts.word, counts.wrong_bits), (sent, at % (t + 1)));
        }
        assert!(
            ran.said.contains("limit 64 carries the promise"),
            "{}",
            ran.said
        );
    }
}

/// A wrong sample ten times as strong as the others, of which each round takes 3: with 12 bits no limit
/// is enough, and the table says with which bits one is.
#[test]
fn finer_levels_than_the_limit_allows() {
    let Some(program) = program() else { return };
    let folder = Folder::new("finer");
    folder.write("h", alist::text(&codes::code_a()));
    folder.write("y", "10;-1;-1;-1;-1;-1;-1\n");
    let ran = folder.decode(&program, "bits 12 limit 255 level-step 0.005", &[]);
    assert_eq!(ran.status, 1);
    let promised = "limit 255 does not carry the promise: bits 10 limit 171 does\n";
    assert!(ran.said.ends_with(promised), "{}", ran.said);
    let row = &rows(&folder, "r")[0];
    let counts = row.counts.as_ref().unwrap();
    assert_eq!((counts.rounds, counts.failing), (255, 3));
    assert_eq!(
        row.reason,
        "a bit was wrong: 3 checks still fail after 255 rounds: \
         try bits 10 limit 171 before you send it again"
    );
    for (bits, limit, rounds) in [(9, 86, 85), (10, 171, 171), (12, 255, 34)] {
        let step = if bits == 12 { 0.1 } else { 0.005 };
        let setting = format!("bits {bits} limit {limit} level-step {step}");
        assert_eq!(folder.decode(&program, &setting, &[]).status, 0);
        let row = &rows(&folder, "r")[0];
        assert_eq!(row.counts.as_ref().unwrap().rounds, rounds, "{setting}");
        assert!(row.within_half && row.reason.is_empty());
    }
}

/// What the summary says of limits and of level 0.
#[test]
fn the_summary() {
    let Some(program) = program() else { return };
    let folder = Folder::new("summary");
    folder.write("h", alist::text(&codes::code_b()));
    folder.write(
        "y",
        "0.01;-1;-1;-1;-1;-1;-1;-1;-1\n-1;-1;-1;-1;-1;-1;-1;-1;-1\n",
    );
    let ran = folder.decode(&program, "bits 8 limit 30 level-step 0.1", &[]);
    assert_eq!(
        ran.said,
        "2 blocks: 2 decoded within the half, 0 decoded beyond the half, 0 failed, 0 refused\n\
         n 9, m 6, rho 3, gamma 2, t 1, blocks 2, samples at level 0: 1; limit 30 does not carry \
         the promise: limit 64 does\n"
    );
    let ran = folder.decode(&program, SETTING, &[]);
    let (_, limit) = ran.said.split_once("level 0: 1; ").expect("the limit");
    assert_eq!(
        limit,
        "limit 64 carries the promise (it is at least 64); gamma is even: it holds for t - 1 in the \
         blocks with a sample above 0 at level 0, which are 1\n"
    );
}

/// A spreadsheet may save the table with semicolons.
#[test]
fn a_table_that_was_saved_again() {
    let folder = Folder::new("saved");
    let header = COLUMNS.replace(',', ";");
    let decoded = "5;0;decoded;1;0;1;1;yes;;x2e";
    let refused = "6;1;refused;;;;;no;\"a, b; \"\"c\"\"\";";
    folder.write(
        "r",
        format!("\u{feff}{header}\r\n{decoded}\r\n{refused}\r\n"),
    );
    let rows = rows(&folder, "r");
    assert_eq!(
        (rows[0].line, rows[0].counts.as_ref().unwrap().word[0]),
        (5, 0x2e)
    );
    assert_eq!(rows[1].reason, "a, b; \"c\"");
    folder.write("bad", "line,block\n1,2\n");
    let path = folder.0.join("bad");
    let fault = Table::open(path.to_str().unwrap())
        .err()
        .unwrap()
        .to_string();
    assert!(fault.contains("there is no column `outcome`"), "{fault}");
}

/// Commas in the reason need no quotation marks where semicolons or tabs separate the fields.
#[test]
fn a_saved_table_with_commas() {
    let folder = Folder::new("saved-commas");
    let reason = "wrong_bits is 2, more than t = 1 (half of gamma)";
    for separator in [";", "\t"] {
        let row = ["5", "0", "decoded", "1", "0", "2", "2", "no", reason, "x2e"];
        let (header, row) = (COLUMNS.replace(',', separator), row.join(separator));
        folder.write("r", format!("{header}\n{row}\n"));
        assert_eq!(rows(&folder, "r")[0].reason, reason);
        assert_eq!(folder.run_line("map r --out m").status, 0);
    }
    folder.write("r", COLUMNS.replacen(',', ";", 1));
    let ran = folder.run_line("map r --out m");
    let expected = "r:1: a comma beside `;` could be read in two ways, \
                    is this a table of mlgd decode?\n";
    assert_eq!((ran.status, ran.said.as_str()), (2, expected));
}

/// A spreadsheet's file: byte order mark, heading, labels, decimal commas, another minus, carriage
/// returns. Its table is that of the plain file, but for the lines.
#[test]
fn a_spreadsheet_s_file() {
    let Some(program) = program() else { return };
    let folder = Folder::new("spreadsheet");
    let code = codes::tanner155();
    let mut blocks = inputs::blocks(&code, 30, 1.0, &mut Random::new(74));
    blocks.retain(|block| {
        block
            .iter()
            .all(|y| y.abs() < 1e6 && (y.abs() > 1e-6 || *y == 0.0))
    });
    folder.write("h", format!("\u{feff}{}", alist::text(&code)));
    folder.write("y", csv(&blocks));
    let plain = folder.decode(&program, SETTING, &[]);
    let table = folder.read("r");
    let line = |line: &str| {
        let numbers = line.replace(',', ";").replace('.', ",");
        format!(
            "\"shade 4109\";02:30 h;{}\r\n",
            numbers.replace('-', "\u{2212}")
        )
    };
    let lines: String = csv(&blocks).lines().map(line).collect();
    folder.write("y", format!("\u{feff}shade;time;samples\r\n{lines}"));
    let options = ["--header", "--skip-columns", "2", "--decimal-comma"];
    let ran = folder.decode(&program, SETTING, &options);
    assert_eq!((ran.status, ran.said), (plain.status, plain.said));
    let rest = |table: &str| -> Vec<String> {
        let rest = |line: &str| line.split_once(',').unwrap().1.to_string();
        table.lines().map(rest).collect()
    };
    assert_eq!(rest(&folder.read("r")), rest(&table));
    assert!(folder.read("r").lines().nth(1).unwrap().starts_with("2,0,"));
}

/// Commas in a label do no harm where semicolons separate the fields.
#[test]
fn labels_with_commas() {
    let folder = Folder::new("label-commas");
    folder.write("h", alist::text(&codes::code_a()));
    folder.write(
        "y",
        "Soho, London;0.5;-1;-1;-1;-1;-1;-1\nKent;1;-1;-1;-1;-1;-1;-1\n",
    );
    let line = "decode --one-step --matrix h --samples y --out r";
    assert_eq!(folder.run_line(line).status, 2);
    let ran = folder.run_line(&format!("{line} --skip-columns 1"));
    assert_eq!(ran.status, 0, "{ran:?}");
    let table = folder.read("r");
    assert!(table.ends_with("2,1,decoded,1,0,1,1,yes,,x00\n"), "{table}");
}

/// An alist with n and m exchanged is accepted, if it is regular; its sizes are told, and the
/// samples no longer fit.
#[test]
fn exchanged_sizes() {
    let folder = Folder::new("exchanged");
    let code = codes::complete_graph(5);
    folder.write("h", alist::text(&code.transposed()));
    let said = folder.run(&["matrix", "h"]).text();
    assert_eq!(
        said,
        "h: n 5, m 10, rho 2, gamma 4, t 2: accepted (alist)\n"
    );
    folder.write("y", csv(&[vec![-1.5; 10]]));
    let words = [
        "pack",
        "--matrix",
        "h",
        "--setting",
        SETTING,
        "--samples",
        "y",
    ];
    let ran = folder.run(&[&words[..], &["--out", "input"]].concat());
    assert_eq!(ran.status, 2);
    let what = "y:1: this line has 10 samples, 2 blocks of 5, put each block on a line of its own";
    assert!(ran.said.starts_with(what), "{}", ran.said);
}
