//! Cost against size: a block, a round and an edge of codes of 7 to 1,023 bits, and blocks a second
//! in runs of 1 to 65,535 blocks; as two tables and as a picture.
//!
//! The program and two forms in Rust, each run a process of its own, CPU time; they take turns, and
//! the best of many runs counts. PLOT names the file of the picture, from the workspace's root on.

use crate::programs::{beside, best_times, decode, mean_rounds, printed, root, Stored};
use bench::cases::{by_length, cases, input, Case};
use bench::plot::{self, Line, Panel, Point};
use std::fs;
use std::path::PathBuf;

/// The program first, then what it is measured against.
const FORMS: [&str; 3] = ["program", "incremental, bits", "accumulate"];

fn forms() -> [PathBuf; 3] {
    [
        decode(),
        beside("bench_incremental_bits"),
        beside("bench_decode"),
    ]
}

/// What all forms print on an input: the same.
fn same_lines(forms: &[PathBuf; 3], input: &Stored) -> String {
    let expected = printed(&forms[0], input);
    for other in &forms[1..] {
        assert!(printed(other, input) == expected, "{}", other.display());
    }
    expected
}

/// As many times fewer turns than for the other tables: costs, and blocks a second.
const COST_SHARE: usize = 2;
const RATE_SHARE: usize = 10;

/// Blocks of noise. Short codes have more of them, so that a run takes several milliseconds.
const BLOCKS: usize = 4000;
const MOST_BLOCKS: usize = 65_535;

fn cost_blocks(n: u16) -> usize {
    (1_200_000 / usize::from(n)).clamp(BLOCKS, MOST_BLOCKS)
}

/// What a block of a code costs, in microseconds for each form.
struct Cost {
    name: String,
    n: u16,
    edges: usize,
    /// Whether it is one of the planes' codes, whose weights grow with the root of n.
    plane: bool,
    /// The mean, and 1 for the first tally.
    tallies: f64,
    block: [f64; 3],
}

impl Cost {
    fn round(&self) -> [f64; 3] {
        self.block.map(|time| time * 1e3 / self.tallies)
    }

    fn edge(&self) -> [f64; 3] {
        self.round().map(|time| time / self.edges as f64)
    }
}

fn measure_cost((code, step, deviation): Case, forms: &[PathBuf; 3], turns: usize) -> Cost {
    let h = &code.matrix;
    assert_eq!(reference::check(h), Ok(()), "{}", code.name);
    let count = cost_blocks(h.n);
    let whole = input(&code, 8, step, deviation, count);
    let head = whole.len() - count * 4 * usize::from(h.n);
    let all = Stored::new(&format!("n{}", h.n), &whole);
    let none = Stored::new(&format!("n{}-none", h.n), &whole[..head]);
    let rounds = mean_rounds(&same_lines(forms, &all), count);
    same_lines(forms, &none);

    let [program, bits, accumulate] = forms.each_ref().map(PathBuf::as_path);
    let all_then_none = [
        (program, &all),
        (bits, &all),
        (accumulate, &all),
        (program, &none),
        (bits, &none),
        (accumulate, &none),
    ];
    let (best, runs) = best_times(turns, all_then_none);
    let block = [0, 1, 2].map(|form| (best[form] - best[form + 3]) * 1e3 / count as f64);
    let cost = Cost {
        plane: ["EG", "PG"]
            .iter()
            .any(|plane| code.name.starts_with(plane)),
        name: code.name,
        n: code.matrix.n,
        edges: code.matrix.list.len(),
        tallies: rounds + 1.0,
        block,
    };
    println!(
        "| {} | {} | {} | {rounds:.1} | {count} | {runs} | {:.2} | {:.2} | {} | {} | {} |",
        cost.name,
        cost.n,
        cost.edges,
        block[0] / block[1],
        block[0] / block[2],
        cells(block, 3),
        cells(cost.round(), 1),
        cells(cost.edge(), 4),
    );
    cost
}

/// The numbers of the three forms as cells of a table.
fn cells(numbers: [f64; 3], decimals: usize) -> String {
    numbers
        .map(|number| format!("{number:.decimals$}"))
        .join(" | ")
}

/// The heads of the columns of the three forms.
fn heads(what: &str) -> String {
    FORMS.map(|form| format!("{form}, {what}")).join(" | ")
}

fn measure_costs(forms: &[PathBuf; 3], turns: usize) -> Vec<Cost> {
    println!(
        "Cost against size: the program, the incremental form with a bit a parity and the accumulate \
         form, b = 8, limit 30, noise for about five rounds; CPU time of a process on so many blocks \
         less that on none, so without its start and the matrix check, but with the reading of the \
         samples, their levels and the line that is printed. A round is a block's time divided by its \
         mean rounds + 1, as the first tally of the checks counts too; an edge is a round's time \
         divided by m × ρ, the ones of the matrix. All take turns, and the best counts of as many \
         runs as the column `runs` says."
    );
    println!();
    println!(
        "| code | n | m × ρ | rounds | blocks | runs | program / bits | program / accumulate | {} | {} | {} |",
        heads("µs a block"),
        heads("ns a round"),
        heads("ns an edge and round"),
    );
    println!("|{}", "---|".repeat(17));
    by_length()
        .into_iter()
        .map(|case| measure_cost(case, forms, turns))
        .collect()
}

const RUN_BLOCKS: [usize; 6] = [1, 10, 100, 1000, 10_000, MOST_BLOCKS];
const RUN_CODES: [&str; 2] = ["Tanner155", "EG1023"];

/// Blocks a second in runs of a code, for each number of blocks and each form.
struct Rates {
    name: String,
    rates: Vec<[f64; 3]>,
}

fn measure_rates_of((code, step, deviation): Case, forms: &[PathBuf; 3], turns: usize) -> Rates {
    let block = 4 * usize::from(code.matrix.n);
    let whole = input(&code, 8, step, deviation, BLOCKS);
    let (head, blocks) = whole.split_at(whole.len() - BLOCKS * block);
    let rates = RUN_BLOCKS.map(|count| {
        let name = format!("{}-{count}", code.name);
        let lent = Stored::repeated(&name, head, blocks, count * block);
        same_lines(forms, &lent);
        let runs = forms.each_ref().map(|form| (form.as_path(), &lent));
        let (best, runs) = best_times(turns, runs);
        let rates = best.map(|milliseconds| count as f64 * 1e3 / milliseconds);
        println!(
            "| {} | {count} | {runs} | {:.2} | {:.2} | {} | {} |",
            code.name,
            best[0] / best[1],
            best[0] / best[2],
            cells(rates, 0),
            cells(best, 2),
        );
        rates
    });
    Rates {
        name: code.name,
        rates: rates.to_vec(),
    }
}

fn measure_rates(forms: &[PathBuf; 3], turns: usize) -> Vec<Rates> {
    println!();
    println!(
        "Blocks a second by CPU time of the whole process, its start and the matrix check included, \
         on the same noise; beyond {BLOCKS} blocks the same ones come again. The ratios are of times. \
         All take turns, and the best counts of as many runs as the column `runs` says."
    );
    println!();
    println!(
        "| code | blocks | runs | program / bits | program / accumulate | {} | {} |",
        heads("blocks a second"),
        heads("ms"),
    );
    println!("|{}", "---|".repeat(11));
    RUN_CODES
        .iter()
        .map(|name| {
            let case = cases().into_iter().find(|case| case.0.name == *name);
            measure_rates_of(case.expect("one of the codes"), forms, turns)
        })
        .collect()
}

fn cost_panel(costs: &[Cost]) -> Panel {
    let lines = FORMS.iter().enumerate().map(|(form, name)| {
        let points = costs.iter().map(|cost| Point {
            at: (f64::from(cost.n), cost.edge()[form]),
            tooltip: format!(
                "{}, n = {}: {name}, {:.4} ns an edge and round, {:.3} µs a block",
                cost.name,
                cost.n,
                cost.edge()[form],
                cost.block[form],
            ),
            alone: !cost.plane,
        });
        Line {
            name: name.to_string(),
            kind: form,
            dashed: false,
            points: points.collect(),
        }
    });
    Panel {
        title: "Time of an edge in a round".into(),
        across: "n, bits of a block (joined: codes of planes, weights about √n; hollow: others)"
            .into(),
        up: "ns an edge and round".into(),
        lines: lines.collect(),
    }
}

fn rate_panel(all: &[Rates]) -> Panel {
    let lines = all.iter().enumerate().flat_map(|(at, code)| {
        FORMS.iter().enumerate().map(move |(form, name)| {
            let points = RUN_BLOCKS
                .iter()
                .zip(&code.rates)
                .map(|(&blocks, rates)| Point {
                    at: (blocks as f64, rates[form]),
                    tooltip: format!(
                        "{}, {blocks} blocks: {name}, {:.0} a second",
                        code.name, rates[form]
                    ),
                    alone: false,
                });
            Line {
                name: format!("{}: {name}", code.name),
                kind: form,
                dashed: at > 0,
                points: points.collect(),
            }
        })
    });
    Panel {
        title: "Blocks a second, the start of the process included".into(),
        across: "blocks in a run".into(),
        up: "blocks a second of CPU time".into(),
        lines: lines.collect(),
    }
}

/// The tables; and the picture, if PLOT or the caller names its file.
pub fn measure(turns: usize, picture: Option<&str>) {
    let forms = forms();
    let costs = measure_costs(&forms, turns.div_ceil(COST_SHARE));
    let rates = measure_rates(&forms, turns.div_ceil(RATE_SHARE));
    let named = std::env::var_os("PLOT").or(picture.map(Into::into));
    if let Some(named) = named {
        let svg = plot::draw(
            "Cost against size",
            "b = 8, limit 30, noise for about five rounds; CPU time, both axes logarithmic",
            &[cost_panel(&costs), rate_panel(&rates)],
        );
        let path = root().join(named);
        fs::write(&path, svg).unwrap_or_else(|error| panic!("{}: {error}", path.display()));
    }
}
