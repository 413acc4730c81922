//! `mlgd simulate`: error rates of a code under white noise, decoded by the proved program.
//!
//! Codewords by chance are sent as -1 for 0 and +1 for 1, Gaussian noise of a deviation that fits
//! Eb/N0 at the code's own rate k / n is added, and what the program hands back is compared with
//! what was sent. Each block has random numbers of its own, from the seed, the point and the
//! block's number: so neither the number of jobs nor the other points matter. (Another C library
//! may round a logarithm otherwise, and so move a sample by its last bit.)

mod code;
mod curve;
mod points;
mod random;
mod tally;

use crate::amount::counted;
use crate::arguments::{asks_help, Arguments, Known};
use crate::decode::{accepted, once_standard_input};
use crate::fault::Fault;
use crate::matrix_file::{Matrix, MatrixFile};
use crate::output::{keep_apart, print, tell, Output};
use crate::program::{refuse_odd_word, BlockLine, Program};
use crate::samples_file::csv_line;
use crate::setting::Setting;
use crate::status::Status;
use crate::word::{bit, differing, distance};
use crate::{checked, stream};
use code::Code;
use points::Decibels;
use random::Random;
use std::ops::Range;
use std::path::Path;
use tally::{Fate, Point, Tally};

pub const USAGE: &str = "\
mlgd simulate --matrix M --setting S --db 3:5:0.25 --blocks N --seed K [options]

Sends random codewords through white noise, decodes them by the proved program, and writes a table
of what came out wrong. A point ends after N blocks, or when 200 of them were wrong.

--matrix M        as for mlgd decode
--setting S       as for mlgd decode: bits 8 limit 64 level-step 0.1
--db FROM:TO:STEP Eb/N0 in decibels: one number, or from, to and step
--blocks N        the blocks of a point, at most
--seed K          a whole number; the same seed gives the same table, whatever --jobs is
--out RATES.csv   the table; standard output without it
--svg CURVE.svg   a picture of the rates on a logarithmic axis, with 95 % bars
--jobs N          N runs of the program at a time (1 to 64)
--program PATH    the proved program; else decode beside mlgd, or build/bin/decode of the
                  repository in which mlgd was built, or here
--from-one        a list or bare rows count columns from 1
--samples X.csv   writes the N received blocks of each point to X.csv, and decodes nothing
";

const KNOWN: Known = Known {
    command: "mlgd simulate",
    values: &[
        "--matrix",
        "--setting",
        "--db",
        "--blocks",
        "--seed",
        "--out",
        "--svg",
        "--jobs",
        "--program",
        "--samples",
    ],
    flags: &["--from-one"],
    files: 0,
};

const INPUTS: [&str; 2] = ["--matrix", "--setting"];

/// The first and the largest number of blocks in a run of the program.
const FIRST_BATCH: usize = 250;
const LARGEST_BATCH: usize = 4_000;

pub fn run(words: &[String]) -> Result<Status, Fault> {
    if asks_help(words) {
        return print(USAGE).map(|()| Status::Done);
    }
    let arguments = Arguments::read(words, &KNOWN)?;
    let wanted = Wanted::read(&arguments)?;
    let (channel, setting) = Channel::open(&arguments)?;
    outputs_apart(&arguments)?;
    match arguments.value("--samples") {
        Some(file) => write_samples(&channel, &wanted, file)?,
        None => write_rates(&arguments, &channel, &wanted, &setting)?,
    }
    Ok(Status::Done)
}

/// Refuses an output that would replace an input, or the other output.
fn outputs_apart(arguments: &Arguments) -> Result<(), Fault> {
    let inputs = INPUTS.map(|name| arguments.value(name));
    let samples = arguments.value("--samples");
    if samples.is_some() {
        let others = ["--out", "--svg", "--jobs", "--program"];
        arguments.refuse_beside(&others, "--samples")?;
        return keep_apart(&[samples], &inputs);
    }
    let table = arguments.value("--out").or(Some("-"));
    keep_apart(&[table, arguments.value("--svg")], &inputs)
}

/// Which blocks are sent.
struct Wanted {
    points: Vec<Decibels>,
    /// How many there are of each point, at most.
    blocks: usize,
    jobs: usize,
}

impl Wanted {
    fn read(arguments: &Arguments) -> Result<Wanted, Fault> {
        let points = points::read(arguments.needed("--db")?);
        Ok(Wanted {
            points: points.map_err(|what| arguments.misused(what))?,
            blocks: arguments.needed_number("--blocks", 1..=1_000_000_000)?,
            jobs: arguments.number("--jobs", 1..=64, 1)?,
        })
    }
}

/// The table of rates, and their curve where it is wanted.
fn write_rates(
    arguments: &Arguments,
    channel: &Channel,
    wanted: &Wanted,
    setting: &Setting,
) -> Result<(), Fault> {
    let program = Program::find(arguments.value("--program"))?;
    let decoder = |input: &[u8], blocks: usize| program.run(input, blocks);
    let mut table = Output::create(arguments.value("--out"))?;
    let picture = arguments
        .value("--svg")
        .map(|file| Output::create(Some(file)));
    let picture = picture.transpose()?;
    let rates = rates(channel, &decoder, wanted)?;
    table.write(tally::csv(&rates).as_bytes())?;
    table.finish()?;
    let Some(mut picture) = picture else {
        return Ok(());
    };
    let curve = curve::Curve {
        title: title(arguments.needed("--matrix")?, channel),
        subtitle: subtitle(setting, wanted.blocks, channel.seed),
        points: &rates,
    };
    picture.write(curve::draw(&curve).as_bytes())?;
    picture.finish()
}

/// `tanner155: n = 155, k = 64, row weight 5, column weight 3`, or `column weights 3 to 6`.
fn title(file: &str, channel: &Channel) -> String {
    let name = Path::new(file).file_stem().unwrap_or_default();
    let Matrix { n, rho, gamma, .. } = channel.matrix;
    let columns = match channel.matrix.unlike_weights() {
        Some((least, most)) => format!("column weights {least} to {most}"),
        None => format!("column weight {gamma}"),
    };
    format!(
        "{}: n = {n}, k = {}, row weight {rho}, {columns}",
        name.to_string_lossy(),
        channel.code.dimension()
    )
}

fn subtitle(setting: &Setting, blocks: usize, seed: usize) -> String {
    format!(
        "{setting}; {} a point, or until {} were wrong; seed {seed}",
        counted(blocks, "block"),
        tally::ENOUGH
    )
}

/// What decodes: from an input and its number of blocks to their answers.
type Decoder<'a> = dyn Fn(&[u8], usize) -> Result<Vec<BlockLine>, Fault> + Sync + 'a;

/// A code, and the blocks that arrive of it.
struct Channel {
    matrix: Matrix,
    code: Code,
    /// The program's input up to the first block.
    head: Vec<u8>,
    seed: usize,
}

/// A block: the word sent, and what arrives of it.
struct Block {
    sent: Vec<u8>,
    samples: Vec<f32>,
}

impl Channel {
    /// The code that the options name, and the setting, accepted by the proved checks.
    fn open(arguments: &Arguments) -> Result<(Channel, Setting), Fault> {
        once_standard_input(arguments, &INPUTS)?;
        let setting = checked::setting(arguments.needed("--setting")?)?;
        let seed = arguments.needed_number("--seed", 0..=usize::MAX)?;
        let file = accepted(arguments)?;
        let channel = Channel::new(&file.matrix, &setting, seed);
        Ok((channel.ok_or_else(|| nothing_to_send(&file))?, setting))
    }

    /// None where the zero word is the only codeword.
    fn new(matrix: &Matrix, setting: &Setting, seed: usize) -> Option<Channel> {
        let code = Code::of(matrix);
        (code.dimension() > 0).then(|| Channel {
            head: stream::head(matrix, setting),
            matrix: matrix.clone(),
            code,
            seed,
        })
    }

    fn deviation(&self, db: Decibels) -> f64 {
        db.deviation(self.code.dimension(), self.code.n)
    }

    /// Block `number` of a point.
    fn block(&self, db: Decibels, number: usize) -> Block {
        let mut random = Random::new(&[self.seed as u64, db.0 as u64, number as u64]);
        let sent = self.code.random_word(&mut random);
        let deviation = self.deviation(db);
        let sample = |at: usize| {
            let symbol = if bit(&sent, at) { 1.0 } else { -1.0 };
            (symbol + deviation * random.gaussian()) as f32
        };
        let samples = (0..self.code.n).map(sample).collect();
        Block { sent, samples }
    }
}

fn nothing_to_send(file: &MatrixFile) -> Fault {
    let what = "the zero word is the only codeword: there is nothing to send";
    Fault::new(&file.file, what).remedy("take another code")
}

impl Block {
    /// In how many bits the signs of the samples differ from the word sent.
    fn arrived_wrong(&self) -> usize {
        differing(self.samples.iter().copied(), &self.sent)
    }
}

/// The rates at each point, with a line on standard error for each.
fn rates(channel: &Channel, decoder: &Decoder, wanted: &Wanted) -> Result<Vec<Point>, Fault> {
    let rate = |&db: &Decibels| {
        let tally = tally(channel, decoder, db, wanted)?;
        let point = Point::new(db, channel.deviation(db), channel.code.n, tally);
        tell(progress(&point));
        Ok(point)
    };
    wanted.points.iter().map(rate).collect()
}

/// `4 dB: 200 of 49,012 blocks wrong, 4.08e-3`.
fn progress(point: &Point) -> String {
    format!(
        "{} dB: {}, {:.2e}",
        point.db.value(),
        point.tally.wrong(),
        point.frames.rate
    )
}

/// The sums over a point's blocks, in their order, up to the last one or until enough were wrong.
fn tally(
    channel: &Channel,
    decoder: &Decoder,
    db: Decibels,
    wanted: &Wanted,
) -> Result<Tally, Fault> {
    let mut tally = Tally::default();
    let mut batches = batches(wanted.blocks);
    loop {
        let wave: Vec<Range<usize>> = batches.by_ref().take(wanted.jobs).collect();
        if wave.is_empty() {
            return Ok(tally);
        }
        for fates in at_once(wave, |batch| fates(channel, decoder, db, batch)) {
            for fate in fates? {
                tally.add(fate);
                if tally.is_enough() {
                    return Ok(tally);
                }
            }
        }
    }
}

/// The numbers 0 to `blocks` in parts that grow, so that little is done in vain at a point where
/// most blocks are wrong.
fn batches(blocks: usize) -> impl Iterator<Item = Range<usize>> {
    let mut from = 0;
    std::iter::from_fn(move || {
        let size = from.clamp(FIRST_BATCH, LARGEST_BATCH);
        let batch = from..blocks.min(from + size);
        from = batch.end;
        (!batch.is_empty()).then_some(batch)
    })
}

/// What `work` gives for each of the parts, all at the same time, in their order.
fn at_once<T: Send>(parts: Vec<Range<usize>>, work: impl Fn(Range<usize>) -> T + Sync) -> Vec<T> {
    let work = &work;
    std::thread::scope(|scope| {
        let workers: Vec<_> = parts
            .into_iter()
            .map(|part| scope.spawn(move || work(part)))
            .collect();
        let ended = workers.into_iter().map(|worker| worker.join());
        ended
            .map(|end| end.expect("a worker does not panic"))
            .collect()
    })
}

/// How some of a point's blocks fare.
fn fates(
    channel: &Channel,
    decoder: &Decoder,
    db: Decibels,
    batch: Range<usize>,
) -> Result<Vec<Fate>, Fault> {
    let mut input = channel.head.clone();
    let mut sent = Vec::new();
    for number in batch.clone() {
        let block = channel.block(db, number);
        stream::put(&mut input, &block.samples);
        sent.push((block.arrived_wrong(), block.sent));
    }
    let lines = decoder(&input, sent.len())?;
    let answers = batch.zip(lines).zip(&sent);
    answers
        .map(|((number, line), (arrived_wrong, sent))| {
            let BlockLine::Ended(answer, word) = line else {
                let what = format!("it refused block {number}, whose samples are finite");
                return Err(Fault::new("decode", what).remedy("build it anew: make decode"));
            };
            refuse_odd_word(&word, &channel.matrix, number)?;
            Ok(Fate {
                decoded: answer.decoded,
                rounds: answer.rounds,
                wrong: distance(sent, &word),
                arrived_wrong: *arrived_wrong,
            })
        })
        .collect()
}

/// The received blocks as CSV, a line each, point after point.
fn write_samples(channel: &Channel, wanted: &Wanted, file: &str) -> Result<(), Fault> {
    let mut output = Output::create(Some(file))?;
    for &db in &wanted.points {
        for number in 0..wanted.blocks {
            let samples = channel.block(db, number).samples;
            output.write(csv_line(&samples).as_bytes())?;
        }
    }
    output.finish()
}

#[cfg(test)]
mod tests;
