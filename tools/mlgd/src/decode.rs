//! `mlgd decode`: samples to a results table, through the proved program.

use crate::arguments::{asks_help, Arguments, Known};
use crate::fault::Fault;
use crate::lines::shown;
use crate::matrix_file::{Matrix, MatrixFile};
use crate::output::{keep_apart, print, tell, Output};
use crate::program::{refuse_odd_word, BlockLine, Program};
use crate::progress::Progress;
use crate::report::{not_finite, refused, Ended, Promise, Totals};
use crate::results::COLUMNS;
use crate::samples_file::{Form, SamplesFile};
use crate::setting::Setting;
use crate::status::Status;
use crate::{checked, one_step, stream, word};
use std::collections::VecDeque;
use std::thread::{self, ScopedJoinHandle};

pub const USAGE: &str = "\
mlgd decode --matrix M --setting S --samples X.csv --out R.csv [options]
mlgd decode --one-step --matrix M (--words W | --samples X.csv) --out R.csv [options]

Decodes blocks of samples by the proved program, and writes a table with a line for each block:
line, block, outcome, rounds, failing, changed, wrong_bits, within_half, reason, word.

--matrix M        alist, a list with sizes, bare rows, zeros and ones, or a sheet (see mlgd matrix
                  --help)
--setting S       words such as \"bits 8 limit 64 level-step 0.1\" (or full-scale 4), or a file
                  with them; bits is 2 to 12, limit 0 to 255
--samples X       numbers, n to a block: CSV with , or ; or tabs, or blanks; - is standard input.
                  nan and inf are read and the block is refused; # begins a comment
--out R           the table, which gets its name when it is whole; standard output without it.
                  A run that is broken off from outside leaves R.PROCESS.part: take it away
--header          the first line of X is a heading
--skip-columns K  the first K fields of each line are labels
--decimal-comma   numbers are written 0,5
--from-one        a list or bare rows count columns from 1
--jobs N          N runs of the program at a time (1 to 64)
--program PATH    the proved program; else decode beside mlgd, or build/bin/decode of the
                  repository in which mlgd was built, or here
--one-step        one-step voting on hard bits, by the proved library; no setting
--words W         received words, one a line: hexadecimal, or zeros and ones
--strict          status 1 also where a block is decoded beyond the half

changed counts the bits that ended different and whose sample has a level: samples of level 0 are
undecided, and no errors (one-step voting, which has no levels, counts all). wrong_bits counts them
all, with a level or without, and decides within_half.

Status 0: every block decoded; 1: some are open (failed or refused); 2: a fault, told on standard
error. A block decoded beyond the half (within_half is no) is not open, but to be looked at:
wrong_bits is more than t = gamma / 2, and nothing proves that its word is the one sent.
";

pub const KNOWN: Known = Known {
    command: "mlgd decode",
    values: &[
        "--matrix",
        "--setting",
        "--samples",
        "--words",
        "--out",
        "--skip-columns",
        "--jobs",
        "--program",
    ],
    flags: &[
        "--header",
        "--decimal-comma",
        "--from-one",
        "--one-step",
        "--strict",
    ],
    files: 0,
};

/// The options that name an input.
pub const INPUTS: [&str; 4] = ["--matrix", "--setting", "--samples", "--words"];

/// So many bytes of samples go to a run of the program at most.
const RUN_BYTES: usize = 4 << 20;

pub fn run(words: &[String]) -> Result<Status, Fault> {
    if asks_help(words) {
        return print(USAGE).map(|()| Status::Done);
    }
    let arguments = Arguments::read(words, &KNOWN)?;
    let totals = match arguments.flag("--one-step") {
        true => one_step::run(&arguments)?,
        false => Job::open(&arguments)?.run(&arguments)?,
    };
    Ok(totals.status(arguments.flag("--strict")))
}

/// Standard input holds one file.
pub fn once_standard_input(arguments: &Arguments, inputs: &[&str]) -> Result<(), Fault> {
    let standard = |name: &&&str| arguments.value(name) == Some("-");
    match inputs.iter().filter(standard).count() {
        0 | 1 => Ok(()),
        _ => Err(arguments.misused("- stands for two inputs")),
    }
}

/// A file without a single block or word.
pub fn nothing_in(file: &str, what: &str) -> Fault {
    let what = format!("there is no {what} in it");
    Fault::new(shown(file), what).remedy("is this the right file?")
}

/// How the samples are written, as the options say.
pub fn form(arguments: &Arguments) -> Result<Form, Fault> {
    Ok(Form {
        header: arguments.flag("--header"),
        skip: arguments.number("--skip-columns", 0..=10_000, 0)?,
        decimal_comma: arguments.flag("--decimal-comma"),
    })
}

/// The matrix that the options name, accepted by the proved check.
pub fn accepted(arguments: &Arguments) -> Result<MatrixFile, Fault> {
    let name = arguments.needed("--matrix")?;
    let matrix = MatrixFile::open(name, arguments.flag("--from-one"))?;
    checked::matrix(&matrix)?;
    Ok(matrix)
}

/// A file of blocks to decode.
struct Job {
    matrix: MatrixFile,
    decoder: Decoder,
    samples: SamplesFile,
    progress: Progress,
}

impl Job {
    fn open(arguments: &Arguments) -> Result<Job, Fault> {
        if arguments.value("--words").is_some() {
            return Err(arguments.misused("--words goes with --one-step"));
        }
        let file = arguments.needed("--samples")?;
        once_standard_input(arguments, &INPUTS)?;
        let setting = checked::setting(arguments.needed("--setting")?)?;
        let matrix = accepted(arguments)?;
        let form = form(arguments)?;
        let decoder = Decoder {
            program: Program::find(arguments.value("--program"))?,
            head: stream::head(&matrix.matrix, &setting),
            promise: Promise::iterative(&matrix.matrix, &setting),
            matrix: matrix.matrix.clone(),
            setting,
            skip: form.skip,
        };
        Ok(Job {
            samples: SamplesFile::open(file, matrix.matrix.n, form)?,
            matrix,
            decoder,
            progress: Progress::new(arguments.value("--out")),
        })
    }

    /// Decodes all blocks, writes the table, and tells the totals.
    fn run(mut self, arguments: &Arguments) -> Result<Totals, Fault> {
        let jobs = arguments.number("--jobs", 1..=64, 1)?;
        let out = arguments.value("--out");
        keep_apart(&[out], &INPUTS.map(|name| arguments.value(name)))?;
        let mut output = Output::create(out)?;
        output.write(format!("{COLUMNS}\n").as_bytes())?;
        let totals = self.decode(jobs, &mut output)?;
        self.progress.clear();
        if totals.blocks == 0 {
            return Err(nothing_in(arguments.needed("--samples")?, "block"));
        }
        output.finish()?;
        tell(totals.outcomes());
        tell(totals.summary(&self.matrix.summary(), &self.decoder.promise));
        Ok(totals)
    }

    /// Keeps up to `jobs` runs going while the next one's samples are read; rows are written in
    /// the order of the blocks.
    fn decode(&mut self, jobs: usize, output: &mut Output) -> Result<Totals, Fault> {
        let mut totals = Totals::default();
        let mut first = 0;
        let (decoder, samples, progress) = (&self.decoder, &mut self.samples, &mut self.progress);
        thread::scope(|scope| {
            // Each run with how much of the file is done when it has ended.
            let mut running: VecDeque<(Option<f64>, Run)> = VecDeque::new();
            let mut wrong = None;
            loop {
                let batch = match Batch::read(samples, decoder, first) {
                    Ok(batch) => batch,
                    Err(fault) => {
                        wrong = Some(fault);
                        None
                    }
                };
                let ended = batch.is_none();
                while running.len() >= if ended { 1 } else { jobs } {
                    let Some((share, run)) = running.pop_front() else {
                        break;
                    };
                    totals.add(&written(run, output)?);
                    progress.show(share, totals.blocks);
                }
                let Some(batch) = batch else { break };
                first += batch.lines.len();
                let run = scope.spawn(move || decoder.decode(&batch));
                running.push_back((samples.share(), run));
            }
            match wrong {
                Some(fault) => Err(fault),
                None => Ok(totals),
            }
        })
    }
}

/// A run of the program that is going on.
type Run<'scope> = ScopedJoinHandle<'scope, Result<Decoded, Fault>>;

/// Waits for a run and writes its rows.
fn written(run: Run, output: &mut Output) -> Result<Totals, Fault> {
    let broken = || Fault::new("mlgd", "a run broke off").remedy("run it again");
    let decoded = run.join().map_err(|_| broken())??;
    output.write(&decoded.rows)?;
    Ok(decoded.totals)
}

/// The blocks of one run of the program.
struct Batch {
    /// The number of the first block.
    first: usize,
    /// The line at which each block begins.
    lines: Vec<usize>,
    input: Vec<u8>,
    /// Whether each block is one line.
    one_line: bool,
}

impl Batch {
    /// The next blocks of the file, as many as go into a run; none at its end.
    fn read(
        file: &mut SamplesFile,
        decoder: &Decoder,
        first: usize,
    ) -> Result<Option<Batch>, Fault> {
        let block = 4 * usize::from(decoder.matrix.n);
        let most = (RUN_BYTES / block).clamp(1, stream::MOST_BLOCKS);
        let (mut lines, mut input) = (Vec::new(), decoder.head.clone());
        let mut samples = Vec::new();
        while lines.len() < most {
            let Some(line) = file.next_block(&mut samples)? else {
                break;
            };
            lines.push(line);
            stream::put(&mut input, &samples);
        }
        let one_line = file.lines_of_block() == 1;
        let batch = Batch {
            first,
            lines,
            input,
            one_line,
        };
        Ok(Some(batch).filter(|batch| !batch.lines.is_empty()))
    }
}

/// The rows of a run as text, and their totals.
struct Decoded {
    rows: Vec<u8>,
    totals: Totals,
}

/// What all runs share.
struct Decoder {
    program: Program,
    matrix: Matrix,
    setting: Setting,
    promise: Promise,
    head: Vec<u8>,
    skip: usize,
}

impl Decoder {
    /// One run of the program.
    fn decode(&self, batch: &Batch) -> Result<Decoded, Fault> {
        let lines = self.program.run(&batch.input, batch.lines.len())?;
        let blocks = batch.input[self.head.len()..].chunks(4 * usize::from(self.matrix.n));
        let (mut rows, mut totals) = (Vec::new(), Totals::default());
        for (at, (answer, samples)) in lines.into_iter().zip(blocks).enumerate() {
            let (line, block) = (batch.lines[at], batch.first + at);
            let weak = self.count_level_0(samples, &mut totals);
            let row = match answer {
                BlockLine::Refused(place) => {
                    let column = batch.one_line.then_some(self.skip + place + 1);
                    let sample = stream::samples(samples).nth(place).unwrap_or(f32::NAN);
                    refused(line, block, not_finite(sample, place, column))
                }
                BlockLine::Ended(answer, word) => {
                    refuse_odd_word(&word, &self.matrix, block)?;
                    let wrong_bits = word::differing(stream::samples(samples), &word);
                    let ended = Ended {
                        word,
                        wrong_bits,
                        weak,
                    };
                    self.promise.row(line, block, answer, ended)
                }
            };
            totals.count(&row);
            row.put(&mut rows);
        }
        Ok(Decoded { rows, totals })
    }

    /// Counts the samples of level 0 and says whether one of them is above 0.
    fn count_level_0(&self, block: &[u8], totals: &mut Totals) -> bool {
        let mut weak = false;
        for sample in stream::samples(block) {
            let level_0 = self.setting.gives_level_0(sample);
            totals.level_0 += usize::from(level_0);
            weak |= level_0 && sample > 0.0;
        }
        totals.weak_blocks += usize::from(weak);
        weak
    }
}
