//! `mlgd decode --one-step`: one-step voting on received words, by the proved library.

use crate::arguments::Arguments;
use crate::checked;
use crate::decode::{accepted, form, nothing_in, once_standard_input, INPUTS};
use crate::fault::Fault;
use crate::matrix_file::Matrix;
use crate::output::{keep_apart, tell, Output};
use crate::progress::Progress;
use crate::report::{not_finite, refused, Ended, Promise, Totals};
use crate::results::{Row, COLUMNS};
use crate::samples_file::SamplesFile;
use crate::word::distance;
use crate::words_file::WordsFile;

/// Where the words come from.
enum Source {
    Words(WordsFile),
    /// The hard bits of samples, with so many labels before them.
    Samples(SamplesFile, usize, Vec<f32>),
}

/// A received word, or why there is none.
type Received = Result<Vec<u8>, String>;

impl Source {
    fn open(arguments: &Arguments, n: u16) -> Result<Source, Fault> {
        match (arguments.value("--words"), arguments.value("--samples")) {
            (Some(words), None) => {
                let header = arguments.flag("--header");
                Ok(Source::Words(WordsFile::open(words, n, header)?))
            }
            (None, Some(samples)) => {
                let form = form(arguments)?;
                let file = SamplesFile::open(samples, n, form)?;
                Ok(Source::Samples(file, form.skip, Vec::new()))
            }
            _ => Err(arguments.misused("--one-step needs --words or --samples, and one of them")),
        }
    }

    /// The next word with its line.
    fn next(&mut self) -> Result<Option<(usize, Received)>, Fault> {
        match self {
            Source::Words(file) => Ok(file.next_word()?.map(|(line, word)| (line, Ok(word)))),
            Source::Samples(file, skip, samples) => {
                let line = file.next_block(samples)?;
                let before = (file.lines_of_block() == 1).then_some(*skip);
                Ok(line.map(|line| (line, hard_bits(samples, before))))
            }
        }
    }

    fn share(&self) -> Option<f64> {
        match self {
            Source::Words(file) => file.share(),
            Source::Samples(file, _, _) => file.share(),
        }
    }
}

/// The hard bits of a block as a word; a sample that is not finite has none. `before` says how many
/// labels stand before it where a block is one line.
fn hard_bits(samples: &[f32], before: Option<usize>) -> Received {
    if let Some(place) = samples.iter().position(|sample| !sample.is_finite()) {
        let column = before.map(|labels| labels + place + 1);
        return Err(not_finite(samples[place], place, column));
    }
    let byte = |eight: &[f32]| {
        let bits = eight.iter().enumerate();
        bits.fold(0, |byte, (at, sample)| {
            byte | u8::from(*sample > 0.0) << (7 - at)
        })
    };
    Ok(samples.chunks(8).map(byte).collect())
}

/// Decodes all words, writes the table, and tells the totals.
pub fn run(arguments: &Arguments) -> Result<Totals, Fault> {
    arguments.refuse_beside(&["--setting", "--jobs", "--program"], "--one-step")?;
    once_standard_input(arguments, &INPUTS)?;
    let matrix = accepted(arguments)?;
    let mut source = Source::open(arguments, matrix.matrix.n)?;
    let out = arguments.value("--out");
    keep_apart(&[out], &INPUTS.map(|name| arguments.value(name)))?;
    let mut output = Output::create(out)?;
    output.write(format!("{COLUMNS}\n").as_bytes())?;
    let promise = Promise::one_step(&matrix.matrix);
    let (mut totals, mut progress, mut text) = (Totals::default(), Progress::new(out), Vec::new());
    while let Some((line, received)) = source.next()? {
        let row = voted(&matrix.matrix, &promise, line, totals.blocks, received);
        totals.count(&row);
        text.clear();
        row.put(&mut text);
        output.write(&text)?;
        progress.show(source.share(), totals.blocks);
    }
    progress.clear();
    if totals.blocks == 0 {
        let file = arguments.value("--words").or(arguments.value("--samples"));
        return Err(nothing_in(file.unwrap_or_default(), "word"));
    }
    output.finish()?;
    tell(totals.outcomes());
    tell(totals.summary(&matrix.summary(), &promise));
    Ok(totals)
}

/// One word's row.
fn voted(matrix: &Matrix, promise: &Promise, line: usize, block: usize, received: Received) -> Row {
    let received = match received {
        Ok(received) => received,
        Err(reason) => return refused(line, block, reason),
    };
    let mut word = vec![0; matrix.word_bytes()];
    match checked::one_step(matrix, &received, &mut word) {
        Ok(answer) => {
            let ended = Ended {
                wrong_bits: distance(&word, &received),
                word,
                weak: false,
            };
            promise.row(line, block, answer, ended)
        }
        Err(9) => {
            let places = match 8 * matrix.word_bytes() - usize::from(matrix.n) {
                1 => "the last place".into(),
                spare => format!("one of the last {spare} places"),
            };
            let reason =
                format!("{places} of the last byte is not 0: write the word's spare bits as 0");
            refused(line, block, reason)
        }
        Err(number) => refused(line, block, format!("refusal {number}")),
    }
}
