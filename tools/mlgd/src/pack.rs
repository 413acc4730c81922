//! `mlgd pack`: the program's input from files.

use crate::amount::counted;
use crate::arguments::{asks_help, Arguments, Known};
use crate::decode::{accepted, form, nothing_in, once_standard_input, INPUTS};
use crate::fault::Fault;
use crate::lines::shown;
use crate::output::{is_terminal, keep_apart, print, tell, Output};
use crate::samples_file::SamplesFile;
use crate::status::Status;
use crate::{checked, stream};

pub const USAGE: &str = "\
mlgd pack --matrix M --setting S --samples X.csv --out INPUT [options]

Writes the input of the proved program `decode`, which reads it from standard input and prints a
line for each block. It reads 65,535 blocks of a run at most.

--matrix, --setting, --samples, --header, --skip-columns, --decimal-comma, --from-one
                  as for mlgd decode
--out INPUT       the input; standard output without it
--split N         no more than N blocks to a file: INPUT.0000, INPUT.0001 and so on, each an input
                  of its own, for many machines
";

const KNOWN: Known = Known {
    command: "mlgd pack",
    values: &[
        "--matrix",
        "--setting",
        "--samples",
        "--out",
        "--skip-columns",
        "--split",
    ],
    flags: &["--header", "--decimal-comma", "--from-one"],
    files: 0,
};

pub fn run(words: &[String]) -> Result<Status, Fault> {
    if asks_help(words) {
        return print(USAGE).map(|()| Status::Done);
    }
    let arguments = Arguments::read(words, &KNOWN)?;
    once_standard_input(&arguments, &INPUTS)?;
    let setting = checked::setting(arguments.needed("--setting")?)?;
    let matrix = accepted(&arguments)?;
    let name = arguments.needed("--samples")?;
    let samples = SamplesFile::open(name, matrix.matrix.n, form(&arguments)?)?;
    let out = arguments.value("--out");
    let inputs = INPUTS.map(|name| arguments.value(name));
    keep_apart(&[out], &inputs)?;
    if is_terminal(out) {
        return Err(arguments.misused("the input is no text for a terminal: give --out"));
    }
    let mut packing = Packing {
        file: name,
        head: stream::head(&matrix.matrix, &setting),
        samples,
        blocks: 0,
    };
    let files = match arguments.value("--split") {
        None => packing.whole(out)?,
        Some(_) => {
            let most = arguments.number("--split", 1..=stream::MOST_BLOCKS, 1)?;
            packing.split(most, arguments.needed("--out")?, &inputs)?
        }
    };
    let (sizes, blocks) = (matrix.summary(), packing.blocks);
    tell(format!("{sizes}, blocks {blocks}, files {files}"));
    Ok(Status::Done)
}

/// Blocks on their way from text to bytes.
struct Packing<'a> {
    /// The samples' name.
    file: &'a str,
    head: Vec<u8>,
    samples: SamplesFile,
    blocks: usize,
}

impl Packing<'_> {
    /// All blocks in one input.
    fn whole(&mut self, out: Option<&str>) -> Result<usize, Fault> {
        let mut output = Output::create(out)?;
        output.write(&self.head)?;
        let mut block = Vec::new();
        while self.next_block(&mut block)? {
            if self.blocks > stream::MOST_BLOCKS {
                let most = counted(stream::MOST_BLOCKS, "block");
                let what = format!("the program reads {most} of a run at most");
                let remedy = "give --split, or use mlgd decode";
                return Err(Fault::new(shown(self.file), what).remedy(remedy));
            }
            output.write(&block)?;
        }
        self.refuse_nothing()?;
        output.finish().map(|()| 1)
    }

    /// So many blocks to a file, none of which is an input.
    fn split(&mut self, most: usize, out: &str, inputs: &[Option<&str>]) -> Result<usize, Fault> {
        let (mut block, mut files) = (Vec::new(), 0);
        let mut more = self.next_block(&mut block)?;
        while more {
            let name = format!("{out}.{files:04}");
            keep_apart(&[Some(&name)], inputs)?;
            let mut output = Output::create(Some(&name))?;
            output.write(&self.head)?;
            for _ in 0..most {
                if !more {
                    break;
                }
                output.write(&block)?;
                more = self.next_block(&mut block)?;
            }
            output.finish()?;
            files += 1;
        }
        self.refuse_nothing()?;
        Ok(files)
    }

    fn refuse_nothing(&self) -> Result<(), Fault> {
        match self.blocks {
            0 => Err(nothing_in(self.file, "block")),
            _ => Ok(()),
        }
    }

    /// The next block's bytes. False at the end.
    fn next_block(&mut self, block: &mut Vec<u8>) -> Result<bool, Fault> {
        let mut samples = Vec::new();
        block.clear();
        let found = self.samples.next_block(&mut samples)?.is_some();
        if found {
            self.blocks += 1;
            stream::put(block, &samples);
        }
        Ok(found)
    }
}
