//! The files in examples/: Tanner's code and a code of unlike columns as alist files, each with a
//! dozen of its codewords received with noise; document 003's (961, 721) code as an alist file; and
//! this and Tanner's code as sheets, by the reference.

use crate::codes::{qc961_721, tanner155, Code};
use crate::unlike::irregular504;
use crate::{alist, noise, settings, stream, Codewords, Random};
use reference::{sheet_of_accepted, Setting};

/// The setting as the tool `mlgd` reads it.
pub const SETTING: &str = "bits 8 limit 64 level-step 0.1";

pub fn setting() -> Setting {
    settings::level_step(8, 64, 0.1)
}

/// A code and the noise of each of its blocks: none, some, and one block that is past help.
pub struct BlockSet {
    pub code: Code,
    seed: u64,
    deviations: [f64; 12],
}

/// Twelve blocks of Tanner's code.
pub fn of_tanner155() -> BlockSet {
    BlockSet {
        code: tanner155(),
        seed: 155,
        deviations: [
            0.0, 0.3, 0.4, 0.45, 0.5, 0.55, 0.55, 0.6, 0.6, 0.65, 1.0, 0.0,
        ],
    }
}

/// Twelve blocks of a code whose bits have 3 or 6 checks.
pub fn of_irregular504() -> BlockSet {
    BlockSet {
        code: irregular504(),
        seed: 504,
        deviations: [
            0.0, 0.3, 0.35, 0.4, 0.45, 0.45, 0.5, 0.5, 0.55, 0.55, 1.0, 0.0,
        ],
    }
}

impl BlockSet {
    /// The codewords sent, and the samples as they stand in the file: three decimals.
    fn sent_and_written(&self) -> Vec<(Vec<bool>, Vec<String>)> {
        let mut random = Random::new(self.seed);
        let codewords = Codewords::of(&self.code.matrix);
        self.deviations
            .iter()
            .map(|&deviation| {
                let sent = codewords.random(&mut random);
                let samples = noise::received(&sent, deviation, &mut random);
                let written = samples.iter().map(|y| format!("{y:.3}")).collect();
                (sent, written)
            })
            .collect()
    }

    /// The codewords sent.
    pub fn sent(&self) -> Vec<Vec<bool>> {
        let all = self.sent_and_written().into_iter();
        all.map(|(sent, _)| sent).collect()
    }

    /// The samples as the program gets them.
    pub fn blocks(&self) -> Vec<Vec<f32>> {
        let read = |sample: &String| sample.parse().expect("three decimals");
        self.sent_and_written()
            .iter()
            .map(|(_, written)| written.iter().map(read).collect())
            .collect()
    }

    /// The program's input.
    pub fn input(&self) -> Vec<u8> {
        stream::input(&self.code.matrix, &setting(), &self.blocks())
    }

    /// What the reference prints for it.
    pub fn expected(&self) -> String {
        String::from_utf8(reference::program(&self.input())).expect("text")
    }

    /// The file of the samples.
    fn csv(&self) -> String {
        self.sent_and_written()
            .iter()
            .map(|(_, written)| written.join(",") + "\n")
            .collect()
    }
}

/// The block size of both sheets.
pub const BLOCK_SIZE: u16 = 31;

/// The sheet of a code.
fn sheet(code: &Code) -> Vec<u8> {
    sheet_of_accepted(&code.matrix, BLOCK_SIZE).expect("a grid of blocks of 31")
}

/// The files, by name.
pub fn files() -> [(&'static str, Vec<u8>); 9] {
    let (tanner, irregular) = (of_tanner155(), of_irregular504());
    [
        ("tanner155.alist", alist::text(&tanner.code).into()),
        ("tanner155.sheet", sheet(&tanner.code)),
        ("blocks.csv", tanner.csv().into()),
        ("expected.txt", tanner.expected().into()),
        ("qc961.alist", alist::text(&qc961_721()).into()),
        ("qc961.sheet", sheet(&qc961_721())),
        ("irregular504.alist", alist::text(&irregular.code).into()),
        ("irregular504.csv", irregular.csv().into()),
        ("irregular504.txt", irregular.expected().into()),
    ]
}
