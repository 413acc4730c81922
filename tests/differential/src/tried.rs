//! A code in every call that is lent samples.

use crate::firmware::Firmware;
use crate::{Indexed, Subject};
use generator::codes::Code;
use generator::{Codewords, Random};

/// A code, words of it, and the calls on its matrix: whole and stepped, with an index, and the C face.
pub struct Tried {
    pub code: Code,
    pub codewords: Codewords,
    pub indexed: Indexed,
    pub firmware: Firmware,
}

impl Tried {
    pub fn new(code: Code, random: &mut Random) -> Tried {
        Tried {
            codewords: Codewords::of(&code.matrix),
            indexed: Indexed::new(&code.matrix, random),
            firmware: Firmware::new(&code.matrix, random),
            code,
        }
    }

    pub fn n(&self) -> usize {
        self.indexed.n()
    }

    pub fn subject(&self) -> &Subject {
        self.indexed.subject()
    }
}
