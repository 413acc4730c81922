//! Inputs for the tests and the benchmark, the same for the same seed: accepted parity-check
//! matrices of many kinds, their codewords, error patterns, noise, damaged matrices, circulant
//! sheets, the program's input, and blocks whose answers were stored.

pub mod alist;
pub mod before;
pub mod codes;
pub mod codewords;
pub mod damage;
pub mod example;
pub mod inputs;
pub mod noise;
pub mod patterns;
pub mod random;
pub mod settings;
pub mod sheets;
pub mod stream;
pub mod unlike;

pub use codes::Code;
pub use codewords::Codewords;
pub use random::Random;
