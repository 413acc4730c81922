//! The program in the literal form: the reference.

use std::io::{stdin, stdout, Read, Write};

fn main() {
    let mut input = Vec::new();
    stdin()
        .lock()
        .read_to_end(&mut input)
        .expect("standard input");
    let output = reference::program(&input);
    stdout().lock().write_all(&output).expect("standard output");
}
