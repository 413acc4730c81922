//! Circulant sheets into lists and back, against the matrix check, which both calls contain.

use crate::indexed::best_times;
use crate::Form;
use ffi_face::Packed;
use generator::codes::{self, Code};
use std::hint::black_box;

/// Both calls leave what the reference does, and the check accepts.
fn compare(code: &Code, z: u16, sheet: &[u8]) {
    let h = &code.matrix;
    assert_eq!(ffi_face::check(h.into()), Packed(0));
    let (mut sizes, mut list) = ([0; 4], vec![0; h.list.len()]);
    let answer = ffi_face::sheet_to_list(sheet, &mut sizes, &mut list);
    assert_eq!(answer, Packed(0));
    assert_eq!(sizes, [h.n, h.m, h.rho, h.gamma]);
    assert!(list == h.list);
    let mut bytes = vec![0; sheet.len()];
    let answer = ffi_face::list_to_sheet(h.into(), z, &mut bytes);
    assert_eq!(answer, Packed::of_stored(Ok(sheet.len())));
    assert!(bytes == sheet);
}

fn measure_code(code: &Code, z: u16, turns: usize) {
    let h = &code.matrix;
    let sheet = reference::sheet_of_accepted(h, z).expect("a grid");
    compare(code, z, &sheet);
    let (mut sizes, mut list) = ([0; 4], vec![0; h.list.len()]);
    let mut bytes = vec![0; sheet.len()];
    let to_list = Form::new(1, || {
        let sheet = black_box(&sheet);
        black_box(ffi_face::sheet_to_list(sheet, &mut sizes, &mut list));
    });
    let to_sheet = Form::new(1, || {
        black_box(ffi_face::list_to_sheet(black_box(h).into(), z, &mut bytes));
    });
    let check = Form::new(1, || {
        black_box(ffi_face::check(black_box(h).into()));
    });
    let [to_list, to_sheet, check] = best_times(turns, [to_list, to_sheet, check]);
    let (name, read, stored) = (&code.name, to_list / check, to_sheet / check);
    println!(
        "| {name} | {z} | {read:.2} | {stored:.2} | {to_list:.2} | {to_sheet:.2} | {check:.2} |"
    );
}

pub fn measure(turns: usize) {
    println!();
    println!(
        "Circulant sheets (`mlgd_sheet_to_list`, `mlgd_list_to_sheet`) and the matrix check \
         (`mlgd_check`), which both contain, CPU time of a call on the code with blocks of Z × Z. The \
         three take turns, and the best of {turns} turns of each counts, a turn being the mean of one \
         call or of as many as take a millisecond. EG1023 with blocks of 1 × 1 is the longest sheet."
    );
    println!();
    println!("| code | Z | sheet to list / check | list to sheet / check | sheet to list µs | list to sheet µs | check µs |");
    println!("|---|---|---|---|---|---|---|");
    for (code, z) in [
        (codes::qc961(), 31),
        (codes::tanner155(), 31),
        (codes::eg1023(), 1),
    ] {
        measure_code(&code, z, turns);
    }
}
