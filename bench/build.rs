//! With the feature `measure`: links libffi_bench.a and libplain_replay.a of build/staticlib, or of the
//! folder that LIBFFI_DIR names. The library itself, libffi.a, is linked by `ffi_face`.

use std::path::{Path, PathBuf};

/// The archives, and what makes them.
const ARCHIVES: [(&str, &str); 2] = [
    ("ffi_bench", "`make bench` makes it"),
    ("plain_replay", "`make bench` compiles bench/c/replay.c"),
];

fn main() {
    println!("cargo::rerun-if-env-changed=LIBFFI_DIR");
    if std::env::var_os("CARGO_FEATURE_MEASURE").is_none() {
        return;
    }
    let folder = match std::env::var_os("LIBFFI_DIR") {
        Some(folder) => PathBuf::from(folder),
        None => Path::new(env!("CARGO_MANIFEST_DIR")).join("../build/staticlib"),
    };
    println!("cargo::rustc-link-search=native={}", folder.display());
    for (name, how) in ARCHIVES {
        let archive = folder.join(format!("lib{name}.a"));
        println!("cargo::rerun-if-changed={}", archive.display());
        if !archive.exists() {
            println!("cargo::error=lib{name}.a is missing: {how}");
            return;
        }
        println!("cargo::rustc-link-lib=static={name}");
    }
}
