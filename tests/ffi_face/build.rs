//! Links build/staticlib/libffi.a, or the libffi.a in the folder that LIBFFI_DIR names.

use std::path::{Path, PathBuf};

fn main() {
    println!("cargo::rerun-if-env-changed=LIBFFI_DIR");
    let folder = match std::env::var_os("LIBFFI_DIR") {
        Some(folder) => PathBuf::from(folder),
        None => Path::new(env!("CARGO_MANIFEST_DIR")).join("../../build/staticlib"),
    };
    let archive = folder.join("libffi.a");
    println!("cargo::rerun-if-changed={}", archive.display());
    if !archive.exists() {
        println!("cargo::error=libffi.a is missing: run `make staticlib` first");
        return;
    }
    println!("cargo::rustc-link-search=native={}", folder.display());
    println!("cargo::rustc-link-lib=static=ffi");
}
