//! Links build/staticlib/libfirmware.a, or the libfirmware.a in the folder that LIBFIRMWARE_DIR
//! names.

use std::path::{Path, PathBuf};

fn main() {
    println!("cargo::rerun-if-env-changed=LIBFIRMWARE_DIR");
    let folder = match std::env::var_os("LIBFIRMWARE_DIR") {
        Some(folder) => PathBuf::from(folder),
        None => Path::new(env!("CARGO_MANIFEST_DIR")).join("../../build/staticlib"),
    };
    let archive = folder.join("libfirmware.a");
    println!("cargo::rerun-if-changed={}", archive.display());
    if !archive.exists() {
        println!("cargo::error=libfirmware.a is missing: run `make firmware` first");
        return;
    }
    println!("cargo::rustc-link-search=native={}", folder.display());
    println!("cargo::rustc-link-lib=static=firmware");
}
