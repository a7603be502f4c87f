//! Links the archive of the proved library: that of the folder QUIZOTEPEC_LIB_DIR, as `host/install` fills it, or the one that
//! `host/archive` makes in this repository.

use std::path::PathBuf;
use std::{env, process};

fn main() {
    println!("cargo:rerun-if-changed=build.rs");
    println!("cargo:rerun-if-env-changed=QUIZOTEPEC_LIB_DIR");
    let manifest = env::var_os("CARGO_MANIFEST_DIR").map(PathBuf::from).unwrap_or_default();
    let installed = env::var_os("QUIZOTEPEC_LIB_DIR").map(PathBuf::from);
    let folder = installed.unwrap_or_else(|| manifest.join("../../target/quizotepec"));
    let archive = folder.join("libquizotepec.a");
    println!("cargo:rerun-if-changed={}", archive.display());
    if !archive.is_file() {
        eprintln!("{} is missing: run `sh host/archive` at the repository's root, or", archive.display());
        eprintln!("set QUIZOTEPEC_LIB_DIR to the lib folder of an installed copy");
        process::exit(1);
    }
    println!("cargo:rustc-link-search=native={}", folder.display());
    println!("cargo:rustc-link-lib=static=quizotepec");
}
