//! The crate against the header and the declarations: one version, and no function left out.

use quizotepec::{library_version, LibraryVersion};
use std::collections::BTreeSet;
use std::fs;
use std::path::PathBuf;

const HEADER: &str = include_str!("../../include/quizotepec.h");
const DECLARATIONS: &str = include_str!("../src/raw.rs");

#[test]
fn one_version() {
    let defined = |name: &str| -> u32 {
        let define = format!("#define QZ_VERSION_{name} ");
        let number = HEADER.lines().find_map(|line| line.strip_prefix(define.as_str()));
        number.expect("a definition").parse().expect("a number")
    };
    let header = LibraryVersion { major: defined("MAJOR"), minor: defined("MINOR"), patch: defined("PATCH") };
    assert_eq!(LibraryVersion::OF_CRATE, header);
    assert_eq!(library_version(), header);
    assert_eq!(library_version().to_string(), env!("CARGO_PKG_VERSION"));
}

/// The names that begin with `qz_` and have a parenthesis behind, each with what stands in front.
fn named<'a>(text: &'a str, front: &'a str) -> impl Iterator<Item = &'a str> {
    let lines = text.lines().map(str::trim).filter(|line| !line.starts_with("//"));
    let behind = lines.flat_map(move |line| line.split(front).skip(1));
    behind.filter(|rest| rest.starts_with("qz_")).filter_map(|rest| Some(rest.split_once('(')?.0))
}

#[test]
fn every_exported_function_is_wrapped() {
    let declared: BTreeSet<&str> = named(DECLARATIONS, "pub fn ").collect();
    assert!(declared.contains("qz_version_read") && declared.contains("qz_library_version"), "{declared:?}");
    let folder = PathBuf::from(env!("CARGO_MANIFEST_DIR")).join("src");
    let files = fs::read_dir(folder).expect("the sources").map(|file| file.expect("a file").path());
    let sources: Vec<String> = files.map(|file| fs::read_to_string(file).expect("a source")).collect();
    let called: BTreeSet<&str> = sources.iter().flat_map(|source| named(source, "raw::")).collect();
    assert_eq!(called, declared);
}
