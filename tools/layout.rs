//! Lists the lines that are too long to read: above 140 characters where a person reads, above 200 in proofs. Exits with 1 where
//! there is one.

use std::path::{Path, PathBuf};
use std::{env, fs, process};

const READ: usize = 140;
const PROOF: usize = 200;

/// The files below a folder, in order, without what is built.
fn files(dir: &Path, found: &mut Vec<PathBuf>) {
    let mut entries: Vec<PathBuf> = match fs::read_dir(dir) {
        Ok(entries) => entries.filter_map(|e| e.ok().map(|e| e.path())).collect(),
        Err(_) => return,
    };
    entries.sort();
    for path in entries {
        if path.is_dir() {
            if path.file_name().is_some_and(|name| name != "target" && name != "out") {
                files(&path, found);
            }
        } else {
            found.push(path);
        }
    }
}

/// The most characters of a line of the file, if a person reads it.
fn limit(path: &Path) -> Option<usize> {
    let extension = path.extension().and_then(|e| e.to_str()).unwrap_or("");
    let script = extension.is_empty() && path.components().any(|part| part.as_os_str() == "host");
    if !script && !["antt", "rt", "edit", "rs", "c", "h", "sh"].contains(&extension) {
        return None;
    }
    let proof = extension == "antt" && path.components().any(|part| part.as_os_str() == "proofs");
    let demands = path.file_name().is_some_and(|name| name == "Demands.antt");
    Some(if proof && !demands { PROOF } else { READ })
}

fn main() {
    let roots: Vec<String> = env::args().skip(1).collect();
    let mut paths = Vec::new();
    for root in &roots {
        files(Path::new(root), &mut paths);
    }
    let (mut read, mut long) = (0, 0);
    for path in &paths {
        let Some(most) = limit(path) else { continue };
        read += 1;
        for (i, line) in fs::read_to_string(path).unwrap_or_default().lines().enumerate() {
            let length = line.chars().count();
            // an import is one line, as `rt fmt` lays it out
            if length > most && !line.starts_with("use ") && !line.starts_with("ghost use ") {
                long += 1;
                println!("{}:{}: {length} characters, above {most}", path.display(), i + 1);
            }
        }
    }
    println!("{long} lines too long in {read} files");
    process::exit(if long > 0 || read == 0 { 1 } else { 0 });
}
