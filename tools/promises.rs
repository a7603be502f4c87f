//! Lists the public functions of the crates below a folder that require something, or that promise nothing.
//! A public function must be total: it has an `ensures` and no `requires`. Exits with 1 where one falls short.

use std::path::{Path, PathBuf};
use std::{env, fs, process};

/// The source files below a folder, in order.
fn sources(dir: &Path, found: &mut Vec<PathBuf>) {
    let mut entries: Vec<PathBuf> = match fs::read_dir(dir) {
        Ok(entries) => entries.filter_map(|e| e.ok().map(|e| e.path())).collect(),
        Err(_) => return,
    };
    entries.sort();
    for path in entries {
        if path.is_dir() {
            if path.file_name().is_some_and(|name| name != "out") {
                sources(&path, found);
            }
        } else if path.extension().is_some_and(|e| e == "rt") {
            found.push(path);
        }
    }
}

/// The text without comments; line breaks stay.
fn without_comments(text: &str) -> String {
    text.lines()
        .map(|line| line.split("//").next().unwrap_or(""))
        .collect::<Vec<_>>()
        .join("\n")
}

/// The name of the public function that begins at this line, if one does.
fn public_function(line: &str) -> Option<&str> {
    let rest = line.trim_start().strip_prefix("pub ")?;
    let rest = rest.strip_prefix("extern \"C\" ").unwrap_or(rest);
    let rest = rest.strip_prefix("fn ")?;
    rest.split(|c: char| !c.is_alphanumeric() && c != '_').next()
}

/// Does the word stand alone at the beginning of the line?
fn begins_with(line: &str, word: &str) -> bool {
    let line = line.trim_start();
    line.strip_prefix(word).is_some_and(|rest| !rest.starts_with(|c: char| c.is_alphanumeric() || c == '_'))
}

/// What is wrong with the function whose signature begins the lines: its clauses stand before the line with its body's brace.
fn fault(lines: &[&str]) -> Option<&'static str> {
    let mut promises = false;
    for line in lines {
        if begins_with(line, "requires") {
            return Some("requires something");
        }
        promises |= begins_with(line, "ensures");
        if line.trim() == "{" || (line.trim_end().ends_with('{') && !begins_with(line, "ensures")) {
            break;
        }
    }
    if promises { None } else { Some("promises nothing") }
}

fn main() {
    let root = env::args().nth(1).unwrap_or_else(|| "crates".into());
    let mut files = Vec::new();
    sources(Path::new(&root), &mut files);
    let (mut total, mut short) = (0, 0);
    for file in &files {
        let text = without_comments(&fs::read_to_string(file).unwrap_or_default());
        let lines: Vec<&str> = text.lines().collect();
        for (i, line) in lines.iter().enumerate() {
            let Some(name) = public_function(line) else { continue };
            total += 1;
            if let Some(why) = fault(&lines[i..]) {
                short += 1;
                println!("{}:{}: {name}: {why}", file.display(), i + 1);
            }
        }
    }
    println!("{short} of {total} public functions fall short");
    process::exit(if short > 0 || total == 0 { 1 } else { 0 });
}
