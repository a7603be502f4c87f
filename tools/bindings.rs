//! Writes what C and Rust see of the boundary crates, from their sources: `bindings header` the C header, `bindings raw` the Rust
//! declarations. The boundary crates are those whose names begin with `ffi`, in the order of crates.txt; the refusal numbers are the bytes
//! among the constants of octets. A comment in front of an item or a field goes along; that at the top of the first crate is the header's.

use std::fmt::Write;
use std::{env, fs, process};

/// Constants that a preprocessor may have to test.
const MACROS: &str = "VERSION_";
const WIDTH: usize = 116;

struct Constant {
    name: String,
    kind: String,
    value: String,
    about: Vec<String>,
}

struct Field {
    name: String,
    kind: String,
    about: Vec<String>,
}

struct Record {
    name: String,
    fields: Vec<Field>,
    about: Vec<String>,
}

struct Function {
    name: String,
    parameters: Vec<(String, String)>,
    answer: String,
    about: Vec<String>,
}

enum Item {
    Constants(Vec<Constant>),
    Record(Record),
    Function(Function),
}

fn fail(why: &str) -> ! {
    eprintln!("bindings: {why}");
    process::exit(1);
}

/// The text between two marks.
fn between<'a>(text: &'a str, open: &str, close: &str) -> Option<&'a str> {
    let rest = &text[text.find(open)? + open.len()..];
    Some(&rest[..rest.find(close)?])
}

/// The constants, structs and exported functions of a source, each with the comment in front of it.
fn items(source: &str, found: &mut Vec<Item>) {
    let lines: Vec<&str> = source.lines().map(str::trim).collect();
    let (mut about, mut exported, mut i) = (Vec::new(), false, 0);
    while i < lines.len() {
        let line = lines[i];
        if let Some(words) = line.strip_prefix("//") {
            about.push(words.trim().to_string());
        } else if line == "#[unsafe(no_mangle)]" {
            exported = true;
        } else if let Some(rest) = line.strip_prefix("pub const ") {
            constant(rest, std::mem::take(&mut about), found);
        } else if let Some(rest) = line.strip_prefix("pub struct ") {
            i = record(rest, &lines, i, std::mem::take(&mut about), found);
        } else if exported && line.starts_with("pub extern \"C\" fn ") {
            i = function(&lines, i, std::mem::take(&mut about), found);
            exported = false;
        } else if !line.starts_with("#[") {
            about.clear();
        }
        i += 1;
    }
}

/// Constants in a row are one group.
fn constant(rest: &str, about: Vec<String>, found: &mut Vec<Item>) {
    let Some((name, rest)) = rest.split_once(": ") else { return };
    let Some((kind, value)) = rest.split_once(" = ") else { return };
    let value = value.trim_end_matches(';').to_string();
    if !value.chars().all(|c| c.is_ascii_digit()) {
        return;
    }
    let one = Constant { name: name.to_string(), kind: kind.to_string(), value, about };
    match found.last_mut() {
        Some(Item::Constants(row)) => row.push(one),
        _ => found.push(Item::Constants(vec![one])),
    }
}

fn record(rest: &str, lines: &[&str], start: usize, about: Vec<String>, found: &mut Vec<Item>) -> usize {
    let name = rest.trim_end_matches('{').trim().to_string();
    let (mut fields, mut words, mut i) = (Vec::new(), Vec::new(), start + 1);
    while i < lines.len() && lines[i] != "}" {
        if let Some(comment) = lines[i].strip_prefix("//") {
            words.push(comment.trim().to_string());
        } else if let Some((field, kind)) = lines[i].trim_start_matches("pub ").trim_end_matches(',').split_once(": ") {
            fields.push(Field { name: field.into(), kind: kind.into(), about: std::mem::take(&mut words) });
        }
        i += 1;
    }
    found.push(Item::Record(Record { name, fields, about }));
    i
}

/// A signature may run over several lines; its clauses or its body end it.
fn function(lines: &[&str], start: usize, about: Vec<String>, found: &mut Vec<Item>) -> usize {
    let mut text = String::new();
    let mut i = start;
    while i < lines.len() && !lines[i].starts_with("ensures") && lines[i] != "{" {
        let _ = write!(text, "{} ", lines[i]);
        i += 1;
    }
    let name = between(&text, "fn ", "(").unwrap_or_else(|| fail(&text)).to_string();
    let inside = between(&text, "(", ")").unwrap_or_else(|| fail(&text));
    let parameters = inside.split(", ").filter_map(|p| p.trim().trim_end_matches(',').split_once(": "));
    let parameters = parameters.map(|(p, kind)| (p.to_string(), kind.to_string())).collect();
    let answer = text.split("-> ").nth(1).unwrap_or_else(|| fail(&text)).trim().to_string();
    found.push(Item::Function(Function { name, parameters, answer, about }));
    i
}

/// Words in lines of at most `width` characters.
fn wrapped(about: &[String], width: usize) -> Vec<String> {
    let mut lines = vec![String::new()];
    for word in about.iter().flat_map(|line| line.split(' ')) {
        let last = lines.last_mut().expect("one line");
        if last.is_empty() {
            last.push_str(word);
        } else if last.chars().count() + 1 + word.chars().count() <= width {
            last.push(' ');
            last.push_str(word);
        } else {
            lines.push(word.to_string());
        }
    }
    lines
}

fn c_comment(about: &[String]) -> String {
    if about.is_empty() {
        return String::new();
    }
    format!("/* {} */\n", wrapped(about, WIDTH).join("\n * "))
}

fn c_type(kind: &str) -> String {
    match kind {
        "u8" | "u16" | "u32" | "u64" | "i64" => {
            format!("{}int{}_t", if kind.starts_with('u') { "u" } else { "" }, &kind[1..])
        }
        "usize" => "size_t".into(),
        other => other.into(),
    }
}

fn c_field(field: &Field) -> String {
    match field.kind.strip_prefix('[').and_then(|array| array.trim_end_matches(']').split_once("; ")) {
        Some((element, length)) => format!("{} {}[{length}];", c_type(element), field.name),
        None => format!("{} {};", c_type(&field.kind), field.name),
    }
}

fn c_parameter((name, kind): &(String, String)) -> String {
    match kind.as_str() {
        "&[u8]" => format!("const uint8_t *{name}, size_t {name}_len"),
        "&mut [u8]" => format!("uint8_t *{name}, size_t {name}_len"),
        _ => format!("{} {name}", c_type(kind)),
    }
}

fn c_constants(row: &[Constant]) -> String {
    let mut out = String::new();
    let (macros, enumerators): (Vec<_>, Vec<_>) = row.iter().partition(|c| c.name.starts_with(MACROS));
    for c in macros {
        let _ = write!(out, "{}#define QZ_{} {}\n", c_comment(&c.about), c.name, c.value);
    }
    if !enumerators.is_empty() {
        out.push_str("enum {\n");
        for (i, c) in enumerators.iter().enumerate() {
            let comma = if i + 1 < enumerators.len() { "," } else { "" };
            for line in c_comment(&c.about).lines() {
                let _ = writeln!(out, "    {line}");
            }
            let _ = writeln!(out, "    QZ_{} = {}{comma}", c.name, c.value);
        }
        out.push_str("};\n");
    }
    out
}

fn c_record(record: &Record) -> String {
    let mut out = format!("{}typedef struct {} {{\n", c_comment(&record.about), record.name);
    for field in &record.fields {
        for line in c_comment(&field.about).lines() {
            let _ = writeln!(out, "    {line}");
        }
        let _ = writeln!(out, "    {}", c_field(field));
    }
    let _ = writeln!(out, "}} {};", record.name);
    out
}

fn c_function(function: &Function) -> String {
    let parameters: Vec<String> = function.parameters.iter().map(c_parameter).collect();
    let inside = if parameters.is_empty() { "void".to_string() } else { parameters.join(", ") };
    format!("{}{} {}({inside});\n", c_comment(&function.about), c_type(&function.answer), function.name)
}

fn header(top: &[String], found: &[Item]) -> String {
    let mut out = String::from("/* Generated by tools/bindings.rs from the boundary crates: change those.\n *\n");
    for paragraph in top.split(|line| line.is_empty()) {
        let _ = writeln!(out, " * {}\n *", wrapped(paragraph, WIDTH).join("\n * "));
    }
    out.truncate(out.trim_end_matches(" *\n").len());
    out.push_str(" */\n#ifndef QUIZOTEPEC_H\n#define QUIZOTEPEC_H\n\n");
    out.push_str("#include <stdbool.h>\n#include <stddef.h>\n#include <stdint.h>\n\n");
    out.push_str("#ifdef __cplusplus\nextern \"C\" {\n#endif\n");
    for item in found {
        out.push('\n');
        out.push_str(&match item {
            Item::Constants(row) => c_constants(row),
            Item::Record(record) => c_record(record),
            Item::Function(function) => c_function(function),
        });
    }
    out.push_str("\n#ifdef __cplusplus\n}\n#endif\n\n#endif\n");
    out
}

fn rust_comment(about: &[String], indent: &str) -> String {
    let lines = if about.is_empty() { Vec::new() } else { wrapped(about, WIDTH - indent.len()) };
    lines.iter().map(|line| format!("{indent}/// {line}\n")).collect()
}

fn rust_parameter((name, kind): &(String, String)) -> String {
    match kind.as_str() {
        "&[u8]" => format!("{name}: *const u8, {name}_len: usize"),
        "&mut [u8]" => format!("{name}: *mut u8, {name}_len: usize"),
        _ => format!("{name}: {kind}"),
    }
}

fn raw(found: &[Item]) -> String {
    let mut out = String::from("//! The functions of the archive as C sees them: generated by tools/bindings.rs.\n\n");
    let mut functions = String::new();
    for item in found {
        match item {
            Item::Constants(row) => {
                for c in row {
                    let _ = write!(out, "{}pub const {}: {} = {};\n\n", rust_comment(&c.about, ""), c.name, c.kind, c.value);
                }
            }
            Item::Record(record) => {
                let _ = write!(out, "{}#[repr(C)]\n#[derive(Clone, Copy)]\n", rust_comment(&record.about, ""));
                let _ = writeln!(out, "pub struct {} {{", record.name);
                for field in &record.fields {
                    let _ = write!(out, "{}    pub {}: {},\n", rust_comment(&field.about, "    "), field.name, field.kind);
                }
                out.push_str("}\n\n");
            }
            Item::Function(function) => {
                let parameters: Vec<String> = function.parameters.iter().map(rust_parameter).collect();
                let inside = parameters.join(", ");
                let _ = writeln!(functions, "    pub fn {}({inside}) -> {};", function.name, function.answer);
            }
        }
    }
    let _ = write!(out, "extern \"C\" {{\n{functions}}}\n");
    out
}

fn main() {
    let list = fs::read_to_string("crates.txt").unwrap_or_else(|_| fail("run it at the repository's root"));
    let names = list.lines().filter_map(|l| l.split([':', ' ']).next());
    let crates: Vec<&str> = names.filter(|name| name.starts_with("ffi")).collect();
    let (mut top, mut found) = (Vec::new(), Vec::new());
    items(&fs::read_to_string("crates/octets/src/lib.rt").unwrap_or_else(|_| fail("no octets")), &mut found);
    found.retain_mut(|item| match item {
        Item::Constants(row) => {
            row.retain(|c| c.kind == "u8");
            !row.is_empty()
        }
        _ => false,
    });
    for name in crates {
        let path = format!("crates/{name}/src/lib.rt");
        let source = fs::read_to_string(&path).unwrap_or_else(|_| fail(&path));
        if top.is_empty() {
            let lines = source.lines().map_while(|line| line.strip_prefix("//"));
            top = lines.map(|line| line.trim().to_string()).collect();
        }
        let behind = source.lines().skip_while(|line| line.starts_with("//")).collect::<Vec<_>>().join("\n");
        items(&behind, &mut found);
    }
    match env::args().nth(1).as_deref() {
        Some("header") => print!("{}", header(&top, &found)),
        Some("raw") => print!("{}", raw(&found)),
        _ => fail("bindings header | raw"),
    }
}
