//! The proved library and its bench program against plain Rust and C, the independent implementation and a
//! bare copy. It prints ratios, never bare times: all of them, or those of the parts that the arguments name.

mod bodies;
mod dates;
mod measure;
mod media;
mod pieces;
mod plain_date;
mod programs;
mod ranges;
mod readers;
mod seconds;
mod short_bodies;
mod trailers;
mod urls;
mod values;
mod writing;

/// What is measured, each under its own heading.
type Part = (&'static str, fn());

const PARTS: [Part; 13] = [
    ("bodies", bodies::print),
    ("short_bodies", short_bodies::print),
    ("pieces", pieces::print),
    ("trailers", trailers::print),
    ("writing", writing::print),
    ("readers", readers::print),
    ("media", media::print),
    ("values", values::print),
    ("dates", dates::print),
    ("seconds", seconds::print),
    ("ranges", ranges::print),
    ("urls", urls::print),
    ("programs", programs::print),
];

fn main() {
    let named: Vec<String> = std::env::args().skip(1).collect();
    let unknown = named.iter().find(|name| PARTS.iter().all(|(part, _)| part != name));
    if let Some(name) = unknown {
        let parts = PARTS.map(|(part, _)| part).join(" ");
        eprintln!("there is no part {name}; there are {parts}");
        std::process::exit(1);
    }
    let is_asked = |part: &&Part| named.is_empty() || named.iter().any(|name| name == part.0);
    for (index, (_, print)) in PARTS.iter().filter(is_asked).enumerate() {
        if index > 0 {
            println!();
        }
        print();
    }
}
