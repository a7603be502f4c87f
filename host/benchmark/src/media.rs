//! Media types about as long as allowed: read, and compared, against plain Rust.

use crate::measure::{against, count_for, thousands, Ratio, SHORT_ROUNDS};
use crate::readers;
use independent::plain_values;
use quizotepec::media_equal;
use std::hint::black_box;

const PARAMETERS: usize = 16;
/// How many bytes all names begin with; the names are as long as each other.
const SHARED: usize = 503;

/// `;`, a name and `=`, and a value; they differ by their index.
fn parameter(index: usize) -> String {
    let shared: String = "parameter-of-the-type-".chars().cycle().take(SHARED).collect();
    format!(";{shared}{index:03}=v{index:02}")
}

fn media(indexes: impl Iterator<Item = usize>) -> Vec<u8> {
    let parameters: String = indexes.map(parameter).collect();
    format!("text/html{parameters}").into_bytes()
}

fn compare(first: &[u8], second: &[u8]) -> Ratio {
    assert_eq!(media_equal(first, second), Ok(true));
    assert_eq!(plain_values::media_equal(first, second), Ok(true));
    against(
        count_for(first.len() + second.len()),
        || media_equal(black_box(first), black_box(second)),
        || plain_values::media_equal(black_box(first), black_box(second)),
    )
}

pub fn print() {
    let (sent, again) = (media(0..PARAMETERS), media(0..PARAMETERS));
    let reversed = media((0..PARAMETERS).rev());
    let length = thousands(sent.len());
    println!("Media types of {length} bytes with {PARAMETERS} names that share their first {SHARED} bytes:");
    println!("how many times as long ours takes as plain Rust;");
    println!("medians of {SHORT_ROUNDS} short rounds, and quartiles.");
    println!("{:28} {:>26}", "call", "against plain Rust");
    println!("{:28} {:>26}", "read", readers::media(&sent).to_string());
    for (order, second) in [("in the same order", again), ("in reverse order", reversed)] {
        println!("{:28} {:>26}", format!("equal, {order}"), compare(&sent, &second).to_string());
    }
}

#[cfg(test)]
mod tests {
    use super::*;

    #[test]
    fn values_are_about_as_long_as_allowed() {
        let length = media(0..PARAMETERS).len();
        assert!((8_160..=8_192).contains(&length), "{length}");
    }
}
