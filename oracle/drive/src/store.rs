//! Stored cases: lines of words that the test program of crates/replay runs without Rust at hand.

use crate::libraries::Library;
use crate::random::Random;
use crate::words::{Entry, Words};
use std::fmt::Write as _;

/// No line of the stored text crosses a multiple of this many bytes: empty lines fill up.
const BLOCK: usize = 65_536;

/// Added to a function's number where the answer is wrong on purpose.
const WRONG: u32 = 0x1000;

/// A case as a line: the function's number, the counts of words, the words.
fn line(number: u32, inputs: &[u64], answer: &[u64]) -> String {
    let mut line = format!("{number:x} {:x} {:x}", inputs.len(), answer.len());
    for word in inputs.iter().chain(answer) {
        write!(line, " {word:x}").expect("a string");
    }
    line + "\n"
}

/// An answer with another word at k: the next float or number, or 0 for a NaN.
fn wrong(answer: &[u64], k: usize) -> Vec<u64> {
    let mut other = answer.to_vec();
    other[k] = if f64::from_bits(other[k]).is_nan() { 0 } else { other[k] ^ 1 };
    other
}

/// So many cases of a function as it keeps, those left out for which the Rust has no answer. Then two of them with an answer that is wrong on purpose: the first case
/// in its first word, the last in its last.
fn cases(entry: &Entry, seed: u64) -> Vec<String> {
    let mut random = Random::new(seed ^ u64::from(entry.number) << 32);
    let case = || {
        let (mut inputs, mut rust) = (Words::default(), Words::default());
        (entry.make)(&mut random, &mut inputs);
        Some(entry.by_rust(&inputs.0, &mut rust).then_some((inputs.0, rust.0)))
    };
    let kept: Vec<_> = std::iter::from_fn(case).flatten().take(entry.kept as usize).collect();
    let first = kept.first().map(|(inputs, answer)| line(entry.number + WRONG, inputs, &wrong(answer, 0)));
    let last = kept.last().map(|(inputs, answer)| line(entry.number + WRONG, inputs, &wrong(answer, answer.len() - 1)));
    kept.iter().map(|(inputs, answer)| line(entry.number, inputs, answer)).chain(first).chain(last).collect()
}

/// Writes the cases of these functions; how many lines.
pub fn store(chosen: &[(&Library, &Entry)], path: &str, seed: u64) -> std::io::Result<usize> {
    let lines: Vec<String> = chosen.iter().flat_map(|(_, entry)| cases(entry, seed)).collect();
    let mut text = String::new();
    for line in &lines {
        while text.len() % BLOCK + line.len() > BLOCK {
            text.push('\n');
        }
        text.push_str(line);
    }
    std::fs::write(path, text)?;
    Ok(lines.len())
}
