//! means [COUNT] [--seed N] [--without-growth]: COUNT triples of two numbers and a fraction from 0 to 1 through the port's dense samples, 20 million where none is named; each mean must be finite
//! and within its bound. How often a mean passes the larger of its two is told, and by how many last places at most; and how often it would pass the bound with 2^-50 replaced by 0, which a
//! run must meet, or its inputs are too tame. With --without-growth that smaller bound is the one that is judged by. Exit status 1 where a mean is past it.

use drive::means::{Growth, case, means, within};
use drive::random::Random;
use std::process::ExitCode;

/// What a run has seen.
#[derive(Default)]
struct Tally {
    triples: u64,
    ties: u64,
    tiny: u64,
    huge: u64,
    ends: u64,
    larger: u64,
    places: u64,
    grown: u64,
    past: u64,
}

/// The larger size of a and b.
fn most(a: f64, b: f64) -> f64 {
    a.abs().max(b.abs())
}

/// Half of x's last place.
fn half(x: f64) -> f64 {
    (f64::from_bits(x.abs().to_bits() + 1) - x.abs()) / 2.0
}

/// Whether a product or the sum lies exactly between two numbers: the part that is rounded away is half of a last place.
fn has_tie(a: f64, b: f64, f: f64) -> bool {
    let (p, q) = (a * (1.0 - f), b * f);
    let product = |x: f64, y: f64, p: f64| p.abs() > 1.0e-280 && x.mul_add(y, -p).abs() == half(p);
    let (s, part) = (p + q, (p + q) - p);
    product(a, 1.0 - f, p) || product(b, f, q) || ((p - (s - part)) + (q - part)).abs() == half(s)
}

fn judge(a: f64, b: f64, f: f64, w: f64, growth: Growth, tally: &mut Tally) {
    tally.triples += 1;
    tally.ties += u64::from(has_tie(a, b, f));
    tally.tiny += u64::from(a.is_subnormal() || b.is_subnormal());
    tally.huge += u64::from(most(a, b) >= f64::MAX / 2.0);
    tally.ends += u64::from(f == 0.0 || f == 1.0);
    if w.abs() > most(a, b) {
        tally.larger += 1;
        tally.places = tally.places.max(w.abs().to_bits() - most(a, b).to_bits());
    }
    tally.grown += u64::from(!within(a, b, w, Growth::None));
    if !within(a, b, w, growth) {
        tally.past += 1;
        if tally.past <= 3 {
            println!("past the bound: a {:016X}, b {:016X}, fraction {:016X}, mean {:016X}", a.to_bits(), b.to_bits(), f.to_bits(), w.to_bits());
        }
    }
}

fn words(name: &str, words: &[String]) -> Option<u64> {
    words.iter().position(|w| w == name).and_then(|k| words.get(k + 1)).and_then(|w| w.parse().ok())
}

fn main() -> ExitCode {
    let given: Vec<String> = std::env::args().skip(1).collect();
    let count = given.first().and_then(|w| w.parse().ok()).unwrap_or(20_000_000);
    let growth = if given.iter().any(|w| w == "--without-growth") { Growth::None } else { Growth::Part };
    let mut random = Random::new(words("--seed", &given).unwrap_or(1));
    let mut tally = Tally::default();
    while tally.triples < count {
        let case = case(&mut random);
        let given = means(&case);
        (0..3).for_each(|k| judge(case.a[k], case.b[k], case.fraction, given[k], growth, &mut tally));
    }
    println!("triples {}: with a tie {}, a subnormal number {}, one of the top binade {}, fraction 0 or 1 {}", tally.triples, tally.ties, tally.tiny, tally.huge, tally.ends);
    println!("above the larger of the two {}, by at most {} last places", tally.larger, tally.places);
    println!("past the bound with 2^-50 replaced by 0: {}", tally.grown);
    println!("past the bound: {}", tally.past);
    ExitCode::from(u8::from(tally.past > 0 || tally.grown == 0))
}
