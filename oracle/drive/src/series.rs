//! How the series of the angles end: the sum, and how many terms were formed.

use crate::ffi::*;
use crate::leaves::{for_arc, for_turn};
use crate::random::Random;
use crate::recipes;
use crate::words::{Entry, Reader, Words};
use std::sync::OnceLock;

/// Inputs of a quick run and of a full one: 50 million in all. None is stored.
const SIZES: [u64; 3] = [100_000, 12_500_000, 0];

/// The words of a series, or that none was formed; how many terms it had is counted.
fn told<const N: usize>(out: &mut Words, answer: Option<[u64; N]>) {
    const FORMED: [&str; 5] = ["1 term", "2 to 4", "5 to 8", "9 to 59", "60"];
    out.number(if answer.is_some() { 0 } else { 11 });
    let Some(words) = answer else { return };
    words.iter().for_each(|w| out.n(*w));
    for terms in words.iter().skip(1).step_by(2) {
        let place = [1, 4, 8, 59].iter().filter(|most| *terms > **most).count();
        out.met(FORMED[place], 1);
    }
}

/// What a function of ours answers; a refused one must leave what was lent as it was.
fn ours<const N: usize>(x: f64, of: fn(f64, &mut [u64; N]) -> bool) -> Option<[u64; N]> {
    let mut answer = [7; N];
    let given = of(x, &mut answer);
    assert!(given || answer == [7; N], "a series that was not formed touched its answer");
    given.then_some(answer)
}

/// The arguments at which a series gains a term, found by halving: the recipes' counts grow with the argument up to an eighth turn.
fn edges() -> &'static [f64] {
    static EDGES: OnceLock<Vec<f64>> = OnceLock::new();
    EDGES.get_or_init(|| {
        let counts: [fn(f64) -> u64; 2] = [|x| recipes::sine_series(x).map_or(0, |s| s[1]), |x| recipes::cosine_series(x).map_or(0, |s| s[1])];
        let edge = |count: fn(f64) -> u64, terms: u64| {
            let (mut low, mut high) = (0.0f64.to_bits(), 0.78f64.to_bits());
            while low + 1 < high {
                let middle = low.midpoint(high);
                *if count(f64::from_bits(middle)) < terms { &mut low } else { &mut high } = middle;
            }
            f64::from_bits(high)
        };
        counts.iter().flat_map(|count| (2..=9).map(move |terms| edge(*count, terms))).collect()
    })
}

/// Arguments of sin and cos as in their own comparison; in one of three such a one that a series gains a term there, about any quarter turn.
fn for_rest(r: &mut Random, w: &mut Words) {
    if !r.one_in(3) {
        return for_turn(r, w);
    }
    let edge = edges()[r.below(edges().len() as u64) as usize];
    let size = if r.one_in(2) { r.near(edge) } else { edge * (0.99 + 0.02 * r.unit()) };
    let turns = if r.one_in(2) { 0.0 } else { (r.below(1300) as f64 - 650.0) * std::f64::consts::FRAC_PI_2 };
    w.f(turns + if r.one_in(2) { size } else { -size });
}

/// Arguments of acos as in its own comparison; in one of two the cosine of an angle of any size.
fn for_arc_terms(r: &mut Random, w: &mut Words) {
    if r.one_in(2) {
        return for_arc(r, w);
    }
    let angle = std::f64::consts::FRAC_PI_2 * r.unit() * (2.0f64).powi(-(r.below(30) as i32));
    let cosine = angle.cos();
    w.f(r.near(cosine));
}

/// Both series at once, as sin_cos has them, beside the two recipes.
fn both(x: f64) -> Option<[u64; 4]> {
    let ([s, j], [c, k]) = (recipes::sine_series(x)?, recipes::cosine_series(x)?);
    Some([s, j, c, k])
}

pub const SERIES: [Entry; 4] = [
    Entry::new(
        30,
        "sine's series",
        SIZES,
        for_rest,
        |i, o| told(o, ours(Reader(i).f(), |x, a| slew_sine_series(x, a))),
        |i, o| {
            told(o, recipes::sine_series(Reader(i).f()));
            true
        },
    ),
    Entry::new(
        31,
        "cosine's series",
        SIZES,
        for_rest,
        |i, o| told(o, ours(Reader(i).f(), |x, a| slew_cosine_series(x, a))),
        |i, o| {
            told(o, recipes::cosine_series(Reader(i).f()));
            true
        },
    ),
    Entry::new(
        32,
        "both series",
        SIZES,
        for_rest,
        |i, o| told(o, ours(Reader(i).f(), |x, a| slew_both_series(x, a))),
        |i, o| {
            told(o, both(Reader(i).f()));
            true
        },
    ),
    Entry::new(
        33,
        "arc cosine's series",
        SIZES,
        for_arc_terms,
        |i, o| told(o, ours(Reader(i).f(), |x, a| slew_arc_series(x, a))),
        |i, o| {
            told(o, recipes::arc_series(Reader(i).f()));
            true
        },
    ),
];
