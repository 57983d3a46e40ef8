//! The weighted means of dense samples against their bound, by whole numbers: each part is given by the port's own code over `slew_sample_path`, and judged apart,
//! over whole numbers of 2^-1074 with as many digits as they need.

use crate::ffi::slew_sample_path;
use crate::random::Random;
use std::cmp::Ordering;

/// Three pairs, and how far to go from the first to the second of each.
pub struct Case {
    pub a: [f64; 3],
    pub b: [f64; 3],
    pub fraction: f64,
}

/// What a mean may pass the larger of its two by: 2^-50 of it and 16 units, or the units alone.
#[derive(Clone, Copy, PartialEq)]
pub enum Growth {
    Part,
    None,
}

// ---- the port's means
/// A path whose first two nodes have these numbers, as rates where they are small and as body momenta, at the times 0 and 1; the time asked for is the fraction. Where that is 0 the
/// second node stands so late that the computed fraction of the least time above 0 is 0.
fn nodes(case: &Case, rates: bool) -> ([[f64; 22]; 17], f64) {
    let (time, next) = if case.fraction == 0.0 { (5e-324, 1.0e300) } else { (case.fraction, 1.0) };
    let mut nodes = [[0.0; 22]; 17];
    for (k, node) in nodes.iter_mut().enumerate() {
        node[0] = [0.0, next, 2.0 * next][k.min(2)];
        node[1] = 1.0;
        let from = if k == 0 { &case.a } else { &case.b };
        if rates {
            node[5..8].copy_from_slice(from);
        }
        node[11..14].copy_from_slice(from);
    }
    (nodes, time)
}

/// Inertia, tolerance, number and acceleration under which every sample is given where its turn is small: 17 samples, of which the last is at the path's duration.
const INERTIA: [f64; 9] = [1.0, 0.0, 0.0, 0.0, 1.0, 0.0, 0.0, 0.0, 1.0];

/// Rates of at most this are sent as rates too: then no turn is refused.
const SMALL: f64 = 500.0;

/// The three means: the body momentum's, and the rate's with the same bits where it was asked.
pub fn means(case: &Case) -> [f64; 3] {
    let small = case.a.iter().chain(&case.b).all(|x| x.abs() <= SMALL);
    let (nodes, time) = nodes(case, small);
    let (mut out, mut place) = ([1.0; 14], 77);
    let number = slew_sample_path(&INERTIA, 0.5, time, &nodes, 17, 0.0, 16, &mut out, &mut place);
    assert!(number == 0 && out[0].to_bits() == time.to_bits(), "the sample was not given at its time: {number}");
    let given: [f64; 3] = out[11..14].try_into().unwrap();
    assert!(!small || (0..3).all(|k| out[5 + k].to_bits() == given[k].to_bits()), "rate and momentum differ");
    given
}

// ---- judged apart
/// A whole number of 36 digits to the base 2^64, the lowest first.
#[derive(Clone, Copy, PartialEq, Eq)]
struct Whole([u64; 36]);

impl Whole {
    /// n times 2^shift.
    fn new(n: u64, shift: usize) -> Self {
        let mut digits = [0; 36];
        let wide = u128::from(n) << (shift % 64);
        digits[shift / 64] = wide as u64;
        digits[shift / 64 + 1] = (wide >> 64) as u64;
        Whole(digits)
    }

    /// The size of a finite x in units of 2^-1074, times 2^shift.
    fn size(x: f64, shift: usize) -> Self {
        let (exponent, digits) = (x.to_bits() >> 52 & 0x7FF, x.to_bits() & ((1 << 52) - 1));
        match exponent {
            0 => Whole::new(digits, shift),
            _ => Whole::new(digits | 1 << 52, shift + exponent as usize - 1),
        }
    }

    fn plus(self, other: Self) -> Self {
        let mut carry = 0;
        Whole(std::array::from_fn(|k| {
            let sum = u128::from(self.0[k]) + u128::from(other.0[k]) + carry;
            carry = sum >> 64;
            sum as u64
        }))
    }

    fn order(&self, other: &Self) -> Ordering {
        self.0.iter().rev().cmp(other.0.iter().rev())
    }
}

/// The larger one in size.
fn larger(a: f64, b: f64) -> f64 {
    if a.abs() < b.abs() { b } else { a }
}

/// Whether w is finite and 2^50 |w| <= (2^50 + 1) max(|a|, |b|) + 2^50 * 16; without growth, <= 2^50 max(|a|, |b|) + 2^50 * 16.
pub fn within(a: f64, b: f64, w: f64, growth: Growth) -> bool {
    let most = larger(a, b);
    let bound = Whole::size(most, 50).plus(Whole::new(16, 50));
    let bound = if growth == Growth::Part { bound.plus(Whole::size(most, 0)) } else { bound };
    w.is_finite() && Whole::size(w, 50).order(&bound) != Ordering::Greater
}

// ---- inputs
/// A finite number of every kind: subnormals, the largest ones, powers of two and neighbours, every exponent alike, plain ones.
fn number(r: &mut Random) -> f64 {
    let x = match r.below(8) {
        0 => f64::from_bits(r.word() >> (12 + r.below(52))),
        1 => f64::from_bits(f64::MAX.to_bits() - (r.word() >> (12 + r.below(52)))),
        2 => f64::from_bits((r.below(2047) << 52).wrapping_add(r.below(9)).wrapping_sub(4) & (u64::MAX >> 1)),
        3 => [0.0, 1.0, 5e-324, f64::MIN_POSITIVE, f64::MAX][r.below(5) as usize],
        4 => r.any(),
        _ => r.tame(),
    };
    let x = if x.is_finite() { x } else { r.unit() };
    if r.one_in(2) { x } else { -x }
}

/// A second number: the same, its negative, a few last places away, or another.
fn other(r: &mut Random, a: f64) -> f64 {
    let near = r.near(a);
    match r.below(6) {
        0 | 1 => a,
        2 => -a,
        3 if near.is_finite() => near,
        _ => number(r),
    }
}

/// A fraction from 0 to 1: the ends and their neighbours, few digits (so that products end in ties), powers of two, tiny ones, any.
fn fraction(r: &mut Random) -> f64 {
    let few = 1u64 << (1 + r.below(8));
    let bits = match r.below(8) {
        0 => return [0.0, 1.0, 0.5, 5e-324][r.below(4) as usize],
        1 => 1.0f64.to_bits() - r.below(9),
        2 => 0.5f64.to_bits() - 4 + r.below(9),
        3 => return (1 + r.below(few)) as f64 / few as f64,
        4 => r.below(0x3FF) << 52,
        5 => r.word() >> (12 + r.below(52)),
        6 => r.below(1.0f64.to_bits() + 1),
        _ => return r.unit(),
    };
    f64::from_bits(bits)
}

pub fn case(r: &mut Random) -> Case {
    let a = std::array::from_fn(|_| number(r));
    let b = a.map(|x| other(r, x));
    Case { a, b, fraction: fraction(r) }
}
