//! Whole square root, float helpers, square root, angles.

use crate::ffi::*;
use crate::random::Random;
use crate::recipes;
use crate::words::{Entry, Reader, Words};

fn some(out: &mut Words, answer: Option<f64>) {
    match answer {
        Some(x) => out.given(0, &[x]),
        None => out.number(11),
    }
}

fn angle(out: &mut Words, x: f64, of: fn(f64, &mut f64) -> bool) {
    let mut answer = -7.0;
    let given = of(x, &mut answer);
    if !given {
        assert!(answer == -7.0, "a refused angle touched its answer");
    }
    some(out, given.then_some(answer));
}

fn one_hostile(r: &mut Random, w: &mut Words) {
    let x = if r.one_in(2) { r.any() } else { r.hostile() };
    w.f(x);
}

fn two_hostile(r: &mut Random, w: &mut Words) {
    one_hostile(r, w);
    if r.one_in(8) {
        let x = f64::from_bits(w.0[0]);
        w.f(if r.one_in(2) { -x } else { r.near(x) });
    } else {
        one_hostile(r, w);
    }
}

fn three_hostile(r: &mut Random, w: &mut Words) {
    one_hostile(r, w);
    two_hostile_more(r, w);
}

fn two_hostile_more(r: &mut Random, w: &mut Words) {
    let low = r.hostile();
    let high = if r.one_in(3) { -low } else { r.hostile() };
    let (low, high) = if low > high { (high, low) } else { (low, high) };
    w.all(&[low, high]);
}

/// Every exponent, subnormals, squares and their neighbours, anything.
fn for_root(r: &mut Random, w: &mut Words) {
    let x = match r.below(8) {
        0 | 1 => r.any(),
        2 | 3 => f64::from_bits(r.word() >> 1),
        4 => f64::from_bits(r.word() >> (12 + r.below(52))),
        5 => {
            let k = (r.word() >> (37 + r.below(20))) as f64;
            let scale = (2.0f64).powi(r.below(1000) as i32 - 500);
            r.near(k * k * scale * scale)
        }
        6 => {
            let k = 1.0 + r.unit();
            r.near(k * k)
        }
        _ => r.special(),
    };
    w.f(x);
}

/// Whole numbers of two words: squares, one less, one more, anything, every length.
fn for_isqrt(r: &mut Random, w: &mut Words) {
    let n = match r.below(4) {
        0 => {
            let k = u128::from(r.word() >> r.below(64));
            (k * k).wrapping_add(u128::from(r.below(3))).wrapping_sub(1)
        }
        1 => ((u128::from(r.word()) << 64) | u128::from(r.word())) >> r.below(128),
        2 => u128::MAX - u128::from(r.below(1000)),
        _ => (u128::from(r.word()) << 64) | u128::from(r.word()),
    };
    w.n((n >> 64) as u64);
    w.n(n as u64);
}

/// Over all exponents up to the bound, multiples of a quarter turn and neighbours, the ends, anything.
pub fn for_turn(r: &mut Random, w: &mut Words) {
    let x = match r.below(8) {
        0 => r.any(),
        1 => r.special(),
        2 => {
            let k = r.below(1306) as f64 - 653.0;
            r.near(k * std::f64::consts::FRAC_PI_2)
        }
        3 => {
            let k = r.below(2611) as f64 - 1305.0;
            r.near(k * std::f64::consts::FRAC_PI_4)
        }
        4 => {
            let end = [1024.0, -1024.0, 1.0 / 67_108_864.0, -1.0 / 67_108_864.0][r.below(4) as usize];
            r.near(end)
        }
        5 => f64::from_bits((r.below(1034 - 960) + 960) << 52 | r.word() >> 12 | (r.word() & 1) << 63),
        6 => (r.unit() * 2.0 - 1.0) * 1024.0,
        _ => r.tame() * 2.0,
    };
    w.f(x);
}

pub fn for_arc(r: &mut Random, w: &mut Words) {
    let x = match r.below(8) {
        0 => r.any(),
        1 => r.special(),
        2 => {
            let end = [0.0, 1.0, -0.0, 0.5][r.below(4) as usize];
            r.near(end)
        }
        3 => 1.0 - r.unit() * (2.0f64).powi(-(r.below(53) as i32)),
        4 => f64::from_bits((r.below(1023 - 950) + 950) << 52 | r.word() >> 12),
        _ => r.unit(),
    };
    w.f(x);
}

/// Inputs of a quick run, of a full run, and kept.
const SIZES: [u64; 3] = [200_000, 10_000_000, 40];

pub const LEAVES: [Entry; 8] = [
    Entry::new(
        1,
        "isqrt",
        SIZES,
        for_isqrt,
        |i, o| o.n(slew_isqrt(i[0], i[1])),
        |i, o| {
            o.n(recipes::isqrt(u128::from(i[0]) << 64 | u128::from(i[1])) as u64);
            true
        },
    ),
    Entry::new(
        2,
        "abs",
        SIZES,
        one_hostile,
        |i, o| o.f(slew_abs(Reader(i).f())),
        |i, o| {
            o.f(Reader(i).f().abs());
            true
        },
    ),
    Entry::new(
        3,
        "max",
        SIZES,
        two_hostile,
        |i, o| pair(i, o, |a, b| slew_max(a, b)),
        |i, o| pair_true(i, o, f64::max),
    ),
    Entry::new(
        4,
        "min",
        SIZES,
        two_hostile,
        |i, o| pair(i, o, |a, b| slew_min(a, b)),
        |i, o| pair_true(i, o, f64::min),
    ),
    Entry::new(
        5,
        "clamp",
        SIZES,
        three_hostile,
        |i, o| {
            let [x, low, high] = Reader(i).a();
            o.f(slew_clamp(x, low, high));
        },
        |i, o| {
            let [x, low, high] = Reader(i).a();
            // there the Rust panics
            if !(low <= high) {
                return false;
            }
            o.f(x.clamp(low, high));
            true
        },
    ),
    Entry::new(
        6,
        "is_finite",
        SIZES,
        one_hostile,
        |i, o| o.n(u64::from(slew_is_finite(Reader(i).f()))),
        |i, o| {
            o.n(u64::from(Reader(i).f().is_finite()));
            true
        },
    ),
    Entry::new(
        7,
        "ceil",
        SIZES,
        one_hostile,
        |i, o| o.f(slew_ceil(Reader(i).f())),
        |i, o| {
            o.f(Reader(i).f().ceil());
            true
        },
    ),
    Entry::new(
        8,
        "sqrt",
        [2_000_000, 100_000_000, 40],
        for_root,
        |i, o| o.f(slew_sqrt(Reader(i).f())),
        |i, o| {
            o.f(Reader(i).f().sqrt());
            true
        },
    ),
];

/// The angles beside the specification's recipes, and beside the platform's library.
pub const ANGLES: [Entry; 7] = [
    Entry::new(
        9,
        "sin",
        [500_000, 10_000_000, 40],
        for_turn,
        |i, o| angle(o, Reader(i).f(), |x, a| slew_sin(x, a)),
        |i, o| {
            some(o, recipes::sin(Reader(i).f()));
            true
        },
    ),
    Entry::new(
        10,
        "cos",
        [500_000, 10_000_000, 40],
        for_turn,
        |i, o| angle(o, Reader(i).f(), |x, a| slew_cos(x, a)),
        |i, o| {
            some(o, recipes::cos(Reader(i).f()));
            true
        },
    ),
    Entry::new(
        11,
        "acos",
        [300_000, 10_000_000, 40],
        for_arc,
        |i, o| angle(o, Reader(i).f(), |x, a| slew_acos(x, a)),
        |i, o| {
            some(o, recipes::acos(Reader(i).f()));
            true
        },
    ),
    Entry::new(
        12,
        "sin_cos",
        [500_000, 10_000_000, 40],
        for_turn,
        |i, o| {
            let mut both = [0.0; 2];
            let given = slew_sin_cos(Reader(i).f(), &mut both);
            o.given(if given { 0 } else { 11 }, &both);
        },
        |i, o| {
            let x = Reader(i).f();
            match (recipes::sin(x), recipes::cos(x)) {
                (Some(s), Some(c)) => o.given(0, &[s, c]),
                _ => o.number(11),
            }
            true
        },
    ),
    Entry::new(20, "sin, platform", BESIDE, for_platform, |i, o| near(i, o, SIN), |i, o| off(i, o, SIN)),
    Entry::new(21, "cos, platform", BESIDE, for_platform, |i, o| near(i, o, COS), |i, o| off(i, o, COS)),
    Entry::new(22, "acos, platform", BESIDE, for_platform_arc, |i, o| near(i, o, ACOS), |i, o| off(i, o, ACOS)),
];

const BESIDE: [u64; 3] = [300_000, 10_000_000, 0];

/// Ours, and the platform's.
type Beside = (fn(f64, &mut f64) -> bool, fn(f64) -> f64);
const SIN: Beside = (|x, a| slew_sin(x, a), f64::sin);
const COS: Beside = (|x, a| slew_cos(x, a), f64::cos);
const ACOS: Beside = (|x, a| slew_acos(x, a), f64::acos);

/// Up to 1,024 in size, in one of three up to 10.
fn for_platform(r: &mut Random, w: &mut Words) {
    let span = if r.one_in(3) { 10.0 } else { 1024.0 };
    w.f(span * (2.0 * r.unit() - 1.0));
}

/// From 0 to 1, in one of three near 1.
fn for_platform_arc(r: &mut Random, w: &mut Words) {
    w.f(if r.one_in(3) { 1.0 - 0.01 * r.unit() } else { r.unit() });
}

/// How far ours is from the platform's; infinite where ours refuses.
fn distance(x: f64, (ours, library): Beside) -> f64 {
    let mut answer = 0.0;
    if ours(x, &mut answer) { (answer - library(x)).abs() } else { f64::INFINITY }
}

/// Whether it is within 2^-48.
fn near(i: &[u64], o: &mut Words, both: Beside) {
    o.n(u64::from(distance(Reader(i).f(), both) <= (2.0f64).powi(-48)));
}

/// It must be; how far it is is counted.
fn off(i: &[u64], o: &mut Words, both: Beside) -> bool {
    const UP_TO: [(&str, i32); 5] = [("off by at most 2^-53", -53), ("2^-52", -52), ("2^-51", -51), ("2^-50", -50), ("2^-49", -49)];
    let far = distance(Reader(i).f(), both);
    o.n(1);
    let name = UP_TO.iter().find(|(_, power)| far <= (2.0f64).powi(*power)).map_or("more than 2^-49", |(name, _)| name);
    o.met(name, 1);
    true
}

/// Where the two are zeros of different signs the Rust leaves the answer's sign free: both answers count as +0 then.
fn pair(i: &[u64], o: &mut Words, of: fn(f64, f64) -> f64) {
    let [a, b] = Reader(i).a();
    let r = of(a, b);
    let free = a == 0.0 && b == 0.0 && a.to_bits() != b.to_bits();
    o.f(if free && r == 0.0 { 0.0 } else { r });
}

fn pair_true(i: &[u64], o: &mut Words, of: fn(f64, f64) -> f64) -> bool {
    pair(i, o, of);
    true
}
