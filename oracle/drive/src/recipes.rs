//! The angles' recipes of the specification, written apart from the port, over 128-bit whole numbers. Every series is summed to its last term; how many terms one who
//! stops at a zero forms is told from the list of all.

const ONE: i128 = 1 << 60;
const Q: i128 = 0x1921_FB54_442D_1847;

/// x * 2^60, truncated; x is finite and at most 1,024 in size.
fn scaled(x: f64) -> i128 {
    let bits = x.to_bits();
    let exponent = (bits >> 52 & 0x7FF) as i32;
    let fraction = i128::from(bits & 0x000F_FFFF_FFFF_FFFF);
    let (whole, power) = if exponent == 0 { (fraction, -1074) } else { (fraction + (1 << 52), exponent - 1075) };
    let shift = power + 60;
    let size = if shift >= 0 {
        whole << shift
    } else if shift > -127 {
        whole >> -shift
    } else {
        0
    };
    if x < 0.0 { -size } else { size }
}

/// n / 2^60, to nearest even; a zero is positive.
fn float(n: i128) -> f64 {
    n as f64 / ONE as f64
}

/// All nine terms of a series.
fn terms(r: i128, first: i128, divisor: impl Fn(i128) -> i128) -> [i128; 9] {
    let mut all = [first; 9];
    for j in 1..9 {
        all[j] = all[j - 1] * r / ONE * r / ONE / divisor(j as i128);
    }
    all
}

fn sine_terms(r: i128) -> [i128; 9] {
    terms(r, r, |j| 2 * j * (2 * j + 1))
}

fn cosine_terms(r: i128) -> [i128; 9] {
    terms(r, ONE, |j| (2 * j - 1) * 2 * j)
}

/// The sum of all of them with alternating signs.
fn sum(terms: [i128; 9]) -> i128 {
    let added: i128 = terms.iter().step_by(2).sum();
    let taken: i128 = terms.iter().skip(1).step_by(2).sum();
    added - taken
}

/// How many are formed by one who stops at a zero: the least k whose term k - 1 is zero, else all.
fn formed(terms: &[i128]) -> u64 {
    terms.iter().position(|t| *t == 0).map_or(terms.len(), |k| k + 1) as u64
}

/// The quarter turns and the rest of an argument; nothing where it is outside the range or tiny.
fn reduced(x: f64) -> Option<(i128, i128)> {
    if !(x.abs() <= 1024.0) || x.abs() < (2.0f64).powi(-26) {
        return None;
    }
    let whole = scaled(x);
    let k = (2 * whole + Q).div_euclid(2 * Q);
    Some((k, whole - k * Q))
}

/// The sine for turn 0, the cosine for turn 1; refused where there is none.
fn ring(x: f64, turn: i128) -> Option<f64> {
    if !(x.abs() <= 1024.0) {
        return None;
    }
    let Some((k, r)) = reduced(x) else {
        return Some(if turn == 0 { x } else { 1.0 });
    };
    Some(float(match (k + turn).rem_euclid(4) {
        0 => sum(sine_terms(r)),
        1 => sum(cosine_terms(r)),
        2 => -sum(sine_terms(r)),
        _ => -sum(cosine_terms(r)),
    }))
}

/// The full sum's size and how many terms are formed, of the sine's series at the argument's rest.
pub fn sine_series(x: f64) -> Option<[u64; 2]> {
    let all = sine_terms(reduced(x)?.1);
    Some([sum(all).unsigned_abs() as u64, formed(&all)])
}

/// The same of the cosine's.
pub fn cosine_series(x: f64) -> Option<[u64; 2]> {
    let all = cosine_terms(reduced(x)?.1);
    Some([sum(all).unsigned_abs() as u64, formed(&all)])
}

pub fn sin(x: f64) -> Option<f64> {
    ring(x, 0)
}

pub fn cos(x: f64) -> Option<f64> {
    ring(x, 1)
}

/// The root of n, rounded down, by the machine's 128-bit arithmetic.
pub fn isqrt(n: u128) -> u128 {
    let mut root = (n as f64).sqrt() as u128;
    while root.checked_mul(root).is_none_or(|s| s > n) {
        root -= 1;
    }
    while (root + 1).checked_mul(root + 1).is_some_and(|s| s <= n) {
        root += 1;
    }
    root
}

/// All sixty terms of the arc cosine's sum.
fn arc_terms(w: f64) -> Option<[i128; 60]> {
    if !(0.0..=1.0).contains(&w) {
        return None;
    }
    let d = ONE - scaled(w);
    let mut p = isqrt(d as u128 * (1 << 59)) as i128;
    let mut all = [0; 60];
    for (n, term) in (0..).zip(&mut all) {
        *term = p / (2 * n + 1);
        p = p * (d / 2) / ONE * (2 * n + 1) / (2 * n + 2);
    }
    Some(all)
}

pub fn acos(w: f64) -> Option<f64> {
    Some(float(2 * arc_terms(w)?.iter().sum::<i128>()))
}

/// The full sum and how many terms are formed.
pub fn arc_series(w: f64) -> Option<[u64; 2]> {
    let all = arc_terms(w)?;
    Some([all.iter().sum::<i128>() as u64, formed(&all)])
}
