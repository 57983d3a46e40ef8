//! Whole numbers for the drive board, beside Rust's `round_ties_even`: parts, the way back, samples and whole lists of paths.

use crate::ffi::{slew_board_list, slew_board_part, slew_board_read, slew_board_sample};
use crate::random::Random;
use crate::samples::{Track, track};
use crate::words::{Entry, Reader, Words};

/// A unit: 2^-30 (attitude) or 2^-20 (rate, torque, momentum).
pub fn unit(coarse: bool) -> f64 {
    if coarse { 2f64.powi(-20) } else { 2f64.powi(-30) }
}

/// Written apart: the scaled part is exact, since a unit is a power of two, or it overflows; then Rust's own rounding, then the range.
pub fn rounded(x: f64, coarse: bool) -> Option<i32> {
    let whole = (x / unit(coarse)).round_ties_even();
    (f64::from(i32::MIN)..=f64::from(i32::MAX)).contains(&whole).then_some(whole as i32)
}

/// A sample's 13 numbers: the time is left out.
fn numbers(sample: &[f64]) -> Option<Vec<i32>> {
    sample[1..14].iter().enumerate().map(|(k, x)| rounded(*x, k >= 4)).collect()
}

// ---- parts
/// Ties and their neighbours, whole numbers and theirs, the ends of the range, parts below half a unit, any bits.
fn part(r: &mut Random, coarse: bool) -> f64 {
    const ENDS: [f64; 12] = [
        2147483646.5, 2147483647.0, 2147483647.5, 2147483648.0, 2147483648.5, 4294967295.5, 4294967296.0, 4294967296.5, 0.5, 1.5, 1.0, 0.0,
    ];
    let whole = f64::from(r.word() as i32);
    let end = ENDS[r.below(ENDS.len() as u64) as usize];
    let sign = if r.one_in(2) { 1.0 } else { -1.0 };
    let units = match r.below(8) {
        0 => whole + 0.5,
        1 => r.near(whole + 0.5),
        2 => r.near(whole),
        3 => sign * r.near(end),
        4 => f64::from(r.word() as i32 >> r.below(32)) + 0.5,
        5 => r.hostile(),
        6 => return r.any(),
        _ => r.tame() * 1_200_000_000.0,
    };
    if r.one_in(8) { units } else { units * unit(coarse) }
}

fn part_ours(i: &[u64], o: &mut Words) {
    let mut r = Reader(i);
    let (x, coarse) = (r.f(), r.n() == 1);
    let mut out = 77;
    o.n(slew_board_part(x, coarse, &mut out) as u64);
    o.n(out as u64);
}

fn part_rust(i: &[u64], o: &mut Words) -> bool {
    let mut r = Reader(i);
    let (x, coarse) = (r.f(), r.n() == 1);
    let whole = rounded(x, coarse);
    o.number(if whole.is_some() { 0 } else { 24 });
    o.n(whole.unwrap_or(0) as u64);
    let units = x / unit(coarse);
    o.met("ties", u64::from(whole.is_some() && (units - units.trunc()).abs() == 0.5));
    o.met("NaN", u64::from(x.is_nan()));
    o.met("infinities", u64::from(x.is_infinite()));
    true
}

// ---- the way back
fn read_ours(i: &[u64], o: &mut Words) {
    let mut r = Reader(i);
    let (n, coarse) = (r.n() as i32, r.n() == 1);
    let x = slew_board_read(n, coarse);
    o.f(x);
    let mut again = 77;
    o.n(slew_board_part(x, coarse, &mut again) as u64);
    o.n(again as u64);
}

fn read_rust(i: &[u64], o: &mut Words) -> bool {
    let mut r = Reader(i);
    let (n, coarse) = (r.n() as i32, r.n() == 1);
    o.f(f64::from(n) * unit(coarse));
    o.n(0);
    o.n(n as u64);
    true
}

// ---- samples
/// Sample number index by the Rust: its 13 numbers, or a refusal's number and place.
fn by_rust(track: &Track, index: usize) -> Result<Vec<i32>, (u64, u64)> {
    let mut made = Words::default();
    track.rust(index, &mut made);
    let mut r = Reader(&made.0);
    let (number, place) = (r.n(), r.n());
    if number != 0 {
        return Err((number, place));
    }
    numbers(&r.a::<14>()).ok_or((24, index as u64))
}

fn put(o: &mut Words, row: &[i32]) {
    row.iter().for_each(|n| o.n(*n as u64));
}

fn sample_ours(i: &[u64], o: &mut Words) {
    let mut r = Reader(i);
    let t = Track::take(&mut r);
    let (mut out, mut place) = ([77; 13], 77);
    let number = slew_board_sample(&t.inertia, t.tolerance, t.duration, &t.nodes, t.requested, t.alpha, r.n() as usize, &mut out, &mut place);
    o.n(number as u64);
    o.n(place as u64);
    put(o, &out);
}

fn sample_rust(i: &[u64], o: &mut Words) -> bool {
    let mut r = Reader(i);
    let track = Track::take(&mut r);
    match by_rust(&track, r.n() as usize) {
        Ok(row) => {
            o.placed(0, 0);
            put(o, &row);
        }
        Err((number, place)) => {
            o.placed(number, place);
            put(o, &[0; 13]);
        }
    }
    true
}

// ---- lists
/// Rows behind the list, which no call may touch.
const BEHIND: usize = 3;
const STOOD: [i32; 13] = [77; 13];

/// The rows lent: as many as there are samples, and some behind; or fewer.
fn lent(track: &Track, fewer: u64) -> usize {
    let count = track.count().unwrap_or(0);
    if fewer == 0 { count + BEHIND } else { count.saturating_sub(fewer as usize) }
}

fn list_ours(i: &[u64], o: &mut Words) {
    let mut r = Reader(i);
    let t = Track::take(&mut r);
    let mut out = vec![STOOD; lent(&t, r.n())];
    let (mut rows, mut place) = (77, 77);
    let number = slew_board_list(&t.inertia, t.tolerance, t.duration, &t.nodes, t.requested, t.alpha, &mut out, &mut rows, &mut place);
    [number, place, rows].iter().for_each(|n| o.n(*n as u64));
    out.iter().for_each(|row| put(o, row));
}

fn list_rust(i: &[u64], o: &mut Words) -> bool {
    let mut r = Reader(i);
    let track = Track::take(&mut r);
    let lent = lent(&track, r.n());
    let mut rows = Vec::new();
    let ended = match track.count() {
        None => (20, 0),
        Some(count) if lent < count => (99, 0),
        Some(count) => (0..count).find_map(|index| by_rust(&track, index).map(|row| rows.push(row)).err()).unwrap_or((0, 0)),
    };
    o.placed(ended.0, ended.1);
    o.n(rows.len() as u64);
    rows.iter().for_each(|row| put(o, row));
    (rows.len()..lent).for_each(|_| put(o, &STOOD));
    o.met("rows", rows.len() as u64);
    o.met("whole lists", u64::from(ended.0 == 0));
    true
}

pub const BOARD: [Entry; 4] = [
    Entry::new(
        600,
        "board part",
        [500_000, 50_000_000, 0],
        |r, w| {
            let coarse = r.one_in(2);
            w.0.push(part(r, coarse).to_bits());
            w.n(u64::from(coarse));
        },
        part_ours,
        part_rust,
    ),
    Entry::new(
        601,
        "board read",
        [200_000, 5_000_000, 0],
        |r, w| {
            let n = if r.one_in(4) { [i32::MIN, i32::MAX, 0, -1, 1][r.below(5) as usize] } else { r.word() as i32 };
            w.n(n as u64);
            w.n(r.below(2));
        },
        read_ours,
        read_rust,
    ),
    Entry::new(
        602,
        "board samples",
        [20_000, 400_000, 0],
        |r, w| {
            let track = track(r);
            track.put(w);
            let count = track.count().unwrap_or(17) as u64;
            w.n(if r.one_in(8) { count } else { r.below(count) });
        },
        sample_ours,
        sample_rust,
    ),
    Entry::new(
        603,
        "board lists",
        [400, 4_000, 0],
        |r, w| {
            track(r).put(w);
            w.n(if r.one_in(8) { 1 + r.below(3) } else { 0 });
        },
        list_ours,
        list_rust,
    ),
];
