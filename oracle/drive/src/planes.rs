//! Byte planes: the recorder's columns beside planes written apart from the request's words, byte by byte.

use crate::ffi::*;
use crate::random::Random;
use crate::words::{Entry, Reader, Words};

/// Words of a column, at most.
const MOST: usize = 4096;

/// Bytes behind the lent part of a buffer, which no call may touch.
const BEHIND: usize = 24;

// ---- written apart
/// Byte k of n words' planes: of word k mod n, combined with the one before it, byte k / n from the top.
fn planes(column: &[u64]) -> Vec<u8> {
    let n = column.len();
    let byte = |k: usize| {
        let before = if k % n == 0 { 0 } else { column[k % n - 1] };
        (column[k % n] ^ before).to_be_bytes()[k / n]
    };
    (0..8 * n).map(byte).collect()
}

/// The column of planes: each word's eight bytes stand n apart, and each word is combined with all before it.
fn column(bytes: &[u8]) -> Vec<u64> {
    let n = bytes.len() / 8;
    let word = |i: usize| u64::from_be_bytes(std::array::from_fn(|j| bytes[j * n + i]));
    (0..n)
        .scan(0, |last, i| {
            *last ^= word(i);
            Some(*last)
        })
        .collect()
}

// ---- inputs
/// NaN of every kind (either sign, quiet and signalling, any payload), infinities, zeros, subnormals, anything.
fn word(r: &mut Random) -> u64 {
    let sign = r.below(2) << 63;
    let payload = (r.word() >> (12 + r.below(52))).max(1);
    match r.below(8) {
        0 => sign | 0x7FF8 << 48 | payload & ((1 << 51) - 1),
        1 => sign | 0x7FF0 << 48 | (payload & ((1 << 51) - 1)).max(1),
        2 => sign | 0x7FF0 << 48,
        3 => sign,
        4 => sign | payload,
        5 => r.hostile().to_bits(),
        _ => r.word(),
    }
}

/// A column of n words: of every kind, with no order; steady samples with a few others among them; all alike.
fn any_column(r: &mut Random, n: usize) -> Vec<u64> {
    let (start, step) = (r.tame(), r.tame() * 1.0e-3);
    let (kind, same) = (r.below(4), word(r));
    let one = |i: usize| match kind {
        0 => same,
        1 if !r.one_in(50) => (start + step * i as f64).to_bits(),
        _ => word(r),
    };
    (0..n).map(one).collect()
}

/// Every length up to 4,096 and a little above, short ones and the last ones often.
fn any_count(r: &mut Random) -> usize {
    let few = match r.below(16) {
        0..6 => r.below(17),
        6..10 => r.below(257),
        10..12 => 4094 + r.below(5),
        12 => 4097 + r.below(1000),
        _ => r.below(4097),
    };
    few as usize
}

/// What is lent for an answer of `wanted`: as much, more, or too little by one, by a word's bytes, by anything.
fn any_room(r: &mut Random, wanted: usize) -> usize {
    let less = |by: u64| wanted.saturating_sub(by as usize);
    match r.below(8) {
        0 => less(1),
        1 => less(1 + r.below(8)),
        2 => r.below(wanted as u64 + 1) as usize,
        3 => 0,
        4 | 5 => wanted + r.below(20) as usize,
        _ => wanted,
    }
}

/// Bytes lent and what they are filled by; the column.
fn for_encode(r: &mut Random, w: &mut Words) {
    let n = any_count(r);
    w.n(any_room(r, 8 * n) as u64);
    w.n(r.word());
    w.0.extend(any_column(r, n));
}

/// Words lent and what they are filled by; the count of bytes; the bytes, eight a word: planes of a column, or anything; some more or fewer than 8 a word.
fn for_decode(r: &mut Random, w: &mut Words) {
    let n = any_count(r);
    let mut bytes = if r.one_in(2) { planes(&any_column(r, n)) } else { (0..n).flat_map(|_| r.word().to_le_bytes()).collect() };
    if r.one_in(4) {
        bytes.resize(bytes.len().saturating_add_signed(r.below(15) as isize - 7), 0xA5);
    }
    w.n(any_room(r, bytes.len() / 8) as u64);
    w.n(r.word());
    w.n(bytes.len() as u64);
    put_bytes(w, &bytes);
}

// ---- cases
fn put_bytes(w: &mut Words, bytes: &[u8]) {
    bytes.chunks(8).for_each(|chunk| w.n(chunk.iter().rev().fold(0, |sum, b| sum << 8 | u64::from(*b))));
}

/// What a buffer held before the call, behind the lent part too.
fn filled(count: usize, by: u64) -> Vec<u64> {
    let mut random = Random::new(by);
    (0..count).map(|_| random.word()).collect()
}

struct Lent {
    count: usize,
    fill: u64,
}

impl Lent {
    fn take(r: &mut Reader<'_>) -> Self {
        Lent { count: r.n() as usize, fill: r.n() }
    }
    fn bytes(&self) -> Vec<u8> {
        filled(self.count + BEHIND, self.fill).iter().map(|w| *w as u8).collect()
    }
    fn words(&self) -> Vec<u64> {
        filled(self.count + BEHIND, self.fill)
    }
}

fn decode_case(i: &[u64]) -> (Lent, Vec<u8>) {
    let mut r = Reader(i);
    let (lent, count) = (Lent::take(&mut r), r.n() as usize);
    let bytes: Vec<u8> = r.0.iter().flat_map(|w| w.to_le_bytes()).collect();
    (lent, bytes[..count].to_vec())
}

/// The number and the whole buffer, behind the lent part too.
fn encode_port(i: &[u64], o: &mut Words) {
    let mut r = Reader(i);
    let lent = Lent::take(&mut r);
    let mut out = lent.bytes();
    o.number(slew_encode_planes(r.0, &mut out[..lent.count]) as u64);
    put_bytes(o, &out);
}

fn encode_rust(i: &[u64], o: &mut Words) -> bool {
    let mut r = Reader(i);
    let (lent, column) = (Lent::take(&mut r), r.0);
    let (long, short) = (column.len() > MOST, lent.count < 8 * column.len());
    let mut out = lent.bytes();
    if long || short {
        o.number(28);
    } else {
        o.number(0);
        out[..8 * column.len()].copy_from_slice(&planes(column));
    }
    put_bytes(o, &out);
    o.met("columns over 4,096", u64::from(long));
    o.met("outputs too short", u64::from(!long && short));
    o.met("with a NaN", u64::from(column.iter().any(|w| f64::from_bits(*w).is_nan())));
    o.met("empty", u64::from(column.is_empty()));
    true
}

fn decode_port(i: &[u64], o: &mut Words) {
    let (lent, bytes) = decode_case(i);
    let mut out = lent.words();
    o.number(slew_decode_planes(&bytes, &mut out[..lent.count]) as u64);
    o.0.extend(out);
}

fn decode_rust(i: &[u64], o: &mut Words) -> bool {
    let (lent, bytes) = decode_case(i);
    let n = bytes.len() / 8;
    let (odd, long, short) = (!bytes.len().is_multiple_of(8), n > MOST, lent.count < n);
    let mut out = lent.words();
    if odd || long || short {
        o.number(28);
    } else {
        o.number(0);
        out[..n].copy_from_slice(&column(&bytes));
    }
    o.0.extend(out);
    o.met("bytes not 8 a word", u64::from(odd));
    o.met("words over 4,096", u64::from(!odd && long));
    o.met("outputs too short", u64::from(!odd && !long && short));
    o.met("empty", u64::from(bytes.is_empty()));
    true
}

/// A column of up to 4,096 words.
fn for_both(r: &mut Random, w: &mut Words) {
    let n = any_count(r).min(MOST);
    w.0.extend(any_column(r, n));
}

/// Encoded and decoded by the port; then the column's own bytes, as planes, decoded and encoded.
fn both_port(i: &[u64], o: &mut Words) {
    let (mut bytes, mut back) = (vec![0; 8 * i.len()], vec![0; i.len()]);
    o.number(slew_encode_planes(i, &mut bytes) as u64);
    o.number(slew_decode_planes(&bytes, &mut back) as u64);
    o.0.extend(&back);
    let own: Vec<u8> = i.iter().flat_map(|w| w.to_le_bytes()).collect();
    o.number(slew_decode_planes(&own, &mut back) as u64);
    o.number(slew_encode_planes(&back, &mut bytes) as u64);
    put_bytes(o, &bytes);
}

/// Both come back.
fn both_rust(i: &[u64], o: &mut Words) -> bool {
    (0..2).for_each(|_| o.number(0));
    o.0.extend(i);
    (0..2).for_each(|_| o.number(0));
    o.0.extend(i);
    true
}

pub const PLANES: [Entry; 3] = [
    Entry::new(500, "encode_planes", SIZES, for_encode, encode_port, encode_rust),
    Entry::new(501, "decode_planes", SIZES, for_decode, decode_port, decode_rust),
    Entry::new(502, "planes there and back", SIZES, for_both, both_port, both_rust),
];

const SIZES: [u64; 3] = [20_000, 1_000_000, 0];
