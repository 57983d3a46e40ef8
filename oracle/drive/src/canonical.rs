//! Canonical texts beside the reader and the writer made apart (`texts.rs`): any text rewritten; pairs of texts that mean one problem; pairs that differ in one bit.

use crate::damage;
use crate::ffi::slew_canonical;
use crate::problems;
use crate::random::Random;
use crate::texts::{LONGEST, Problem, float_text, problem_text, read};
use crate::words::{Entry, Reader, Words};

/// What stands in a buffer before a call.
const MARK: u8 = 0xA5;

/// Bytes behind the lent part of a buffer, which no call may touch.
const BEHIND: usize = 16;

/// More than any case lends.
const MOST: usize = 1 << 16;

/// What is due: the refusal's number and place, and the canonical text.
fn due(text: &[u8]) -> (usize, usize, Vec<u8>) {
    match read(text) {
        Err(line) => (21, line as usize, Vec::new()),
        Ok(p) => match p.flat.given() {
            given if given.wheels.len() > 8 => (1, 0, Vec::new()),
            given if given.thrusters.len() > 12 => (1, 1, Vec::new()),
            _ => (0, 0, problem_text(&p).into_bytes()),
        },
    }
}

/// The canonical text of a text that is accepted, by the port.
pub fn rewritten(text: &[u8]) -> Option<Vec<u8>> {
    let mut out = vec![MARK; LONGEST];
    let (number, bytes, _) = slew_canonical(text, &mut out);
    (number == 0).then(|| out[..bytes].to_vec())
}

// ---- any text

/// The room, then the text, a byte a word.
fn put(w: &mut Words, room: usize, text: &[u8]) {
    w.n(room as u64);
    text.iter().for_each(|byte| w.n(u64::from(*byte)));
}

fn take(i: &[u64]) -> (usize, Vec<u8>) {
    let mut r = Reader(i);
    ((r.n() as usize).min(MOST), r.0.iter().map(|word| *word as u8).collect())
}

fn room(r: &mut Random) -> usize {
    match r.below(40) {
        0 => LONGEST - 1,
        1 => r.below(LONGEST as u64) as usize,
        2 => LONGEST + r.below(100) as usize,
        _ => LONGEST,
    }
}

fn any(r: &mut Random, w: &mut Words) {
    let text = damage::spoilt(r).text;
    let room = room(r);
    put(w, room, &text);
}

/// Number, place, bytes, the whole buffer and what stands behind it.
fn by_port(i: &[u64], o: &mut Words) {
    let (room, text) = take(i);
    let mut out = vec![MARK; room + BEHIND];
    let (number, bytes, place) = slew_canonical(&text, &mut out[..room]);
    [number, place, bytes].iter().for_each(|n| o.n(*n as u64));
    out.iter().for_each(|byte| o.n(u64::from(*byte)));
}

fn by_rust(i: &[u64], o: &mut Words) -> bool {
    let (room, text) = take(i);
    let (number, place, written) = if room < LONGEST { (99, 0, Vec::new()) } else { due(&text) };
    [number, place, written.len()].iter().for_each(|n| o.n(*n as u64));
    let rest = vec![MARK; room + BEHIND - written.len()];
    written.iter().chain(&rest).for_each(|byte| o.n(u64::from(*byte)));
    o.1.refusal = Some((number as u64, place as u64));
    true
}

// ---- pairs

/// A problem that a text can hold.
fn held(r: &mut Random) -> Problem {
    loop {
        let plan = problems::any(r);
        let p = Problem { flat: plan.flat.clone(), body: plan.body, limited: plan.limited };
        let given = p.flat.given();
        if given.wheels.len() <= 8 && given.thrusters.len() <= 12 {
            return p;
        }
    }
}

/// A text that a reader takes whatever is written into it: not too long.
fn loosened(r: &mut Random, text: &[u8]) -> Vec<u8> {
    loop {
        let other = damage::loosened(r, text);
        if other.len() <= LONGEST {
            return other;
        }
    }
}

/// A text with one bit of one float turned; a NaN stays one, so it is passed over.
fn other_bit(r: &mut Random, text: &str) -> String {
    loop {
        let words: Vec<&str> = text.split(' ').collect();
        let at = r.below(words.len() as u64) as usize;
        let digits: String = words[at].chars().take_while(char::is_ascii_hexdigit).collect();
        let tail = &words[at][digits.len()..];
        if digits.is_empty() || tail.contains(|c: char| c.is_ascii_alphanumeric()) || digits.len() > 16 {
            continue;
        }
        let pattern = u64::from_str_radix(&format!("{digits:0<16}"), 16).expect("hexadecimal digits");
        let turned = f64::from_bits(pattern ^ 1 << r.below(64));
        if turned.is_nan() || f64::from_bits(pattern).is_nan() {
            continue;
        }
        let word = format!("{}{tail}", float_text(turned));
        let mut all = words;
        all[at] = &word;
        return all.join(" ");
    }
}

/// Two texts, the first's length before them.
fn put_pair(w: &mut Words, a: &[u8], b: &[u8]) {
    w.n(a.len() as u64);
    a.iter().chain(b).for_each(|byte| w.n(u64::from(*byte)));
}

fn alike(r: &mut Random, w: &mut Words) {
    let text = problem_text(&held(r)).into_bytes();
    let (a, b) = (loosened(r, &text), loosened(r, &text));
    put_pair(w, &a, &b);
}

fn apart(r: &mut Random, w: &mut Words) {
    let text = problem_text(&held(r));
    let other = other_bit(r, &text);
    let (a, b) = (loosened(r, text.as_bytes()), loosened(r, other.as_bytes()));
    put_pair(w, &a, &b);
}

/// Whether both are accepted, and whether their canonical texts are the same bytes.
fn pair_by_port(i: &[u64], o: &mut Words) {
    let bytes: Vec<u8> = i[1..].iter().map(|word| *word as u8).collect();
    let (a, b) = bytes.split_at((i[0] as usize).min(bytes.len()));
    let (a, b) = (rewritten(a), rewritten(b));
    o.n(u64::from(a.is_some() && b.is_some()));
    o.n(u64::from(a == b));
}

/// Both accepted, and one text.
fn one_text(_: &[u64], o: &mut Words) -> bool {
    o.n(1);
    o.n(1);
    true
}

/// Both accepted, and two texts.
fn two_texts(_: &[u64], o: &mut Words) -> bool {
    o.n(1);
    o.n(0);
    true
}

/// Texts of every kind; pairs that mean one problem; pairs that differ in one bit.
pub const CANONICAL: [Entry; 3] = [
    Entry::new(410, "canonical texts", [60_000, 1_000_000, 0], any, by_port, by_rust),
    Entry::new(411, "canonical, one problem", [10_000, 100_000, 0], alike, pair_by_port, one_text),
    Entry::new(412, "canonical, one bit apart", [10_000, 100_000, 0], apart, pair_by_port, two_texts),
];
