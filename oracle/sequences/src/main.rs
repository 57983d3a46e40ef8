//! sequences [COUNT] [--seed N]: random sequences of previews and starts over the C interface, beside a model written apart; 100,000 where no count is named. Each answer, its place, the momenta that a preview
//! began from and the record after each event must be the model's, bit for bit (all NaNs are one pattern); a preview must leave the record. At the end of a sequence the record must be the last momenta of the
//! latest started path, or the first record. Exit status 1 where one is not.

mod model;
mod port;

use model::bits_of;
use port::{Momenta, Preview, Problem};
use std::collections::BTreeMap;
use std::process::ExitCode;

struct Random(u64);

impl Random {
    /// 64 random bits (splitmix64).
    fn word(&mut self) -> u64 {
        self.0 = self.0.wrapping_add(0x9E37_79B9_7F4A_7C15);
        let mut z = self.0;
        z = (z ^ (z >> 30)).wrapping_mul(0xBF58_476D_1CE4_E5B9);
        z = (z ^ (z >> 27)).wrapping_mul(0x94D0_49BB_1331_11EB);
        z ^ (z >> 31)
    }

    fn below(&mut self, n: usize) -> usize {
        ((u128::from(self.word()) * n as u128) >> 64) as usize
    }

    fn one_in(&mut self, n: usize) -> bool {
        self.below(n) == 0
    }

    /// From -1 to 1.
    fn tame(&mut self) -> f64 {
        (self.word() >> 11) as f64 / (1u64 << 52) as f64 - 1.0
    }
}

/// A wheel's momentum: zeros of either sign most often, numbers below the limit of 2, and now and then one that 22 refuses.
fn momentum(r: &mut Random) -> f64 {
    const ODD: [f64; 8] = [2.0, -2.0, 2.0000000000000004, f64::INFINITY, f64::NEG_INFINITY, 5e-324, -5e-324, 1e300];
    match r.below(12) {
        0..=3 => 0.0,
        4..=6 => -0.0,
        7 => ODD[r.below(ODD.len())],
        8 if r.one_in(3) => f64::from_bits(0x7FF0_0000_0000_0001 | (r.word() & 0x800F_FFFF_FFFF_FFFF)),
        _ => r.tame(),
    }
}

fn wheels(r: &mut Random) -> usize {
    [3, 3, 3, 3, 4, 4, 2, 5, 8, 0, 9][r.below(11)]
}

fn momenta(r: &mut Random) -> Momenta {
    Momenta { wheels: wheels(r), at: std::array::from_fn(|_| momentum(r)) }
}

/// A problem of up to eight wheels about the body's axes, from an attitude to itself. With a caller's seed of small torques the seed lands at once: its end is within the tolerances, and the wheels have other momenta.
fn problem(r: &mut Random, count: usize) -> Problem {
    let mut p = Problem { counts: [0; 11], actuators: [0.0; 100], body: [0.0; 37], seed: None };
    p.counts[0] = count;
    for k in 0..8 {
        p.actuators[3 * k + k % 3] = if k < 3 { 1.0 } else { -1.0 };
        p.actuators[24 + k] = 1.0;
        p.actuators[32 + k] = 2.0;
    }
    p.body[0] = 1.0;
    p.body[4] = 1.0;
    (p.body[8], p.body[12], p.body[16]) = (10.0, 12.0, 8.0);
    (17..20).for_each(|k| p.body[k] = 0.5);
    (27..29).for_each(|k| p.body[k] = 2f64.powi(-20));
    // the problem's own momenta are not read
    (29..37).for_each(|k| p.body[k] = momentum(r));
    let torques = if r.one_in(40) { 48 } else { 51 };
    // about some of the three axes, so that the first wheel to differ is any of them
    let sizes: [f64; 3] = std::array::from_fn(|_| [1e-5, 1e-6, 0.0, 0.0][r.below(4)]);
    p.seed = Some((1.0 + 4.0 * r.tame().abs(), (0..torques).map(|k| sizes[k % 3] * r.tame()).collect()));
    match r.below(30) {
        0 => p.body[17] = 0.0,
        1 => p.body[4] = f64::NAN,
        2 => p.actuators[25] = -1.0,
        3 => p.seed = None,
        4 if r.one_in(400) => {
            // a whole slew with the planner's own seed
            p.seed = None;
            (p.body[4], p.body[7]) = (0.9950041652780258, 0.09983341664682815);
            p.body[21] = 1.0;
        }
        _ => {}
    }
    p
}

/// A preview whose momenta, wheels or number were changed in the caller's hands.
fn changed(r: &mut Random, v: &Preview) -> Preview {
    let mut v = v.clone();
    let k = r.below(8);
    match r.below(5) {
        0 => v.began.at[k] = -v.began.at[k],
        1 => v.began.wheels = v.began.wheels.wrapping_add(1),
        2 => v.began.wheels = v.began.wheels.saturating_sub(1),
        3 => v.began.at[k] = momentum(r),
        _ => v.planned.number = [0, 7, 26][r.below(3)],
    }
    v
}

#[derive(Default)]
struct Told {
    wrong: u64,
    met: BTreeMap<String, u64>,
}

impl Told {
    fn see(&mut self, what: impl Into<String>) {
        *self.met.entry(what.into()).or_default() += 1;
    }

    fn check(&mut self, right: bool, what: &str, sequence: usize, event: usize) {
        if !right {
            self.wrong += 1;
            if self.wrong <= 5 {
                println!("sequence {sequence}, event {event}: {what}");
            }
        }
    }
}

fn sequence(r: &mut Random, number: usize, ws: &mut [f64], told: &mut Told) {
    let mut record = momenta(r);
    let mut latest = record;
    let mut previews: Vec<Preview> = Vec::new();
    for event in 0..2 + r.below(14) {
        let before = record;
        if previews.is_empty() || r.one_in(2) {
            let count = if r.one_in(6) { wheels(r) } else { record.wheels };
            let asked = problem(r, count);
            let made = port::preview(&record, &asked, ws);
            let wanted = model::preview(&record, &asked, ws);
            told.see(format!("previews: refusal {}", wanted.number));
            told.check(model::words(&made.planned) == model::words(&wanted), "the plan differs", number, event);
            told.check(bits_of(&made.began) == bits_of(&before), "it began from other momenta", number, event);
            if made.planned.number == 0 {
                let first = &made.planned.nodes[0];
                told.check((0..before.wheels).all(|k| model::bits(first[14 + k]) == model::bits(before.at[k])), "node 0 has other momenta", number, event);
            }
            previews.push(made);
        } else {
            let kept = previews[if r.one_in(2) { previews.len() - 1 } else { r.below(previews.len()) }].clone();
            let held = if r.one_in(8) { changed(r, &kept) } else { kept };
            let (answer, place, after) = model::start(&record, &held);
            let got = port::start(&mut record, &held);
            told.see(if answer == 0 { "starts".to_string() } else { format!("starts: refusal 26, place {place}") });
            if answer == 26 && (0..8.min(record.wheels)).all(|k| record.at[k] == held.began.at[k]) && record.wheels == held.began.wheels && held.planned.number == 0 {
                told.see("of these by the sign of a zero alone");
            }
            if (0..8.min(before.wheels)).any(|k| before.at[k].is_nan()) {
                told.see(if answer == 0 { "starts beside a NaN on record" } else { "refused starts beside a NaN on record" });
            }
            told.check(got == (answer, place), "the start answers otherwise", number, event);
            told.check(bits_of(&record) == bits_of(&after), "the record after a start differs", number, event);
            if answer == 0 {
                latest = after;
                if bits_of(&after) != bits_of(&before) {
                    told.see("starts that changed the record");
                }
            }
        }
    }
    told.check(bits_of(&record) == bits_of(&latest), "the record is not what the latest start left", number, 99);
}

fn main() -> ExitCode {
    let words: Vec<String> = std::env::args().skip(1).collect();
    let number = |text: &str| text.parse::<u64>().unwrap_or_else(|_| panic!("{text} is no number"));
    let seed = words.iter().position(|w| w == "--seed").map_or(1, |k| number(&words[k + 1]));
    let count = words.first().filter(|w| *w != "--seed").map_or(100_000, |w| number(w)) as usize;
    let (mut r, mut told, mut ws) = (Random(seed), Told::default(), vec![0.0; 53_970]);
    for k in 0..count {
        sequence(&mut r, k, &mut ws, &mut told);
    }
    told.met.iter().for_each(|(what, n)| println!("{n:>9} {what}"));
    println!("{count} sequences, {} mismatches", told.wrong);
    ExitCode::from(u8::from(told.wrong > 0))
}
