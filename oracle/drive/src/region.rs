//! Drive against draught, beside a minimax written apart from the rules alone: whether the drive can come home in n turns, for every n, by looking at every
//! choice and every reply. Nothing is filled in place and nothing is counted from a corner.

use crate::ffi::{slew_outcome, slew_region, slew_reply};
use crate::random::Random;
use crate::words::{Entry, Reader, Words};
use std::sync::LazyLock;
use std::sync::atomic::{AtomicU64, Ordering};

pub const ANGLES: std::ops::RangeInclusive<i64> = -64..=64;
pub const RATES: std::ops::RangeInclusive<i64> = -8..=8;
const TURNS: usize = 64;
/// What stands for none: the turns of a start that is held off, a choice, a reply.
pub const NONE: u64 = 255;

fn inside(angle: i64, rate: i64) -> bool {
    ANGLES.contains(&angle) && RATES.contains(&rate)
}

fn home(angle: i64, rate: i64) -> bool {
    angle.abs() <= 4 && rate.abs() <= 2
}

/// For each number of turns, of each start whether the drive can force home.
struct Won(Vec<Vec<bool>>);

fn place(angle: i64, rate: i64) -> usize {
    ((rate + 8) * 129 + angle + 64) as usize
}

impl Won {
    /// The turn ends inside, and the drive is home in `turns` more.
    fn kept(&self, turns: usize, angle: i64, rate: i64, choice: i64, reply: i64) -> bool {
        let rate = rate + choice + reply;
        let angle = angle + rate;
        inside(angle, rate) && self.0[turns][place(angle, rate)]
    }

    /// No reply keeps the drive from home in `turns` turns after this one.
    fn sure(&self, turns: usize, angle: i64, rate: i64, choice: i64) -> bool {
        (-1..=1).all(|reply| self.kept(turns, angle, rate, choice, reply))
    }

    fn new() -> Self {
        let starts = || RATES.flat_map(|rate| ANGLES.map(move |angle| (angle, rate)));
        let mut won = Won(vec![starts().map(|(angle, rate)| home(angle, rate)).collect()]);
        for turns in 0..TURNS {
            let next = starts().map(|(a, r)| home(a, r) || (-2..=2).any(|choice| won.sure(turns, a, r, choice))).collect();
            won.0.push(next);
        }
        won
    }

    /// The fewest turns and the lowest first choice; none of either where there is none.
    pub fn outcome(&self, angle: i64, rate: i64) -> Option<(u64, u64)> {
        if !inside(angle, rate) {
            return None;
        }
        let Some(turns) = (0..=TURNS).find(|n| self.0[*n][place(angle, rate)]) else {
            return Some((NONE, NONE));
        };
        let choice = (-2..=2).find(|choice| turns > 0 && self.sure(turns - 1, angle, rate, *choice));
        Some((turns as u64, choice.map_or(NONE, |c: i64| c as u64)))
    }

    /// The lowest reply that keeps the drive from home for the turns left, this one counted.
    pub fn reply(&self, angle: i64, rate: i64, left: u64, choice: i64) -> Option<u64> {
        if !inside(angle, rate) || !(-2..=2).contains(&choice) || !(1..=TURNS as u64).contains(&left) {
            return None;
        }
        let turns = left as usize - 1;
        let found = (-1..=1).find(|reply| !home(angle, rate) && !self.kept(turns, angle, rate, choice, *reply));
        Some(found.map_or(NONE, |r: i64| r as u64))
    }
}

static WON: LazyLock<Won> = LazyLock::new(Won::new);

pub fn outcome(angle: i64, rate: i64) -> Option<(u64, u64)> {
    WON.outcome(angle, rate)
}

pub fn reply(angle: i64, rate: i64, left: u64, choice: i64) -> Option<u64> {
    WON.reply(angle, rate, left, choice)
}

/// The turns of every start as the port's table has them: angle by angle, and of each angle rate by rate.
pub fn region() -> Vec<u64> {
    ANGLES.flat_map(|angle| RATES.map(move |rate| outcome(angle, rate).expect("a start inside").0)).collect()
}

/// The same by the rules again, from nothing, for the bench: turn by turn as a programmer would write it at first.
pub fn filled() -> [[u8; 17]; 129] {
    let at = |angle: i64, rate: i64| ((angle + 64) as usize, (rate + 8) as usize);
    let mut turns = [[NONE as u8; 17]; 129];
    for (angle, rate) in ANGLES.flat_map(|angle| RATES.map(move |rate| (angle, rate))).filter(|(a, r)| home(*a, *r)) {
        turns[at(angle, rate).0][at(angle, rate).1] = 0;
    }
    for n in 1..=TURNS as u8 {
        let before = turns;
        for (angle, rate) in ANGLES.flat_map(|angle| RATES.map(move |rate| (angle, rate))) {
            let (x, y) = at(angle, rate);
            let kept = |choice: i64, reply: i64| {
                let next = rate + choice + reply;
                inside(angle + next, next) && before[at(angle + next, next).0][at(angle + next, next).1] < n
            };
            if before[x][y] == NONE as u8 && (-2..=2).any(|choice| (-1..=1).all(|reply| kept(choice, reply))) {
                turns[x][y] = n;
            }
        }
    }
    turns
}

/// What stood in the numbers lent: it must stay beside a refusal.
const STOOD: u64 = 77;

fn outcome_ours(i: &[u64], o: &mut Words) {
    let mut r = Reader(i);
    let (mut turns, mut choice) = (STOOD as usize, STOOD as i64);
    let number = slew_outcome(r.n() as i64, r.n() as i64, &mut turns, &mut choice);
    [number as u64, turns as u64, choice as u64].iter().for_each(|x| o.n(*x));
}

fn outcome_rust(i: &[u64], o: &mut Words) -> bool {
    let mut r = Reader(i);
    let found = outcome(r.n() as i64, r.n() as i64);
    o.number(if found.is_none() { 27 } else { 0 });
    let (turns, choice) = found.unwrap_or((STOOD, STOOD));
    o.n(turns);
    o.n(choice);
    o.met("home", u64::from(turns == 0));
    o.met("held off", u64::from(turns == NONE));
    true
}

fn reply_ours(i: &[u64], o: &mut Words) {
    let mut r = Reader(i);
    let mut out = STOOD as i64;
    let number = slew_reply(r.n() as i64, r.n() as i64, r.n() as usize, r.n() as i64, &mut out);
    o.n(number as u64);
    o.n(out as u64);
}

fn reply_rust(i: &[u64], o: &mut Words) -> bool {
    let mut r = Reader(i);
    let found = reply(r.n() as i64, r.n() as i64, r.n(), r.n() as i64);
    o.number(if found.is_none() { 27 } else { 0 });
    o.n(found.unwrap_or(STOOD));
    o.met("none", u64::from(found == Some(NONE)));
    true
}

fn region_ours(_: &[u64], o: &mut Words) {
    let mut out = [STOOD as u8; 2193];
    slew_region(&mut out);
    out.iter().for_each(|n| o.n(u64::from(*n)));
}

fn region_rust(_: &[u64], o: &mut Words) -> bool {
    let turns = region();
    let won = turns.iter().filter(|n| **n != NONE);
    o.met("starts", turns.len() as u64);
    o.met("won", won.clone().count() as u64);
    o.met("at 0 turns", turns.iter().filter(|n| **n == 0).count() as u64);
    o.met("most turns", *won.clone().max().expect("a start that is won"));
    o.met("turns in all", won.sum());
    turns.iter().for_each(|n| o.n(*n));
    true
}

/// Start number k of 2,193; k goes round.
fn start(k: u64) -> (i64, i64) {
    let k = k % 2193;
    (k as i64 / 17 - 64, k as i64 % 17 - 8)
}

/// Starts in turn, so that none is left out.
static START: AtomicU64 = AtomicU64::new(0);
static REPLY: AtomicU64 = AtomicU64::new(0);

fn next_start(_: &mut Random, w: &mut Words) {
    let (angle, rate) = start(START.fetch_add(1, Ordering::Relaxed));
    w.n(angle as u64);
    w.n(rate as u64);
}

/// The replies in turn, a thousand or so apart: 701,760 of them are all.
fn next_reply(_: &mut Random, w: &mut Words) {
    let k = REPLY.fetch_add(1, Ordering::Relaxed) % REPLIES * 1_009 % REPLIES;
    let (angle, rate) = start(k / 320);
    [angle as u64, rate as u64, k / 5 % 64 + 1, (k % 5) as i64 as u64 - 2].iter().for_each(|x| w.n(*x));
}

const REPLIES: u64 = 2193 * 64 * 5;

/// Just outside, far outside, or inside.
fn near(r: &mut Random, most: i64) -> i64 {
    let edges = [most, most + 1, -most, -most - 1, i64::MAX, i64::MIN, 0, 255 - most, 1 << 32];
    if r.one_in(3) { r.word() as i64 } else { edges[r.below(edges.len() as u64) as usize] }
}

fn outside_start(r: &mut Random, w: &mut Words) {
    w.n(near(r, 64) as u64);
    w.n(near(r, 8) as u64);
}

fn outside_reply(r: &mut Random, w: &mut Words) {
    let (angle, rate) = if r.one_in(2) { start(r.word()) } else { (near(r, 64), near(r, 8)) };
    let left = [0, 1, 64, 65, u64::MAX, 1 << 32][r.below(6) as usize];
    let choice = if r.one_in(2) { near(r, 2) } else { r.below(5) as i64 - 2 };
    [angle as u64, rate as u64, left, choice as u64].iter().for_each(|x| w.n(*x));
}

/// Every start and, in a full run, every reply (each call fills the table: a quick run has one in eighteen); starts, turns left and choices outside.
pub const REGION: [Entry; 5] = [
    Entry::new(500, "outcome, every start", [2_200, 2_200, 0], next_start, outcome_ours, outcome_rust),
    Entry::new(501, "outcome, outside", [2_000, 20_000, 0], outside_start, outcome_ours, outcome_rust),
    Entry::new(502, "reply, every one", [39_000, REPLIES, 0], next_reply, reply_ours, reply_rust),
    Entry::new(503, "reply, outside", [2_000, 20_000, 0], outside_reply, reply_ours, reply_rust),
    Entry::new(504, "region", [1, 1, 0], |_, _| {}, region_ours, region_rust),
];
