//! What the counting copy of scvx.rs counts, on this thread: forward runs begun, where the search stands, how its rounds ended, which controls a projection
//! changed, where the time goes.

use std::cell::RefCell;
use std::time::Instant;

pub const OTHER: usize = 0;
pub const RUNS: usize = 1;
pub const RESIDUALS: usize = 2;
pub const NORMAL: usize = 3;
pub const ELIMINATION: usize = 4;

#[derive(Clone, Default, Debug)]
pub struct Tally {
    /// Forward runs begun, refused or not.
    pub runs: u64,
    /// The step of the run that stands last.
    pub step: u64,
    /// The node that the end checks stand at.
    pub node: u64,
    pub rounds: u64,
    pub accepted: u64,
    pub rejected: u64,
    pub singular: u64,
    /// Rounds whose decision is that of the round before.
    pub repeated: u64,
    /// Whether the round before left the decision as it was.
    kept: bool,
    /// Trials whose length is that of the best so far.
    pub equal: u64,
    /// Rounds whose length is a NaN.
    pub nan: u64,
    /// The decision that the search ends with.
    pub decision: Vec<f64>,
    /// For each place of a row how many of the decision's 16 controls its projection changed: the seed's rows, then each trial taken.
    pub held: [u64; 20],
    /// The same of the trial that stands last.
    trial_held: [u64; 20],
    /// The rows that are to be projected.
    before: Vec<Vec<f64>>,
    /// Nanoseconds by phase, if they are asked for.
    pub spent: [u64; 5],
    clock: Option<(usize, Instant)>,
}

thread_local! {
    static TALLY: RefCell<Tally> = RefCell::default();
}

fn with(of: impl FnOnce(&mut Tally)) {
    TALLY.with(|tally| of(&mut tally.borrow_mut()));
}

/// Starts anew; with a clock or without.
pub fn begin(timed: bool) {
    with(|t| *t = Tally { clock: timed.then(|| (OTHER, Instant::now())), ..Tally::default() });
    libm::mark(0, 0);
}

/// What was counted since.
pub fn end() -> Tally {
    phase(OTHER);
    TALLY.with(RefCell::take)
}

pub fn run() {
    phase(RUNS);
    with(|t| {
        t.runs += 1;
        t.step = 0;
        libm::mark(t.runs, 0);
    });
}

pub fn step(k: usize) {
    with(|t| {
        t.step = k as u64;
        libm::mark(t.runs, k as u64);
    });
}

/// From here on an angle outside the range is at place 0.
pub fn outside_run() {
    with(|t| libm::mark(t.runs, 0));
}

pub fn node(k: usize) {
    with(|t| t.node = k as u64);
}

pub fn round() {
    with(|t| {
        t.rounds += 1;
        t.repeated += u64::from(t.kept);
        t.kept = false;
    });
}

pub fn length(length: f64) {
    with(|t| t.nan += u64::from(length.is_nan()));
}

pub fn trial(length: f64, best: f64) {
    with(|t| t.equal += u64::from(length == best));
}

pub fn accepted() {
    with(|t| (t.accepted, t.held) = (t.accepted + 1, t.trial_held));
}

/// One more at each place whose number is another one now; a NaN is like any NaN.
fn add_changed(held: &mut [u64; 20], before: &[f64], after: &[f64]) {
    for (count, (x, y)) in held.iter_mut().zip(before.iter().zip(after)) {
        *count += u64::from(x.to_bits() != y.to_bits() && !(x.is_nan() && y.is_nan()));
    }
}

/// A row of the seed before its projection.
pub fn allocated(row: &[f64]) {
    with(|t| t.before = vec![row.to_vec()]);
}

/// And after it.
pub fn seed_row(row: &[f64]) {
    with(|t| add_changed(&mut t.held, &t.before[0], row));
}

/// A trial's rows before its projection.
pub fn moved(rows: &[Vec<f64>]) {
    with(|t| t.before = rows.to_vec());
}

/// And after it.
pub fn projected(rows: &[Vec<f64>]) {
    with(|t| {
        t.trial_held = [0; 20];
        t.before.iter().zip(rows).for_each(|(before, after)| add_changed(&mut t.trial_held, before, after));
    });
}

pub fn rejected() {
    with(|t| (t.rejected, t.kept) = (t.rejected + 1, true));
}

pub fn singular() {
    with(|t| (t.singular, t.kept) = (t.singular + 1, true));
    phase(OTHER);
}

pub fn decision(duration: f64, rows: &[Vec<f64>]) {
    with(|t| t.decision = std::iter::once(duration).chain(rows.iter().flatten().copied()).collect());
}

/// What is done from here on.
pub fn phase(next: usize) {
    with(|t| {
        if let Some((now, since)) = t.clock {
            let instant = Instant::now();
            t.spent[now] += (instant - since).as_nanos() as u64;
            t.clock = Some((next, instant));
        }
    });
}
