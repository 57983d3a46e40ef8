//! The smallest input that can be found on which the answers differ: actuators are dropped, words set to simpler ones, while they still do.

use crate::maps::Flat;
use crate::words::{Entry, Reader, Words};
use std::panic::{AssertUnwindSafe, catch_unwind};
use std::time::{Duration, Instant};

/// Tries and seconds that a search for a smaller input may take.
const TRIES: u32 = 2_000;
const TIME: Duration = Duration::from_secs(60);

/// Both answers to an input. One that panics is `None`.
pub struct Answers {
    pub ours: Option<Words>,
    pub rust: Option<Words>,
}

impl Answers {
    /// Nothing where the Rust has no answer.
    pub fn of(entry: &Entry, inputs: &[u64]) -> Option<Self> {
        let (mut ours, mut rust) = (Words::default(), Words::default());
        let answered = catch_unwind(AssertUnwindSafe(|| entry.by_rust(inputs, &mut rust)));
        if let Ok(false) = answered {
            return None;
        }
        let given = catch_unwind(AssertUnwindSafe(|| (entry.ours)(inputs, &mut ours)));
        Some(Answers { ours: given.is_ok().then_some(ours), rust: answered.is_ok().then_some(rust) })
    }

    pub fn agree(&self) -> bool {
        matches!((&self.ours, &self.rust), (Some(a), Some(b)) if a.0 == b.0)
    }

    /// Whether ours and the Rust panic or answer as they do there: an input that is no case makes both panic.
    fn alike(&self, other: &Self) -> bool {
        self.ours.is_some() == other.ours.is_some() && self.rust.is_some() == other.rust.is_some()
    }
}

struct Search<'a> {
    entry: &'a Entry,
    first: &'a Answers,
    best: Vec<u64>,
    tries: u32,
    until: Instant,
}

impl Search<'_> {
    /// Takes the input if the answers differ on it too.
    fn take(&mut self, inputs: Vec<u64>) -> bool {
        if inputs == self.best || self.tries == 0 || Instant::now() > self.until {
            return false;
        }
        self.tries -= 1;
        let differ = Answers::of(self.entry, &inputs).is_some_and(|a| !a.agree() && a.alike(self.first));
        if differ {
            self.best = inputs;
        }
        differ
    }

    /// Without one actuator after another, the last first.
    fn drop_actuators(&mut self) {
        for kind in [2, 1, 0] {
            for k in (0..12).rev() {
                let mut flat = Flat::take(&mut Reader(&self.best));
                if flat.remove(kind, k) {
                    let mut words = Words::default();
                    flat.put(&mut words);
                    words.0.extend_from_slice(&self.best[words.0.len()..]);
                    self.take(words.0);
                }
            }
        }
    }

    /// Runs of words at once: taken out where a case may have any length, else set to zero. Long runs first.
    fn blocks(&mut self) {
        let mut size = self.best.len().next_power_of_two() / 2;
        while size > 0 {
            let mut at = 0;
            while at < self.best.len() {
                let end = (at + size).min(self.best.len());
                let mut inputs = self.best.clone();
                if self.entry.cuts() {
                    inputs.drain(at..end);
                } else {
                    inputs[at..end].fill(0);
                }
                let cut = self.take(inputs) && self.entry.cuts();
                at = if cut { at } else { end };
            }
            size /= 2;
        }
    }

    /// Each word by simpler ones; whether any was taken.
    fn words(&mut self) -> bool {
        let mut taken = false;
        for at in 0..self.best.len() {
            for word in simpler(self.best[at]) {
                let mut inputs = self.best.clone();
                inputs[at] = word;
                if self.take(inputs) {
                    taken = true;
                    break;
                }
            }
        }
        taken
    }
}

/// How far a word is from a simple one: counts by their size, floats by the digits they need.
fn weight(word: u64) -> u64 {
    let digits = 52 - u64::from((word & ((1 << 52) - 1) | 1 << 52).trailing_zeros());
    let exponent = (word >> 52 & 0x7FF).abs_diff(1023);
    if word < 1 << 32 { word.min(1 << 20) } else { (1 << 20) + 4 * digits + exponent + 2 * (word >> 63) }
}

/// Words to put in its place, the simplest first. A count stays a count.
fn simpler(word: u64) -> Vec<u64> {
    let x = f64::from_bits(word);
    let mut list = if word < 1 << 32 {
        vec![0, 1, word / 2, word.saturating_sub(1)]
    } else {
        let digits = |n: u32| word & (u64::MAX << (52 - n));
        vec![0, 1.0f64.to_bits(), digits(0), digits(1), x.round().to_bits(), digits(4), digits(12), x.abs().to_bits()]
    };
    list.retain(|w| weight(*w) < weight(word));
    list
}

/// The smallest input found on which the answers differ, and both answers to it; none where they do not differ again.
pub fn smallest(entry: &Entry, inputs: &[u64]) -> Option<(Vec<u64>, Answers)> {
    let first = Answers::of(entry, inputs).filter(|answers| !answers.agree())?;
    // what is tried may be no case at all: panics are counted on here and not told
    let told = std::panic::take_hook();
    std::panic::set_hook(Box::new(|_| {}));
    let mut search = Search { entry, first: &first, best: inputs.to_vec(), tries: TRIES, until: Instant::now() + TIME };
    if entry.declares() {
        search.drop_actuators();
    }
    search.blocks();
    // a byte of a text in place of another makes it no simpler
    while !entry.cuts() && search.words() {}
    let best = search.best;
    let answers = Answers::of(entry, &best);
    std::panic::set_hook(told);
    answers.map(|answers| (best, answers))
}
