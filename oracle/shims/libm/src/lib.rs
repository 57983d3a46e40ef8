//! What the published Rust takes from the crate libm. The angles are ours over the C interface, or the platform's: a switch.
//! Square roots and sizes are the machine's: both are exact by IEEE 754.

use std::cell::Cell;
use std::sync::atomic::{AtomicBool, Ordering};

unsafe extern "C" {
    fn slew_sin(x: f64, answer: &mut f64) -> bool;
    fn slew_cos(x: f64, answer: &mut f64) -> bool;
    fn slew_acos(x: f64, answer: &mut f64) -> bool;
}

static PLATFORM: AtomicBool = AtomicBool::new(false);

thread_local! {
    static MARK: Cell<(u64, u64)> = const { Cell::new((0, 0)) };
    static OUTSIDE_AT: Cell<Option<(u64, u64)>> = const { Cell::new(None) };
}

/// From here on the angles are the platform's library's, or ours again.
pub fn use_platform(yes: bool) {
    PLATFORM.store(yes, Ordering::Relaxed);
}

/// Whether an argument was outside our functions' range since the last call, which is refusal 11.
pub fn was_outside() -> bool {
    outside_at().is_some()
}

/// Where the computation stands from here on: two numbers that mean something to the caller.
#[inline]
pub fn mark(runs: u64, place: u64) {
    MARK.with(|m| m.set((runs, place)));
}

/// Where it stood when an argument was first outside our functions' range since the last call, if one was.
pub fn outside_at() -> Option<(u64, u64)> {
    OUTSIDE_AT.with(Cell::take)
}

fn ours(x: f64, of: unsafe extern "C" fn(f64, &mut f64) -> bool) -> f64 {
    let mut answer = f64::NAN;
    // The functions take any float and write through a reference to one.
    if !unsafe { of(x, &mut answer) } {
        OUTSIDE_AT.with(|first| first.set(first.get().or(Some(MARK.with(Cell::get)))));
    }
    answer
}

#[inline]
pub fn sin(x: f64) -> f64 {
    if PLATFORM.load(Ordering::Relaxed) { x.sin() } else { ours(x, slew_sin) }
}

#[inline]
pub fn cos(x: f64) -> f64 {
    if PLATFORM.load(Ordering::Relaxed) { x.cos() } else { ours(x, slew_cos) }
}

#[inline]
pub fn acos(x: f64) -> f64 {
    if PLATFORM.load(Ordering::Relaxed) { x.acos() } else { ours(x, slew_acos) }
}

#[inline]
pub fn sqrt(x: f64) -> f64 {
    x.sqrt()
}

#[inline]
pub fn fabs(x: f64) -> f64 {
    x.abs()
}
