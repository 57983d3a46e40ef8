//! Which fault of mutations.rs is on: none, or one. The copies of the published files that `build.rs` makes with the feature `faults` ask here.

use std::sync::atomic::{AtomicBool, AtomicUsize, Ordering};

static ON: AtomicUsize = AtomicUsize::new(usize::MAX);
static REACHED: AtomicBool = AtomicBool::new(false);

/// From here on this fault is on, or none.
pub fn set(fault: Option<usize>) {
    ON.store(fault.unwrap_or(usize::MAX), Ordering::Relaxed);
}

/// Whether the fault that is on was reached since the last call.
pub fn was_reached() -> bool {
    REACHED.swap(false, Ordering::Relaxed)
}

#[inline]
pub fn on(fault: usize) -> bool {
    let on = ON.load(Ordering::Relaxed) == fault;
    if on {
        REACHED.store(true, Ordering::Relaxed);
    }
    on
}

/// The faulty text if the fault is on, else the published one.
macro_rules! switch {
    ($fault:literal {$($new:tt)*} {$($old:tt)*}) => { if crate::faults::on($fault) { $($new)* } else { $($old)* } };
}
pub(crate) use switch;
