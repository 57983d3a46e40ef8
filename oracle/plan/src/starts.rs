//! The momenta that the wheels of a run start with, on this thread: those of the problem at hand. The published lines start every wheel with zero.

use std::cell::RefCell;

thread_local! {
    static STARTS: RefCell<Vec<f64>> = const { RefCell::new(Vec::new()) };
}

/// The starts of so many wheels, as `reconstruct` takes them up; zero where none is set.
pub fn of(wheels: usize) -> Vec<f64> {
    STARTS.with_borrow(|starts| (0..wheels).map(|k| starts.get(k).copied().unwrap_or(0.0)).collect())
}

/// Puts zeros back, after a panic too.
struct Back;

impl Drop for Back {
    fn drop(&mut self) {
        STARTS.with_borrow_mut(Vec::clear);
    }
}

/// What `of` gives with these starts.
pub fn with<T>(starts: &[f64], of: impl FnOnce() -> T) -> T {
    STARTS.with_borrow_mut(|kept| {
        kept.clear();
        kept.extend_from_slice(starts);
    });
    let _back = Back;
    of()
}
