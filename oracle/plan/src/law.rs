//! Which law of the wheels' torque the copy of actuators.rs follows on this thread: the planner's, in which the cross product of body rate and stored momentum
//! stands once (the published line that subtracts it is left out), or the published one.

use std::cell::Cell;

thread_local! {
    static PUBLISHED: Cell<bool> = const { Cell::new(false) };
}

/// Whether the published line is run.
#[inline]
pub fn published() -> bool {
    PUBLISHED.get()
}

/// Puts the planner's law back, after a panic too.
struct Back;

impl Drop for Back {
    fn drop(&mut self) {
        PUBLISHED.set(false);
    }
}

/// What `of` gives under the published law.
pub fn as_published<T>(of: impl FnOnce() -> T) -> T {
    PUBLISHED.set(true);
    let _back = Back;
    of()
}
