//! The schema's names that the published Rust uses. The two tolerances are constants there and fields of a problem here, so these constants
//! compare with a float by the value that the current problem has.

use std::cell::Cell;
use std::cmp::Ordering;

thread_local! {
    static NORM: Cell<f64> = const { Cell::new(1.0e-6) };
    static TIE: Cell<f64> = const { Cell::new(1.0e-6) };
}

/// The two tolerances from here on, on this thread.
pub fn set_tolerances(norm: f64, tie: f64) {
    NORM.with(|cell| cell.set(norm));
    TIE.with(|cell| cell.set(tie));
}

#[derive(Clone, Copy)]
pub enum Tolerance {
    Norm,
    Tie,
}

impl Tolerance {
    #[inline]
    fn value(self) -> f64 {
        match self {
            Self::Norm => NORM.with(Cell::get),
            Self::Tie => TIE.with(Cell::get),
        }
    }
}

pub const NORM_ABS_TOLERANCE: Tolerance = Tolerance::Norm;
pub const PI_TIE_ABS_DOT: Tolerance = Tolerance::Tie;

impl PartialEq<Tolerance> for f64 {
    fn eq(&self, other: &Tolerance) -> bool {
        *self == other.value()
    }
}

impl PartialOrd<Tolerance> for f64 {
    fn partial_cmp(&self, other: &Tolerance) -> Option<Ordering> {
        self.partial_cmp(&other.value())
    }
}

#[derive(Clone, Copy, Debug, PartialEq)]
pub enum ComponentOrder {
    Wxyz,
    Xyzw,
}
