//! The normal equations and the elimination of scvx.rs: systems of every size, good and hostile.

use crate::ffi::*;
use crate::random::Random;
use crate::words::{Entry, Reader, Words};
use quatopsy_plan::scvx::probe as rust;

/// A Jacobian by rows, residuals, a damping factor.
pub struct System {
    pub n: usize,
    pub m: usize,
    pub jac: Vec<f64>,
    pub r: Vec<f64>,
    pub lambda: f64,
}

/// Kinds: plain, with NaN and infinities, with signed zeros and zero columns, equal columns (singular but for the damping), tiny and huge ones.
pub fn system(r: &mut Random, n: usize, m: usize) -> System {
    let kind = r.below(8);
    let mut jac: Vec<f64> = (0..n * m).map(|_| r.tame()).collect();
    let mut residuals: Vec<f64> = (0..m).map(|_| r.tame()).collect();
    let mut lambda = (10.0f64).powi(r.below(15) as i32 - 8);
    match kind {
        0 => {
            for _ in 0..3 {
                let at = r.below((n * m) as u64) as usize;
                jac[at] = r.hostile();
                let at = r.below(m as u64) as usize;
                residuals[at] = r.hostile();
            }
        }
        1 => jac.iter_mut().for_each(|x| *x = if r.one_in(2) { 0.0 } else { -0.0 }),
        2 => {
            let column = r.below(n as u64) as usize;
            (0..m).for_each(|i| jac[i * n + column] = 0.0);
            lambda = if r.one_in(2) { 0.0 } else { lambda };
        }
        3 if n > 1 => {
            (0..m).for_each(|i| jac[i * n + 1] = jac[i * n]);
            lambda = [0.0, 1.0e-19, 1.0e-18, 1.0e-8][r.below(4) as usize];
        }
        4 => jac.iter_mut().for_each(|x| *x *= 1.0e-10),
        5 => jac.iter_mut().for_each(|x| *x *= (2.0f64).powi(r.below(200) as i32 - 100)),
        _ => {}
    }
    if r.one_in(16) {
        lambda = r.hostile();
    }
    System { n, m, jac, r: residuals, lambda }
}

impl System {
    /// The unknowns, the rows, the damping factor, the residuals, the Jacobian by columns.
    fn put(&self, w: &mut Words) {
        w.n(self.n as u64);
        w.n(self.m as u64);
        w.f(self.lambda);
        w.all(&self.r);
        w.all(&room(self)[..self.m * self.n]);
    }

    fn take(i: &[u64]) -> Self {
        let mut r = Reader(i);
        let (n, m, lambda) = (r.n() as usize, r.n() as usize, r.f());
        let (residuals, columns) = (r.list(m), r.list(m * n));
        let jac = (0..m * n).map(|k| columns[k % n * m + k / n]).collect();
        System { n, m, jac, r: residuals, lambda }
    }

    /// The matrix and the right side as the Rust forms them.
    fn formed(&self) -> (Vec<Vec<f64>>, Vec<f64>) {
        let jac: Vec<Vec<f64>> = self.jac.chunks(self.n).map(<[f64]>::to_vec).collect();
        rust::normal(&jac, &self.r, self.n, self.lambda)
    }
}

/// The workspace that the port's step takes: the Jacobian by columns and room for the matrix.
pub fn room(s: &System) -> Vec<f64> {
    let mut room = vec![0.0; s.n * (s.m + s.n)];
    for c in 0..s.n {
        for i in 0..s.m {
            room[c * s.m + i] = s.jac[i * s.n + c];
        }
    }
    room
}

/// Whether an elimination went through, and what it found.
fn told(o: &mut Words, through: bool, solution: &[f64]) {
    o.n(u64::from(through));
    if through {
        o.all(solution);
    }
}

/// The whole step, then the elimination alone of the system that the Rust formed.
fn by_port(i: &[u64], o: &mut Words) {
    let s = System::take(i);
    let (mut lent, mut step) = (room(&s), vec![0.0; s.n]);
    let through = slew_damped_step(&mut lent, s.m, &s.r, s.lambda, &mut step);
    told(o, through, &step);
    let (a, mut g) = s.formed();
    let through = slew_solve_dense(&mut a.concat(), &mut g);
    told(o, through, &g);
}

/// The Rust's answer, which both must give.
fn by_rust(i: &[u64], o: &mut Words) -> bool {
    let s = System::take(i);
    let (mut a, mut g) = s.formed();
    let through = rust::eliminate(&mut a, &mut g);
    told(o, through, &g);
    told(o, through, &g);
    o.met("singular systems", u64::from(!through));
    o.met("solutions with a NaN", u64::from(through && g.iter().any(|x| x.is_nan())));
    true
}

fn any(r: &mut Random, largest: u64, w: &mut Words) {
    let (n, m) = (1 + r.below(largest) as usize, [28, 79][r.below(2) as usize]);
    system(r, n, m).put(w);
}

/// Systems of up to 60 unknowns, and of up to the 193 of twelve controls.
pub const SYSTEMS: [Entry; 2] = [
    Entry::new(250, "systems", [3_000, 50_000, 0], |r, w| any(r, 60, w), by_port, by_rust),
    Entry::new(251, "large systems", [300, 50_000, 0], |r, w| any(r, 193, w), by_port, by_rust),
];
