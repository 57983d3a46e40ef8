//! Plans whose seed is at rest but for a pulse in a step that is chosen: each end check, and each refusal of a run, at each of its places.

use crate::problems::{AXES, Family, Plan, Seed, about, family, served};
use crate::maps::Flat;
use crate::random::Random;
use crate::runs::checked;

/// The axis that a pulse is about, and its step.
struct At {
    axis: usize,
    step: usize,
}

impl At {
    fn torque<'a>(&self, plan: &'a mut Plan) -> &'a mut f64 {
        let seed = plan.seed.as_mut().expect("a caller's seed");
        &mut seed.torques[3 * self.step + self.axis]
    }
}

/// Actuators with torques that no pulse reaches: the first three along the axes.
fn strong(r: &mut Random, f: Family) -> Flat {
    let mut flat = crate::maps::sound_of(r, (f.wheels, f.thrusters, f.cmgs));
    for first in [0, 48] {
        (0..3).for_each(|k| flat.numbers[first + 3 * k..first + 3 * k + 3].copy_from_slice(&AXES[k]));
    }
    flat.counts[3..].fill(0);
    flat.numbers[24..40].fill(100.0);
    flat.numbers[84..96].fill(100.0);
    flat.numbers[97..].copy_from_slice(&[1.0, 100.0, 1.0e-9]);
    flat
}

/// From rest to rest at the same attitude, without weights: the length of the seed's residuals is that of its pulse, and a small one ends the search in its
/// first round. The inertia and the step are powers of two, so that rates and momenta of a pulse are exact.
fn still(r: &mut Random, f: Family) -> Plan {
    let q0 = if r.one_in(2) { [1.0, 0.0, 0.0, 0.0] } else { about(std::array::from_fn(|_| r.tame()), 3.0 * r.unit()) };
    let mut b = [0.0; 37];
    b[..4].copy_from_slice(&q0);
    b[4..8].copy_from_slice(&q0);
    (0..3).for_each(|k| b[8 + 4 * k] = INERTIA);
    b[17..21].fill(50.0);
    b[24] = if f.pointing { 1.0e-6 } else { 0.0 };
    b[27..29].fill(1.0e-6);
    let seed = Seed { duration: 16.0 * STEP, rates: vec![0.0; 51], torques: vec![0.0; 51] };
    let mut plan = Plan { flat: strong(r, f), body: b, limited: false, seed: Some(seed), lent: 0, fill: f64::NAN };
    plan.lent = plan.room();
    plan
}

const INERTIA: f64 = 256.0;
const STEP: f64 = 0.125;

/// Just over the limit and the 1e-9 that is allowed, or a few times the limit; of either sign.
fn over(r: &mut Random, limit: f64) -> f64 {
    let size = if r.one_in(3) { r.near(limit + 1.0e-9) } else { limit * (1.0 + 2.0 * r.unit()) };
    if r.one_in(2) { size } else { -size }
}

/// 17: a torque over the box.
fn torque(r: &mut Random, plan: &mut Plan, at: At) {
    plan.body[17 + at.axis] = 0.0009765625;
    *at.torque(plan) = over(r, 0.0009765625);
}

/// 18: a rate over the slew limit, at the node after the pulse.
fn rate(r: &mut Random, plan: &mut Plan, at: At) {
    (plan.limited, plan.body[20]) = (true, 9.5367431640625e-7);
    *at.torque(plan) = over(r, 9.5367431640625e-7) * (INERTIA / STEP);
}

/// 19: a momentum over its wheel's, at the node after the pulse.
fn momentum(r: &mut Random, plan: &mut Plan, at: At) {
    plan.flat.numbers[32 + at.axis] = 1.52587890625e-5;
    *at.torque(plan) = over(r, 1.52587890625e-5) / STEP;
}

/// 13: a wheel's power over its limit, in the step after one that made it turn.
fn power(r: &mut Random, plan: &mut Plan, at: At) {
    let (first, limit) = (0.0078125, 1.4901161193847656e-8);
    (plan.flat.counts[3 + at.axis], plan.flat.numbers[40 + at.axis]) = (1, limit);
    *at.torque(plan) = first;
    let next = At { step: (at.step + 1).min(15), ..at };
    *next.torque(plan) = over(r, limit) * (INERTIA / STEP / first);
}

/// 12: the determinant of the pyramid at rest is just above what is allowed, or just below.
fn singular(r: &mut Random, plan: &mut Plan, at: At) {
    let Ok(task) = checked(&plan.flat, &plan.body, false) else { return };
    plan.flat.numbers[99] = task.map.singularity([0.0; 4]) * (1.0 + [-1.0e-12, -1.0e-12, 1.0e-12][r.below(3) as usize]);
    *at.torque(plan) = over(r, 0.01);
}

/// 11: a step so fast, or of no number, that its angle has no sine.
fn fast(r: &mut Random, plan: &mut Plan, at: At) {
    plan.flat.numbers[24..40].fill(1.0e12);
    plan.flat.numbers[84..96].fill(1.0e12);
    plan.flat.numbers[97..99].fill(1.0e6);
    plan.body[17..20].fill(1.0e12);
    *at.torque(plan) = [f64::NAN, 1.0e9, -1.0e9, f64::INFINITY, 1.0e8][r.below(5) as usize];
}

/// A length at 0.005, where the search ends: a still path with a weight on its time.
fn long(r: &mut Random, plan: &mut Plan, _: At) {
    plan.body[21] = 1.0;
    plan.seed.as_mut().expect("a caller's seed").duration = r.near(0.25);
}

const PULSES: [fn(&mut Random, &mut Plan, At); 7] = [torque, rate, momentum, power, singular, fast, long];

/// A plan with one pulse.
pub fn pulse(r: &mut Random) -> Plan {
    let kind = r.below(7) as usize;
    let f = match kind {
        2 | 3 => family("wheels", 3 + r.below(6) as usize, 0, 0, false),
        4 => family("pyramid", 0, 0, 1, false),
        _ => served(r),
    };
    let mut plan = still(r, f);
    let at = At { axis: r.below(3) as usize, step: r.below(16) as usize };
    PULSES[kind](r, &mut plan, at);
    plan
}
