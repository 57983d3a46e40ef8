//! Inputs just at the limits, and a step of the last place to either side: what random inputs seldom meet. Each entry is one of the tables' with another maker.

use crate::courses::COURSES;
use crate::maps::Flat;
use crate::plans::{self, PLANS, Plan, Seed};
use crate::random::Random;
use crate::runs::RUNS;
use crate::samples::{SAMPLES, Track};
use crate::shapes::SHAPES;
use crate::systems::SYSTEMS;
use crate::words::{Entry, Words};
use quatopsy_plan::probe as rust;
use quatopsy_plan::scvx::probe as scvx;

/// At x in half of the cases, else a few steps of the last place away.
fn at(r: &mut Random, x: f64) -> f64 {
    if r.one_in(2) { x } else { r.near(x) }
}

/// The peak rate at the slew limit.
fn switches(r: &mut Random, w: &mut Words) {
    let (theta, alpha) = (0.01 + 3.0 * r.unit(), 0.001 + r.unit());
    let peak = alpha * (theta / alpha).sqrt();
    w.all(&[theta, alpha]);
    w.n(1);
    w.f(at(r, peak));
}

/// A part of the accelerated momentum at 1e-15, below which it does not count.
fn boxes(r: &mut Random, w: &mut Words) {
    let j = [1.0 + r.unit(), 0.0, 0.0, at(r, 1.0e-15), 2.0, 0.0, 0.0, 0.0, 3.0];
    w.all(&j);
    w.all(&[1.0, 0.0, 0.0]);
    w.all(&[0.1 + r.unit(), 1.0e-16 * r.unit(), 0.1 + r.unit()]);
}

/// The scalar part at the tie tolerance, in a problem that has a profile.
fn ties(r: &mut Random, w: &mut Words) {
    let tie = r.unit() * (10.0f64).powi(-(r.below(7) as i32));
    let x = (1.0 - tie * tie).sqrt();
    w.all(&[1.0, 0.0, 0.0, 0.0, tie, x, 0.0, 0.0]);
    w.all(&[1.0 + r.unit(), 0.0, 0.0, 0.0, 2.0, 0.0, 0.0, 0.0, 3.0]);
    w.all(&[0.1 + r.unit(), 0.1 + r.unit(), 0.1 + r.unit()]);
    w.n(r.below(2));
    w.f(0.5);
    w.f(at(r, tie));
}

/// A length off by the tolerance; a length of zero with a tolerance that would take it.
fn lengths(r: &mut Random, w: &mut Words) {
    if r.one_in(4) {
        let q: [f64; 4] = std::array::from_fn(|_| [0.0, -0.0, 1.0e-200][r.below(3) as usize]);
        w.all(&q);
        return w.f([1.0, 2.0, f64::INFINITY, f64::NAN][r.below(4) as usize]);
    }
    let q = r.attitude();
    let n = (q[0] * q[0] + q[1] * q[1] + q[2] * q[2] + q[3] * q[3]).sqrt();
    w.all(&q);
    w.f(at(r, (n - 1.0).abs()));
}

/// A determinant at 1e-18.
fn determinants(r: &mut Random, w: &mut Words) {
    let d = at(r, 1.0e-18);
    w.all(&[if r.one_in(2) { d } else { -d }, 0.0, 0.0, r.tame(), 1.0, 0.0, r.tame(), r.tame(), 1.0]);
}

/// One pair off the diagonal apart by 1e-12, or by more; signs on the diagonal.
fn pairs(r: &mut Random, w: &mut Words) {
    let mut j = [1.0 + r.unit(), 0.0, 0.0, 0.0, 1.0 + r.unit(), 0.0, 0.0, 0.0, 1.0 + r.unit()];
    let off = [1, 2, 3, 5, 6, 7][r.below(6) as usize];
    j[off] = match r.below(3) {
        0 => 1.0e-3,
        _ => at(r, 1.0e-12),
    };
    if r.one_in(4) {
        (0..3).for_each(|k| j[4 * k] *= if r.one_in(2) { 1.0 } else { -1.0 });
        j[off] = 0.0;
    }
    w.all(&j);
}

/// An axis of length 1e-18, or of 1e-16 and about: where the exponential and the logarithm turn.
fn axes(r: &mut Random, w: &mut Words) {
    let length = [1.0e-18, 1.0e-16][r.below(2) as usize];
    let mut v = [0.0; 3];
    v[r.below(3) as usize] = at(r, length);
    w.all(&v);
}

/// Pivots at 1e-18: no residual depends on some unknowns, and the damping alone stands there.
fn pivots(r: &mut Random, w: &mut Words) {
    let n = 1 + r.below(4) as usize;
    w.n(n as u64);
    w.n(28);
    w.f(at(r, 1.0e-18));
    (0..28).for_each(|_| w.f(r.tame()));
    for _ in 0..n {
        let blank = r.one_in(2);
        (0..28).for_each(|i| w.f(if blank || i > 3 { 0.0 } else { r.below(3) as f64 }));
    }
}

/// A problem at rest: its inertia is 1, its box wide.
fn still(wheels: usize, thrusters: usize, cmgs: usize) -> (Flat, [f64; 37]) {
    let mut flat = Flat { counts: [0; 11], numbers: [0.0; 100] };
    flat.counts[..3].copy_from_slice(&[wheels, thrusters, cmgs]);
    for k in 0..wheels {
        flat.numbers[3 * k + k % 3] = 1.0;
        flat.numbers[24 + k] = 1.0;
        flat.numbers[32 + k] = 100.0;
    }
    flat.numbers[96..].copy_from_slice(if cmgs == 1 { &[0.95, 1.0, 10.0, 1.0e-3] } else { &[0.0; 4] });
    let mut b = [0.0; 37];
    (b[0], b[4]) = (1.0, 1.0);
    (0..3).for_each(|k| (b[8 + 4 * k], b[17 + k]) = (1.0, 10.0));
    (b[20], b[21]) = (10.0, 1.0);
    b[27..29].copy_from_slice(&[1.0e-6, 1.0e-6]);
    (flat, b)
}

/// Runs whose determinant is at the smallest one, whose power is over by 1e-9, or that have both at one step.
fn steps(r: &mut Random, w: &mut Words) {
    let mut z = [0.0; 193];
    z[0] = 16.0;
    let kind = r.below(3);
    let (mut flat, b) = still(usize::from(kind != 0), 0, usize::from(kind != 1));
    let width = flat.width();
    if kind == 0 {
        let skew = 0.1 + 1.4 * r.unit();
        flat.numbers[96] = skew;
        let map = rust::prepare(&flat.given()).unwrap_or_else(|_| panic!("a pyramid"));
        flat.numbers[99] = at(r, map.singularity([0.0; 4]));
    } else {
        // step 0 turns the table to a rate of 1; step 1 has the power
        (z[1], z[1 + width]) = (-1.0, at(r, 2.0e-9));
        (flat.counts[3], flat.numbers[40]) = (1, 1.0e-9);
        if kind == 2 {
            let step = if r.one_in(2) { 1 + width } else { 1 };
            (0..4).for_each(|k| z[step + 1 + k] = std::f64::consts::FRAC_PI_2);
            z[1 + width] = [2.0e-9, 1.0][r.below(2) as usize];
        }
    }
    flat.put(w);
    w.all(&b);
    w.n(0);
    w.all(&z);
}

/// Lists so long in time that the rate decides how many samples they have, at rates about the smallest that counts.
fn long_lists(r: &mut Random, w: &mut Words) {
    let duration = 3.0e4 + 1.0e6 * r.unit();
    let mut nodes = [[0.0; 22]; 17];
    for (k, node) in nodes.iter_mut().enumerate() {
        node[..6].copy_from_slice(&[k as f64 * (duration / 16.0), 1.0, 0.0, 0.0, 0.0, 1.0e-7 * r.tame()]);
    }
    let alpha = match r.below(4) {
        0 => at(r, 1.0e-6),
        1 => [0.0, -0.0, -1.0, f64::NAN][r.below(4) as usize],
        _ => 2.0e-6 * r.unit(),
    };
    let inertia = [1.0, 0.0, 0.0, 0.0, 2.0, 0.0, 0.0, 0.0, 3.0];
    Track { inertia, tolerance: 1.0e-6, duration, nodes, requested: r.below(20) as usize, alpha }.put(w);
}

pub const EDGES: [Entry; 15] = [
    Entry { number: 450, name: "switch_times, edges", kept: 0, make: switches, ..COURSES[0] },
    Entry { number: 451, name: "alpha_from_box, edges", kept: 0, make: boxes, ..COURSES[1] },
    Entry { number: 452, name: "bang_coast_bang, edges", kept: 0, make: ties, ..COURSES[2] },
    Entry { number: 453, name: "quat_normalized, edges", kept: 0, make: lengths, ..SHAPES[7] },
    Entry { number: 454, name: "exp_so3, edges", kept: 0, make: axes, ..SHAPES[8] },
    Entry { number: 455, name: "invert3, edges", kept: 0, make: determinants, ..SHAPES[11] },
    Entry { number: 456, name: "invert_spd, edges", kept: 0, make: pairs, ..SHAPES[12] },
    Entry { number: 457, name: "is_spd, edges", kept: 0, make: pairs, ..SHAPES[14] },
    Entry { number: 458, name: "unit3, edges", kept: 0, make: axes, ..SHAPES[22] },
    Entry { number: 459, name: "systems, edges", kept: 0, make: pivots, ..SYSTEMS[0] },
    Entry { number: 460, name: "reconstruct, edges", quick: 20_000, kept: 0, make: steps, ..RUNS[7] },
    Entry { number: 461, name: "residuals, edges", quick: 20_000, kept: 0, make: steps, ..RUNS[8] },
    Entry { number: 462, name: "allocate_body_torque, edges", kept: 0, make: allocations, ..RUNS[3] },
    Entry { number: 464, name: "sample lists, edges", kept: 0, make: long_lists, ..SAMPLES[2] },
    Entry { number: 463, name: "invert3, mirrored", kept: 0, make: |r, w| w.all(&std::array::from_fn::<f64, 9, _>(|_| r.tame())), ..SHAPES[11] },
];

/// Three thrusters or wheels that just can be inverted.
fn allocations(r: &mut Random, w: &mut Words) {
    let (mut flat, _) = still(3 * r.below(2) as usize, 0, 0);
    if flat.counts[0] == 0 {
        flat.counts[1] = 3;
        (0..3).for_each(|k| (flat.numbers[48 + 4 * k], flat.numbers[84 + k]) = (1.0, 1.0));
    }
    let at = [3, 51][usize::from(flat.counts[0] == 0)];
    flat.numbers[at] = r.tame();
    flat.put(w);
    w.all(&[r.tame(), r.tame(), r.tame()]);
}

/// A caller's seed that holds each control at its upper stop for 10,000 seconds: no column moves it, so that the path is the seed's.
fn held(r: &mut Random, torques: [f64; 3], wheels: usize) -> Plan {
    let (mut flat, mut b) = still(wheels, 0, 0);
    (0..3).for_each(|k| b[17 + k] = torques[k]);
    (0..wheels).for_each(|k| flat.numbers[24 + k] = torques[k]);
    b[21] = [0.0, 1.0e-12][r.below(2) as usize];
    let sign = if wheels > 0 { -1.0 } else { 1.0 };
    let row: Vec<f64> = torques.iter().map(|x| sign * x).collect();
    let seed = Seed { duration: 1.0e4, rates: vec![0.0; 51], torques: row.repeat(17) };
    finished(r, Plan { flat, body: b, limited: false, seed: Some(seed), lent: 0, fill: 0.0 })
}

/// The end attitude becomes the one that the seed's run ends with.
fn finished(r: &mut Random, mut plan: Plan) -> Plan {
    plan.lent = plan.room();
    plan.fill = [f64::NAN, 0.0, 1.0][r.below(3) as usize];
    if let Some(end) = seed_end(&plan) {
        plan.body[4..8].copy_from_slice(&end);
    }
    plan
}

/// The attitude that the seed's own decision ends with.
fn seed_end(plan: &Plan) -> Option<[f64; 4]> {
    let (task, duration, _, torques) = plans::begun(plan).ok()?;
    let mut z = vec![duration];
    for tau in &torques[..16] {
        let mut row = task.map.allocate(*tau).ok()?;
        task.map.project_controls(&mut row, task.limit);
        z.extend(row);
    }
    Some(scvx::run(&task, &z).ok()?.quats[16])
}

/// The first of some numbers for which `of` gives just `goal`, or the last.
fn just(goal: f64, mut among: impl Iterator<Item = f64>, of: impl Fn(f64) -> f64) -> f64 {
    let mut last = 0.0;
    among.find(|x| {
        last = *x;
        of(*x) == goal
    });
    last
}

/// The rate after 16 steps of 625 seconds from rest at a constant torque on an inertia of 1.
fn rate_after(torque: f64) -> f64 {
    (0..16).fold(0.0, |w, _| w + torque * 625.0)
}

/// A torque limit so small that no control moves anything.
const TINY: f64 = 1.0e-200;

fn seeded(r: &mut Random, (flat, b): (Flat, [f64; 37]), duration: f64) -> Plan {
    let seed = Seed { duration, rates: vec![0.0; 51], torques: vec![0.0; 51] };
    finished(r, Plan { flat, body: b, limited: false, seed: Some(seed), lent: 0, fill: 0.0 })
}

/// A length at 0.005 from the start: nothing but the time's row.
fn short(r: &mut Random) -> Plan {
    let (flat, mut b) = still(0, 0, 0);
    b[21] = [1.0, 4.0, 0.25][r.below(3) as usize];
    let duration = at(r, 0.25 / b[21].sqrt());
    seeded(r, (flat, b), duration)
}

/// The duration moves by small steps, and little of it shows beside the end attitude, which nothing can move: the time's weight is 10 to this power.
fn unmoved(r: &mut Random, exponent: f64) -> Plan {
    let (flat, mut b) = still(0, 0, 0);
    (0..3).for_each(|k| b[17 + k] = TINY);
    b[21] = (10.0f64).powf(exponent);
    let duration = 1.0 + 20.0 * r.unit();
    let mut plan = seeded(r, (flat, b), duration);
    let turn: [f64; 3] = std::array::from_fn(|_| 2.0e-5 * r.unit());
    plan.body[5..8].copy_from_slice(&turn);
    plan
}

/// Trials of equal length.
fn equal(r: &mut Random) -> Plan {
    let exponent = -12.0 - 4.0 * r.unit();
    unmoved(r, exponent)
}

/// Trials whose length differs by a step of its last place, or not, as its squares are summed.
fn nearly(r: &mut Random) -> Plan {
    let exponent = -8.3 - 0.7 * r.unit();
    unmoved(r, exponent)
}

/// An end rate at 0.0001: just below it about one axis, and a little about another.
fn end_rate(r: &mut Random) -> Plan {
    let (goal, first) = (at(r, 1.0e-4), rate_after(0.99999999999999e-8));
    let length = |second: f64| (first * first + rate_after(second) * rate_after(second)).sqrt();
    let second = just(goal, (1..4000).map(|k| f64::from(k) * 1.0e-18), length);
    held(r, [0.99999999999999e-8, second, TINY], 0)
}

/// A slew rate over by 1e-9.
fn slew(r: &mut Random) -> Plan {
    let mut plan = held(r, [0.9e-8, TINY, TINY], 0);
    let rate = rate_after(0.9e-8);
    let near = (0..9).map(|k| f64::from_bits((rate - 1.0e-9).to_bits() + k - 4));
    plan.body[20] = just(at(r, rate), near, |x| x + 1.0e-9);
    plan.limited = true;
    plan
}

/// A torque over by 1e-9, or by a tenth of that.
fn torque(r: &mut Random) -> Plan {
    let over = [1.0e-9, 1.0e-10][r.below(2) as usize];
    let mut plan = held(r, [1.0e-9 + over, TINY, TINY], 3);
    plan.body[17] = at(r, 1.0e-9);
    plan
}

/// A wheel's momentum over by 1e-9 in the last node.
fn momentum(r: &mut Random) -> Plan {
    let mut plan = held(r, [2.0e-13, TINY, TINY], 3);
    plan.flat.numbers[32] = at(r, rate_after(2.0e-13) - 1.0e-9);
    plan
}

/// Two wheels of one axis about which the inertia is so small that the damping is lost beside their equal columns, for some rounds or for all.
fn twins(r: &mut Random) -> Plan {
    let (mut flat, mut b) = still(4, 0, 0);
    flat.numbers[9..12].copy_from_slice(&[1.0, 0.0, 0.0]);
    let step = 0.02 + 0.02 * r.unit();
    b[8] = 400.0 * step / (10.0f64).powf(8.0 + 5.0 * r.unit());
    (b[12], b[16]) = (1.0e6, 1.0e6);
    let mut plan = seeded(r, (flat, b), 16.0 * step);
    let half = 0.2 * r.unit();
    plan.body[4..8].copy_from_slice(&[half.cos(), half.sin(), 0.0, 0.0]);
    plan
}

/// Every trial is accepted, and the damping falls to its end: nothing but a small time weight.
fn slow(r: &mut Random) -> Plan {
    let (flat, mut b) = still(0, 0, 0);
    b[21] = (10.0f64).powf(-4.0 - 2.5 * r.unit());
    let duration = 2000.0 + 7000.0 * r.unit();
    seeded(r, (flat, b), duration)
}

/// An effort that overflows where the duration grows, with a weight of 0: the trial's length is a NaN.
fn overflow(r: &mut Random) -> Plan {
    let (flat, mut b) = still(0, 0, 0);
    let duration = 17.0 + 20.0 * r.unit();
    let most = (f64::MAX / duration).sqrt() * (1.0 - 0.02 * r.unit());
    let rate = 0.5 / (duration * duration);
    (b[8], b[17]) = (most / rate, most);
    // about the other axes a control's change is 0: it underflows
    (b[12], b[16], b[18], b[19]) = (1.0e70, 1.0e70, 1.0e-300, 1.0e-300);
    let mut plan = seeded(r, (flat, b), duration);
    if let Some(seed) = &mut plan.seed {
        (0..17).for_each(|k| seed.torques[3 * k] = if k < 8 { most } else { -most });
    }
    let half = rate * duration * duration / 8.0 * (1.05 + 0.3 * r.unit());
    plan.body[4..8].copy_from_slice(&[half.cos(), half.sin(), 0.0, 0.0]);
    plan
}

/// Durations about the clamp's ends.
fn durations(r: &mut Random) -> Plan {
    let mut plan = plans::tame(r, plans::FAMILIES[0]);
    let scale = [1.0e-9, 1.0e-7, 1.0e5, 1.0e7][r.below(4) as usize];
    plan.body[8..17].iter_mut().for_each(|x| *x *= scale);
    plan.lent = plan.room();
    plan
}

/// So heavy that the defect is over.
fn heavy(r: &mut Random) -> Plan {
    let mut plan = plans::tame(r, plans::FAMILIES[0]);
    let scale = 3.0e13 * (10.0f64).powf(3.0 * r.unit());
    plan.body[8..20].iter_mut().for_each(|x| *x *= scale);
    plan.lent = plan.room();
    plan
}

const KINDS: [fn(&mut Random) -> Plan; 12] = [short, equal, nearly, end_rate, slew, torque, momentum, twins, slow, overflow, durations, heavy];

/// A plan at a limit of the search or of the end checks.
fn limits(r: &mut Random, w: &mut Words) {
    let kind = KINDS[r.below(KINDS.len() as u64) as usize];
    kind(r).put(w);
}

pub const PLANS_AT_EDGES: [Entry; 1] = [Entry { number: 340, name: "plans, edges", quick: 400, full: 4_000, kept: 0, make: limits, ..PLANS[0] }];
