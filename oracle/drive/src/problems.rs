//! Whole problems: families in which paths are found often, what is spoilt in them, callers' seeds, the workspace lent.

use crate::maps::{self, Flat};
use crate::random::Random;
use crate::runs::{self, checked};
use crate::words::{Reader, Words};
use quatopsy_plan::probe as rust;

/// A seed that a caller brings: a duration, rates and torques, three numbers a node.
#[derive(Clone, Debug)]
pub struct Seed {
    pub duration: f64,
    pub rates: Vec<f64>,
    pub torques: Vec<f64>,
}

/// A problem with its actuators, a seed of the caller's or none, how many numbers are lent, and what stands in them.
#[derive(Clone)]
pub struct Plan {
    pub flat: Flat,
    pub body: [f64; 37],
    pub limited: bool,
    pub seed: Option<Seed>,
    pub lent: usize,
    pub fill: f64,
}

/// Numbers of rates, and of torques, that a seed has in a case, zeros past their count: 17 nodes and one more.
const SEED: usize = 54;

impl Plan {
    pub fn put(&self, w: &mut Words) {
        self.flat.put(w);
        w.all(&self.body);
        w.n(u64::from(self.limited));
        w.n(self.lent as u64);
        w.f(self.fill);
        w.n(u64::from(self.seed.is_some()));
        let Some(seed) = &self.seed else { return };
        w.f(seed.duration);
        for v in [&seed.rates, &seed.torques] {
            w.n(v.len() as u64);
            w.all(v);
            (v.len()..SEED).for_each(|_| w.f(0.0));
        }
    }

    pub fn take(r: &mut Reader<'_>) -> Self {
        let (flat, body, limited, lent, fill) = (Flat::take(r), r.a(), r.n() != 0, r.n() as usize, r.f());
        let seed = (r.n() != 0).then(|| {
            let list = |r: &mut Reader<'_>| {
                let n = r.n() as usize;
                let mut v = r.list(SEED);
                v.truncate(n);
                v
            };
            Seed { duration: r.f(), rates: list(r), torques: list(r) }
        });
        Plan { flat, body, limited, seed, lent, fill }
    }

    /// Numbers that the search needs: n decisions, 28 or 79 residuals. A row of more than 12 is never searched.
    pub fn room(&self) -> usize {
        let n = 1 + 16 * self.flat.width().min(12);
        let m = if self.body[24] > 0.0 { 79 } else { 28 };
        n * (n + m + 6) + 4 * m
    }
}

/// Which actuators, and whether the pointing weight is above 0.
#[derive(Clone, Copy, Debug, PartialEq)]
pub struct Family {
    pub name: &'static str,
    pub wheels: usize,
    pub thrusters: usize,
    pub cmgs: usize,
    pub pointing: bool,
}

pub const fn family(name: &'static str, wheels: usize, thrusters: usize, cmgs: usize, pointing: bool) -> Family {
    Family { name, wheels, thrusters, cmgs, pointing }
}

/// The families of the measurements.
pub const FAMILIES: [Family; 6] = [
    family("3 controls", 0, 0, 0, false),
    family("3 + pointing", 0, 0, 0, true),
    family("4 wheels", 4, 0, 0, false),
    family("8 wheels", 8, 0, 0, false),
    family("12 thrusters", 0, 12, 0, false),
    family("pyramid", 0, 0, 1, false),
];

pub const AXES: [[f64; 3]; 3] = [[1.0, 0.0, 0.0], [0.0, 1.0, 0.0], [0.0, 0.0, 1.0]];

pub fn about(axis: [f64; 3], angle: f64) -> [f64; 4] {
    let n = (axis[0] * axis[0] + axis[1] * axis[1] + axis[2] * axis[2]).sqrt();
    let s = (angle / 2.0).sin() / n;
    [(angle / 2.0).cos(), axis[0] * s, axis[1] * s, axis[2] * s]
}

/// Hamilton's product.
pub fn times(a: [f64; 4], b: [f64; 4]) -> [f64; 4] {
    [
        a[0] * b[0] - a[1] * b[1] - a[2] * b[2] - a[3] * b[3],
        a[0] * b[1] + a[1] * b[0] + a[2] * b[3] - a[3] * b[2],
        a[0] * b[2] - a[1] * b[3] + a[2] * b[0] + a[3] * b[1],
        a[0] * b[3] + a[1] * b[2] - a[2] * b[1] + a[3] * b[0],
    ]
}

pub fn log_uniform(r: &mut Random, low: f64, high: f64) -> f64 {
    low * (high / low).powf(r.unit())
}

/// Actuators of a family for a slew about principal axis `k` with this torque. Matched: the one that carries it has the box's torque and no other has a part
/// along the axis, so that no torque leaves the box. Else the others point anywhere.
fn actuators(r: &mut Random, f: Family, k: usize, torque: f64, rate: f64, matched: bool) -> Flat {
    let mut flat = Flat { counts: [0; 11], numbers: [0.0; 100] };
    flat.counts[..3].copy_from_slice(&[f.wheels, f.thrusters, f.cmgs]);
    let axis = |r: &mut Random, i: usize| -> [f64; 3] {
        if i < 3 { AXES[i] } else { std::array::from_fn(|l| if matched && l == k { 0.0 } else { r.tame() }) }
    };
    let most = |r: &mut Random, i: usize| torque * if i == k && (matched || r.one_in(2)) { 1.0 } else { log_uniform(r, 1.0, 10.0) };
    for i in 0..f.wheels {
        let a = axis(r, i);
        flat.numbers[3 * i..3 * i + 3].copy_from_slice(&a);
        flat.numbers[24 + i] = most(r, i);
        flat.numbers[32 + i] = torque * log_uniform(r, 10.0, 1000.0);
        if r.one_in(4) {
            flat.counts[3 + i] = 1;
            flat.numbers[40 + i] = torque * rate * log_uniform(r, 0.5, 50.0);
        }
    }
    for i in 0..f.thrusters {
        let a = axis(r, i);
        flat.numbers[48 + 3 * i..51 + 3 * i].copy_from_slice(&a);
        flat.numbers[84 + i] = most(r, i);
    }
    if f.cmgs == 1 {
        let (skew, gimbal) = (0.3 + r.unit(), log_uniform(r, 0.1, 2.0));
        let momentum = if matched { torque / (4.0 * gimbal * skew.sin()) } else { log_uniform(r, 0.3, 30.0) };
        flat.numbers[96..].copy_from_slice(&[skew, momentum, gimbal, 1.0e-3]);
    }
    flat
}

/// A problem of a family in which paths are found often: about a principal axis (or spherical inertia), the box loose but for that axis.
pub fn tame(r: &mut Random, f: Family) -> Plan {
    let k = if f.cmgs == 1 { 2 } else { r.below(3) as usize };
    let (spherical, matched) = (r.one_in(3), !r.one_in(4));
    let j = if spherical { [log_uniform(r, 0.5, 20.0); 3] } else { std::array::from_fn(|_| log_uniform(r, 0.5, 20.0)) };
    let tilted = spherical && f.wheels + f.thrusters + f.cmgs == 0 && r.one_in(2);
    let axis = if tilted { std::array::from_fn(|_| r.tame()) } else { AXES[k] };
    let angle = log_uniform(r, 0.01, 2.8);
    let q0 = if r.one_in(2) { [1.0, 0.0, 0.0, 0.0] } else { about(std::array::from_fn(|_| r.tame()), 3.0 * r.unit()) };
    let qf = times(q0, about(axis, if r.one_in(2) { angle } else { -angle }));
    let torque = log_uniform(r, 0.01, 2.0);
    let rate = (angle * torque / j[k]).sqrt();
    let mut b = [0.0; 37];
    b[..4].copy_from_slice(&q0);
    b[4..8].copy_from_slice(&qf);
    (0..3).for_each(|i| b[8 + 4 * i] = j[i]);
    let loose = if matched { 1000.0 } else { 1.0 };
    (0..3).for_each(|i| b[17 + i] = if i == k { torque } else { torque * loose * log_uniform(r, 1.0, 100.0) });
    b[20] = rate * log_uniform(r, 0.6, 3.0);
    b[21] = if r.one_in(4) { r.unit() } else { 1.0 };
    (22..27).for_each(|i| b[i] = if i != 24 && r.one_in(4) { 0.1 * r.unit() } else { 0.0 });
    b[24] = if f.pointing { log_uniform(r, 0.001, 1.0) } else { 0.0 };
    b[27..29].copy_from_slice(&[1.0e-6, 1.0e-6]);
    let flat = actuators(r, f, k, torque, rate, matched);
    turning(r, &flat, k, &mut b);
    let plan = Plan { flat, body: b, limited: r.one_in(3), seed: None, lent: 0, fill: 0.0 };
    lent(r, plan)
}

/// Wheels that turn at the start, in one of two: with a small part of their momentum, so that paths are still found, or with any part of it about the slew's axis alone, which
/// stores nothing across it.
fn turning(r: &mut Random, flat: &Flat, k: usize, b: &mut [f64; 37]) {
    if r.one_in(2) {
        return;
    }
    let (alone, part) = (r.one_in(2), log_uniform(r, 1.0e-9, 1.0e-2));
    for i in (0..flat.counts[0]).filter(|i| !alone || *i == k) {
        let part = if alone { r.unit() } else { part * r.unit() };
        b[29 + i] = flat.numbers[32 + i] * if r.one_in(2) { part } else { -part };
    }
}

/// The room that is needed, one number less, or more; filled with zeros, NaN or anything.
fn lent(r: &mut Random, mut plan: Plan) -> Plan {
    let room = plan.room();
    plan.lent = match r.below(16) {
        0 => room - 1,
        1 => room + 1 + r.below(1000) as usize,
        2 => r.below(room as u64) as usize,
        _ => room,
    };
    plan.fill = [f64::NAN, 0.0, r.hostile(), 1.0][r.below(4) as usize];
    plan
}

/// Any kind of actuators that is served: none, 3 to 8 wheels, 3 to 12 thrusters, a pyramid; with pointing in one of three.
pub fn served(r: &mut Random) -> Family {
    let pointing = r.one_in(3);
    match r.below(10) {
        0..=3 => family("none", 0, 0, 0, pointing),
        4..=6 => family("wheels", 3 + r.below(6) as usize, 0, 0, pointing),
        7 | 8 => family("thrusters", 0, 3 + r.below(10) as usize, 0, pointing),
        _ => family("pyramid", 0, 0, 1, pointing),
    }
}

/// A caller's seed: the profile's own, scaled in time or torque, or with numbers of any kind; seldom of another length.
fn seed(r: &mut Random, plan: &Plan) -> Seed {
    let own = checked(&plan.flat, &plan.body, plan.limited)
        .ok()
        .and_then(|task| rust::bang_coast_bang(task.q0, task.qf, task.inertia, task.limit, task.slew).ok())
        .map(|shape| (shape.numbers()[4], shape.seed()));
    let (duration, (rates, torques)) = own.unwrap_or((10.0 * r.unit(), (vec![[0.0; 3]; 17], vec![[0.01; 3]; 17])));
    let mut seed = Seed { duration, rates: rates.concat(), torques: torques.concat() };
    match r.below(8) {
        0 => seed.duration = [1.0e-5, 2.0e-4, 2.0e4, 1.0e6, 5e-324, 1.0e300][r.below(6) as usize],
        1 => seed.duration = [0.0, -0.0, -1.0, f64::NAN, f64::INFINITY, f64::NEG_INFINITY][r.below(6) as usize],
        2 => seed.rates.iter_mut().for_each(|x| *x = f64::NAN),
        3 => seed.torques[48..].iter_mut().for_each(|x| *x = f64::NAN),
        4 => {
            let at = r.below(51) as usize;
            seed.torques[at] = r.hostile();
        }
        5 => seed.torques.iter_mut().for_each(|x| *x *= 0.5 + r.unit()),
        6 => seed.torques.iter_mut().for_each(|x| *x = 0.0),
        _ => seed.duration *= log_uniform(r, 0.3, 3.0),
    }
    if r.one_in(16) {
        let list = if r.one_in(2) { &mut seed.rates } else { &mut seed.torques };
        list.resize([0, 3, 48, 50, 52, 54][r.below(6) as usize], 0.5);
    }
    seed
}

/// Two thrusters or wheels of one axis and a small inertia: equal columns, so large that the damping is lost beside them.
fn equal_columns(r: &mut Random, plan: &mut Plan) {
    let scale = log_uniform(r, 1.0e-9, 1.0e-3);
    plan.body[8..20].iter_mut().for_each(|x| *x *= scale);
    plan.flat.numbers.copy_within(0..3, 9);
    plan.flat.numbers.copy_within(48..51, 57);
}

/// All 21 actuators, one of them with a number outside its range or an axis without a direction.
fn one_actuator(r: &mut Random, plan: &mut Plan) {
    plan.flat = maps::sound_of(r, (8, 12, 1));
    plan.flat.counts[3..].fill(1);
    plan.flat.numbers[40..48].fill(1.0);
    let k = r.below(21) as usize;
    let (axis, number) = match k {
        0..=7 => (3 * k, [24, 32, 40][r.below(3) as usize] + k),
        8..=19 => (24 + 3 * k, 76 + k),
        _ => (96, 96 + r.below(4) as usize),
    };
    if k < 20 && r.one_in(2) {
        let part = [0.0, 1.0e-19, f64::NAN, f64::INFINITY, 1.0e200][r.below(5) as usize];
        plan.flat.numbers[axis..axis + 3].fill(part);
    } else {
        plan.flat.numbers[number] = [0.0, -0.0, -1.0, f64::NAN, f64::INFINITY, f64::NEG_INFINITY][r.below(6) as usize];
    }
}

/// Axes of which two are equal, or a pyramid so flat that its torques lie in a plane.
fn coplanar(_: &mut Random, plan: &mut Plan) {
    plan.flat.numbers.copy_within(0..3, 3);
    plan.flat.numbers.copy_within(48..51, 51);
    plan.flat.numbers[96] = 1.0e-10;
}

/// Actuators that are sound and not served: too few, or of several kinds.
fn not_served(r: &mut Random, plan: &mut Plan) {
    const KINDS: [(usize, usize, usize); 7] = [(1, 0, 0), (2, 0, 0), (0, 1, 0), (0, 2, 0), (3, 3, 0), (3, 0, 1), (0, 3, 1)];
    let kinds = KINDS[r.below(7) as usize];
    plan.flat = maps::sound_of(r, kinds);
}

/// Inertia, torques and momenta times about 1e15: the path stays, and the defect, which is rounding alone, grows with them.
fn heavy(r: &mut Random, plan: &mut Plan) {
    let scale = log_uniform(r, 1.0e13, 1.0e18);
    plan.body[8..20].iter_mut().for_each(|x| *x *= scale);
    plan.body[29..].iter_mut().for_each(|x| *x *= scale);
    for part in [24..48, 84..96, 97..98] {
        plan.flat.numbers[part].iter_mut().for_each(|x| *x *= scale);
    }
    if r.one_in(2) {
        plan.body[21..27].fill(0.0);
    }
}

/// Inertia that no torque moves, and no weights: every trial is exactly as long as the seed.
fn inert(r: &mut Random, plan: &mut Plan) {
    let scale = log_uniform(r, 1.0e22, 1.0e30);
    plan.body[8..17].iter_mut().for_each(|x| *x *= scale);
    plan.body[21..27].fill(0.0);
    plan.seed = Some(Seed { duration: 1.0 + r.unit(), rates: vec![0.0; 51], torques: vec![0.001; 51] });
}

/// No profile: no angle, one that is lost in the arc cosine, a half turn, a box that cannot turn, a coast without end, an infinite duration.
fn no_profile(r: &mut Random, plan: &mut Plan) {
    let angle = [0.0, 1.0e-9, std::f64::consts::PI][r.below(3) as usize];
    let q0 = std::array::from_fn(|k| plan.body[k]);
    match r.below(6) {
        0..=2 => plan.body[4..8].copy_from_slice(&times(q0, about(AXES[2], angle))),
        3 => {
            plan.body[..8].copy_from_slice(&[1.0, 0.0, 0.0, 0.0, 0.8, 0.6, 0.0, 0.0]);
            plan.body[8..17].copy_from_slice(&[1.0e-16, 0.0, 0.0, 0.0, 1.0, 0.0, 0.0, 0.0, 1.0]);
        }
        4 => (plan.limited, plan.body[20]) = (true, 5e-324),
        _ => plan.body[17..20].fill(5e-324),
    }
}

/// A norm tolerance at the last place of 1: an attitude of a run is refused sooner or later.
fn exact_norm(r: &mut Random, plan: &mut Plan) {
    plan.body[..4].copy_from_slice(&[1.0, 0.0, 0.0, 0.0]);
    plan.body[27] = [1.2e-16, 2.3e-16, 3.0e-16, 4.5e-16][r.below(4) as usize];
}

/// Power limits near what the slew needs.
fn tight_power(r: &mut Random, plan: &mut Plan) {
    plan.flat.counts[3..].fill(1);
    plan.flat.numbers[40..48].iter_mut().for_each(|x| *x = log_uniform(r, 1.0e-4, 1.0));
}

/// What is spoilt in a problem that finds paths.
const SPOILT: [fn(&mut Random, &mut Plan); 20] = [
    |r, plan| plan.flat = maps::hostile(r),
    |r, plan| plan.body = runs::body(r),
    |r, plan| plan.body[r.below(37) as usize] = r.hostile(),
    |r, plan| (plan.limited, plan.body[20]) = (true, log_uniform(r, 1.0e-4, 1.0)),
    |_, plan| [&mut plan.flat.numbers[32..40], &mut plan.body[29..]].into_iter().flatten().for_each(|x| *x *= 0.01),
    |r, plan| plan.flat.numbers[96..].copy_from_slice(&[0.1 + 1.4 * r.unit(), 0.1 + r.unit(), 0.05 + r.unit(), 1.0e-3]),
    |r, plan| plan.flat.numbers[99] = log_uniform(r, 0.1, 2.0),
    |r, plan| (21..27).for_each(|k| plan.body[k] = [0.0, -0.0, 1.0e-300, 1.0e200][r.below(4) as usize]),
    |r, plan| plan.body[21] = log_uniform(r, 1.0e2, 1.0e8),
    equal_columns,
    one_actuator,
    coplanar,
    not_served,
    heavy,
    inert,
    no_profile,
    exact_norm,
    tight_power,
    |r, plan| runs::starts(r, &plan.flat.clone(), &mut plan.body),
    |r, plan| plan.body[29..].iter_mut().for_each(|x| *x = [0.0, -0.0][r.below(2) as usize]),
];

/// A plan of any sort: such as find paths, one of two with something spoilt; with a caller's seed in one of three.
pub fn any(r: &mut Random) -> Plan {
    let f = served(r);
    let mut plan = tame(r, f);
    if r.one_in(2) {
        SPOILT[r.below(SPOILT.len() as u64) as usize](r, &mut plan);
    }
    if plan.seed.is_none() && r.one_in(3) {
        plan.seed = Some(seed(r, &plan));
    }
    lent(r, plan)
}
