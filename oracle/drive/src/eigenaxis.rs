//! Eigenaxis plans written apart: the seed and the ladder over the published functions and the published `solve`, and the laboratory problems that they are tried on.

use crate::maps::Flat;
use crate::plans::{self, Found, Plan, Seed};
use crate::random::Random;
use crate::runs::checked;
use quatopsy_plan::probe::{self as rust, Task, Three};

/// The families of laboratory problems.
pub const KINDS: [&str; 12] = [
    "no actuators", "slew limit", "3 wheels", "4 wheels", "8 wheels", "power limit", "tight momentum", "3 turning wheels", "4 turning wheels", "3 thrusters", "12 thrusters", "pyramid",
];

fn unit(v: Three) -> Three {
    let n = (v[0] * v[0] + v[1] * v[1] + v[2] * v[2]).sqrt();
    v.map(|x| x / n)
}

fn any_axis(r: &mut Random) -> Three {
    loop {
        let v: Three = std::array::from_fn(|_| 2.0 * r.unit() - 1.0);
        let n = v[0] * v[0] + v[1] * v[1] + v[2] * v[2];
        if (0.01..=1.0).contains(&n) {
            return unit(v);
        }
    }
}

fn turn(axis: Three, angle: f64) -> [f64; 4] {
    let s = (angle / 2.0).sin();
    [(angle / 2.0).cos(), axis[0] * s, axis[1] * s, axis[2] * s]
}

/// A laboratory's slew: any axis, 0.01 to 180 degrees, an inertia with products, time weight 1; the axes of wheels and thrusters askew.
pub fn problem(kind: &str, r: &mut Random) -> Plan {
    let between = |r: &mut Random, low: f64, high: f64| low + (high - low) * r.unit();
    let degrees = match r.below(6) {
        0 => 10f64.powf(between(r, -2.0, 0.0)),
        1 => 180.0,
        _ => between(r, 1.0, 180.0),
    };
    let angle = degrees.to_radians();
    let (axis, start) = (any_axis(r), turn(any_axis(r), between(r, 0.0, 3.0)));
    let mut body = [0.0; 37];
    body[..4].copy_from_slice(&start);
    body[4..8].copy_from_slice(&rust::q_mul(start, turn(axis, angle)));
    let (d, o): (Three, Three) = (std::array::from_fn(|_| between(r, 8.0, 16.0)), std::array::from_fn(|_| between(r, -0.5, 0.5)));
    body[8..17].copy_from_slice(&[d[0], o[0], o[1], o[0], d[1], o[2], o[1], o[2], d[2]]);
    body[17..20].copy_from_slice(&[0.5; 3]);
    body[20] = between(r, 0.3, 0.95) * 0.17 * angle.sqrt();
    body[21] = 1.0;
    body[27..29].copy_from_slice(&[2f64.powi(-20); 2]);
    let mut flat = Flat { counts: [0; 11], numbers: [0.0; 100] };
    let askew = |r: &mut Random, i: usize| unit(std::array::from_fn(|k| f64::from(u8::from(k == i % 3)) + between(r, -0.4, 0.4)));
    flat.counts[0] = match kind {
        "3 wheels" | "power limit" | "tight momentum" | "3 turning wheels" => 3,
        "4 wheels" | "4 turning wheels" => 4,
        "8 wheels" => 8,
        _ => 0,
    };
    for i in 0..flat.counts[0] {
        let axis = if i < 3 { askew(r, i) } else { any_axis(r) };
        flat.numbers[3 * i..3 * i + 3].copy_from_slice(&axis);
        flat.numbers[24 + i] = 0.6;
        flat.numbers[32 + i] = if kind == "tight momentum" { 2.0 } else { 50.0 };
        if kind == "power limit" {
            (flat.counts[3 + i], flat.numbers[40 + i]) = (1, 0.03);
        }
        if kind.contains("turning") {
            body[29 + i] = between(r, -45.0, 45.0) * r.unit();
        }
    }
    flat.counts[1] = if kind == "3 thrusters" { 3 } else if kind == "12 thrusters" { 12 } else { 0 };
    for i in 0..flat.counts[1] {
        let axis = askew(r, i);
        flat.numbers[48 + 3 * i..51 + 3 * i].copy_from_slice(&axis);
        flat.numbers[84 + i] = 0.6;
    }
    if kind == "pyramid" {
        flat.counts[2] = 1;
        flat.numbers[96..].copy_from_slice(&[54.7356f64.to_radians(), 30.0, 1.0, 1.0e-3]);
    }
    Plan { flat, body, limited: kind == "slew limit", seed: None, lent: 53970, fill: 0.0 }
}

/// The height of the shape at node i with k rising steps, and the sum of its heights.
fn height(gentle: bool, k: usize, i: usize) -> f64 {
    if gentle { ((i * (16 - i)) * (i * (16 - i))) as f64 } else { i.min(k).min(16 - i) as f64 }
}

fn pace(gentle: bool, k: usize, duration: f64, i: usize) -> f64 {
    let area: f64 = (0..17).map(|i| height(gentle, k, i)).sum();
    16.0 * height(gentle, k, i) / (area * duration)
}

fn dot4(a: [f64; 4], b: [f64; 4]) -> f64 {
    a[0] * b[0] + a[1] * b[1] + a[2] * b[2] + a[3] * b[3]
}

/// The matrix; zeros where an angle is outside our range.
fn matrix(skew: f64, delta: [f64; 4]) -> [[f64; 4]; 3] {
    libm::was_outside();
    let a = rust::pyramid(skew, delta);
    if libm::was_outside() { [[0.0; 4]; 3] } else { a }
}

/// The torque that a pyramid's allocation must be handed for the torque net at these gimbal angles.
fn handed(cmg: [f64; 4], delta: [f64; 4], net: Three) -> Three {
    let (a, a0) = (matrix(cmg[0], delta), matrix(cmg[0], [0.0; 4]));
    let times = |x: [[f64; 4]; 3], y: [[f64; 4]; 3]| -> [[f64; 3]; 3] { std::array::from_fn(|i| std::array::from_fn(|j| dot4(x[i], y[j]))) };
    let inverse = rust::invert3(times(a, a0)).unwrap_or([[0.0; 3]; 3]);
    let y = rust::apply_tensor(inverse, rust::scale3(net, -1.0 / cmg[1]));
    rust::scale3(rust::apply_tensor(times(a0, a0), y), -cmg[1])
}

/// The seed of a duration, and whether no control is held to its limit.
pub fn seed(task: &Task, gentle: bool, duration: f64) -> (bool, Seed) {
    let phi = rust::log_so3(rust::q_mul(rust::q_conjugate(task.q0), task.qf));
    let (angle, given) = (rust::norm3(phi), task.map.given());
    let mut k = 8;
    while k > 1 && task.slew.is_some_and(|limit| angle * pace(false, k, duration, 8) > limit) {
        k -= 1;
    }
    let inverse = rust::invert_spd(task.inertia).expect("a checked inertia");
    let dt = duration / 16.0;
    let (mut w, mut hw, mut delta, mut fits) = ([0.0; 3], task.starts.clone(), [0.0; 4], true);
    let (mut rates, mut torques) = (vec![0.0; 3], Vec::new());
    for i in 0..16 {
        let h = task.map.body_momentum(&hw);
        let target = rust::scale3(phi, pace(gentle, k, duration, i + 1));
        let net = rust::euler_lhs(task.inertia, rust::scale3(rust::sub3(target, w), 1.0 / dt), w, h);
        let torque = given.cmgs.map_or(net, |cmg| handed(cmg, delta, net));
        let row = task.map.allocate(torque).expect("actuators that are served");
        let mut u = row.clone();
        task.map.project_controls(&mut u, task.limit);
        fits &= row == u;
        libm::was_outside();
        let torqued = task.map.body_torque(&u, w, h, delta).expect("a row that fits");
        let tau = if libm::was_outside() { [0.0; 3] } else { torqued };
        let gyro = rust::euler_lhs(task.inertia, [0.0; 3], w, h);
        w = rust::add3(w, rust::scale3(rust::apply_tensor(inverse, rust::sub3(tau, gyro)), dt));
        hw.iter_mut().zip(task.map.wheel_momentum_rates(&u)).for_each(|(m, rate)| *m += rate * dt);
        if given.cmgs.is_some() {
            delta.iter_mut().zip(&u).for_each(|(d, rate)| *d += rate * dt);
        }
        rates.extend(target);
        torques.extend(torque);
    }
    torques.extend([0.0; 3]);
    (fits, Seed { duration, rates, torques })
}

/// The ladder by the published `solve`: its answer, with the runs of every try.
pub fn by_rust(problem: &Plan, gentle: bool) -> Found {
    let mut plan = problem.clone();
    plan.body[21..27].fill(0.0);
    let Ok(task) = checked(&plan.flat, &plan.body, plan.limited) else { return plans::by_rust(&plan, false) };
    if task.map.allocate([0.0; 3]).is_err() || task.map.control_dim() > 12 {
        return plans::by_rust(&Plan { seed: Some(Seed { duration: 1.0, rates: vec![0.0; 51], torques: vec![0.0; 51] }), ..plan }, false);
    }
    let mut runs = 0;
    let mut attempt = |always: bool, t: f64| {
        let (fits, seed) = seed(&task, gentle, t);
        let found = (fits || always).then(|| plans::by_rust(&Plan { seed: Some(seed), ..plan.clone() }, false));
        runs += found.as_ref().map_or(0, |f| f.tally.runs);
        found
    };
    let mut best = attempt(true, 10_000.0).expect("the longest is always tried");
    let (mut low, mut at, mut next) = (0.0, 10_000.0, 10_000.0 / 1_048_576.0);
    for _ in 0..20 {
        if let Some(found) = attempt(false, next).filter(|f| f.path.is_some()) {
            (best, at) = (found, next);
            break;
        }
        (low, next) = (next, 2.0 * next);
    }
    for _ in 0..if best.path.is_some() { 8 } else { 0 } {
        let middle = 0.5 * (low + at);
        match attempt(false, middle).filter(|f| f.path.is_some()) {
            Some(found) => (best, at) = (found, middle),
            None => low = middle,
        }
    }
    best.tally.runs = runs;
    best
}

/// The end error, in degrees, of a decision under the continuous equations: each row is held over its step, the motion is integrated by the midpoint rule in 200 parts a step, or more where the
/// stored momentum turns the rate quickly.
pub fn end_error(task: &Task, z: &[f64]) -> f64 {
    let (n, pyramid) = (task.map.control_dim(), task.map.given().cmgs.is_some());
    let inverse = rust::invert_spd(task.inertia).expect("a checked inertia");
    let stored = rust::norm3(task.map.body_momentum(&task.starts));
    let parts = 200 + (50.0 * z[0] / 16.0 * stored / task.inertia[0][0]) as usize;
    let ds = z[0] / 16.0 / parts as f64;
    let (mut q, mut w, mut hw, mut delta) = (task.q0, [0.0; 3], task.starts.clone(), [0.0; 4]);
    for u in z[1..=16 * n].chunks(n) {
        let rates = task.map.wheel_momentum_rates(u);
        let change = |w: Three, hw: &[f64], delta: [f64; 4], t: f64| {
            let momenta: Vec<f64> = hw.iter().zip(&rates).map(|(m, rate)| m + rate * t).collect();
            let angles = std::array::from_fn(|k| if pyramid { delta[k] + u[k] * t } else { 0.0 });
            let h = task.map.body_momentum(&momenta);
            let tau = task.map.body_torque(u, w, h, angles).expect("a row that fits");
            rust::apply_tensor(inverse, rust::sub3(tau, rust::euler_lhs(task.inertia, [0.0; 3], w, h)))
        };
        for part in 0..parts {
            let t = part as f64 * ds;
            let half = rust::add3(w, rust::scale3(change(w, &hw, delta, t), 0.5 * ds));
            let next = rust::add3(w, rust::scale3(change(half, &hw, delta, t + 0.5 * ds), ds));
            q = rust::q_mul(q, rust::exp_so3(rust::scale3(half, ds)));
            w = next;
        }
        let step = ds * parts as f64;
        hw.iter_mut().zip(&rates).for_each(|(m, rate)| *m += rate * step);
        if pyramid {
            delta.iter_mut().zip(u).for_each(|(d, rate)| *d += rate * step);
        }
    }
    rust::norm3(rust::log_so3(rust::q_mul(rust::q_conjugate(q), task.qf))).to_degrees()
}
