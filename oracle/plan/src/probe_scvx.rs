//! Doors to what is private in scvx.rs. This module stands inside each copy of it, so it sees all of it. Nothing is computed here, but for `normal`:
//! the forming of the normal equations stands in the middle of `solve`, and its loops are repeated here word for word.

use super::*;
use crate::probe::{Nodes, Task, nodes_of};

fn with<T>(task: &Task, of: impl FnOnce(&SolverProblem<'_>) -> T) -> T {
    let weights = task.weights;
    let quat = |q: [f64; 4]| Quat::new(q[0], q[1], q[2], q[3]);
    let problem = SolverProblem {
        q0: quat(task.q0),
        qf: quat(task.qf),
        inertia: task.inertia,
        torque_limit: task.limit,
        slew: task.slew,
        weights: Weights {
            time: weights[0],
            control: weights[1],
            energy: weights[2],
            pointing: weights[3],
            smoothness: weights[4],
            momentum: weights[5],
        },
        actuators: &task.map.0,
        keep_out: &[],
    };
    crate::starts::with(&task.starts, || of(&problem))
}

fn decision(task: &Task, packed: &[f64]) -> Decision {
    let width = task.map.control_dim();
    Decision { duration: packed[0], u: packed[1..].chunks(width).map(<[f64]>::to_vec).collect() }
}

/// One run of the step law on a packed decision: a duration and 16 rows.
pub fn run(task: &Task, packed: &[f64]) -> Result<Nodes, PlanError> {
    with(task, |problem| reconstruct(problem, &decision(task, packed)).map(|path| nodes_of!(path)))
}

/// The residuals of a packed decision.
pub fn residual_list(task: &Task, packed: &[f64]) -> Result<Vec<f64>, PlanError> {
    with(task, |problem| residuals(problem, &decision(task, packed)))
}

pub fn length(values: &[f64]) -> f64 {
    norm_slice(values)
}

/// A decision kept over many runs, so that a benchmark times the run alone.
pub struct Kept(Decision);

pub fn keep(task: &Task, packed: &[f64]) -> Kept {
    Kept(decision(task, packed))
}

pub fn run_kept(task: &Task, kept: &Kept) -> Result<Nodes, PlanError> {
    with(task, |problem| reconstruct(problem, &kept.0).map(|path| nodes_of!(path)))
}

/// The last rate of a run alone: what a benchmark reads.
pub fn run_end(task: &Task, kept: &Kept) -> f64 {
    with(task, |problem| reconstruct(problem, &kept.0).map_or(f64::NAN, |path| path.omegas[16][0]))
}

/// The length of the residuals alone.
pub fn length_kept(task: &Task, kept: &Kept) -> f64 {
    with(task, |problem| residual_norm(problem, &kept.0).unwrap_or(f64::NAN))
}

/// The normal matrix and the right side, as `solve` forms them.
pub fn normal(jac: &[Vec<f64>], r: &[f64], n_z: usize, lambda: f64) -> (Vec<Vec<f64>>, Vec<f64>) {
    let mut a = vec![vec![0.0; n_z]; n_z];
    let mut g = vec![0.0; n_z];
    for i in 0..r.len() {
        for c in 0..n_z {
            g[c] += jac[i][c] * r[i];
            for d in 0..n_z {
                a[c][d] += jac[i][c] * jac[i][d];
            }
        }
    }
    for k in 0..n_z {
        a[k][k] += lambda;
        g[k] = -g[k];
    }
    (a, g)
}

/// Whether the elimination went through; the solution is left in b.
pub fn eliminate(a: &mut [Vec<f64>], b: &mut [f64]) -> bool {
    solve_dense(a, b).is_ok()
}

/// `solve` from a seed.
pub fn seeded(task: &Task, duration: f64, omegas: &[[f64; 3]], torques: &[[f64; 3]]) -> Result<Nodes, PlanError> {
    with(task, |problem| solve(problem, duration, omegas, torques, None).map(|path| nodes_of!(path)))
}

fn path_of(nodes: &Nodes) -> CollocationPath {
    CollocationPath {
        times: nodes.times.clone(),
        quats: nodes.quats.iter().map(|q| Quat::new(q[0], q[1], q[2], q[3])).collect(),
        omegas: nodes.omegas.clone(),
        torques: nodes.torques.clone(),
        momenta: nodes.momenta.clone(),
        wheel_momenta: nodes.wheels.clone(),
        duration: nodes.duration,
        iterations: nodes.iterations,
        max_defect: nodes.defect,
    }
}

/// A problem of which `densify` and `interpolate` read the inertia alone.
fn with_inertia<T>(inertia: [[f64; 3]; 3], of: impl FnOnce(&SolverProblem<'_>) -> T) -> T {
    let actuators = ActuatorMap { wheels: Vec::new(), thrusters: Vec::new(), cmgs: None };
    let still = Quat::new(1.0, 0.0, 0.0, 0.0);
    let weights = Weights::minimum_time();
    of(&SolverProblem { q0: still, qf: still, inertia, torque_limit: [1.0; 3], slew: None, weights, actuators: &actuators, keep_out: &[] })
}

fn fourteen(t: f64, q: Quat, w: [f64; 3], tau: [f64; 3], h: [f64; 3]) -> [f64; 14] {
    [t, q.w, q.x, q.y, q.z, w[0], w[1], w[2], tau[0], tau[1], tau[2], h[0], h[1], h[2]]
}

/// One sample of a path at the time t: time, attitude, rate, torque, body momentum.
pub fn sample_at(inertia: [[f64; 3]; 3], nodes: &Nodes, t: f64) -> Result<[f64; 14], PlanError> {
    with_inertia(inertia, |problem| interpolate(problem, &path_of(nodes), t).map(|(q, w, tau, h)| fourteen(t, q, w, tau, h)))
}

/// All samples of a path.
pub fn dense(inertia: [[f64; 3]; 3], nodes: &Nodes, requested: usize, alpha: f64) -> Result<Vec<[f64; 14]>, PlanError> {
    let (t, q, w, tau, h) = with_inertia(inertia, |problem| densify(problem, &path_of(nodes), requested, alpha))?;
    Ok((0..t.len()).map(|k| fourteen(t[k], q[k], w[k], tau[k], h[k])).collect())
}

/// A path kept over many samplings, so that a benchmark times them alone: how many samples, the last time.
pub struct KeptPath(CollocationPath);

pub fn keep_path(nodes: &Nodes) -> KeptPath {
    KeptPath(path_of(nodes))
}

pub fn dense_kept(inertia: [[f64; 3]; 3], path: &KeptPath, requested: usize, alpha: f64) -> f64 {
    with_inertia(inertia, |problem| densify(problem, &path.0, requested, alpha).map_or(f64::NAN, |list| list.1[list.0.len() - 1].w))
}
