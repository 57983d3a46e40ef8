//! Doors: the published functions over plain numbers, so that the comparison can call them. Nothing is computed here.

use crate::actuators::{ActuatorMap, Actuators, CmgPyramid, Thruster, Wheel, allocate_body_torque, pyramid_a};
use crate::geom::{self, Quat};
use crate::{PlanError, Profile};

pub type Three = [f64; 3];
pub type Tensor = [[f64; 3]; 3];

fn quat(q: [f64; 4]) -> Quat {
    Quat::new(q[0], q[1], q[2], q[3])
}

pub(crate) fn four(q: Quat) -> [f64; 4] {
    [q.w, q.x, q.y, q.z]
}

/// What a refusal says, word for word, so that its number can be told.
pub fn words(err: PlanError) -> String {
    match err {
        PlanError::Refused(text) | PlanError::Infeasible(text) => text,
    }
}

pub fn q_is_finite(q: [f64; 4]) -> bool {
    quat(q).is_finite()
}
pub fn q_norm(q: [f64; 4]) -> f64 {
    quat(q).norm()
}
pub fn q_dot(a: [f64; 4], b: [f64; 4]) -> f64 {
    quat(a).dot(quat(b))
}
pub fn q_scale(q: [f64; 4], s: f64) -> [f64; 4] {
    four(quat(q).scale(s))
}
pub fn q_negate(q: [f64; 4]) -> [f64; 4] {
    four(quat(q).negate())
}
pub fn q_conjugate(q: [f64; 4]) -> [f64; 4] {
    four(quat(q).conjugate())
}
pub fn q_mul(a: [f64; 4], b: [f64; 4]) -> [f64; 4] {
    four(quat(a).mul(quat(b)))
}
pub fn q_normalized(q: [f64; 4]) -> Result<[f64; 4], PlanError> {
    quat(q).normalized().map(four)
}
pub fn exp_so3(phi: Three) -> [f64; 4] {
    four(geom::exp_so3(phi))
}
pub fn log_so3(q: [f64; 4]) -> Three {
    geom::log_so3(quat(q))
}
pub fn apply_tensor(j: Tensor, w: Three) -> Three {
    geom::apply_tensor(j, w)
}
pub fn invert3(j: Tensor) -> Result<Tensor, PlanError> {
    geom::invert3(j)
}
pub fn invert_spd(j: Tensor) -> Result<Tensor, PlanError> {
    geom::invert_spd(j)
}
pub fn det3(j: Tensor) -> f64 {
    geom::det3(j)
}
pub fn is_spd(j: Tensor) -> bool {
    geom::is_spd(j)
}
pub fn euler_lhs(j: Tensor, w_dot: Three, w: Three, h: Three) -> Three {
    geom::euler_lhs(j, w_dot, w, h)
}
pub fn cross(a: Three, b: Three) -> Three {
    geom::cross(a, b)
}
pub fn add3(a: Three, b: Three) -> Three {
    geom::add3(a, b)
}
pub fn sub3(a: Three, b: Three) -> Three {
    geom::sub3(a, b)
}
pub fn scale3(v: Three, s: f64) -> Three {
    geom::scale3(v, s)
}
pub fn norm3(v: Three) -> f64 {
    geom::norm3(v)
}
pub fn unit3(v: Three) -> Result<Three, PlanError> {
    geom::unit3(v)
}
pub fn torque_excess(torque: Three, limit: Three) -> f64 {
    geom::torque_excess(torque, limit)
}
pub fn rest(omega: Three, abs: f64) -> bool {
    geom::rest(omega, abs)
}
pub fn body_euler_torque(inertia: Tensor, axis: Three, alpha: f64, omega: f64, h: Three) -> Three {
    crate::actuators::body_euler_torque(inertia, axis, alpha, omega, h)
}

/// A wheel as given: axis, torque, momentum, power.
#[derive(Clone, Debug)]
pub struct GivenWheel(pub Three, pub f64, pub f64, pub Option<f64>);
/// A thruster as given: axis, torque.
#[derive(Clone, Debug)]
pub struct GivenThruster(pub Three, pub f64);

/// Actuators as given; the pyramid's skew, momentum, rate and smallest determinant.
#[derive(Clone, Debug, Default)]
pub struct Given {
    pub wheels: Vec<GivenWheel>,
    pub thrusters: Vec<GivenThruster>,
    pub cmgs: Option<[f64; 4]>,
}

/// Prepared actuators.
pub struct Map(pub(crate) ActuatorMap);

pub fn prepare(given: &Given) -> Result<Map, PlanError> {
    let wheels = given.wheels.iter();
    let thrusters = given.thrusters.iter();
    Actuators {
        wheels: wheels.map(|w| Wheel { axis: w.0, max_torque_nm: w.1, max_momentum_nms: w.2, max_power_w: w.3 }).collect(),
        thrusters: thrusters.map(|t| Thruster { torque_axis: t.0, max_torque_nm: t.1 }).collect(),
        cmgs: given.cmgs.map(|c| CmgPyramid {
            skew_rad: c[0],
            wheel_momentum_nms: c[1],
            max_gimbal_rate_rad_s: c[2],
            singularity_eps: c[3],
        }),
    }
    .prepare()
    .map(Map)
}

/// A map that no `prepare` made: its axes and limits as they are given.
pub fn forged(given: &Given) -> Map {
    use crate::actuators::{PreparedThruster, PreparedWheel};
    let wheels = given.wheels.iter();
    let thrusters = given.thrusters.iter();
    Map(ActuatorMap {
        wheels: wheels.map(|w| PreparedWheel { axis: w.0, max_torque_nm: w.1, max_momentum_nms: w.2, max_power_w: w.3 }).collect(),
        thrusters: thrusters.map(|t| PreparedThruster { axis: t.0, max_torque_nm: t.1 }).collect(),
        cmgs: given.cmgs.map(|c| CmgPyramid {
            skew_rad: c[0],
            wheel_momentum_nms: c[1],
            max_gimbal_rate_rad_s: c[2],
            singularity_eps: c[3],
        }),
    })
}

impl Map {
    pub fn given(&self) -> Given {
        Given {
            wheels: self.0.wheels.iter().map(|w| GivenWheel(w.axis, w.max_torque_nm, w.max_momentum_nms, w.max_power_w)).collect(),
            thrusters: self.0.thrusters.iter().map(|t| GivenThruster(t.axis, t.max_torque_nm)).collect(),
            cmgs: self.0.cmgs.as_ref().map(|c| [c.skew_rad, c.wheel_momentum_nms, c.max_gimbal_rate_rad_s, c.singularity_eps]),
        }
    }
    pub fn is_empty(&self) -> bool {
        self.0.is_empty()
    }
    pub fn control_dim(&self) -> usize {
        self.0.control_dim()
    }
    pub fn body_torque(&self, u: &[f64], omega: Three, h: Three, delta: [f64; 4]) -> Result<Three, PlanError> {
        self.0.body_torque(u, omega, h, delta)
    }
    pub fn wheel_momentum_rates(&self, u: &[f64]) -> Vec<f64> {
        self.0.wheel_momentum_rates(u)
    }
    pub fn body_momentum(&self, momenta: &[f64]) -> Three {
        self.0.body_momentum(momenta)
    }
    pub fn momentum_excess(&self, momenta: &[f64]) -> f64 {
        self.0.momentum_excess(momenta)
    }
    pub fn power_excess(&self, u: &[f64], omega: Three) -> f64 {
        self.0.power_excess(u, omega)
    }
    pub fn project_controls(&self, u: &mut [f64], limit: Three) {
        self.0.project_controls(u, limit)
    }
    pub fn singularity(&self, delta: [f64; 4]) -> f64 {
        self.0.singularity(delta)
    }
    pub fn allocate(&self, tau: Three) -> Result<Vec<f64>, PlanError> {
        allocate_body_torque(&self.0, tau, self.0.control_dim())
    }
}

pub fn pyramid(skew: f64, delta: [f64; 4]) -> [[f64; 4]; 3] {
    pyramid_a(skew, delta)
}

/// A profile by its numbers: theta, alpha, t_acc, t_coast, duration, omega_peak, axis, inertia by rows, q0.
pub struct Shape(pub(crate) Profile);

impl Shape {
    pub fn of(v: &[f64; 22]) -> Self {
        Shape(Profile {
            theta: v[0],
            alpha: v[1],
            t_acc: v[2],
            t_coast: v[3],
            duration: v[4],
            omega_peak: v[5],
            axis: [v[6], v[7], v[8]],
            inertia: [[v[9], v[10], v[11]], [v[12], v[13], v[14]], [v[15], v[16], v[17]]],
            q0: Quat::new(v[18], v[19], v[20], v[21]),
        })
    }
    pub fn numbers(&self) -> [f64; 22] {
        let p = &self.0;
        let (a, j, q) = (p.axis, p.inertia, p.q0);
        [
            p.theta, p.alpha, p.t_acc, p.t_coast, p.duration, p.omega_peak, a[0], a[1], a[2], j[0][0], j[0][1], j[0][2], j[1][0], j[1][1],
            j[1][2], j[2][0], j[2][1], j[2][2], q.w, q.x, q.y, q.z,
        ]
    }
    pub fn angle(&self, t: f64) -> f64 {
        self.0.angle(t)
    }
    pub fn rate(&self, t: f64) -> f64 {
        self.0.rate(t)
    }
    pub fn alpha_signed(&self, t: f64) -> f64 {
        self.0.alpha_signed(t)
    }
    pub fn omega_vec(&self, t: f64) -> Three {
        self.0.omega_vec(t)
    }
    pub fn torque_vec(&self, t: f64) -> Three {
        self.0.torque_vec(t)
    }
    pub fn quaternion(&self, t: f64) -> [f64; 4] {
        four(self.0.quaternion(t))
    }
    /// 17 rates and 17 torques.
    pub fn seed(&self) -> (Vec<Three>, Vec<Three>) {
        crate::scvx::sample_seed(self.0.duration, |t| self.0.omega_vec(t), |t| self.0.torque_vec(t))
    }
}

pub fn bang_coast_bang(q0: [f64; 4], qf: [f64; 4], j: Tensor, limit: Three, slew: Option<f64>) -> Result<Shape, PlanError> {
    crate::bang_coast_bang(quat(q0), quat(qf), j, limit, slew).map(Shape)
}
pub fn alpha_from_box(j: Tensor, axis: Three, limit: Three) -> Result<f64, PlanError> {
    crate::alpha_from_box(j, axis, limit)
}
pub fn switch_times(theta: f64, alpha: f64, slew: Option<f64>) -> Result<(f64, f64, f64), PlanError> {
    crate::switch_times(theta, alpha, slew)
}

/// A problem for the step law: attitudes as they are used (normalized by the caller), inertia, limits, weights, actuators, the momenta that the wheels start with.
pub struct Task {
    pub q0: [f64; 4],
    pub qf: [f64; 4],
    pub inertia: Tensor,
    pub limit: Three,
    pub slew: Option<f64>,
    pub weights: [f64; 6],
    pub map: Map,
    pub starts: Vec<f64>,
}

/// The nodes of a run: time, attitude, rate, torque, body momentum, wheel momenta; and the defect.
#[derive(Clone, Debug)]
pub struct Nodes {
    pub times: Vec<f64>,
    pub quats: Vec<[f64; 4]>,
    pub omegas: Vec<Three>,
    pub torques: Vec<Three>,
    pub momenta: Vec<Three>,
    pub wheels: Vec<Vec<f64>>,
    pub duration: f64,
    pub iterations: u32,
    pub defect: f64,
}

/// The nodes of a `CollocationPath`, the published one's or the counting copy's.
macro_rules! nodes_of {
    ($path:expr) => {
        crate::probe::Nodes {
            times: $path.times,
            quats: $path.quats.into_iter().map(crate::probe::four).collect(),
            omegas: $path.omegas,
            torques: $path.torques,
            momenta: $path.momenta,
            wheels: $path.wheel_momenta,
            duration: $path.duration,
            iterations: $path.iterations,
            defect: $path.max_defect,
        }
    };
}
pub(crate) use nodes_of;
