//! Deliberate faults of the published files, for `oracle/mutate`: does the comparison notice each? `build.rs` makes a switch of each in its copies of the files.

/// A text that stands once in the file (`before` and `old` together); with the fault on, `new` stands in the place of `old`.
pub struct Place {
    pub before: &'static str,
    pub old: &'static str,
    pub new: &'static str,
}

pub struct Fault {
    /// What the fault would mean.
    pub name: &'static str,
    pub file: &'static str,
    pub function: &'static str,
    pub places: &'static [Place],
    /// Why no answer can ever show it, where that is so.
    pub hidden: Option<&'static str>,
}

/// Faults of one function: a name, then its places as before, old, new.
macro_rules! faults {
    ($($file:literal $function:literal: $($name:literal $(($hidden:literal))? $([$before:literal, $old:literal, $new:literal])+)+;)+) => {
        pub const FAULTS: &[Fault] = &[$($(Fault {
            name: $name,
            file: $file,
            function: $function,
            places: &[$(Place { before: $before, old: $old, new: $new }),+],
            hidden: faults!(@ $($hidden)?),
        }),+),+];
    };
    (@) => { None };
    (@ $hidden:literal) => { Some($hidden) };
}

faults! {
    "geom.rs" "Quat::conjugate":
        "the conjugate keeps its z" ["", "Self::new(self.w, -self.x, -self.y, -self.z)", "Self::new(self.w, -self.x, -self.y, self.z)"];
    "geom.rs" "Quat::mul":
        "the product's cross part has the other sign in x"
            ["", "self.w * other.x + self.x * other.w + self.y * other.z - self.z * other.y", "self.w * other.x + self.x * other.w - self.y * other.z + self.z * other.y"]
        "the product's y is summed in another order"
            ["", "self.w * other.y - self.x * other.z + self.y * other.w + self.z * other.x", "self.w * other.y + self.y * other.w - self.x * other.z + self.z * other.x"];
    "geom.rs" "Quat::normalized":
        "numbers that are not finite are not refused first"
            ("A quaternion with a NaN or an infinity has a norm that is not finite, so the next test refuses it, with the same number and place.")
            ["", "!self.is_finite()", "false"]
        "a length of zero is not refused" ["", "n == 0.0 || !n.is_finite()", "!n.is_finite()"]
        "a length that is off by just the tolerance is refused" ["", "fabs(n - 1.0) > NORM_ABS_TOLERANCE", "fabs(n - 1.0) >= NORM_ABS_TOLERANCE"]
        "the quaternion is divided, not multiplied by the inverse"
            ["", "self.scale(1.0 / n)", "Self::new(self.w / n, self.x / n, self.y / n, self.z / n)"];
    "geom.rs" "exp_so3":
        "the short branch up to 1e-12"
            ("Below 2^-26 the recipes give the argument itself for the sine and 1 for the cosine. So the long branch has half of the length over the length, 0.5 exactly, and gives the short branch's quaternion, from a length of 1e-16 on.")
            ["let n = norm3(phi);\n    if ", "n < 1.0e-16", "n < 1.0e-12"]
        "the whole angle's cosine" ["", "cos(half)", "cos(n)"];
    "geom.rs" "log_so3":
        "a scalar part of zero is negated too" ["", "qn.w < 0.0", "qn.w <= 0.0"]
        "the short branch up to 1e-12" ["let n = norm3(v);\n    if ", "n < 1.0e-16", "n < 1.0e-12"]
        "the scalar part is not clamped at 1" ["let w = ", "qn.w.clamp(-1.0, 1.0)", "qn.w"]
        "half of the angle" ["", "2.0 * acos(w)", "acos(w)"];
    "geom.rs" "apply_tensor":
        "the second row is the second column" ["", "j[1][0] * w[0] + j[1][1] * w[1] + j[1][2] * w[2]", "j[0][1] * w[0] + j[1][1] * w[1] + j[2][1] * w[2]"];
    "geom.rs" "invert3":
        "a determinant of just 1e-18 is refused" ["", "fabs(det) < 1.0e-18", "fabs(det) <= 1.0e-18"]
        "an entry stands at its mirror place" ["", "(j[0][2] * j[2][1] - j[0][1] * j[2][2])", "(j[1][2] * j[2][0] - j[1][0] * j[2][2])"];
    "geom.rs" "det3":
        "the middle term is added" ["- ", "j[0][1] * (j[1][0] * j[2][2] - j[1][2] * j[2][0])", "-(j[0][1] * (j[1][0] * j[2][2] - j[1][2] * j[2][0]))"];
    "geom.rs" "is_spd":
        "the third pair off the diagonal is not compared" ["", "(j[1][2] - j[2][1]).abs() > 1.0e-12", "false"]
        "a difference of just 1e-12 is refused" ["", "(j[0][1] - j[1][0]).abs() > 1.0e-12", "(j[0][1] - j[1][0]).abs() >= 1.0e-12"]
        "the second minor is not asked for" ["", "m11 > 0.0 && det > 0.0", "det > 0.0"];
    "geom.rs" "euler_lhs":
        "the stored momentum has the other sign" ["", "jw[1] + h[1]", "jw[1] - h[1]"]
        "the gyroscopic torque is subtracted" ["", "add3(jw_dot, gyro)", "sub3(jw_dot, gyro)"]
        "the cross product's factors are exchanged" ["", "cross(w, [jw[0] + h[0], jw[1] + h[1], jw[2] + h[2]])", "cross([jw[0] + h[0], jw[1] + h[1], jw[2] + h[2]], w)"];
    "geom.rs" "cross":
        "the second component has the other sign" ["", "a[2] * b[0] - a[0] * b[2]", "a[0] * b[2] - a[2] * b[0]"]
        "the third component reads another index" ["", "a[0] * b[1] - a[1] * b[0]", "a[0] * b[1] - a[1] * b[2]"];
    "geom.rs" "norm3":
        "the last two squares are summed first" ["", "v[0] * v[0] + v[1] * v[1] + v[2] * v[2]", "v[0] * v[0] + (v[1] * v[1] + v[2] * v[2])"];
    "geom.rs" "unit3":
        "a length of just 1e-18 is refused" ["", "n < 1.0e-18", "n <= 1.0e-18"]
        "the axis is divided, not multiplied by the inverse" ["", "scale3(v, 1.0 / n)", "[v[0] / n, v[1] / n, v[2] / n]"];
    "geom.rs" "torque_excess":
        "a negative torque is never over" ["", "torque[k].abs() - limit[k]", "torque[k] - limit[k]"];

    "actuators.rs" "prepare":
        "eight wheels are too many" ["", "self.wheels.len() > MAX_WHEELS", "self.wheels.len() >= MAX_WHEELS"]
        "thirteen thrusters are not too many" ["", "self.thrusters.len() > MAX_THRUSTERS", "self.thrusters.len() > MAX_THRUSTERS + 1"]
        "a wheel's axis is checked before its torque" ["for wheel in self.wheels {\n            ", "", "unit3(wheel.axis)?;"]
        "a power limit of 0 is taken" ["", "power <= 0.0", "power < 0.0"]
        "a skew of 1.6 is taken" ["", "cmg.skew_rad >= 1.6", "cmg.skew_rad > 1.6"]
        "the pyramid's momentum is checked before its skew"
            ("A refusal is told by its number and place, not by its text: both are 2 at place 20.")
            ["max_torque_nm: thruster.max_torque_nm,\n            });\n        }\n        if let Some(cmg) = &self.cmgs {\n            ", "", "if !cmg.wheel_momentum_nms.is_finite() || cmg.wheel_momentum_nms <= 0.0 { return Err(PlanError::Refused(\"CMG wheel_momentum_nms\".to_string())); }"];
    "actuators.rs" "control_dim":
        "a pyramid has three controls" ["if self.cmgs.is_some() {\n            ", "n += 4", "n += 3"];
    "actuators.rs" "body_torque":
        "the wheels push the other way" ["", "scale3(eta, -1.0)", "scale3(eta, 1.0)"]
        "rate and stored momentum are exchanged" ["", "cross(omega, h)", "cross(h, omega)"]
        "the thrusters' part is read from the row's start" ["", "&u[offset..offset + self.thrusters.len()]", "&u[..self.thrusters.len()]"]
        "the gimbals' part is read from the row's start" ["", "[u[offset], u[offset + 1], u[offset + 2], u[offset + 3]]", "[u[0], u[1], u[2], u[3]]"]
        "the pyramid's momentum has the other sign" ["scale3(a_gd, ", "-cmg.wheel_momentum_nms", "cmg.wheel_momentum_nms"];
    "actuators.rs" "wheel_momentum_rates":
        "the wheels' momenta fall as they should rise" ["", "u.get(index).copied().unwrap_or(0.0)", "-u.get(index).copied().unwrap_or(0.0)"];
    "actuators.rs" "momentum_excess":
        "a negative momentum is never over" ["", "momentum.abs() - wheel.max_momentum_nms", "*momentum - wheel.max_momentum_nms"];
    "actuators.rs" "power_excess":
        "a negative power is never over" ["", "fabs(u[i] * speed) - limit", "u[i] * speed - limit"]
        "the first wheel's control for every wheel" ["", "u[i] * speed", "u[0] * speed"];
    "actuators.rs" "project_controls":
        "every axis is held to the first limit" ["", "u[k].clamp(-torque_limit[k], torque_limit[k])", "u[k].clamp(-torque_limit[0], torque_limit[0])"]
        "wheels are held to the box" ["", "u[offset].clamp(-wheel.max_torque_nm, wheel.max_torque_nm)", "u[offset].clamp(-torque_limit[0], torque_limit[0])"]
        "thrusters push one way only" ["", "u[offset].clamp(-thruster.max_torque_nm, thruster.max_torque_nm)", "u[offset].clamp(0.0, thruster.max_torque_nm)"]
        "the fourth gimbal is not held" ["", "u.iter_mut().skip(offset).take(4)", "u.iter_mut().skip(offset).take(3)"];
    "actuators.rs" "singularity":
        "the fourth gimbal is left out" ["", "a[i][0] * a[j][0] + a[i][1] * a[j][1] + a[i][2] * a[j][2] + a[i][3] * a[j][3]", "a[i][0] * a[j][0] + a[i][1] * a[j][1] + a[i][2] * a[j][2]"];
    "actuators.rs" "pyramid_a":
        "one entry has the other sign" ["", "[-cg * s0, -c1, cg * s2, c3]", "[-cg * s0, -c1, -cg * s2, c3]"]
        "one gimbal's angle for another's" ["", "(sin(delta[2]), cos(delta[2]))", "(sin(delta[1]), cos(delta[1]))"];
    "actuators.rs" "allocate_body_torque":
        "the wheels' torque has the other sign" ["let uw = apply_tensor(inv, ", "scale3(tau, -1.0)", "tau"]
        "two numbers of the wheels' axes are exchanged" ["", "map.wheels[1].axis[0]", "map.wheels[0].axis[1]"] ["", "map.wheels[0].axis[1]", "map.wheels[1].axis[0]"]
        "three thrusters are not served" ["", "map.thrusters.len() >= 3", "map.thrusters.len() > 3"]
        "the pyramid's momentum multiplies" ["", "-1.0 / h0", "-1.0 * h0"];

    "lib.rs" "Profile::rate":
        "the coast begins at the switch" ["fn rate(&self, t: f64) -> f64 {\n        let t_dec = self.t_acc + self.t_coast;\n        if ", "t <= self.t_acc", "t < self.t_acc"];
    "lib.rs" "Profile::alpha_signed":
        "the first switch time still accelerates" ["if ", "t < self.t_acc", "t <= self.t_acc"]
        "the second switch time still coasts" ["} else if ", "t < t_dec", "t <= t_dec"]
        "the end has no torque" ["", "t <= self.duration", "t < self.duration"];
    "lib.rs" "bang_coast_bang":
        "the long way round" ["", "q0.dot(q_target) < 0.0", "q0.dot(q_target) > 0.0"]
        "a scalar part of just the tie tolerance is taken" ["", "fabs(dotted) <= PI_TIE_ABS_DOT", "fabs(dotted) < PI_TIE_ABS_DOT"]
        "the near turn is refused before the zero angle"
            ["let vec_norm = ", "sqrt(rel.x * rel.x + rel.y * rel.y + rel.z * rel.z)", "{ if fabs(rel.w) <= PI_TIE_ABS_DOT { return Err(PlanError::Refused(\"planner refuses a near-pi\".to_string())); } sqrt(rel.x * rel.x + rel.y * rel.y + rel.z * rel.z) }"]
        "the duration is summed in another order" ["", "2.0 * t_acc + t_coast", "t_acc + t_coast + t_acc"];
    "lib.rs" "alpha_from_box":
        "a part of just 1e-15 counts" ["", "fabs(jn[k]) <= 1.0e-15", "fabs(jn[k]) < 1.0e-15"];
    "lib.rs" "switch_times":
        "a peak of just the limit coasts" ["", "omega_bang <= limit", "omega_bang < limit"]
        "a coast of zero is refused" ["", "t_coast < 0.0", "t_coast <= 0.0"]
        "the peak comes late" ["let t_acc = ", "limit / alpha", "limit / alpha + 1.0e-9"];

    "scvx.rs" "solve":
        "the seed's torques begin with the second" ["", "seed_torque.iter().take(n - 1)", "seed_torque[1..].iter().take(n - 1)"]
        "the seed's rows are not held to their limits" ["u_rows.push(", "row", "allocate_body_torque(problem.actuators, *tau, n_u)?"]
        "the seed's duration is clamped" ["duration: ", "seed_duration", "seed_duration.clamp(1.0e-3, 1.0e4)"]
        "the damping starts at 0.001" ["let mut lambda = ", "LM_LAMBDA0", "1.0e-3"]
        "39 rounds" ["for iter in 0..", "MAX_ITERS", "MAX_ITERS - 1"]
        "rounds are counted from 0" ["", "iter as u32 + 1", "iter as u32"]
        "the search goes on at a length of just 0.005" ["", "mag <= DEFECT_TOL", "mag < DEFECT_TOL"]
        "the search ends at a length of 0.05" ["", "mag <= DEFECT_TOL", "mag <= 10.0 * DEFECT_TOL"]
        "the normal equations are summed from the last row on"
            ["", "g[c] += jac[i][c] * r[i];\n                for d in 0..n_z {\n                    a[c][d] += jac[i][c] * jac[i][d];\n                }", "let i = r.len() - 1 - i;\n                g[c] += jac[i][c] * r[i];\n                for d in 0..n_z {\n                    a[c][d] += jac[i][c] * jac[i][d];\n                }"]
        "the damping scales the diagonal" ["", "a[k][k] += lambda", "a[k][k] += lambda * a[k][k]"]
        "the step goes uphill" ["", "g[k] = -g[k]", "g[k] = g[k]"]
        "singular: the damping times 4" ["lambda = ", "(lambda * 8.0).min(1.0e6)", "(lambda * 4.0).min(1.0e6)"]
        "singular: the damping up to 1e7" ["lambda = ", "(lambda * 8.0).min(1.0e6)", "(lambda * 8.0).min(1.0e7)"]
        "a trial of equal length is accepted" ["", "trial_norm < best", "trial_norm <= best"]
        "a trial is accepted unless it is longer" ["", "trial_norm < best", "!(trial_norm >= best)"]
        "the best length is not kept" ["", "best = trial_norm", "best = best.max(trial_norm)"]
        "accepted: the damping times 0.25" ["lambda = ", "(lambda * 0.3).max(1.0e-8)", "(lambda * 0.25).max(1.0e-8)"]
        "accepted: the damping down to 1e-9" ["lambda = ", "(lambda * 0.3).max(1.0e-8)", "(lambda * 0.3).max(1.0e-9)"]
        "rejected: the damping times 5" ["lambda = ", "(lambda * 4.0).min(1.0e6)", "(lambda * 5.0).min(1.0e6)"]
        "rejected: the damping up to 1e7" ["lambda = ", "(lambda * 4.0).min(1.0e6)", "(lambda * 4.0).min(1.0e7)"]
        "the end attitude within 0.0002" ["", "norm3(term) > ATT_TOL", "norm3(term) > 2.0 * ATT_TOL"]
        "the end rate is asked for before the end attitude"
            ["let term = log_so3(path.quats[n - 1].conjugate().mul(problem.qf));\n    ", "", "if norm3(path.omegas[n - 1]) > RATE_TOL { return Err(PlanError::Infeasible(\"collocation did not meet the rest\".to_string())); }"]
        "an end rate of just 0.0001 is refused" ["", "norm3(path.omegas[n - 1]) > RATE_TOL", "norm3(path.omegas[n - 1]) >= RATE_TOL"]
        "the defect is not asked for" ["", "path.max_defect > DEFECT_TOL", "false"]
        "a torque over by just 1e-9 is refused" ["", "torque_excess(*torque, problem.torque_limit) > 1.0e-9", "torque_excess(*torque, problem.torque_limit) >= 1.0e-9"]
        "a torque over by 1e-10 is refused" ["", "torque_excess(*torque, problem.torque_limit) > 1.0e-9", "torque_excess(*torque, problem.torque_limit) > 1.0e-10"]
        "the slew rate has no tolerance" ["", "limit + 1.0e-9", "limit"]
        "a slew rate over by just 1e-9 is refused" ["&& ", "norm3(*omega) > limit + 1.0e-9", "norm3(*omega) >= limit + 1.0e-9"]
        "a momentum over by just 1e-9 is refused" ["        if ", "problem\n            .actuators\n            .momentum_excess(&path.wheel_momenta[index])\n            > 1.0e-9", "problem.actuators.momentum_excess(&path.wheel_momenta[index]) >= 1.0e-9"]
        "the node before has its momentum checked" ["", "&path.wheel_momenta[index]", "&path.wheel_momenta[index.max(1) - 1]"];
    "scvx.rs" "unpack":
        "the smallest duration is 1e-4"
            ("Each decision that `unpack` gives is projected before it is run, and `project_decision` clamps its duration to 0.001 at least: 1e-6 and 1e-4 both become 0.001.")
            ["", "values[0].max(1.0e-6)", "values[0].max(1.0e-4)"];
    "scvx.rs" "apply_step":
        "the step is subtracted" ["", "*item += *delta", "*item -= *delta"];
    "scvx.rs" "project_decision":
        "a duration of at most 1,000" ["", "z.duration.clamp(1.0e-3, 1.0e4)", "z.duration.clamp(1.0e-3, 1.0e3)"]
        "a duration of at least 0.0001" ["", "z.duration.clamp(1.0e-3, 1.0e4)", "z.duration.clamp(1.0e-4, 1.0e4)"]
        "the last row is not held to its limits" ["z.duration = z.duration.clamp(1.0e-3, 1.0e4);\n    for row in ", "&mut z.u", "&mut z.u[..15]"];
    "scvx.rs" "reconstruct":
        "17 steps in the duration" ["let n = z.u.len() + 1;\n    let dt = ", "z.duration / (n as f64 - 1.0)", "z.duration / n as f64"]
        "the torque has the momentum of the step's end"
            ["", "problem.actuators.body_torque(&z.u[i], w, h, delta)?", "problem.actuators.body_torque(&z.u[i], w, problem.actuators.body_momentum(&h_wheels.iter().zip(problem.actuators.wheel_momentum_rates(&z.u[i])).map(|(m, r)| m + r * dt).collect::<Vec<f64>>()), delta)?"]
        "the gyroscopic torque has no stored momentum" ["", "euler_lhs(problem.inertia, [0.0; 3], w, h)", "euler_lhs(problem.inertia, [0.0; 3], w, [0.0; 3])"]
        "torque and gyroscopic torque are exchanged" ["", "crate::geom::apply_tensor(jinv, sub3(tau, gyro))", "crate::geom::apply_tensor(jinv, sub3(gyro, tau))"]
        "the rate at the step's end for the mean" ["", "scale3(add3(w, w_next), 0.5)", "w_next"]
        "half of the difference for the mean" ["", "scale3(add3(w, w_next), 0.5)", "scale3(sub3(w_next, w), 0.5)"]
        "the defect is the last step's" ["", "max_defect.max(norm3(sub3(lhs, tau)))", "norm3(sub3(lhs, tau))"]
        "the step's turn is applied in the fixed frame" ["", "quats[i].mul(exp_so3(scale3(w_mid, dt))).normalized()?", "exp_so3(scale3(w_mid, dt)).mul(quats[i]).normalized()?"]
        "attitudes are not normalized" ["", "quats[i].mul(exp_so3(scale3(w_mid, dt))).normalized()?", "quats[i].mul(exp_so3(scale3(w_mid, dt)))"]
        "a node has the momentum of its step's end" ["", "h = problem.actuators.body_momentum(&h_wheels)", "h = problem.actuators.body_momentum(&h_wheels);\n        momenta[i] = h"]
        "the gimbals turn twice as far" ["", "*gimbal += *rate * dt", "*gimbal += 2.0 * *rate * dt"]
        "a determinant of just the smallest is singular" ["", "problem.actuators.singularity(delta) < cmg.singularity_eps", "problem.actuators.singularity(delta) <= cmg.singularity_eps"]
        "power is asked for before singularity"
            ["h = problem.actuators.body_momentum(&h_wheels);\n        ", "", "if problem.actuators.power_excess(&z.u[i], w) > 1.0e-9 { return Err(PlanError::Infeasible(\"wheel power exceeds\".to_string())); }"]
        "power has the rate of the step's end" ["", "problem.actuators.power_excess(&z.u[i], w)", "problem.actuators.power_excess(&z.u[i], w_next)"]
        "a power over by just 1e-9 is refused" ["", "problem.actuators.power_excess(&z.u[i], w) > 1.0e-9", "problem.actuators.power_excess(&z.u[i], w) >= 1.0e-9"]
        "node 16 has no torque" ["torques[n - 1] = ", "torques[n - 2]", "[0.0; 3]"]
        "times are summed" ["", "(0..n).map(|i| i as f64 * dt).collect()", "(0..n).scan(0.0, |t, i| { if i > 0 { *t += dt; } Some(*t) }).collect()"]
        "times are parts of the duration" ["", "(0..n).map(|i| i as f64 * dt).collect()", "(0..n).map(|i| z.duration * i as f64 / (n as f64 - 1.0)).collect()"];
    "scvx.rs" "residuals":
        "the end rate stands before the end attitude"
            ["", "r.extend_from_slice(&scale3(att, 400.0));\n    r.extend_from_slice(&scale3(path.omegas[n - 1], 400.0))", "r.extend_from_slice(&scale3(path.omegas[n - 1], 400.0));\n    r.extend_from_slice(&scale3(att, 400.0))"]
        "keep-out rows times 8"
            ("The list of keep-out cones is always empty, so the number scaled is 0.0: the rows are 0.0 either way.")
            ["r.push(", "viol * 80.0", "viol * 8.0"]
        "pointing rows with a weight of zero" ["", "problem.weights.pointing > 0.0", "problem.weights.pointing >= 0.0"]
        "pointing is spread over 16" ["", "problem.weights.pointing / n as f64", "problem.weights.pointing / (n as f64 - 1.0)"]
        "a pointing row stands before its keep-out row"
            ["", "r.push(viol * 80.0)", "if problem.weights.pointing > 0.0 { let pointing = log_so3(q.conjugate().mul(problem.qf)); r.extend_from_slice(&scale3(pointing, (problem.weights.pointing / n as f64).sqrt())); r.push(viol * 80.0); continue; } r.push(viol * 80.0)"]
        "the time's row is multiplied in another order" ["", "problem.weights.time.sqrt() * z.duration * 0.02", "problem.weights.time.sqrt() * (z.duration * 0.02)"]
        "effort has no step" ["", "(effort * dt).sqrt()", "effort.sqrt()"]
        "a negative power counts as such" ["energy += ", "(path.torques[i][0] * path.omegas[i][0]\n            + path.torques[i][1] * path.omegas[i][1]\n            + path.torques[i][2] * path.omegas[i][2])\n            .abs()", "(path.torques[i][0] * path.omegas[i][0] + path.torques[i][1] * path.omegas[i][1] + path.torques[i][2] * path.omegas[i][2])"]
        "energy has the weight of smoothness" ["r.push(", "problem.weights.energy.sqrt() * energy.sqrt()", "problem.weights.smoothness.sqrt() * energy.sqrt()"]
        "smoothness has the weight of momentum" ["r.push(", "problem.weights.smoothness.sqrt() * smooth.sqrt()", "problem.weights.momentum.sqrt() * smooth.sqrt()"]
        "smoothness is multiplied in another order" ["", "norm3(w_dot) * norm3(w_dot) * dt", "norm3(w_dot) * dt * norm3(w_dot)"]
        "the momenta's squares are not rooted" ["let terminal_wheel_momentum = ", "path.wheel_momenta[n - 1]\n        .iter()\n        .map(|value| value * value)\n        .sum::<f64>()\n        .sqrt()", "path.wheel_momenta[n - 1].iter().map(|value| value * value).sum::<f64>()"];
    "scvx.rs" "jacobian":
        "a difference of 1e-7" ["", "plus[c] += FD_EPS", "plus[c] += 1.0e-7"] ["jac[i][c] = (rp[i] - r0[i]) / ", "FD_EPS", "1.0e-7"]
        "a difference backwards" ["", "plus[c] += FD_EPS", "plus[c] -= FD_EPS"] ["jac[i][c] = ", "(rp[i] - r0[i])", "(r0[i] - rp[i])"]
        "the difference times 1e6" ["", "(rp[i] - r0[i]) / FD_EPS", "(rp[i] - r0[i]) * 1.0e6"]
        "a control at its stop gets a column" ["", "project_decision(problem, &mut zp)", "zp.duration = zp.duration.clamp(1.0e-3, 1.0e4)"];
    "scvx.rs" "norm_slice":
        "the length's squares are summed from the end" ["", "values.iter().map(|item| *item * *item).sum::<f64>().sqrt()", "values.iter().rev().map(|item| *item * *item).sum::<f64>().sqrt()"];
    "scvx.rs" "solve_dense":
        "of equal pivots the last" ["", "mag > best", "mag >= best"]
        "a pivot of just 1e-18 is refused" ["", "best < 1.0e-18", "best <= 1.0e-18"]
        "a pivot of 1e-17 is refused" ["", "best < 1.0e-18", "best < 1.0e-17"]
        "a pivot that is a NaN is refused" ["", "best < 1.0e-18", "!(best >= 1.0e-18)"]
        "the right side is not swapped" ["", "b.swap(k, pivot)", "()"]
        "the row is multiplied by the pivot's inverse" ["for j in k..n {\n            ", "a[k][j] /= diag", "a[k][j] *= 1.0 / diag"]
        "rows above the pivot stay" ["            if ", "i == k", "i <= k"];
    "scvx.rs" "sample_seed":
        "a seed's time is rounded in another order" ["let t = ", "duration * i as f64 / (n as f64 - 1.0)", "duration * (i as f64 / (n as f64 - 1.0))"]
        "the seed stands still before its end" ["torques.push(", "torque_at(t)", "torque_at(t.min(0.9 * duration))"];
    "scvx.rs" "densify":
        "the whole of the rate's part" ["", "2.0 * 1.0e-3 * 0.75", "2.0 * 1.0e-3"]
        "an alpha below 1e-6 counts" ["", "alpha.max(1.0e-6)", "alpha.max(1.0e-9)"]
        "the count is rounded down" ["", "(path.duration / dt_max).ceil()", "(path.duration / dt_max).floor()"]
        "the count has no end sample" ["let from_rate = ", "(path.duration / dt_max).ceil() as usize + 1", "(path.duration / dt_max).ceil() as usize"]
        "100,000 samples are too many" ["", "count > 100_000", "count >= 100_000"]
        "the last sample is before the end" ["let t = path.duration * i as f64 / ", "(count as f64 - 1.0)", "count as f64"];
    "scvx.rs" "interpolate":
        "the first node's time is interpolated" ["", "t <= path.times[0]", "t < path.times[0]"]
        "the last node's time is interpolated" ["", "t >= path.times[last]", "t > path.times[last]"]
        "an inner node's time takes the interval after it" ["", "path.times[i + 1] < t", "path.times[i + 1] <= t"]
        "the momentum's parts are exchanged" ["", "scale3(path.momenta[i], 1.0 - a)", "scale3(path.momenta[i], a)"]
        "the torque is the node's" ["let torque = ", "euler_lhs(problem.inertia, w_dot, omega, h)", "path.torques[i]"]
        "the turn has the rate alone" ["", "add3(scale3(path.omegas[i], s), scale3(w_dot, 0.5 * s * s))", "scale3(path.omegas[i], s)"];
}
