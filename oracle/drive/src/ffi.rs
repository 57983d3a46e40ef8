//! The C interface of the crates export and export_*: numbers, references to arrays of a fixed length (a pointer), slices (a pointer and a length).

pub type A3 = [f64; 3];
pub type A4 = [f64; 4];
pub type A9 = [f64; 9];

unsafe extern "C" {
    pub safe fn slew_isqrt(hi: u64, lo: u64) -> u64;
    pub safe fn slew_abs(x: f64) -> f64;
    pub safe fn slew_max(a: f64, b: f64) -> f64;
    pub safe fn slew_min(a: f64, b: f64) -> f64;
    pub safe fn slew_clamp(x: f64, low: f64, high: f64) -> f64;
    pub safe fn slew_is_finite(x: f64) -> bool;
    pub safe fn slew_ceil(x: f64) -> f64;
    pub safe fn slew_sqrt(x: f64) -> f64;
    pub safe fn slew_sin(x: f64, answer: &mut f64) -> bool;
    pub safe fn slew_cos(x: f64, answer: &mut f64) -> bool;
    pub safe fn slew_sin_cos(x: f64, answer: &mut [f64; 2]) -> bool;
    pub safe fn slew_acos(x: f64, answer: &mut f64) -> bool;
    pub safe fn slew_sine_series(x: f64, answer: &mut [u64; 2]) -> bool;
    pub safe fn slew_cosine_series(x: f64, answer: &mut [u64; 2]) -> bool;
    pub safe fn slew_both_series(x: f64, answer: &mut [u64; 4]) -> bool;
    pub safe fn slew_arc_series(w: f64, answer: &mut [u64; 2]) -> bool;

    pub safe fn slew_quat_is_finite(q: &A4) -> bool;
    pub safe fn slew_quat_norm(q: &A4) -> f64;
    pub safe fn slew_quat_dot(a: &A4, b: &A4) -> f64;
    pub safe fn slew_quat_scale(q: &A4, factor: f64, out: &mut A4);
    pub safe fn slew_quat_negate(q: &A4, out: &mut A4);
    pub safe fn slew_quat_conjugate(q: &A4, out: &mut A4);
    pub safe fn slew_quat_mul(a: &A4, b: &A4, out: &mut A4);
    pub safe fn slew_quat_normalized(q: &A4, tolerance: f64, out: &mut A4) -> usize;
    pub safe fn slew_exp_so3(phi: &A3, out: &mut A4) -> usize;
    pub safe fn slew_log_so3(q: &A4, out: &mut A3) -> usize;
    pub safe fn slew_apply_tensor(j: &A9, w: &A3, out: &mut A3);
    pub safe fn slew_invert3(j: &A9, out: &mut A9) -> usize;
    pub safe fn slew_invert_spd(j: &A9, out: &mut A9) -> usize;
    pub safe fn slew_det3(j: &A9) -> f64;
    pub safe fn slew_is_spd(j: &A9) -> bool;
    pub safe fn slew_euler_lhs(j: &A9, w_dot: &A3, w: &A3, h: &A3, out: &mut A3);
    pub safe fn slew_cross(a: &A3, b: &A3, out: &mut A3);
    pub safe fn slew_add3(a: &A3, b: &A3, out: &mut A3);
    pub safe fn slew_sub3(a: &A3, b: &A3, out: &mut A3);
    pub safe fn slew_scale3(v: &A3, s: f64, out: &mut A3);
    pub safe fn slew_dot3(a: &A3, b: &A3) -> f64;
    pub safe fn slew_norm3(v: &A3) -> f64;
    pub safe fn slew_unit3(v: &A3, out: &mut A3) -> usize;
    pub safe fn slew_torque_excess(torque: &A3, limit: &A3) -> f64;
    pub safe fn slew_rest(omega: &A3, bound: f64) -> bool;
    pub safe fn slew_body_euler_torque(j: &A9, axis: &A3, alpha: f64, omega: f64, h: &A3, out: &mut A3);

    pub safe fn slew_switch_times(theta: f64, alpha: f64, limited: bool, slew: f64, out: &mut A3) -> usize;
    pub safe fn slew_alpha_from_box(j: &A9, axis: &A3, limit: &A3, out: &mut f64) -> usize;
    pub safe fn slew_bang_coast_bang(
        q0: &A4,
        qf: &A4,
        j: &A9,
        limit: &A3,
        limited: bool,
        slew: f64,
        tie: f64,
        out: &mut [f64; 22],
        place: &mut usize,
    ) -> usize;
    pub safe fn slew_profile_angle(p: &[f64; 22], t: f64) -> f64;
    pub safe fn slew_profile_rate(p: &[f64; 22], t: f64) -> f64;
    pub safe fn slew_profile_alpha_signed(p: &[f64; 22], t: f64) -> f64;
    pub safe fn slew_profile_omega_vec(p: &[f64; 22], t: f64, out: &mut A3);
    pub safe fn slew_profile_torque_vec(p: &[f64; 22], t: f64, out: &mut A3);
    pub safe fn slew_profile_quaternion(p: &[f64; 22], t: f64, out: &mut A4) -> usize;
    pub safe fn slew_sample_seed(p: &[f64; 22], rates: &mut [f64; 51], torques: &mut [f64; 51]);
}

/// Actuators as a user declares them: counts and numbers (maps.rs).
pub type Counts = [usize; 11];
pub type Numbers = [f64; 100];

unsafe extern "C" {
    pub safe fn slew_prepare(c: &Counts, v: &Numbers, wheel_axes: &mut [f64; 24], thruster_axes: &mut [f64; 36], place: &mut usize) -> usize;
    pub safe fn slew_allocate_body_torque(c: &Counts, v: &Numbers, tau: &A3, out: &mut [f64; 20], place: &mut usize) -> usize;
    pub safe fn slew_singularity(c: &Counts, v: &Numbers, delta: &A4, out: &mut f64) -> usize;
    pub safe fn slew_reconstruct(
        c: &Counts,
        v: &Numbers,
        b: &[f64; 37],
        limited: bool,
        z: &[f64; 193],
        nodes: &mut [[f64; 22]; 17],
        defect: &mut f64,
        place: &mut usize,
        runs: &mut usize,
    ) -> usize;
    pub safe fn slew_published_reconstruct(
        c: &Counts,
        v: &Numbers,
        b: &[f64; 37],
        limited: bool,
        z: &[f64; 193],
        nodes: &mut [[f64; 22]; 17],
        defect: &mut f64,
        place: &mut usize,
        runs: &mut usize,
    ) -> usize;
    pub safe fn slew_residuals(
        c: &Counts,
        v: &Numbers,
        b: &[f64; 37],
        limited: bool,
        z: &[f64; 193],
        out: &mut [f64; 79],
        count: &mut usize,
        place: &mut usize,
        runs: &mut usize,
    ) -> usize;
    pub safe fn slew_sample_count(duration: f64, requested: usize, alpha: f64, out: &mut usize) -> usize;
    pub safe fn slew_sample_path(
        j: &A9,
        tolerance: f64,
        duration: f64,
        nodes: &[[f64; 22]; 17],
        requested: usize,
        alpha: f64,
        index: usize,
        out: &mut [f64; 14],
        place: &mut usize,
    ) -> usize;
    pub safe fn slew_problem_profile(c: &Counts, v: &Numbers, b: &[f64; 37], limited: bool, out: &mut [f64; 22], place: &mut usize) -> usize;
    pub safe fn slew_outcome(angle: i64, rate: i64, turns: &mut usize, choice: &mut i64) -> usize;
    pub safe fn slew_reply(angle: i64, rate: i64, left: usize, choice: i64, out: &mut i64) -> usize;
    pub safe fn slew_region(out: &mut [u8; 2193]);
    pub safe fn slew_control_dim(c: &Counts, v: &Numbers) -> usize;
    pub safe fn slew_pyramid_a(skew: f64, delta: &A4, out: &mut [f64; 12]) -> usize;
}

mod rows {
    use super::{A3, A4, Counts, Numbers};
    unsafe extern "C" {
        pub fn slew_body_torque(c: &Counts, v: &Numbers, u: *const f64, n: usize, w: &A3, h: &A3, d: &A4, out: &mut A3) -> usize;
        pub fn slew_project_controls(c: &Counts, v: &Numbers, u: *mut f64, n: usize, limit: &A3);
        pub fn slew_power_excess(c: &Counts, v: &Numbers, u: *const f64, n: usize, w: &A3) -> f64;
        pub fn slew_momentum_excess(c: &Counts, v: &Numbers, hw: *const f64, n: usize) -> f64;
        pub fn slew_body_momentum(c: &Counts, v: &Numbers, hw: *const f64, n: usize, out: &mut A3);
        pub fn slew_wheel_momentum_rates(c: &Counts, v: &Numbers, u: *const f64, n: usize, out: &mut [f64; 8]);
    }
}

// Each slice goes with its own length.
pub fn slew_body_torque(c: &Counts, v: &Numbers, u: &[f64], w: &A3, h: &A3, d: &A4, out: &mut A3) -> usize {
    unsafe { rows::slew_body_torque(c, v, u.as_ptr(), u.len(), w, h, d, out) }
}

pub fn slew_project_controls(c: &Counts, v: &Numbers, u: &mut [f64], limit: &A3) {
    unsafe { rows::slew_project_controls(c, v, u.as_mut_ptr(), u.len(), limit) }
}

pub fn slew_power_excess(c: &Counts, v: &Numbers, u: &[f64], w: &A3) -> f64 {
    unsafe { rows::slew_power_excess(c, v, u.as_ptr(), u.len(), w) }
}

pub fn slew_momentum_excess(c: &Counts, v: &Numbers, hw: &[f64]) -> f64 {
    unsafe { rows::slew_momentum_excess(c, v, hw.as_ptr(), hw.len()) }
}

pub fn slew_body_momentum(c: &Counts, v: &Numbers, hw: &[f64], out: &mut A3) {
    unsafe { rows::slew_body_momentum(c, v, hw.as_ptr(), hw.len(), out) }
}

pub fn slew_wheel_momentum_rates(c: &Counts, v: &Numbers, u: &[f64], out: &mut [f64; 8]) {
    unsafe { rows::slew_wheel_momentum_rates(c, v, u.as_ptr(), u.len(), out) }
}

/// Functions over slices: a slice is a pointer and a length there.
mod slices {
    unsafe extern "C" {
        pub fn slew_solve_dense(a: *mut f64, a_len: usize, b: *mut f64, b_len: usize) -> bool;
        pub fn slew_damped_step(
            v: *mut f64,
            v_len: usize,
            m: usize,
            r: *const f64,
            r_len: usize,
            lambda: f64,
            g: *mut f64,
            g_len: usize,
        ) -> bool;
    }
}

pub fn slew_solve_dense(a: &mut [f64], b: &mut [f64]) -> bool {
    // two slices that do not overlap, each with its own length
    unsafe { slices::slew_solve_dense(a.as_mut_ptr(), a.len(), b.as_mut_ptr(), b.len()) }
}

pub fn slew_damped_step(v: &mut [f64], m: usize, r: &[f64], lambda: f64, g: &mut [f64]) -> bool {
    // three slices that do not overlap, each with its own length
    unsafe { slices::slew_damped_step(v.as_mut_ptr(), v.len(), m, r.as_ptr(), r.len(), lambda, g.as_mut_ptr(), g.len()) }
}

/// What an entry of the planner fills: place, runs, controls, wheels, iterations; duration; largest defect; decision; nodes; held controls.
pub struct Planned {
    pub counts: [usize; 5],
    pub duration: f64,
    pub max_defect: f64,
    pub z: [f64; 193],
    pub nodes: [[f64; 22]; 17],
    pub held: [usize; 12],
}

mod entries {
    use super::{Counts, Numbers};
    unsafe extern "C" {
        pub fn slew_plan_numbers(
            c: &Counts,
            v: &Numbers,
            b: &[f64; 37],
            limited: bool,
            ws: *mut f64,
            ws_len: usize,
            counts: &mut [usize; 5],
            duration: &mut f64,
            max_defect: &mut f64,
            z: &mut [f64; 193],
            nodes: &mut [[f64; 22]; 17],
            held: &mut [usize; 12],
        ) -> usize;
        pub fn slew_plan_eigenaxis_numbers(
            c: &Counts,
            v: &Numbers,
            b: &[f64; 37],
            limited: bool,
            gentle: bool,
            ws: *mut f64,
            ws_len: usize,
            counts: &mut [usize; 5],
            duration: &mut f64,
            max_defect: &mut f64,
            z: &mut [f64; 193],
            nodes: &mut [[f64; 22]; 17],
            held: &mut [usize; 12],
        ) -> usize;
        pub fn slew_plan_from_numbers(
            c: &Counts,
            v: &Numbers,
            b: &[f64; 37],
            limited: bool,
            seed_duration: f64,
            rates: *const f64,
            rates_len: usize,
            torques: *const f64,
            torques_len: usize,
            ws: *mut f64,
            ws_len: usize,
            counts: &mut [usize; 5],
            duration: &mut f64,
            max_defect: &mut f64,
            z: &mut [f64; 193],
            nodes: &mut [[f64; 22]; 17],
            held: &mut [usize; 12],
        ) -> usize;
    }
}

/// Our entry's seed; the workspace is a slice.
pub fn slew_plan_numbers(flat: &crate::maps::Flat, b: &[f64; 37], limited: bool, ws: &mut [f64], o: &mut Planned) -> usize {
    let (c, v) = (&flat.counts, &flat.numbers);
    let lent = (ws.as_mut_ptr(), ws.len());
    unsafe { entries::slew_plan_numbers(c, v, b, limited, lent.0, lent.1, &mut o.counts, &mut o.duration, &mut o.max_defect, &mut o.z, &mut o.nodes, &mut o.held) }
}

/// The eigenaxis plan: the fastest shape, or the gentle one.
pub fn slew_plan_eigenaxis_numbers(flat: &crate::maps::Flat, b: &[f64; 37], limited: bool, gentle: bool, ws: &mut [f64], o: &mut Planned) -> usize {
    let (c, v) = (&flat.counts, &flat.numbers);
    let lent = (ws.as_mut_ptr(), ws.len());
    unsafe { entries::slew_plan_eigenaxis_numbers(c, v, b, limited, gentle, lent.0, lent.1, &mut o.counts, &mut o.duration, &mut o.max_defect, &mut o.z, &mut o.nodes, &mut o.held) }
}

/// A caller's seed: three slices that do not overlap.
pub fn slew_plan_from_numbers(flat: &crate::maps::Flat, b: &[f64; 37], limited: bool, seed: &crate::plans::Seed, ws: &mut [f64], o: &mut Planned) -> usize {
    let (c, v, rates, torques) = (&flat.counts, &flat.numbers, &seed.rates, &seed.torques);
    let (r, t) = ((rates.as_ptr(), rates.len()), (torques.as_ptr(), torques.len()));
    let lent = (ws.as_mut_ptr(), ws.len());
    unsafe {
        entries::slew_plan_from_numbers(
            c, v, b, limited, seed.duration, r.0, r.1, t.0, t.1, lent.0, lent.1, &mut o.counts, &mut o.duration, &mut o.max_defect, &mut o.z, &mut o.nodes, &mut o.held,
        )
    }
}

/// A mosaic's cursor: legs answered, their runs, a refusal's number, place and runs; the duration and eight momenta.
#[derive(Clone)]
pub struct Cursor {
    pub counts: [usize; 5],
    pub sums: [f64; 9],
}

impl Cursor {
    pub fn same(&self, other: &Cursor) -> bool {
        self.counts == other.counts && self.sums.iter().zip(&other.sums).all(|(a, b)| a.to_bits() == b.to_bits())
    }
}

/// The rows lent for a mosaic's legs: runs, controls, wheels, iterations; duration, largest defect; decision; nodes.
pub struct Lent {
    pub counts: Vec<[usize; 4]>,
    pub times: Vec<[f64; 2]>,
    pub decisions: Vec<[f64; 193]>,
    pub nodes: Vec<[[f64; 22]; 17]>,
}

impl Lent {
    pub fn of(rows: usize) -> Self {
        Lent { counts: vec![[77; 4]; rows], times: vec![[7.0; 2]; rows], decisions: vec![[7.0; 193]; rows], nodes: vec![[[7.0; 22]; 17]; rows] }
    }

    fn floats(&self, k: usize) -> Vec<u64> {
        self.times[k].iter().chain(&self.decisions[k]).chain(self.nodes[k].iter().flatten()).map(|x| x.to_bits()).collect()
    }

    /// Whether the rows from k on are as they were lent.
    pub fn untouched_from(&self, k: usize) -> bool {
        (k..self.counts.len()).all(|i| self.counts[i] == [77; 4] && self.floats(i).iter().all(|x| *x == 7.0f64.to_bits()))
    }

    /// Whether n rows from one place are another's from another place.
    pub fn same(&self, other: &Lent, at: usize, there: usize, n: usize) -> bool {
        (0..n).all(|k| self.counts[at + k] == other.counts[there + k] && self.floats(at + k) == other.floats(there + k))
    }

    /// Whether row k is this leg.
    pub fn is_leg(&self, k: usize, leg: &Planned) -> bool {
        let [_, runs, controls, wheels, iterations] = leg.counts;
        let floats = [&leg.duration, &leg.max_defect].into_iter().chain(&leg.z).chain(leg.nodes.iter().flatten());
        k < self.counts.len() && self.counts[k] == [runs, controls, wheels, iterations] && floats.map(|x| x.to_bits()).eq(self.floats(k))
    }

    /// The first n rows, one after another.
    pub fn put(&self, n: usize, o: &mut crate::words::Words) {
        for k in 0..n {
            self.counts[k].iter().for_each(|x| o.n(*x as u64));
            o.all(&self.times[k]);
            o.all(&self.decisions[k]);
            self.nodes[k].iter().for_each(|node| o.all(node));
        }
    }
}

mod mosaics {
    use super::{A4, Counts, Numbers};
    unsafe extern "C" {
        pub fn slew_mosaic_next(
            c: &Counts,
            v: &Numbers,
            b: &[f64; 37],
            limited: bool,
            way: usize,
            from: &A4,
            to: &A4,
            cursor: &mut [usize; 5],
            sums: &mut [f64; 9],
            ws: *mut f64,
            ws_len: usize,
            counts: &mut [usize; 5],
            duration: &mut f64,
            max_defect: &mut f64,
            z: &mut [f64; 193],
            nodes: &mut [[f64; 22]; 17],
            held: &mut [usize; 12],
        ) -> usize;
        pub fn slew_mosaic(
            c: &Counts,
            v: &Numbers,
            b: &[f64; 37],
            limited: bool,
            way: usize,
            tiles: *const A4,
            tiles_len: usize,
            counts: *mut [usize; 4],
            counts_len: usize,
            times: *mut [f64; 2],
            times_len: usize,
            decisions: *mut [f64; 193],
            decisions_len: usize,
            nodes: *mut [[f64; 22]; 17],
            nodes_len: usize,
            ws: *mut f64,
            ws_len: usize,
            cursor: &mut [usize; 5],
            sums: &mut [f64; 9],
        ) -> usize;
    }
}

/// One leg of a mosaic by a way; the workspace is a slice.
#[expect(clippy::too_many_arguments)]
pub fn slew_mosaic_next(flat: &crate::maps::Flat, b: &[f64; 37], limited: bool, way: usize, from: &A4, to: &A4, at: &mut Cursor, ws: &mut [f64], o: &mut Planned) -> usize {
    let (c, v) = (&flat.counts, &flat.numbers);
    let lent = (ws.as_mut_ptr(), ws.len());
    unsafe {
        mosaics::slew_mosaic_next(
            c, v, b, limited, way, from, to, &mut at.counts, &mut at.sums, lent.0, lent.1, &mut o.counts, &mut o.duration, &mut o.max_defect, &mut o.z, &mut o.nodes, &mut o.held,
        )
    }
}

/// A whole mosaic by a way: slices that do not overlap, each with its own length.
#[expect(clippy::too_many_arguments)]
pub fn slew_mosaic(flat: &crate::maps::Flat, b: &[f64; 37], limited: bool, way: usize, tiles: &[A4], o: &mut Lent, ws: &mut [f64], at: &mut Cursor) -> usize {
    let (c, v) = (&flat.counts, &flat.numbers);
    unsafe {
        mosaics::slew_mosaic(
            c,
            v,
            b,
            limited,
            way,
            tiles.as_ptr(),
            tiles.len(),
            o.counts.as_mut_ptr(),
            o.counts.len(),
            o.times.as_mut_ptr(),
            o.times.len(),
            o.decisions.as_mut_ptr(),
            o.decisions.len(),
            o.nodes.as_mut_ptr(),
            o.nodes.len(),
            ws.as_mut_ptr(),
            ws.len(),
            &mut at.counts,
            &mut at.sums,
        )
    }
}

/// The entries over a problem's text: each slice is a pointer and a length.
mod texts {
    unsafe extern "C" {
        pub fn slew_plan(text: *const u8, text_len: usize, ws: *mut f64, ws_len: usize, out: *mut u8, out_len: usize) -> usize;
        pub fn slew_plan_from(
            text: *const u8,
            text_len: usize,
            seed: *const f64,
            seed_len: usize,
            ws: *mut f64,
            ws_len: usize,
            out: *mut u8,
            out_len: usize,
        ) -> usize;
        pub fn slew_sample(
            text: *const u8,
            text_len: usize,
            ws: *mut f64,
            ws_len: usize,
            requested: usize,
            alpha: f64,
            index: usize,
            out: *mut f64,
            out_len: usize,
        ) -> u64;
    }
}

/// A text's plan, printed; how many bytes.
pub fn slew_plan(text: &[u8], ws: &mut [f64], out: &mut [u8]) -> usize {
    unsafe { texts::slew_plan(text.as_ptr(), text.len(), ws.as_mut_ptr(), ws.len(), out.as_mut_ptr(), out.len()) }
}

/// The same from a caller's seed.
pub fn slew_plan_from(text: &[u8], seed: &[f64], ws: &mut [f64], out: &mut [u8]) -> usize {
    let (t, s) = ((text.as_ptr(), text.len()), (seed.as_ptr(), seed.len()));
    unsafe { texts::slew_plan_from(t.0, t.1, s.0, s.1, ws.as_mut_ptr(), ws.len(), out.as_mut_ptr(), out.len()) }
}

/// A dense sample of a text's plan; its refusal's number.
pub fn slew_sample(text: &[u8], ws: &mut [f64], requested: usize, alpha: f64, index: usize, out: &mut [f64]) -> u64 {
    let (t, lent) = ((text.as_ptr(), text.len()), (ws.as_mut_ptr(), ws.len()));
    unsafe { texts::slew_sample(t.0, t.1, lent.0, lent.1, requested, alpha, index, out.as_mut_ptr(), out.len()) }
}

/// The canonical text of a text: a refusal's number, with what is told, the bytes written and the refusal's place.
mod canonical {
    unsafe extern "C" {
        pub fn slew_canonical(text: *const u8, text_len: usize, out: *mut u8, out_len: usize, bytes: &mut usize, place: &mut usize) -> usize;
    }
}

pub fn slew_canonical(text: &[u8], out: &mut [u8]) -> (usize, usize, usize) {
    let (mut bytes, mut place) = (usize::MAX, usize::MAX);
    let number = unsafe { canonical::slew_canonical(text.as_ptr(), text.len(), out.as_mut_ptr(), out.len(), &mut bytes, &mut place) };
    (number, bytes, place)
}

/// Byte planes of a column of words.
mod columns {
    unsafe extern "C" {
        pub fn slew_encode_planes(column: *const u64, column_len: usize, out: *mut u8, out_len: usize) -> usize;
        pub fn slew_decode_planes(bytes: *const u8, bytes_len: usize, out: *mut u64, out_len: usize) -> usize;
    }
}

/// A refusal's number, or 0.
pub fn slew_encode_planes(column: &[u64], out: &mut [u8]) -> usize {
    unsafe { columns::slew_encode_planes(column.as_ptr(), column.len(), out.as_mut_ptr(), out.len()) }
}

/// A refusal's number, or 0.
pub fn slew_decode_planes(bytes: &[u8], out: &mut [u64]) -> usize {
    unsafe { columns::slew_decode_planes(bytes.as_ptr(), bytes.len(), out.as_mut_ptr(), out.len()) }
}

/// The entry for an order of tiles: the table is a pointer and a length.
mod orders {
    unsafe extern "C" {
        pub fn slew_order(tiles: usize, times: *const u32, times_len: usize, budget: u64, order: &mut [usize; 10], told: &mut [u64; 4]) -> usize;
    }
}

/// An order of tiles; its refusal's number. Told: cost, placed, used up, floor.
pub fn slew_order(tiles: usize, times: &[u32], budget: u64, order: &mut [usize; 10], told: &mut [u64; 4]) -> usize {
    unsafe { orders::slew_order(tiles, times.as_ptr(), times.len(), budget, order, told) }
}

/// Lists of samples, in numbers and in the drive board's: a pointer and a count of rows.
mod rows_of_numbers {
    use super::A9;
    unsafe extern "C" {
        pub fn slew_sample_list(
            j: &A9,
            tolerance: f64,
            duration: f64,
            nodes: &[[f64; 22]; 17],
            requested: usize,
            alpha: f64,
            out: *mut [f64; 14],
            out_len: usize,
            rows: &mut usize,
            place: &mut usize,
        ) -> usize;
        pub fn slew_board_list(
            j: &A9,
            tolerance: f64,
            duration: f64,
            nodes: &[[f64; 22]; 17],
            requested: usize,
            alpha: f64,
            out: *mut [i32; 13],
            out_len: usize,
            rows: &mut usize,
            place: &mut usize,
        ) -> usize;
    }
}

unsafe extern "C" {
    pub safe fn slew_board_part(x: f64, coarse: bool, out: &mut i32) -> usize;
    pub safe fn slew_board_read(n: i32, coarse: bool) -> f64;
    pub safe fn slew_board_sample(
        j: &A9,
        tolerance: f64,
        duration: f64,
        nodes: &[[f64; 22]; 17],
        requested: usize,
        alpha: f64,
        index: usize,
        out: &mut [i32; 13],
        place: &mut usize,
    ) -> usize;
}

/// All samples of a path; the refusal's number.
pub fn slew_sample_list(
    j: &A9,
    tolerance: f64,
    duration: f64,
    nodes: &[[f64; 22]; 17],
    requested: usize,
    alpha: f64,
    out: &mut [[f64; 14]],
    rows: &mut usize,
    place: &mut usize,
) -> usize {
    let lent = (out.as_mut_ptr(), out.len());
    unsafe { rows_of_numbers::slew_sample_list(j, tolerance, duration, nodes, requested, alpha, lent.0, lent.1, rows, place) }
}

/// A path's whole list for the drive board; its refusal's number.
pub fn slew_board_list(
    j: &A9,
    tolerance: f64,
    duration: f64,
    nodes: &[[f64; 22]; 17],
    requested: usize,
    alpha: f64,
    out: &mut [[i32; 13]],
    rows: &mut usize,
    place: &mut usize,
) -> usize {
    let lent = (out.as_mut_ptr(), out.len());
    unsafe { rows_of_numbers::slew_board_list(j, tolerance, duration, nodes, requested, alpha, lent.0, lent.1, rows, place) }
}
