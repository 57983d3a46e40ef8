//! Actuators, control rows, forward runs and residuals: actuators.rs, `reconstruct` and `residuals` of scvx.rs.

use crate::ffi::*;
use crate::maps::{self, Flat};
use crate::random::Random;
use crate::words::{Entry, Reader, Words, refusal};
use quatopsy_plan::PlanError;
use quatopsy_plan::law;
use quatopsy_plan::probe::{self as rust, Given, Map, Nodes, Task};
use quatopsy_plan::counted::probe as counted;
use quatopsy_plan::scvx::probe as scvx;
use quatopsy_plan::tally;

/// The number and place of a refusal by `prepare`: the Rust's words name no actuator, so each is prepared alone to find the first that is refused.
fn refused_place(given: &Given, err: PlanError) -> (u64, u64) {
    let (number, place) = refusal(&rust::words(err));
    if number == 1 {
        return (number, place);
    }
    let wheels = given.wheels.iter().enumerate().map(|(k, w)| (k, Given { wheels: vec![w.clone()], ..Given::default() }));
    let thrusters = given.thrusters.iter().enumerate().map(|(k, t)| (8 + k, Given { thrusters: vec![t.clone()], ..Given::default() }));
    let cmgs = given.cmgs.iter().map(|c| (20, Given { cmgs: Some(*c), ..Given::default() }));
    let first = wheels.chain(thrusters).chain(cmgs).find(|(_, alone)| rust::prepare(alone).is_err());
    (number, first.map_or(99, |(k, _)| k as u64))
}

fn prepared(flat: &Flat) -> Result<Map, (u64, u64)> {
    let given = flat.given();
    rust::prepare(&given).map_err(|err| refused_place(&given, err))
}

/// Numbers that a row has in a case, zeros past its length.
const ROW: usize = 24;

/// A row as wide as the actuators want it: within a few times their limits, or hostile.
fn row(r: &mut Random, w: &mut Words, width: usize) {
    let hostile = r.one_in(6);
    w.n(width as u64);
    (0..width).for_each(|_| w.f(if hostile { r.hostile() } else { r.tame() }));
    (width..ROW).for_each(|_| w.f(0.0));
}

fn three(r: &mut Random) -> [f64; 3] {
    if r.one_in(6) { r.numbers() } else { std::array::from_fn(|_| r.tame()) }
}

fn four(r: &mut Random) -> [f64; 4] {
    match r.below(6) {
        0 => r.numbers(),
        1 => std::array::from_fn(|_| r.tame() * 600.0),
        _ => std::array::from_fn(|_| r.tame()),
    }
}

/// A row from the inputs: its length, then its numbers.
fn list(r: &mut Reader<'_>) -> Vec<f64> {
    let n = r.n() as usize;
    let mut u = r.list(ROW);
    u.truncate(n);
    u
}

/// Zeros up to n numbers.
fn padded(mut v: Vec<f64>, n: usize) -> Vec<f64> {
    v.resize(n, 0.0);
    v
}

/// The Rust's value on the map of sound actuators, 11 where an angle was outside; no answer where `prepare` refuses.
fn by_map(i: &[u64], o: &mut Words, of: impl FnOnce(&Map, &mut Reader<'_>) -> Result<Vec<f64>, PlanError>) -> bool {
    let mut r = Reader(i);
    let Ok(map) = prepared(&Flat::take(&mut r)) else {
        return false;
    };
    libm::was_outside();
    let answer = of(&map, &mut r);
    match answer {
        _ if libm::was_outside() => o.given(11, &[]),
        Ok(v) => o.given(0, &v),
        Err(err) => o.given(refusal(&rust::words(err)).0, &[]),
    }
    true
}

/// A problem's other numbers: q0, qf, inertia, limits, slew, weights, tolerances; the wheels' starts are zeros.
pub fn body(r: &mut Random) -> [f64; 37] {
    let mut b = [0.0; 37];
    b[..4].copy_from_slice(&r.attitude());
    b[4..8].copy_from_slice(&r.attitude());
    let tensor = if r.one_in(4) { r.tensor() } else { [2.0 + r.unit(), 0.1, -0.2, 0.1, 3.0 + r.unit(), 0.05, -0.2, 0.05, 4.0 + r.unit()] };
    b[8..17].copy_from_slice(&tensor);
    b[17..21].copy_from_slice(&[0.1 + r.unit(), 0.1 + r.unit(), 0.1 + r.unit(), 0.1 + r.unit()]);
    (21..27).for_each(|k| b[k] = r.unit());
    b[27..29].copy_from_slice(if r.one_in(4) { &[1.0e-12, 1.0e-9] } else { &[1.0e-5, 1.0e-6] });
    if r.one_in(12) {
        let at = 17 + r.below(12) as usize;
        b[at] = r.hostile();
    }
    b
}

/// Start momenta beside the wheels' limits: zeros of either sign, a part of the limit, the limit and its neighbours, numbers of any kind. Past the wheels stands
/// anything, since nothing reads it.
pub fn starts(r: &mut Random, flat: &Flat, b: &mut [f64; 37]) {
    let (kind, wheels) = (r.below(8), flat.counts[0]);
    for k in 0..8 {
        let limit = flat.numbers[32 + k];
        let near = f64::from_bits(limit.to_bits().wrapping_add(r.below(3)).wrapping_sub(1));
        let size = match kind {
            _ if k >= wheels => r.hostile(),
            0..=2 => 0.0,
            3 => limit * [1.0e-9, 1.0e-3, 0.1][r.below(3) as usize] * r.unit(),
            4 => limit * r.unit(),
            5 => near,
            6 if r.one_in(8) => [f64::NAN, f64::INFINITY, 2.0 * limit][r.below(3) as usize],
            6 => limit * 1.0e-6,
            _ => r.hostile(),
        };
        b[29 + k] = if r.one_in(2) { -size } else { size };
    }
}

/// A packed decision: a plain duration or a hostile one, 16 rows.
fn decision(r: &mut Random) -> [f64; 193] {
    let mut z = [0.0; 193];
    let scale = [0.01, 0.1, 1.0][r.below(3) as usize];
    z.iter_mut().for_each(|x| *x = r.tame() * scale);
    z[0] = match r.below(8) {
        0 => r.hostile(),
        1 => [0.0, -0.0, -1.0, f64::NAN, f64::INFINITY, 1.0e-3, 1.0e4, 1.0e-300][r.below(8) as usize],
        _ => 0.5 + 60.0 * r.unit(),
    };
    if r.one_in(6) {
        for _ in 0..=r.below(3) {
            let at = 1 + r.below(192) as usize;
            z[at] = r.hostile();
        }
    }
    z
}

/// Actuators with a row of at most 12 controls in most cases.
fn narrow(r: &mut Random) -> Flat {
    loop {
        let flat = if r.one_in(8) { maps::hostile(r) } else { maps::sound(r) };
        if flat.width() <= 12 || r.one_in(20) {
            return flat;
        }
    }
}

/// Check 4: limits finite and above 0, weights finite and not below 0, tolerances inside 0 to 1. The Rust has none of it.
fn numbers_fit(b: &[f64; 37], limited: bool) -> bool {
    let limits = b[17..20].iter().chain(limited.then_some(&b[20])).all(|x| x.is_finite() && *x > 0.0);
    let weights = b[21..27].iter().all(|x| x.is_finite() && *x >= 0.0);
    limits && weights && b[27..29].iter().all(|x| *x > 0.0 && *x < 1.0)
}

/// Check 22: the first wheel whose start is not finite or larger in size than its limit. The Rust has none of it.
fn start_outside(map: &Map, starts: &[f64]) -> Option<u64> {
    let wheels = map.given().wheels;
    wheels.iter().zip(starts).position(|(wheel, x)| !x.is_finite() || x.abs() > wheel.2).map(|k| k as u64)
}

/// Checks 1 to 6 in the specification's order, and 22 after 4.
pub fn checked(flat: &Flat, b: &[f64; 37], limited: bool) -> Result<Task, (u64, u64)> {
    quatopsy_schema::set_tolerances(b[27], b[28]);
    let map = prepared(flat)?;
    if !numbers_fit(b, limited) {
        return Err((4, 0));
    }
    if let Some(wheel) = start_outside(&map, &b[29..]) {
        return Err((22, wheel));
    }
    let (mut start, mut end) = ([0.0; 4], [0.0; 4]);
    start.copy_from_slice(&b[..4]);
    end.copy_from_slice(&b[4..8]);
    let q0 = rust::q_normalized(start).map_err(|_| (5, 0))?;
    let qf = rust::q_normalized(end).map_err(|_| (5, 1))?;
    let inertia = std::array::from_fn(|i| std::array::from_fn(|k| b[8 + 3 * i + k]));
    rust::invert_spd(inertia).map_err(|_| (6, 0))?;
    let weights = std::array::from_fn(|k| b[21 + k]);
    Ok(Task { q0, qf, inertia, limit: [b[17], b[18], b[19]], slew: limited.then_some(b[20]), weights, starts: b[29..29 + map.given().wheels.len()].to_vec(), map })
}

/// The same, then 8 for a row of more than 12.
fn admitted(flat: &Flat, b: &[f64; 37], limited: bool) -> Result<Task, (u64, u64)> {
    let task = checked(flat, b, limited)?;
    if task.map.control_dim() > 12 { Err((8, 0)) } else { Ok(task) }
}

/// Of the published file and of the copy that counts, a run or its residuals.
type Both<T> = [fn(&Task, &[f64]) -> Result<T, PlanError>; 2];

/// The Rust's answer on a checked task: number, place and runs, then what was given. Where it stopped, the copy that counts tells.
fn told<T>(i: &[u64], o: &mut Words, [published, copy]: Both<T>, put: fn(&Task, T, &mut Words)) -> bool {
    let mut r = Reader(i);
    let (flat, b, limited, z) = (Flat::take(&mut r), r.a::<37>(), r.n() != 0, r.a::<193>());
    let task = match admitted(&flat, &b, limited) {
        Ok(task) => task,
        Err((number, place)) => {
            o.placed(number, place);
            o.n(0);
            return true;
        }
    };
    let z = &z[..1 + 16 * task.map.control_dim()];
    libm::outside_at();
    let answer = published(&task, z);
    match answer {
        Ok(given) if !libm::was_outside() => {
            o.placed(0, 0);
            o.n(1);
            put(&task, given, o);
        }
        _ => {
            libm::outside_at();
            tally::begin(false);
            let (err, stood) = (copy(&task, z).err(), tally::end().step);
            let (number, place) = libm::outside_at().map_or_else(|| stopped(err, stood), |(_, place)| (11, place));
            o.placed(number, place);
            o.n(1);
        }
    }
    true
}

/// Number and place of a refused run: 5 has place 2, the others their step.
fn stopped(err: Option<PlanError>, step: u64) -> (u64, u64) {
    let (number, _) = refusal(&rust::words(err.expect("a refusal")));
    (number, if number == 5 { 2 } else { step })
}

fn run_by_rust(i: &[u64], o: &mut Words) -> bool {
    told(i, o, [scvx::run, counted::run], |_, nodes, o| {
        o.f(nodes.defect);
        put_nodes(&nodes, o);
    })
}

/// 17 nodes of 22 numbers, +0 past the wheels.
pub fn put_nodes(nodes: &Nodes, o: &mut Words) {
    for k in 0..17 {
        o.f(nodes.times[k]);
        o.all(&nodes.quats[k]);
        o.all(&nodes.omegas[k]);
        o.all(&nodes.torques[k]);
        o.all(&nodes.momenta[k]);
        (0..8).for_each(|j| o.f(nodes.wheels[k].get(j).copied().unwrap_or(0.0)));
    }
}

/// The Rust sums the squares of no wheels' momenta from -0.0, ours from +0: with no wheels a zero of the last residual counts as +0, on both sides.
fn last_of_no_wheels(wheels: usize, r: &mut [f64]) {
    if let (0, Some(last)) = (wheels, r.last_mut()) {
        *last += 0.0;
    }
}

fn residuals_by_rust(i: &[u64], o: &mut Words) -> bool {
    told(i, o, [scvx::residual_list, counted::residual_list], |task, mut r, o| {
        o.n(r.len() as u64);
        last_of_no_wheels(task.map.given().wheels.len(), &mut r);
        o.all(&r);
        (r.len()..79).for_each(|_| o.f(0.0));
    })
}

/// The words of a port's run: `slew_reconstruct`, or the same under the published law.
macro_rules! run_words {
    ($run:ident, $i:ident, $o:ident) => {{
        let mut r = Reader($i);
        let (flat, b, limited, z) = (Flat::take(&mut r), r.a::<37>(), r.n() != 0, r.a::<193>());
        let (mut nodes, mut defect, mut place, mut runs) = ([[1.0; 22]; 17], 1.0, 77, 77);
        let number = $run(&flat.counts, &flat.numbers, &b, limited, &z, &mut nodes, &mut defect, &mut place, &mut runs);
        [number, place, runs].iter().for_each(|n| $o.n(*n as u64));
        if number == 0 {
            $o.f(defect);
            nodes.iter().for_each(|node| $o.all(node));
        } else {
            assert!(defect == 0.0 && nodes.iter().flatten().all(|x| x.to_bits() == 0), "a refused run leaves zeros");
        }
    }};
}

fn run_by_port(i: &[u64], o: &mut Words) {
    run_words!(slew_reconstruct, i, o);
}

fn published_run_by_port(i: &[u64], o: &mut Words) {
    run_words!(slew_published_reconstruct, i, o);
}

fn published_run_by_rust(i: &[u64], o: &mut Words) -> bool {
    law::as_published(|| run_by_rust(i, o))
}

fn residuals_by_port(i: &[u64], o: &mut Words) {
    let mut r = Reader(i);
    let (flat, b, limited, z) = (Flat::take(&mut r), r.a::<37>(), r.n() != 0, r.a::<193>());
    let (mut out, mut count, mut place, mut runs) = ([1.0; 79], 77, 77, 77);
    let number = slew_residuals(&flat.counts, &flat.numbers, &b, limited, &z, &mut out, &mut count, &mut place, &mut runs);
    [number, place, runs].iter().for_each(|n| o.n(*n as u64));
    if number == 0 {
        o.n(count as u64);
        last_of_no_wheels(flat.counts[0], &mut out[..count]);
        o.all(&out);
    } else {
        assert!(count == 0 && out.iter().all(|x| x.to_bits() == 0), "refused residuals are zeros");
    }
}

/// A problem and a decision. One in two has no pointing weight.
fn task(r: &mut Random, w: &mut Words) {
    let flat = narrow(r);
    flat.put(w);
    let mut b = body(r);
    starts(r, &flat, &mut b);
    if r.one_in(2) {
        b[24] = [0.0, -0.0][r.below(2) as usize];
    }
    w.all(&b);
    w.n(r.below(2));
    w.all(&decision(r));
}

/// Inputs of a quick run, of a full run, and kept.
const SIZES: [u64; 3] = [100_000, 2_000_000, 20];

pub const RUNS: [Entry; 13] = [
    Entry::new(
        100,
        "prepare",
        SIZES,
        |r, w| maps::hostile(r).put(w),
        |i, o| {
            let flat = Flat::take(&mut Reader(i));
            let (mut wheels, mut thrusters, mut place) = ([1.0; 24], [1.0; 36], 77);
            let number = slew_prepare(&flat.counts, &flat.numbers, &mut wheels, &mut thrusters, &mut place);
            o.placed(number as u64, place as u64);
            o.all(&wheels);
            o.all(&thrusters);
        },
        |i, o| {
            let answer = prepared(&Flat::take(&mut Reader(i)));
            let (number, place) = answer.as_ref().err().copied().unwrap_or((0, 0));
            let flat = answer.map_or(Flat::of(&Given::default()), |map| Flat::of(&map.given()));
            o.placed(number, place);
            o.all(&flat.numbers[..24]);
            o.all(&flat.numbers[48..84]);
            true
        },
    ),
    Entry::new(
        101,
        "body_torque",
        SIZES,
        |r, w| {
            let flat = maps::sound(r);
            flat.put(w);
            // with no actuators a row too short is refused; with actuators the Rust panics
            let short = flat.counts[..3] == [0; 3] && r.one_in(4);
            let width = if short { r.below(3) as usize } else { flat.width() };
            row(r, w, width);
            w.all(&three(r));
            w.all(&three(r));
            w.all(&four(r));
        },
        |i, o| {
            let mut r = Reader(i);
            let (flat, u, omega, h, delta) = (Flat::take(&mut r), list(&mut r), r.a(), r.a(), r.a());
            let mut out = [1.0; 3];
            let number = slew_body_torque(&flat.counts, &flat.numbers, &u, &omega, &h, &delta, &mut out);
            o.given(number as u64, &out);
        },
        |i, o| by_map(i, o, |map, r| map.body_torque(&list(r), r.a(), r.a(), r.a()).map(|v| v.to_vec())),
    ),
    Entry::new(
        102,
        "project_controls",
        SIZES,
        |r, w| {
            let flat = maps::sound(r);
            flat.put(w);
            row(r, w, flat.width());
            w.all(&[r.unit(), r.unit(), r.unit()]);
        },
        |i, o| {
            let mut r = Reader(i);
            let (flat, mut u, limit) = (Flat::take(&mut r), list(&mut r), r.a());
            slew_project_controls(&flat.counts, &flat.numbers, &mut u, &limit);
            o.given(0, &padded(u, ROW));
        },
        |i, o| {
            by_map(i, o, |map, r| {
                let (mut u, limit) = (list(r), r.a());
                map.project_controls(&mut u, limit);
                Ok(padded(u, ROW))
            })
        },
    ),
    Entry::new(
        103,
        "allocate_body_torque",
        SIZES,
        |r, w| {
            let mut flat = maps::sound(r);
            if r.one_in(4) {
                flat.numbers.copy_within(0..3, 3);
                flat.numbers.copy_within(48..51, 51);
            }
            if r.one_in(4) {
                flat.numbers[96] = [1.0e-9, 1.0e-300, 1.5999999999999999, 1.5707963267948966][r.below(4) as usize];
            }
            flat.put(w);
            w.all(&three(r));
        },
        |i, o| {
            let mut r = Reader(i);
            let (flat, tau) = (Flat::take(&mut r), r.a());
            let (mut out, mut place) = ([1.0; 20], 77);
            let number = slew_allocate_body_torque(&flat.counts, &flat.numbers, &tau, &mut out, &mut place);
            assert_eq!(place, usize::from(number == 6), "an allocation's place");
            o.given(number as u64, &out);
        },
        |i, o| by_map(i, o, |map, r| map.allocate(r.a()).map(|u| padded(u, 20))),
    ),
    Entry::new(
        104,
        "singularity",
        SIZES,
        |r, w| {
            maps::sound(r).put(w);
            w.all(&four(r));
        },
        |i, o| {
            let mut r = Reader(i);
            let (flat, delta) = (Flat::take(&mut r), r.a());
            let mut out = 1.0;
            let number = slew_singularity(&flat.counts, &flat.numbers, &delta, &mut out);
            o.given(number as u64, &[out]);
        },
        |i, o| by_map(i, o, |map, r| Ok(vec![map.singularity(r.a())])),
    ),
    Entry::new(
        105,
        "power_excess",
        SIZES,
        |r, w| {
            let flat = maps::sound(r);
            flat.put(w);
            row(r, w, flat.width());
            w.all(&three(r));
        },
        |i, o| {
            let mut r = Reader(i);
            let (flat, u, omega) = (Flat::take(&mut r), list(&mut r), r.a());
            o.given(0, &[slew_power_excess(&flat.counts, &flat.numbers, &u, &omega)]);
        },
        |i, o| by_map(i, o, |map, r| Ok(vec![map.power_excess(&list(r), r.a())])),
    ),
    Entry::new(
        106,
        "wheel momenta",
        SIZES,
        |r, w| {
            maps::sound(r).put(w);
            let n = r.below(10) as usize;
            row(r, w, n);
        },
        |i, o| {
            let mut r = Reader(i);
            let (flat, momenta) = (Flat::take(&mut r), list(&mut r));
            let mut out = [1.0; 3];
            slew_body_momentum(&flat.counts, &flat.numbers, &momenta, &mut out);
            o.given(0, &[slew_momentum_excess(&flat.counts, &flat.numbers, &momenta), out[0], out[1], out[2]]);
        },
        |i, o| {
            by_map(i, o, |map, r| {
                let momenta = list(r);
                let sum = map.body_momentum(&momenta);
                Ok(vec![map.momentum_excess(&momenta), sum[0], sum[1], sum[2]])
            })
        },
    ),
    Entry::new(
        200,
        "reconstruct",
        SIZES,
        task,
        run_by_port,
        run_by_rust,
    ),
    Entry::new(
        201,
        "residuals",
        SIZES,
        task,
        residuals_by_port,
        residuals_by_rust,
    ),
    Entry::new(
        107,
        "wheel_momentum_rates",
        SIZES,
        |r, w| {
            maps::sound(r).put(w);
            let n = r.below(10) as usize;
            row(r, w, n);
        },
        |i, o| {
            let mut r = Reader(i);
            let (flat, u) = (Flat::take(&mut r), list(&mut r));
            let mut out = [1.0; 8];
            slew_wheel_momentum_rates(&flat.counts, &flat.numbers, &u, &mut out);
            o.given(0, &out);
        },
        |i, o| by_map(i, o, |map, r| Ok(padded(map.wheel_momentum_rates(&list(r)), 8))),
    ),
    Entry::new(
        108,
        "control_dim",
        SIZES,
        |r, w| maps::hostile(r).put(w),
        |i, o| {
            let flat = Flat::take(&mut Reader(i));
            o.n(slew_control_dim(&flat.counts, &flat.numbers) as u64);
        },
        // The map of a refused `prepare` is blank in the port: three controls.
        |i, o| {
            o.n(prepared(&Flat::take(&mut Reader(i))).map_or(3, |map| map.control_dim() as u64));
            true
        },
    ),
    Entry::new(
        109,
        "pyramid_a",
        SIZES,
        |r, w| {
            w.f(if r.one_in(6) { r.hostile() } else { 1.6 * r.unit() });
            w.all(&four(r));
        },
        |i, o| {
            let mut r = Reader(i);
            let (skew, delta) = (r.f(), r.a());
            let mut out = [1.0; 12];
            let number = slew_pyramid_a(skew, &delta, &mut out);
            assert!(number == 0 || out.iter().all(|x| x.to_bits() == 0), "a refused Jacobian is zeros");
            o.given(number as u64, &out);
        },
        |i, o| {
            let mut r = Reader(i);
            libm::was_outside();
            let a = rust::pyramid(r.f(), r.a());
            o.given(if libm::was_outside() { 11 } else { 0 }, &a.concat());
            true
        },
    ),
    Entry::new(
        202,
        "reconstruct, published law",
        [100_000, 2_000_000, 0],
        task,
        published_run_by_port,
        published_run_by_rust,
    ),
];
