//! The profile part of lib.rs: bang-coast-bang, switch times, the seed.

use crate::ffi::*;
use crate::random::Random;
use crate::shapes::rows;
use crate::words::{Entry, Reader, Words, refusal};
use quatopsy_plan::PlanError;
use quatopsy_plan::probe as rust;

/// What the Rust gave, or its refusal's number, then its place if that is asked for; 11 at 0 where an angle was outside.
fn told(o: &mut Words, placed: bool, answer: Result<Vec<f64>, PlanError>) -> bool {
    let outside = libm::was_outside();
    let (number, place, values) = match answer {
        _ if outside => (11, 0, Vec::new()),
        Ok(v) => (0, 0, v),
        Err(err) => {
            let (number, place) = refusal(&rust::words(err));
            (number, place, Vec::new())
        }
    };
    if placed {
        o.placed(number, place);
    } else {
        o.number(number);
    }
    o.all(&values);
    true
}

/// 1 and a slew limit above 0, or 0; seldom anything.
fn slew(r: &mut Random, w: &mut Words) {
    let limit = r.positive();
    let with = r.below(3) != 0;
    w.n(u64::from(with));
    w.f(if with { limit } else { 0.0 });
}

fn limit(with: u64, limit: f64) -> Option<f64> {
    (with != 0).then_some(limit)
}

/// A profile's numbers: those of a real one, or of any kind.
fn shape(r: &mut Random, w: &mut Words) {
    let mut v: [f64; 22] = r.numbers();
    if !r.one_in(4) {
        let (t_acc, t_coast) = (r.unit() * 20.0, if r.one_in(2) { 0.0 } else { r.unit() * 20.0 });
        v[..6].copy_from_slice(&[r.unit() * 3.0, r.unit(), t_acc, t_coast, 2.0 * t_acc + t_coast, r.unit()]);
        v[9..18].copy_from_slice(&r.tensor());
        v[18..].copy_from_slice(&r.attitude());
    }
    w.all(&v);
}

/// A profile and a time: within it, at its switches, or anything.
fn shape_time(r: &mut Random, w: &mut Words) {
    shape(r, w);
    let v: [f64; 22] = Reader(&w.0).a();
    let t = match r.below(8) {
        0 => v[2],
        1 => v[2] + v[3],
        2 => v[4],
        3 => r.near(v[2] + v[3]),
        4 => r.hostile(),
        _ => v[4] * r.unit(),
    };
    w.f(t);
}

fn problem(r: &mut Random, w: &mut Words) {
    let mut q0 = r.attitude();
    let mut qf = r.attitude();
    match r.below(8) {
        0 => qf = q0,
        1 => qf = [q0[1], -q0[0], q0[3], -q0[2]],
        2 => q0 = [1.0, 0.0, 0.0, 0.0],
        _ => {}
    }
    w.all(&q0);
    w.all(&qf);
    w.all(&r.tensor());
    let limits: [f64; 3] = std::array::from_fn(|_| r.positive());
    w.all(&limits);
    slew(r, w);
    w.f(if r.one_in(4) { r.unit() } else { 1.0e-6 });
}

fn seed_words(o: &mut Words, omegas: &[A3], torques: &[A3]) {
    omegas.iter().chain(torques).for_each(|v| o.all(v));
}

/// Inputs of a quick run, of a full run, and kept.
const fn sizes(kept: u64) -> [u64; 3] {
    [60_000, 2_000_000, kept]
}

pub const COURSES: [Entry; 10] = [
    Entry::new(
        150,
        "switch_times",
        sizes(40),
        |r, w| {
            w.f(r.positive());
            w.f(r.positive());
            slew(r, w);
        },
        |i, o| {
            let mut r = Reader(i);
            let (theta, alpha, with, slew) = (r.f(), r.f(), r.n(), r.f());
            let mut v = [0.0; 3];
            let number = slew_switch_times(theta, alpha, with != 0, slew, &mut v);
            o.given(number as u64, &v);
        },
        |i, o| {
            let mut r = Reader(i);
            let (theta, alpha, with, slew) = (r.f(), r.f(), r.n(), r.f());
            told(o, false, rust::switch_times(theta, alpha, limit(with, slew)).map(|(a, c, p)| vec![a, c, p]))
        }
    ),
    Entry::new(
        151,
        "alpha_from_box",
        sizes(40),
        |r, w| {
            w.all(&r.tensor());
            w.all(&r.axis());
            let limits: [f64; 3] = std::array::from_fn(|_| r.positive());
            w.all(&limits);
        },
        |i, o| {
            let mut r = Reader(i);
            let (j, axis, limit) = (r.a(), r.a(), r.a());
            let mut a = 0.0;
            let number = slew_alpha_from_box(&j, &axis, &limit, &mut a);
            o.given(number as u64, &[a]);
        },
        |i, o| {
            let mut r = Reader(i);
            told(o, false, rust::alpha_from_box(rows(r.a()), r.a(), r.a()).map(|a| vec![a]))
        }
    ),
    Entry::new(
        152,
        "bang_coast_bang",
        sizes(60),
        problem,
        |i, o| {
            let mut r = Reader(i);
            let (q0, qf, j, limit, with, slew, tie) = (r.a(), r.a(), r.a(), r.a(), r.n(), r.f(), r.f());
            let (mut v, mut place) = ([0.0; 22], 77);
            let number = slew_bang_coast_bang(&q0, &qf, &j, &limit, with != 0, slew, tie, &mut v, &mut place);
            o.placed(number as u64, place as u64);
            if number == 0 {
                o.all(&v);
            }
        },
        |i, o| {
            let mut r = Reader(i);
            let (q0, qf, j, box_limit, with, slew, tie) = (r.a(), r.a(), r.a(), r.a(), r.n(), r.f(), r.f());
            quatopsy_schema::set_tolerances(1.0e-6, tie);
            libm::was_outside();
            // the Rust's clamp panics on no input here: its bounds are -1 and 1
            told(o, true, rust::bang_coast_bang(q0, qf, rows(j), box_limit, limit(with, slew)).map(|p| p.numbers().to_vec()))
        }
    ),
    Entry::new(153, "angle", sizes(25), shape_time, |i, o| timed(i, o, |p, t| slew_profile_angle(p, t)), |i, o| timed_rust(i, o, |p, t| vec![p.angle(t)])),
    Entry::new(154, "rate", sizes(25), shape_time, |i, o| timed(i, o, |p, t| slew_profile_rate(p, t)), |i, o| timed_rust(i, o, |p, t| vec![p.rate(t)])),
    Entry::new(155, "alpha_signed", sizes(25), shape_time, |i, o| timed(i, o, |p, t| slew_profile_alpha_signed(p, t)), |i, o| {
        timed_rust(i, o, |p, t| vec![p.alpha_signed(t)])
    }),
    Entry::new(
        156,
        "omega_vec",
        sizes(25),
        shape_time,
        |i, o| {
            let mut r = Reader(i);
            let (p, t) = (r.a(), r.f());
            let mut v = [0.0; 3];
            slew_profile_omega_vec(&p, t, &mut v);
            o.all(&v);
        },
        |i, o| timed_rust(i, o, |p, t| p.omega_vec(t).to_vec())
    ),
    Entry::new(
        157,
        "torque_vec",
        sizes(25),
        shape_time,
        |i, o| {
            let mut r = Reader(i);
            let (p, t) = (r.a(), r.f());
            let mut v = [0.0; 3];
            slew_profile_torque_vec(&p, t, &mut v);
            o.all(&v);
        },
        |i, o| timed_rust(i, o, |p, t| p.torque_vec(t).to_vec())
    ),
    Entry::new(
        158,
        "quaternion",
        sizes(25),
        shape_time,
        |i, o| {
            let mut r = Reader(i);
            let (p, t) = (r.a(), r.f());
            let mut v = [0.0; 4];
            let number = slew_profile_quaternion(&p, t, &mut v);
            o.given(number as u64, &v);
        },
        |i, o| {
            libm::was_outside();
            let mut r = Reader(i);
            let q = rust::Shape::of(&r.a()).quaternion(r.f());
            crate::shapes::told(o, Ok(q))
        }
    ),
    Entry::new(
        159,
        "seed",
        sizes(8),
        shape,
        |i, o| {
            let (mut omegas, mut torques) = ([0.0; 51], [0.0; 51]);
            slew_sample_seed(&Reader(i).a(), &mut omegas, &mut torques);
            o.all(&omegas);
            o.all(&torques);
        },
        |i, o| {
            let (omegas, torques) = rust::Shape::of(&Reader(i).a()).seed();
            seed_words(o, &omegas, &torques);
            true
        }
    ),
];

fn timed(i: &[u64], o: &mut Words, of: fn(&[f64; 22], f64) -> f64) {
    let mut r = Reader(i);
    let (p, t) = (r.a(), r.f());
    o.f(of(&p, t));
}

fn timed_rust(i: &[u64], o: &mut Words, of: fn(&rust::Shape, f64) -> Vec<f64>) -> bool {
    let mut r = Reader(i);
    let p = rust::Shape::of(&r.a());
    o.all(&of(&p, r.f()));
    true
}
