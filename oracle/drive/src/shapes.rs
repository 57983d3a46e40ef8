//! geom.rs: attitudes, vectors, tensors.

use crate::ffi::*;
use crate::random::Random;
use crate::words::{Entry, Reader, Words, refusal};
use quatopsy_plan::PlanError;
use quatopsy_plan::probe as rust;

pub fn rows(j: A9) -> [A3; 3] {
    [[j[0], j[1], j[2]], [j[3], j[4], j[5]], [j[6], j[7], j[8]]]
}

pub fn flat(j: [A3; 3]) -> A9 {
    std::array::from_fn(|k| j[k / 3][k % 3])
}

/// What the Rust gave, or its refusal's number; 11 where an angle was outside.
pub fn told<const N: usize>(o: &mut Words, answer: Result<[f64; N], PlanError>) -> bool {
    let outside = libm::was_outside();
    match answer {
        _ if outside => o.number(11),
        Ok(v) => o.given(0, &v),
        Err(err) => o.number(refusal(&rust::words(err)).0),
    }
    true
}

fn v3(r: &mut Random, w: &mut Words) {
    let v: A3 = r.numbers();
    w.all(&v);
}
fn v3v3(r: &mut Random, w: &mut Words) {
    v3(r, w);
    v3(r, w);
}
fn v3f(r: &mut Random, w: &mut Words) {
    let v: A4 = r.numbers();
    w.all(&v);
}
fn q4(r: &mut Random, w: &mut Words) {
    let q = r.attitude();
    w.all(&q);
}
fn q4q4(r: &mut Random, w: &mut Words) {
    q4(r, w);
    q4(r, w);
}
fn q4any(r: &mut Random, w: &mut Words) {
    let q: [f64; 5] = r.numbers();
    w.all(&q);
}
fn j9(r: &mut Random, w: &mut Words) {
    let j = r.tensor();
    w.all(&j);
}

fn tolerance(r: &mut Random) -> f64 {
    match r.below(6) {
        0 => r.hostile(),
        1 => 1.0 - r.unit() * 1.0e-15,
        2 => r.unit(),
        _ => 1.0e-6,
    }
}

/// Inputs of a quick run, of a full run, and kept.
const SIZES: [u64; 3] = [60_000, 2_000_000, 25];

fn out<const N: usize>(o: &mut Words, of: impl FnOnce(&mut [f64; N])) {
    let mut v = [0.0; N];
    of(&mut v);
    o.all(&v);
}

fn may<const N: usize>(o: &mut Words, of: impl FnOnce(&mut [f64; N]) -> usize) {
    let mut v = [0.0; N];
    let number = of(&mut v);
    o.given(number as u64, &v);
}

fn yes(o: &mut Words, v: &[f64]) -> bool {
    o.all(v);
    true
}

fn said(o: &mut Words, b: bool) -> bool {
    o.n(u64::from(b));
    true
}

pub const SHAPES: [Entry; 26] = [
    Entry::new(50, "quat_is_finite", SIZES, q4, |i, o| o.n(u64::from(slew_quat_is_finite(&Reader(i).a()))), |i, o| {
        said(o, rust::q_is_finite(Reader(i).a()))
    }),
    Entry::new(51, "quat_norm", SIZES, q4, |i, o| o.f(slew_quat_norm(&Reader(i).a())), |i, o| yes(o, &[rust::q_norm(Reader(i).a())])),
    Entry::new(
        52,
        "quat_dot",
        SIZES,
        q4q4,
        |i, o| {
            let mut r = Reader(i);
            o.f(slew_quat_dot(&r.a(), &r.a()));
        },
        |i, o| {
            let mut r = Reader(i);
            yes(o, &[rust::q_dot(r.a(), r.a())])
        }
    ),
    Entry::new(
        53,
        "quat_scale",
        SIZES,
        q4any,
        |i, o| {
            let mut r = Reader(i);
            let (q, s) = (r.a(), r.f());
            out(o, |v| slew_quat_scale(&q, s, v));
        },
        |i, o| {
            let mut r = Reader(i);
            yes(o, &rust::q_scale(r.a(), r.f()))
        }
    ),
    Entry::new(54, "quat_negate", SIZES, q4, |i, o| out(o, |v| slew_quat_negate(&Reader(i).a(), v)), |i, o| yes(o, &rust::q_negate(Reader(i).a()))),
    Entry::new(55, "quat_conjugate", SIZES, q4, |i, o| out(o, |v| slew_quat_conjugate(&Reader(i).a(), v)), |i, o| {
        yes(o, &rust::q_conjugate(Reader(i).a()))
    }),
    Entry::new(
        56,
        "quat_mul",
        SIZES,
        q4q4,
        |i, o| {
            let mut r = Reader(i);
            let (a, b) = (r.a(), r.a());
            out(o, |v| slew_quat_mul(&a, &b, v));
        },
        |i, o| {
            let mut r = Reader(i);
            yes(o, &rust::q_mul(r.a(), r.a()))
        }
    ),
    Entry::new(
        57,
        "quat_normalized",
        SIZES,
        |r, w| {
            q4(r, w);
            w.f(tolerance(r));
        },
        |i, o| {
            let mut r = Reader(i);
            let (q, t) = (r.a(), r.f());
            may(o, |v| slew_quat_normalized(&q, t, v));
        },
        |i, o| {
            let mut r = Reader(i);
            let q = r.a();
            quatopsy_schema::set_tolerances(r.f(), 1.0e-6);
            told(o, rust::q_normalized(q))
        }
    ),
    Entry::new(
        58,
        "exp_so3",
        SIZES,
        |r, w| {
            let v: A3 = if r.one_in(4) {
                let v: A3 = r.numbers();
                v.map(|x| x * 1.0e-16)
            } else {
                r.numbers()
            };
            w.all(&v);
        },
        |i, o| may(o, |v| slew_exp_so3(&Reader(i).a(), v)),
        |i, o| {
            libm::was_outside();
            let q = rust::exp_so3(Reader(i).a());
            told(o, Ok(q))
        }
    ),
    Entry::new(59, "log_so3", SIZES, q4, |i, o| may(o, |v| slew_log_so3(&Reader(i).a(), v)), |i, o| {
        libm::was_outside();
        let v = rust::log_so3(Reader(i).a());
        told(o, Ok(v))
    }),
    Entry::new(
        60,
        "apply_tensor",
        SIZES,
        |r, w| {
            j9(r, w);
            v3(r, w);
        },
        |i, o| {
            let mut r = Reader(i);
            let (j, w) = (r.a(), r.a());
            out(o, |v| slew_apply_tensor(&j, &w, v));
        },
        |i, o| {
            let mut r = Reader(i);
            yes(o, &rust::apply_tensor(rows(r.a()), r.a()))
        }
    ),
    Entry::new(61, "invert3", SIZES, j9, |i, o| may(o, |v| slew_invert3(&Reader(i).a(), v)), |i, o| {
        told(o, rust::invert3(rows(Reader(i).a())).map(flat))
    }),
    Entry::new(62, "invert_spd", SIZES, j9, |i, o| may(o, |v| slew_invert_spd(&Reader(i).a(), v)), |i, o| {
        told(o, rust::invert_spd(rows(Reader(i).a())).map(flat))
    }),
    Entry::new(63, "det3", SIZES, j9, |i, o| o.f(slew_det3(&Reader(i).a())), |i, o| yes(o, &[rust::det3(rows(Reader(i).a()))])),
    Entry::new(64, "is_spd", SIZES, j9, |i, o| o.n(u64::from(slew_is_spd(&Reader(i).a()))), |i, o| said(o, rust::is_spd(rows(Reader(i).a())))),
    Entry::new(
        65,
        "euler_lhs",
        SIZES,
        |r, w| {
            j9(r, w);
            v3v3(r, w);
            v3(r, w);
        },
        |i, o| {
            let mut r = Reader(i);
            let (j, d, w, h) = (r.a(), r.a(), r.a(), r.a());
            out(o, |v| slew_euler_lhs(&j, &d, &w, &h, v));
        },
        |i, o| {
            let mut r = Reader(i);
            yes(o, &rust::euler_lhs(rows(r.a()), r.a(), r.a(), r.a()))
        }
    ),
    Entry::new(
        66,
        "cross",
        SIZES,
        v3v3,
        |i, o| {
            let mut r = Reader(i);
            let (a, b) = (r.a(), r.a());
            out(o, |v| slew_cross(&a, &b, v));
        },
        |i, o| {
            let mut r = Reader(i);
            yes(o, &rust::cross(r.a(), r.a()))
        }
    ),
    Entry::new(
        67,
        "add3",
        SIZES,
        v3v3,
        |i, o| {
            let mut r = Reader(i);
            let (a, b) = (r.a(), r.a());
            out(o, |v| slew_add3(&a, &b, v));
        },
        |i, o| {
            let mut r = Reader(i);
            yes(o, &rust::add3(r.a(), r.a()))
        }
    ),
    Entry::new(
        68,
        "sub3",
        SIZES,
        v3v3,
        |i, o| {
            let mut r = Reader(i);
            let (a, b) = (r.a(), r.a());
            out(o, |v| slew_sub3(&a, &b, v));
        },
        |i, o| {
            let mut r = Reader(i);
            yes(o, &rust::sub3(r.a(), r.a()))
        }
    ),
    Entry::new(
        69,
        "scale3",
        SIZES,
        v3f,
        |i, o| {
            let mut r = Reader(i);
            let (a, s) = (r.a(), r.f());
            out(o, |v| slew_scale3(&a, s, v));
        },
        |i, o| {
            let mut r = Reader(i);
            yes(o, &rust::scale3(r.a(), r.f()))
        }
    ),
    Entry::new(
        70,
        "dot3",
        SIZES,
        v3v3,
        |i, o| {
            let mut r = Reader(i);
            o.f(slew_dot3(&r.a(), &r.a()));
        },
        |i, o| {
            // the port's own name for a sum that geom.rs writes out in its rows
            let mut r = Reader(i);
            let (a, b): (A3, A3) = (r.a(), r.a());
            yes(o, &[rust::apply_tensor([a, a, a], b)[0]])
        }
    ),
    Entry::new(71, "norm3", SIZES, v3, |i, o| o.f(slew_norm3(&Reader(i).a())), |i, o| yes(o, &[rust::norm3(Reader(i).a())])),
    Entry::new(
        72,
        "unit3",
        SIZES,
        |r, w| {
            let v = r.axis();
            w.all(&v);
        },
        |i, o| may(o, |v| slew_unit3(&Reader(i).a(), v)),
        |i, o| told(o, rust::unit3(Reader(i).a()))
    ),
    Entry::new(
        73,
        "torque_excess",
        SIZES,
        v3v3,
        |i, o| {
            let mut r = Reader(i);
            o.f(slew_torque_excess(&r.a(), &r.a()));
        },
        |i, o| {
            let mut r = Reader(i);
            yes(o, &[rust::torque_excess(r.a(), r.a())])
        }
    ),
    Entry::new(
        74,
        "rest",
        SIZES,
        v3f,
        |i, o| {
            let mut r = Reader(i);
            let (w, b) = (r.a(), r.f());
            o.n(u64::from(slew_rest(&w, b)));
        },
        |i, o| {
            let mut r = Reader(i);
            said(o, rust::rest(r.a(), r.f()))
        }
    ),
    Entry::new(
        75,
        "body_euler_torque",
        SIZES,
        |r, w| {
            j9(r, w);
            v3v3(r, w);
            let v: [f64; 2] = r.numbers();
            w.all(&v);
        },
        |i, o| {
            let mut r = Reader(i);
            let (j, axis, h, alpha, omega) = (r.a(), r.a(), r.a(), r.f(), r.f());
            out(o, |v| slew_body_euler_torque(&j, &axis, alpha, omega, &h, v));
        },
        |i, o| {
            let mut r = Reader(i);
            let (j, axis, h, alpha, omega) = (r.a(), r.a(), r.a(), r.f(), r.f());
            yes(o, &rust::body_euler_torque(rows(j), axis, alpha, omega, h))
        }
    ),
];
