//! Previews and starts, written apart from the port: the record as a list of bits, and the planner called by itself on a problem that has these momenta.

use crate::port::{Momenta, Planned, Preview, Problem, plan};

/// The bits of a float, one pattern for every NaN.
pub fn bits(x: f64) -> u64 {
    if x.is_nan() { f64::NAN.to_bits() } else { x.to_bits() }
}

pub fn bits_of(m: &Momenta) -> (usize, Vec<u64>) {
    (m.wheels, m.at.iter().map(|x| bits(*x)).collect())
}

pub fn words(p: &Planned) -> Vec<u64> {
    let floats = [p.duration, p.max_defect].into_iter().chain(p.z).chain(p.nodes.into_iter().flatten());
    [p.number].iter().chain(&p.told).chain(&p.held).map(|n| *n as u64).chain(floats.map(bits)).collect()
}

fn refused(number: usize, place: usize) -> Planned {
    Planned { number, told: [place, 0, 0, 0, 0], duration: 0.0, max_defect: 0.0, z: [0.0; 193], nodes: [[0.0; 22]; 17], held: [0; 12] }
}

/// The plan from the momenta on record. The planner is asked about the wheels that both have, zeros past them; a wheel that only one has is 22 after 1 to 4, unless an earlier wheel is.
pub fn preview(record: &Momenta, p: &Problem, ws: &mut [f64]) -> Planned {
    let mut asked = p.clone();
    for k in 0..8 {
        asked.body[29 + k] = if k < record.wheels { record.at[k] } else { 0.0 };
    }
    let answer = plan(&asked, ws);
    let both = record.wheels.min(p.counts[0]);
    match answer.number {
        1..=4 => answer,
        22 => refused(22, answer.told[0].min(both)),
        _ if record.wheels != p.counts[0] => refused(22, both),
        _ => answer,
    }
}

/// The first of the eight wheels that differs or that only one has; 8 where the eight are the same and a count says that there are more.
fn differs(a: &Momenta, b: &Momenta) -> Option<usize> {
    let wheel = |m: &Momenta, k: usize| (k < m.wheels).then(|| bits(m.at[k]));
    let first = (0..8).find(|&k| wheel(a, k) != wheel(b, k));
    first.or((a.wheels > 8 || b.wheels > 8).then_some(8))
}

/// What a start answers, and the record after it.
pub fn start(record: &Momenta, v: &Preview) -> (usize, usize, Momenta) {
    if v.planned.number != 0 {
        return (26, 0, *record);
    }
    match differs(record, &v.began) {
        Some(wheel) => (26, wheel, *record),
        None => {
            let last = &v.planned.nodes[16];
            (0, 0, Momenta { wheels: v.planned.told[3], at: std::array::from_fn(|k| last[14 + k]) })
        }
    }
}
