//! Dense samples: `densify` and `interpolate` of scvx.rs, on paths of forward runs and on forged ones.

use crate::ffi::*;
use crate::plans::{self, Family};
use crate::random::Random;
use crate::runs;
use crate::words::{Entry, Reader, Words, refusal};
use quatopsy_plan::probe::{self as rust, Nodes, Tensor};
use quatopsy_plan::scvx::probe as scvx;

/// A path as the C interface takes it, with what its samples are asked for.
pub struct Track {
    pub inertia: [f64; 9],
    pub tolerance: f64,
    pub duration: f64,
    pub nodes: [[f64; 22]; 17],
    pub requested: usize,
    pub alpha: f64,
}

impl Track {
    pub fn put(&self, w: &mut Words) {
        w.all(&self.inertia);
        w.f(self.tolerance);
        w.f(self.duration);
        self.nodes.iter().for_each(|node| w.all(node));
        w.n(self.requested as u64);
        w.f(self.alpha);
    }

    pub fn take(r: &mut Reader<'_>) -> Self {
        let (inertia, tolerance, duration) = (r.a(), r.f(), r.f());
        let nodes = std::array::from_fn(|_| r.a());
        Track { inertia, tolerance, duration, nodes, requested: r.n() as usize, alpha: r.f() }
    }

    /// As the Rust has it.
    fn of_rust(&self) -> (Tensor, Nodes) {
        let row = |k: usize, at: usize| -> [f64; 3] { std::array::from_fn(|l| self.nodes[k][at + l]) };
        let nodes = Nodes {
            times: (0..17).map(|k| self.nodes[k][0]).collect(),
            quats: (0..17).map(|k| std::array::from_fn(|l| self.nodes[k][1 + l])).collect(),
            omegas: (0..17).map(|k| row(k, 5)).collect(),
            torques: (0..17).map(|k| row(k, 8)).collect(),
            momenta: (0..17).map(|k| row(k, 11)).collect(),
            wheels: vec![Vec::new(); 17],
            duration: self.duration,
            iterations: 0,
            defect: 0.0,
        };
        (std::array::from_fn(|i| std::array::from_fn(|k| self.inertia[3 * i + k])), nodes)
    }

    /// The Rust's count, or none where it refuses: its own rule, but that a sum which overflows is refused.
    pub fn count(&self) -> Option<usize> {
        let dt_max = (2.0 * 1.0e-3 * 0.75) / self.alpha.max(1.0e-6);
        let from_rate = ((self.duration / dt_max).ceil() as usize).checked_add(1)?;
        let count = self.requested.max(from_rate).max(17);
        (count <= 100_000).then_some(count)
    }

    fn ours(&self, index: usize, o: &mut Words) {
        let (mut out, mut place) = ([1.0; 14], 77);
        let t = self;
        let number = slew_sample_path(&t.inertia, t.tolerance, t.duration, &t.nodes, t.requested, t.alpha, index, &mut out, &mut place);
        assert!(number == 0 || out.iter().all(|x| x.to_bits() == 0), "beside a refusal the sample is zeros");
        o.placed(number as u64, place as u64);
        o.all(&out);
    }

    pub fn rust(&self, index: usize, o: &mut Words) {
        let Some(count) = self.count() else { return refused(20, 0, o) };
        if index >= count {
            return refused(20, 1, o);
        }
        quatopsy_schema::set_tolerances(self.tolerance, 0.5);
        let (inertia, nodes) = self.of_rust();
        let t = self.duration * index as f64 / (count as f64 - 1.0);
        libm::outside_at();
        let answer = scvx::sample_at(inertia, &nodes, t);
        match answer {
            _ if libm::was_outside() => refused(11, index as u64, o),
            Ok(sample) => {
                o.placed(0, 0);
                o.all(&sample);
            }
            Err(err) => refused(refusal(&rust::words(err)).0, index as u64, o),
        }
    }
}

fn refused(number: u64, place: u64, o: &mut Words) {
    o.placed(number, place);
    o.all(&[0.0; 14]);
}

/// The nodes of a forward run, those of a run with numbers spoilt, or numbers of any kind.
pub fn track(r: &mut Random) -> Track {
    let b = runs::body(r);
    let (mut duration, mut nodes) = run(r).unwrap_or((r.unit(), std::array::from_fn(|_| r.numbers())));
    match r.below(6) {
        0 => nodes = std::array::from_fn(|_| r.numbers()),
        1 => {
            let (k, at) = (r.below(17) as usize, r.below(14) as usize);
            nodes[k][at] = r.hostile();
        }
        2 => nodes[r.below(17) as usize][0] = [f64::NAN, f64::INFINITY, 0.0, -0.0, duration][r.below(5) as usize],
        3 => duration = r.hostile(),
        _ => {}
    }
    let alpha = if r.one_in(8) { r.hostile() } else { r.unit() };
    let requested = if r.one_in(8) { [0, 1, 17, 100_000, 100_001, usize::MAX][r.below(6) as usize] } else { r.below(2000) as usize };
    let mut inertia = [0.0; 9];
    inertia.copy_from_slice(&b[8..17]);
    Track { inertia, tolerance: b[27], duration, nodes, requested, alpha }
}

/// A forward run of a problem in which paths are found, on a plain decision.
fn run(r: &mut Random) -> Option<(f64, [[f64; 22]; 17])> {
    let wheels = r.below(5) as usize;
    let plan = plans::tame(r, Family { name: "wheels", wheels, thrusters: 0, cmgs: 0, pointing: false });
    let task = runs::checked(&plan.flat, &plan.body, plan.limited).ok()?;
    let mut z: Vec<f64> = (0..16 * task.map.control_dim()).map(|_| 0.02 * r.tame()).collect();
    z.insert(0, 0.5 + 60.0 * r.unit());
    let nodes = scvx::run(&task, &z).ok()?;
    Some((z[0], rows(&nodes)))
}

/// Nodes as rows of 22 numbers.
pub fn rows(nodes: &Nodes) -> [[f64; 22]; 17] {
    let mut o = Words::default();
    runs::put_nodes(nodes, &mut o);
    let mut r = Reader(&o.0);
    std::array::from_fn(|_| r.a())
}

/// A whole list, sample by sample: the first refusal's number, or 0 and the samples.
fn list_by_port(i: &[u64], o: &mut Words) {
    let track = Track::take(&mut Reader(i));
    let mut given = Vec::new();
    for index in 0..track.count().unwrap_or(1) {
        let mut one = Words::default();
        track.ours(index, &mut one);
        if one.0[0] != 0 {
            return o.number(one.0[0]);
        }
        given.extend_from_slice(&one.0[2..]);
    }
    o.number(0);
    o.0.extend(given);
}

/// Rows behind a list, which no call may touch.
const BEHIND: usize = 3;
const STOOD: [f64; 14] = [77.0; 14];

/// The rows lent: as many as there are samples, and some behind; or fewer.
fn lent(track: &Track, fewer: u64) -> usize {
    let count = track.count().unwrap_or(0);
    if fewer == 0 { count + BEHIND } else { count.saturating_sub(fewer as usize) }
}

/// A whole list in one call: number, place, rows, and everything that was lent.
fn list_in_one_call(i: &[u64], o: &mut Words) {
    let mut r = Reader(i);
    let t = Track::take(&mut r);
    let mut out = vec![STOOD; lent(&t, r.n())];
    let (mut rows, mut place) = (77, 77);
    let number = slew_sample_list(&t.inertia, t.tolerance, t.duration, &t.nodes, t.requested, t.alpha, &mut out, &mut rows, &mut place);
    [number, place, rows].iter().for_each(|n| o.n(*n as u64));
    out.iter().for_each(|row| o.all(row));
}

/// The same by the Rust's `interpolate`, sample by sample, which tells where the list ends; where it is whole `densify` must have given it too.
fn list_to_its_end(i: &[u64], o: &mut Words) -> bool {
    let mut r = Reader(i);
    let track = Track::take(&mut r);
    let lent = lent(&track, r.n());
    let mut rows: Vec<Vec<u64>> = Vec::new();
    let mut ended = (0, 0);
    match track.count() {
        None => ended = (20, 0),
        Some(count) if lent < count => ended = (99, 0),
        Some(count) => {
            for index in 0..count {
                let mut one = Words::default();
                track.rust(index, &mut one);
                if one.0[0] != 0 {
                    ended = (one.0[0], one.0[1]);
                    break;
                }
                rows.push(one.0[2..].to_vec());
            }
            let mut whole = Words::default();
            list_by_rust(&i[..i.len() - 1], &mut whole);
            assert!(whole.0[0] == ended.0, "`densify` ends as its samples do");
        }
    }
    o.placed(ended.0, ended.1);
    o.n(rows.len() as u64);
    rows.iter().for_each(|row| o.0.extend(row));
    (rows.len()..lent).for_each(|_| o.all(&STOOD));
    o.met("rows", rows.len() as u64);
    o.met("whole lists", u64::from(ended.0 == 0));
    true
}

/// The same by the Rust's `densify`, which names no sample.
fn list_by_rust(i: &[u64], o: &mut Words) -> bool {
    let track = Track::take(&mut Reader(i));
    if track.count().is_none() {
        o.number(20);
        return true;
    }
    quatopsy_schema::set_tolerances(track.tolerance, 0.5);
    let (inertia, nodes) = track.of_rust();
    libm::outside_at();
    match scvx::dense(inertia, &nodes, track.requested, track.alpha) {
        _ if libm::was_outside() => o.number(11),
        Ok(list) => {
            o.number(0);
            list.iter().for_each(|sample| o.all(sample));
            o.met("samples of whole lists", list.len() as u64);
        }
        Err(err) => o.number(refusal(&rust::words(err)).0),
    }
    true
}

/// Inputs of a quick run, of a full run, and kept.
const SIZES: [u64; 3] = [100_000, 2_000_000, 60];

pub const SAMPLES: [Entry; 4] = [
    Entry::new(
        350,
        "samples",
        SIZES,
        |r, w| {
            let track = track(r);
            track.put(w);
            let count = track.count().unwrap_or(17) as u64;
            w.n(match r.below(8) {
                0 => 0,
                1 => count - 1,
                2 => count,
                3 => r.word(),
                _ => r.below(count),
            });
        },
        |i, o| {
            let mut r = Reader(i);
            let track = Track::take(&mut r);
            track.ours(r.n() as usize, o);
        },
        |i, o| {
            let mut r = Reader(i);
            let track = Track::take(&mut r);
            track.rust(r.n() as usize, o);
            true
        },
    ),
    Entry::new(
        351,
        "sample_count",
        SIZES,
        |r, w| {
            let (duration, alpha) = (r.positive(), r.positive());
            w.f(duration);
            w.n([r.below(2000), 100_000, 100_001, u64::MAX, 0][r.below(5) as usize]);
            w.f(match r.below(4) {
                // just at the limit: 99,999 steps
                0 => r.near(99_999.0 * 0.0015 / duration),
                _ => alpha,
            });
        },
        |i, o| {
            let mut r = Reader(i);
            let (duration, requested, alpha) = (r.f(), r.n(), r.f());
            let mut count = 77;
            let number = slew_sample_count(duration, requested as usize, alpha, &mut count);
            assert!(number == 0 || count == 77, "a refused count is not written");
            o.n(number as u64);
            o.n(if number == 0 { count as u64 } else { 0 });
        },
        |i, o| {
            let mut r = Reader(i);
            let (duration, requested, alpha) = (r.f(), r.n() as usize, r.f());
            let track = Track { inertia: [0.0; 9], tolerance: 0.5, duration, nodes: [[0.0; 22]; 17], requested, alpha };
            let count = track.count();
            o.number(if count.is_some() { 0 } else { 20 });
            o.n(count.unwrap_or(0) as u64);
            true
        },
    ),
    Entry::new(352, "sample lists", [500, 20_000, 0], |r, w| track(r).put(w), list_by_port, list_by_rust),
    Entry::new(
        353,
        "sample lists in one call",
        [500, 20_000, 0],
        |r, w| {
            track(r).put(w);
            w.n(if r.one_in(8) { 1 + r.below(20) } else { 0 });
        },
        list_in_one_call,
        list_to_its_end,
    ),
];
