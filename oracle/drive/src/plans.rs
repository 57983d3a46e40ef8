//! Whole plans by both: the published `solve` behind the specification's checks, and the port's two entries.

use crate::ffi::{Planned, slew_plan_from_numbers, slew_plan_numbers, slew_problem_profile, slew_sample_seed};
pub use crate::problems::{FAMILIES, Family, Plan, Seed, any, served, tame};
use crate::pulses::pulse;
use crate::random::Random;
use crate::runs::{checked, put_nodes};
use crate::words::{Entry, Reader, Words, refusal};
use quatopsy_plan::probe::{self as rust, Nodes, Task};
use quatopsy_plan::tally::{self, Tally};
use quatopsy_plan::{counted, scvx};

/// A seed as `solve` takes it: a duration, rates, torques.
type Sampled = (f64, Vec<[f64; 3]>, Vec<[f64; 3]>);

/// The problems of a family that the times and the counts of instructions are taken on, one after the other, each with room enough.
pub fn drawn(family: Family) -> impl Iterator<Item = Plan> {
    let mut random = Random::new(17);
    std::iter::repeat_with(move || {
        let mut plan = tame(&mut random, family);
        plan.lent = plan.room();
        plan
    })
}

/// The seed of our own entry: the profile at 17 nodes, or 7, or 11 where its arc cosine has no answer.
pub fn own_seed(task: &Task) -> Result<Sampled, (u64, u64)> {
    libm::outside_at();
    let shape = rust::bang_coast_bang(task.q0, task.qf, task.inertia, task.limit, task.slew);
    if libm::was_outside() {
        return Err((11, 0));
    }
    let shape = shape.map_err(|err| refusal(&rust::words(err)))?;
    let (rates, torques) = shape.seed();
    Ok((shape.numbers()[4], rates, torques))
}

/// The Rust's task and seed, or the refusal before any run: checks 1 to 8, 6 at place 1, and 10.
pub fn begun(plan: &Plan) -> Result<(Task, f64, Vec<[f64; 3]>, Vec<[f64; 3]>), (u64, u64)> {
    let task = checked(&plan.flat, &plan.body, plan.limited)?;
    let threes = |v: &[f64]| v.chunks(3).map(|c| std::array::from_fn(|k| c.get(k).copied().unwrap_or(0.0))).collect::<Vec<[f64; 3]>>();
    let (duration, rates, torques) = match &plan.seed {
        Some(seed) => (seed.duration, threes(&seed.rates), threes(&seed.torques)),
        None => own_seed(&task)?,
    };
    if let Err(err) = task.map.allocate([0.0; 3]) {
        let (number, _) = refusal(&rust::words(err));
        return Err((number, u64::from(number == 6)));
    }
    let whole = plan.seed.as_ref().is_none_or(|s| s.rates.len() == 51 && s.torques.len() == 51);
    if !whole || !(duration.is_finite() && duration > 0.0) {
        return Err((10, 0));
    }
    Ok((task, duration, rates, torques))
}

/// What a plan gives: a path with its decision, or a refusal.
#[derive(Clone, Debug)]
pub struct Found {
    pub number: u64,
    pub place: u64,
    pub controls: usize,
    pub wheels: usize,
    pub path: Option<(Nodes, Vec<f64>)>,
    pub tally: Tally,
}

pub fn refused(number: u64, place: u64, tally: Tally) -> Found {
    Found { number, place, controls: 0, wheels: 0, path: None, tally }
}

/// The published `solve` and the copy that counts, which must agree; 9 where too little is lent.
pub fn by_rust(plan: &Plan, timed: bool) -> Found {
    let (task, duration, rates, torques) = match begun(plan) {
        Ok(begun) if plan.lent >= plan.room() => begun,
        Ok(_) => return refused(9, 0, Tally::default()),
        Err((number, place)) => return refused(number, place, Tally::default()),
    };
    let published = scvx::probe::seeded(&task, duration, &rates, &torques);
    libm::outside_at();
    tally::begin(timed);
    let answer = counted::probe::seeded(&task, duration, &rates, &torques);
    let (counted, outside) = (tally::end(), libm::outside_at());
    let same = match (&published, &answer) {
        (Ok(a), Ok(b)) => words_of(a).0 == words_of(b).0,
        (Err(a), Err(b)) => format!("{a:?}") == format!("{b:?}"),
        _ => false,
    };
    assert!(same, "the copy that counts answers as the published file does");
    told(&task, answer, counted, outside)
}

fn told(task: &Task, answer: Result<Nodes, quatopsy_plan::PlanError>, mut tally: Tally, outside: Option<(u64, u64)>) -> Found {
    if let Some((runs, place)) = outside {
        tally.runs = runs;
        return refused(11, place, tally);
    }
    match answer {
        Ok(nodes) => {
            let path = Some((nodes, std::mem::take(&mut tally.decision)));
            Found { number: 0, place: 0, controls: task.map.control_dim(), wheels: task.map.given().wheels.len(), path, tally }
        }
        Err(err) => {
            let (number, _) = refusal(&rust::words(err));
            let place = match number {
                5 => 2,
                12 | 13 => tally.step,
                17..=19 => tally.node,
                _ => 0,
            };
            refused(number, place, tally)
        }
    }
}

/// A path's numbers: iterations, duration, defect, 17 nodes of 22.
pub fn words_of(nodes: &Nodes) -> Words {
    let mut o = Words::default();
    o.n(u64::from(nodes.iterations));
    o.f(nodes.duration);
    o.f(nodes.defect);
    put_nodes(nodes, &mut o);
    o
}

/// Branches that a search met, and what it was asked.
fn count_branches(plan: &Plan, found: &Found, o: &mut Words) {
    const WIDTHS: [&str; 10] =
        ["3 controls", "4 controls", "5 controls", "6 controls", "7 controls", "8 controls", "9 controls", "10 controls", "11 controls", "12 controls"];
    let t = &found.tally;
    if t.runs == 0 {
        return;
    }
    let [wheels, thrusters, cmgs] = [0, 1, 2].map(|k| u64::from(plan.flat.counts[k] > 0));
    o.met("searches: no actuators", u64::from(plan.flat.empty()));
    o.met("wheels", wheels);
    let turning = plan.body[29..].iter().take(plan.flat.counts[0]).any(|x| *x != 0.0);
    o.met("wheels that turn at the start", u64::from(turning));
    o.met("paths of these", u64::from(turning && found.path.is_some()));
    o.met("thrusters", thrusters);
    o.met("a pyramid", cmgs);
    o.met("with pointing", u64::from(plan.body[24] > 0.0));
    o.met("with a caller's seed", u64::from(plan.seed.is_some()));
    o.met("its duration outside the clamp", u64::from(plan.seed.as_ref().is_some_and(|s| !(1.0e-3..=1.0e4).contains(&s.duration))));
    (3..=12).for_each(|width| o.met(WIDTHS[width - 3], u64::from(plan.flat.width() == width)));
    o.met("rounds", t.rounds);
    o.met("trials taken", t.accepted);
    o.met("trials not taken", t.rejected);
    o.met("of these exactly as long", t.equal);
    o.met("rounds with a small pivot", t.singular);
    o.met("rounds of NaN length", t.nan);
    o.met("paths found before round 40", u64::from(found.path.is_some() && t.rounds < 40));
    let held = found.path.is_some() && t.held.iter().any(|n| *n > 0);
    o.met("paths of the seed's own decision", u64::from(found.path.is_some() && t.accepted == 0));
    o.met("of these with a held control", u64::from(held && t.accepted == 0));
    o.met("paths of a trial", u64::from(found.path.is_some() && t.accepted > 0));
    o.met("of these with one", u64::from(held && t.accepted > 0));
    o.met("paths with a control at its stop", u64::from(found.path.as_ref().is_some_and(|(_, z)| at_stop(plan, &z[1..]))));
}

/// Whether a control is as large as it may be.
fn at_stop(plan: &Plan, controls: &[f64]) -> bool {
    let Plan { flat, body, .. } = plan;
    let limits: Vec<f64> = match flat.counts {
        [0, 0, 0, ..] => body[17..20].to_vec(),
        [wheels, 0, 0, ..] => flat.numbers[24..24 + wheels].to_vec(),
        [0, thrusters, 0, ..] => flat.numbers[84..84 + thrusters].to_vec(),
        _ => vec![flat.numbers[98]; 4],
    };
    controls.iter().zip(limits.iter().cycle()).any(|(u, limit)| u.abs() == *limit)
}

/// Number, place, runs, then 1 for a workspace that is untouched before the first run and all +0 after it; of a path also the controls, wheels, iterations,
/// duration, largest defect, decision, nodes and held controls.
fn plan_by_rust(i: &[u64], o: &mut Words) -> bool {
    let plan = Plan::take(&mut Reader(i));
    let found = by_rust(&plan, false);
    o.placed(found.number, found.place);
    o.n(found.tally.runs);
    o.n(1);
    if let Some((nodes, decision)) = &found.path {
        [found.controls as u64, found.wheels as u64, u64::from(nodes.iterations)].iter().for_each(|n| o.n(*n));
        o.f(nodes.duration);
        o.f(nodes.defect);
        o.all(decision);
        (decision.len()..193).for_each(|_| o.f(0.0));
        put_nodes(nodes, o);
        found.tally.held[..12].iter().for_each(|n| o.n(*n));
    }
    count_branches(&plan, &found, o);
    true
}

fn plan_by_port(i: &[u64], o: &mut Words) {
    let plan = Plan::take(&mut Reader(i));
    let mut ws = vec![plan.fill; plan.lent];
    let mut out = Planned { counts: [77; 5], duration: 1.0, max_defect: 1.0, z: [1.0; 193], nodes: [[1.0; 22]; 17], held: [77; 12] };
    let number = match &plan.seed {
        None => slew_plan_numbers(&plan.flat, &plan.body, plan.limited, &mut ws, &mut out),
        Some(seed) => slew_plan_from_numbers(&plan.flat, &plan.body, plan.limited, seed, &mut ws, &mut out),
    };
    let [place, runs, controls, wheels, iterations] = out.counts;
    let left = if runs == 0 { plan.fill.to_bits() } else { 0 };
    let kept = ws.iter().all(|x| x.to_bits() == left);
    o.placed(number as u64, place as u64);
    o.n(runs as u64);
    o.n(u64::from(kept));
    if number == 0 {
        [controls, wheels, iterations].iter().for_each(|n| o.n(*n as u64));
        o.f(out.duration);
        o.f(out.max_defect);
        o.all(&out.z);
        out.nodes.iter().for_each(|node| o.all(node));
        out.held.iter().for_each(|n| o.n(*n as u64));
    } else {
        let zeros = out.z.iter().chain(out.nodes.iter().flatten()).chain([&out.duration, &out.max_defect]).all(|x| x.to_bits() == 0);
        assert!(zeros && [controls, wheels, iterations] == [0; 3] && out.held == [0; 12], "the path beside a refusal is blank");
    }
}

/// Our entry's seed: number and place of a problem without one, else the duration, 17 rates and 17 torques.
fn seed_by_rust(i: &[u64], o: &mut Words) -> bool {
    let plan = Plan::take(&mut Reader(i));
    match checked(&plan.flat, &plan.body, plan.limited).and_then(|task| own_seed(&task)) {
        Err((number, place)) => o.placed(number, place),
        Ok((duration, rates, torques)) => {
            o.placed(0, 0);
            o.f(duration);
            rates.iter().chain(&torques).for_each(|v| o.all(v));
        }
    }
    true
}

fn seed_by_port(i: &[u64], o: &mut Words) {
    let Plan { flat, body, limited, .. } = Plan::take(&mut Reader(i));
    let (mut shape, mut place) = ([0.0; 22], 77);
    let number = slew_problem_profile(&flat.counts, &flat.numbers, &body, limited, &mut shape, &mut place);
    o.placed(number as u64, place as u64);
    if number == 0 {
        let (mut rates, mut torques) = ([0.0; 51], [0.0; 51]);
        slew_sample_seed(&shape, &mut rates, &mut torques);
        o.f(shape[4]);
        o.all(&rates);
        o.all(&torques);
    }
}

/// Whole plans of every sort.
pub const PLANS: [Entry; 1] = [Entry::new(300, "plans", [300, 20_000, 0], |r, w| any(r).put(w), plan_by_port, plan_by_rust)];

/// A plan of any sort with a workspace that is too short, so that it ends before its first run.
fn short_of_room(r: &mut Random, w: &mut Words) {
    let mut plan = any(r);
    plan.lent = r.below(plan.room() as u64) as usize;
    plan.put(w);
}

/// Plans that end early: before the first run, or where a pulse is; and our own entry's seed.
pub const EARLY: [Entry; 3] = [
    Entry::new(301, "refused plans", [20_000, 200_000, 0], short_of_room, plan_by_port, plan_by_rust),
    Entry::new(302, "pulses", [5_000, 100_000, 0], |r, w| pulse(r).put(w), plan_by_port, plan_by_rust),
    Entry::new(303, "own seed", [60_000, 2_000_000, 0], |r, w| any(r).put(w), seed_by_port, seed_by_rust),
];

/// Number, first and last place of what a whole plan can be refused with: 11 outside a step, 13 in step 0, 17 at node 16 and 18 and 19 at node 0 cannot be (19, since 22 comes before it).
pub const REACHED: [(u64, u64, u64); 20] = [
    (1, 0, 1), (2, 0, 20), (3, 0, 19), (4, 0, 0), (5, 0, 2), (6, 0, 1), (7, 0, 2), (8, 0, 0), (9, 0, 0), (10, 0, 0), (11, 0, 15), (12, 0, 15), (13, 1, 15),
    (14, 0, 0), (15, 0, 0), (16, 0, 0), (17, 0, 15), (18, 1, 16), (19, 1, 16), (22, 0, 7),
];
