//! held [MINUTES] [SEED]: how many controls were held at each place of a row, beside the counting copy of the Rust, by kinds of actuators: paths of the seed's own
//! decision (pulses, some over their limit) and paths of trials (from our seed, and from a caller's with larger torques). The decision is compared too, bit for bit.

use drive::ffi::{Planned, slew_plan_from_numbers, slew_plan_numbers};
use drive::plans::{Plan, Seed, begun, own_seed, tame};
use drive::problems::{Family, family, log_uniform};
use drive::pulses::pulse;
use drive::random::Random;
use drive::runs::checked;
use quatopsy_plan::{counted, tally};
use std::time::{Duration, Instant};

/// What was compared of a kind.
#[derive(Default)]
struct Row {
    plans: u64,
    /// Paths of the seed's own decision, of trials; of these with a held control.
    paths: [u64; 2],
    held: [u64; 2],
    mismatches: u64,
}

const KINDS: [&str; 4] = ["no actuators", "wheels", "thrusters", "pyramid"];

fn kind_of(plan: &Plan) -> usize {
    match plan.flat.counts {
        [0, 0, 0, ..] => 0,
        [_, 0, 0, ..] => 1,
        [0, _, 0, ..] => 2,
        _ => 3,
    }
}

/// A family of a kind, of few controls in most.
fn of_kind(r: &mut Random, kind: usize) -> Family {
    let few = 3 + if r.one_in(8) { r.below(6) } else { r.below(2) } as usize;
    match kind {
        0 => family("none", 0, 0, 0, r.one_in(8)),
        1 => family("wheels", few, 0, 0, false),
        2 => family("thrusters", 0, few, 0, false),
        _ => family("pyramid", 0, 0, 1, false),
    }
}

/// A plan of a kind in which a path is found often; in one of two with the profile's own seed, its torques made larger.
fn slew(r: &mut Random, kind: usize) -> Plan {
    let f = of_kind(r, kind);
    let mut plan = tame(r, f);
    if r.one_in(2) {
        let own = checked(&plan.flat, &plan.body, plan.limited).and_then(|task| own_seed(&task));
        if let Ok((duration, rates, torques)) = own {
            let more = 1.0 + r.unit();
            plan.seed = Some(Seed { duration, rates: rates.concat(), torques: torques.concat().iter().map(|x| x * more).collect() });
        }
    }
    plan
}

/// A pulse, in one of two with torques several times as large, in one of two with actuators that are weaker.
fn struck(r: &mut Random) -> Plan {
    let mut plan = pulse(r);
    let more = if r.one_in(2) { 1.0 } else { 1.0 + 3.0 * r.unit() };
    plan.seed.iter_mut().for_each(|seed| seed.torques.iter_mut().for_each(|x| *x *= more));
    let weaker = if r.one_in(2) { 1.0 } else { log_uniform(r, 1.0e-6, 1.0) };
    (24..32).chain(84..96).chain(98..99).for_each(|i| plan.flat.numbers[i] *= weaker);
    plan
}

/// The counts and the decision by both, where both have a path; whether trials made it.
fn compare(plan: &mut Plan, row: &mut Row) {
    plan.lent = plan.room();
    row.plans += 1;
    let Ok((task, duration, rates, torques)) = begun(plan) else { return };
    libm::outside_at();
    tally::begin(false);
    let answer = counted::probe::seeded(&task, duration, &rates, &torques);
    let (tally, outside) = (tally::end(), libm::outside_at());
    let mut ws = vec![0.0; plan.lent];
    let mut out = Planned { counts: [77; 5], duration: 1.0, max_defect: 1.0, z: [1.0; 193], nodes: [[1.0; 22]; 17], held: [77; 12] };
    let number = match &plan.seed {
        None => slew_plan_numbers(&plan.flat, &plan.body, plan.limited, &mut ws, &mut out),
        Some(seed) => slew_plan_from_numbers(&plan.flat, &plan.body, plan.limited, seed, &mut ws, &mut out),
    };
    if answer.is_err() || outside.is_some() {
        row.mismatches += u64::from(number == 0 || out.held != [0; 12]);
        return;
    }
    let held: Vec<usize> = tally.held[..12].iter().map(|n| *n as usize).collect();
    let same = tally.decision.iter().zip(&out.z).all(|(x, y)| x.to_bits() == y.to_bits());
    let by = usize::from(tally.accepted > 0);
    row.paths[by] += 1;
    row.held[by] += u64::from(held.iter().any(|n| *n > 0));
    if number != 0 || !same || out.held[..] != held[..] {
        row.mismatches += 1;
        println!("mismatch: number {number}, counts {:?} beside {held:?}", out.held);
    }
}

fn main() {
    let words: Vec<u64> = std::env::args().skip(1).map(|word| word.parse().expect("minutes and a seed are numbers")).collect();
    let minutes = words.first().copied().unwrap_or(2);
    let mut random = Random::new(words.get(1).copied().unwrap_or(1));
    let (began, mut rows) = (Instant::now(), <[Row; 4]>::default());
    while began.elapsed() < Duration::from_secs(60 * minutes) {
        let least = (0..4).min_by_key(|kind| rows[*kind].paths[1]).expect("four kinds");
        let mut plan = slew(&mut random, least);
        compare(&mut plan, &mut rows[least]);
        for _ in 0..8 {
            let mut plan = struck(&mut random);
            let kind = kind_of(&plan);
            compare(&mut plan, &mut rows[kind]);
        }
    }
    println!("| actuators | plans | paths of the seed | with a held control | paths of trials | with a held control | mismatches |\n|---|---|---|---|---|---|---|");
    for (name, row) in KINDS.iter().zip(&rows) {
        println!("| {name} | {} | {} | {} | {} | {} | {} |", row.plans, row.paths[0], row.held[0], row.paths[1], row.held[1], row.mismatches);
    }
    std::process::exit(i32::from(rows.iter().any(|row| row.mismatches > 0)));
}
