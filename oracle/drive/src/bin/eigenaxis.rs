//! eigenaxis [COUNT] [--seed N] [--own COUNT] [--only KIND]: COUNT laboratory problems of each family, 1,000 where none is named: the port's eigenaxis plans beside the same seed and ladder written apart
//! over the published Rust, both shapes by turns, every number of both answers. A table tells how many are planned, why the rest is refused, the duration over that of
//! the bang-coast-bang profile, the forward runs of a plan, and its time over that of the Rust's `solve` where that goes through rounds; `--own` says on how many problems of a family `solve` is
//! tried, from the planner's own seed, 50 where none is named. A second table tells the end error of the answered controls under the continuous equations, by the size of the turn. Exit status 1 where an
//! answer differs.

use drive::eigenaxis::{KINDS, by_rust, end_error, problem};
use drive::ffi::{Planned, slew_plan_eigenaxis_numbers};
use drive::plans;
use drive::random::Random;
use drive::runs::checked;
use quatopsy_plan::probe as rust;
use quatopsy_plan::tally;
use std::collections::BTreeMap;
use std::process::ExitCode;
use std::time::Instant;

fn blank() -> Planned {
    Planned { counts: [77; 5], duration: 1.0, max_defect: 1.0, z: [1.0; 193], nodes: [[1.0; 22]; 17], held: [77; 12] }
}

fn same(a: f64, b: f64) -> bool {
    a.to_bits() == b.to_bits() || (a.is_nan() && b.is_nan())
}

/// Whether both answers are the same, number by number.
fn agree(number: usize, ours: &Planned, theirs: &plans::Found) -> bool {
    let head = number as u64 == theirs.number && ours.counts[0] as u64 == theirs.place && ours.counts[1] as u64 == theirs.tally.runs;
    let Some((nodes, z)) = &theirs.path else { return head };
    let node = |k: usize| {
        let mut v = vec![nodes.times[k]];
        v.extend(nodes.quats[k]);
        v.extend(nodes.omegas[k]);
        v.extend(nodes.torques[k]);
        v.extend(nodes.momenta[k]);
        v.extend(&nodes.wheels[k]);
        v
    };
    let held = ours.held.iter().zip(&theirs.tally.held).all(|(a, b)| *a as u64 == *b);
    head && held && ours.counts[2..] == [theirs.controls, theirs.wheels, nodes.iterations as usize]
        && same(ours.duration, nodes.duration)
        && same(ours.max_defect, nodes.defect)
        && z.iter().zip(&ours.z).all(|(a, b)| same(*a, *b))
        && (0..17).all(|k| node(k).iter().zip(&ours.nodes[k]).all(|(a, b)| same(*a, *b)))
}

fn middle(v: &mut [f64]) -> f64 {
    v.sort_by(f64::total_cmp);
    v.get(v.len() / 2).copied().unwrap_or(f64::NAN)
}

fn word(words: &[String], name: &str) -> Option<String> {
    words.iter().position(|w| w == name).and_then(|k| words.get(k + 1).cloned())
}

fn main() -> ExitCode {
    let words: Vec<String> = std::env::args().skip(1).collect();
    let count: usize = words.first().and_then(|w| w.parse().ok()).unwrap_or(1000);
    let first: u64 = word(&words, "--seed").and_then(|w| w.parse().ok()).unwrap_or(1);
    let own: usize = word(&words, "--own").and_then(|w| w.parse().ok()).unwrap_or(50);
    let only = word(&words, "--only");
    let (mut ws, mut differ, mut second) = (vec![0.0; 53970], 0u64, Vec::new());
    println!("| family | planned by `solve` | planned by `plan_eigenaxis` | refused | duration over the profile's: middle, most | gentle over fastest: middle | runs: middle, most | time over `solve`'s: middle |");
    println!("|---|---|---|---|---|---|---|---|");
    for (k, kind) in KINDS.iter().enumerate().filter(|(_, kind)| only.as_ref().is_none_or(|o| o == *kind)) {
        let mut r = Random::of_round(first, 900 + k as u32, 0);
        let (mut planned, mut searched, mut refused) = (0, 0, BTreeMap::<usize, u64>::new());
        let (mut over, mut gentler, mut runs, mut times) = (Vec::new(), Vec::new(), Vec::new(), Vec::new());
        let mut errors: [Vec<f64>; 4] = Default::default();
        for i in 0..count {
            let p = problem(kind, &mut r);
            let (mut answers, mut numbers, mut spent) = ([blank(), blank()], [0; 2], 0.0);
            for gentle in [false, true] {
                let at = usize::from(gentle);
                let begun = Instant::now();
                numbers[at] = slew_plan_eigenaxis_numbers(&p.flat, &p.body, p.limited, gentle, &mut ws, &mut answers[at]);
                if !gentle {
                    spent = begun.elapsed().as_secs_f64();
                }
                if gentle == (i % 2 == 1) && !agree(numbers[at], &answers[at], &by_rust(&p, gentle)) {
                    differ += 1;
                    println!("{kind}, problem {i}, gentle {gentle}: the answers differ");
                }
            }
            planned += usize::from(numbers[0] == 0);
            if numbers[0] != 0 {
                *refused.entry(numbers[0]).or_default() += 1;
            }
            runs.push(answers[0].counts[1] as f64);
            let task = checked(&p.flat, &p.body, p.limited).expect("a sound problem");
            if numbers[0] == 0 && i < 300 {
                let degrees = rust::norm3(rust::log_so3(rust::q_mul(rust::q_conjugate(task.q0), task.qf))).to_degrees();
                let range = [10.0, 40.0, 120.0].iter().filter(|end| degrees > **end).count();
                errors[range].push(end_error(&task, &answers[0].z));
            }
            if numbers == [0, 0] {
                gentler.push(answers[1].duration / answers[0].duration);
                if let Ok(shape) = rust::bang_coast_bang(task.q0, task.qf, task.inertia, task.limit, task.slew) {
                    over.push(answers[0].duration / shape.numbers()[4]);
                }
            }
            if i < own {
                if let Ok((duration, rates, torques)) = plans::own_seed(&task) {
                    let begun = Instant::now();
                    searched += usize::from(quatopsy_plan::scvx::probe::seeded(&task, duration, &rates, &torques).is_ok());
                    let whole = begun.elapsed().as_secs_f64();
                    tally::begin(false);
                    let _ = quatopsy_plan::counted::probe::seeded(&task, duration, &rates, &torques);
                    if tally::end().rounds > 1 {
                        times.push(spent / whole);
                    }
                }
            }
        }
        let cells: Vec<String> = errors.iter_mut().map(|v| format!("{:.3}, {:.2}", middle(v), v.last().copied().unwrap_or(f64::NAN))).collect();
        second.push(format!("| {kind} | {} |", cells.join(" | ")));
        let most = |v: &[f64]| v.iter().copied().fold(f64::NAN, f64::max);
        let why: Vec<String> = refused.iter().map(|(n, c)| format!("{n}: {c}")).collect();
        println!(
            "| {kind} | {searched} of {} | {planned} of {count} | {} | {:.3}, {:.3} | {:.2} | {:.0}, {:.0} | {:.4} |",
            own.min(count), if why.is_empty() { "-".to_string() } else { why.join(", ") }, middle(&mut over), most(&over), middle(&mut gentler), middle(&mut runs), most(&runs), middle(&mut times)
        );
    }
    println!("\n| end error in degrees: middle, most | up to 10 degrees | 10 to 40 | 40 to 120 | 120 to 180 |\n|---|---|---|---|---|");
    second.iter().for_each(|line| println!("{line}"));
    println!("\nanswers that differ: {differ}");
    ExitCode::from(u8::from(differ > 0))
}
