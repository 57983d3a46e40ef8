//! instructions: for each family the numbers of the first five drawn problems in which a path is found, a line each.
//! instructions SIDE FAMILY NUMBER..: plans these problems of a family (by its place) once: SIDE is ours, rust (with our angles) or unaltered. What `counted`
//! does is what `oracle/instructions` has counted.

use drive::ffi::*;
use drive::plans::{FAMILIES, Plan, begun, by_rust, drawn};
use quatopsy_plan::scvx::probe as scvx;
use std::hint::black_box;

/// The instructions in here are counted, by this name.
#[unsafe(no_mangle)]
#[inline(never)]
fn counted(of: &mut dyn FnMut()) {
    of();
}

fn plan(side: &str, plan: &Plan) {
    let (task, duration, rates, torques) = begun(plan).unwrap_or_else(|_| panic!("a problem that was planned"));
    let mut ws = vec![0.0; plan.lent];
    let mut out = Planned { counts: [0; 5], duration: 0.0, max_defect: 0.0, z: [0.0; 193], nodes: [[0.0; 22]; 17], held: [0; 12] };
    libm::use_platform(side == "unaltered");
    match side {
        "ours" => counted(&mut || assert_eq!(slew_plan_numbers(&plan.flat, &plan.body, plan.limited, &mut ws, black_box(&mut out)), 0)),
        _ => counted(&mut || drop(black_box(scvx::seeded(&task, duration, &rates, &torques)))),
    }
}

fn main() {
    let words: Vec<String> = std::env::args().skip(1).collect();
    let Some((side, rest)) = words.split_first() else {
        for family in FAMILIES {
            let numbers = drawn(family).enumerate().filter(|(_, plan)| by_rust(plan, false).number == 0).take(5);
            let told: Vec<String> = numbers.map(|(k, _)| k.to_string()).collect();
            println!("{}: {}", family.name, told.join(" "));
        }
        return;
    };
    let places: Vec<usize> = rest.iter().map(|word| word.parse().expect("a number")).collect();
    let (family, numbers) = places.split_first().expect("a family");
    let last = numbers.iter().max().expect("a problem");
    for (_, drawn) in drawn(FAMILIES[*family]).take(last + 1).enumerate().filter(|(k, _)| numbers.contains(k)) {
        plan(side, &drawn);
    }
}
