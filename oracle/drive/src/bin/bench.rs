//! bench [PART] [TURNS]: the port's time over the Rust's, measured by turns in one run, as tables in Markdown. PART is leaves, runs, residuals, systems,
//! samples, planes, orders, region, plans or mix; without one all of them. Each figure is the least of TURNS turns (11), in time of the processor, so that what others do
//! beside it counts little.

use drive::ffi::*;
use drive::plans::{FAMILIES, Family, Plan, begun, by_rust, drawn};
use drive::random::Random;
use quatopsy_plan::probe::Task;
use quatopsy_plan::scvx::probe as scvx;
use std::hint::black_box;

/// Seconds that this thread has had of a processor.
fn processor() -> f64 {
    unsafe extern "C" {
        fn clock_gettime(clock: i32, at: &mut [i64; 2]) -> i32;
    }
    let mut at = [0; 2];
    // CLOCK_THREAD_CPUTIME_ID; a `timespec` is two words on x86-64
    assert_eq!(unsafe { clock_gettime(3, &mut at) }, 0);
    at[0] as f64 + at[1] as f64 * 1.0e-9
}

fn seconds(of: &mut dyn FnMut(), calls: u32) -> f64 {
    let start = processor();
    (0..calls).for_each(|_| of());
    (processor() - start) / f64::from(calls)
}

/// The least and the most time of a call over the turns, in seconds.
#[derive(Clone, Copy)]
struct Span {
    least: f64,
    most: f64,
}

/// All by turns. The first is called often enough for four milliseconds a turn, the others as often.
fn measured<const N: usize>(turns: u32, mut of: [&mut dyn FnMut(); N]) -> [Span; N] {
    let mut calls = 1;
    while seconds(of[0], calls) * f64::from(calls) < 4.0e-3 {
        calls *= 2;
    }
    let mut spans = [Span { least: f64::INFINITY, most: 0.0 }; N];
    for _ in 0..turns {
        for (side, span) in of.iter_mut().zip(&mut spans) {
            let time = seconds(*side, calls);
            *span = Span { least: span.least.min(time), most: span.most.max(time) };
        }
    }
    spans
}

/// The same with the platform's angles in the Rust.
fn unaltered(of: &mut dyn FnMut()) {
    libm::use_platform(true);
    of();
    libm::use_platform(false);
}

/// One line of a table: our time, the Rust's with our angles and unaltered, where there is one, in a unit; the spread of the Rust's.
fn line(name: &str, unit: f64, ours: f64, rust: Option<Span>, platform: Option<Span>) {
    let told = |span: Option<Span>| span.map_or("| |".to_string(), |s| format!("| {:.*} | {:.2}", digits(s.least / unit), s.least / unit, ours / s.least));
    let spread = [rust, platform].iter().flatten().map(|s| s.most / s.least).fold(1.0, f64::max);
    println!("| {name} | {:.*} {} {} | {spread:.2} |", digits(ours / unit), ours / unit, told(rust), told(platform));
}

/// Digits after the point: three figures in all.
fn digits(x: f64) -> usize {
    if x >= 100.0 { 0 } else if x >= 10.0 { 1 } else { 2 }
}

fn head(what: &str) {
    println!("\n| {what} | ours | Rust, our angles | ratio | Rust unaltered | ratio | spread |\n|---|---|---|---|---|---|---|");
}

const NANOSECONDS: f64 = 1.0e-9;
const MICROSECONDS: f64 = 1.0e-6;
const MILLISECONDS: f64 = 1.0e-3;

fn list(random: &mut Random, of: impl Fn(&mut Random) -> f64) -> Vec<f64> {
    (0..1024).map(|_| of(random)).collect()
}

/// A line for a function over an array: the Rust's is the platform's.
fn over<T: Copy, A: Copy>(turns: u32, name: &str, inputs: &[T], ours: impl Fn(T) -> A, rust: impl Fn(T) -> A) {
    let all = |of: &dyn Fn(T) -> A| {
        for x in inputs {
            black_box(of(*x));
        }
    };
    let (mut a, mut b) = (|| all(&ours), || all(&rust));
    let [b, a] = measured(turns, [&mut b, &mut a]);
    let each = |s: Span| Span { least: s.least / inputs.len() as f64, most: s.most / inputs.len() as f64 };
    line(name, NANOSECONDS, each(a).least, None, Some(each(b)));
}

/// The same, each call waiting for the one before.
fn waiting(turns: u32, name: &str, ours: impl Fn(f64) -> f64, rust: impl Fn(f64) -> f64, next: impl Fn(f64) -> f64) {
    let chain = |of: &dyn Fn(f64) -> f64| {
        let mut x = black_box(1.0);
        (0..1024).for_each(|_| x = next(of(x)));
        black_box(x);
    };
    let [b, a] = measured(turns, [&mut || chain(&|x| rust(x)), &mut || chain(&|x| ours(x))]);
    line(name, NANOSECONDS * 1024.0, a.least, None, Some(b));
}

fn given(x: f64, of: fn(f64, &mut f64) -> bool) -> f64 {
    let mut answer = 0.0;
    of(x, &mut answer);
    answer
}

fn leaves(turns: u32) {
    head("square roots and angles, nanoseconds; the Rust's are the platform's");
    let mut random = Random::new(7);
    let any = list(&mut random, |r| f64::from_bits(r.word() >> 1 & 0x7FDF_FFFF_FFFF_FFFF));
    let ones = list(&mut random, |r| 1.0 + r.tame() * 1.0e-6);
    let far = list(&mut random, |r| r.tame() * 500.0);
    let small = list(&mut random, |r| r.tame());
    let arcs = list(&mut random, Random::unit);
    let arc_of = |r: &mut Random, most: f64| (most * r.unit()).cos();
    let slight = list(&mut random, |r| arc_of(r, 0.1));
    let middle = list(&mut random, |r| arc_of(r, 1.0));
    let quarter = list(&mut random, |r| arc_of(r, std::f64::consts::FRAC_PI_2));
    over(turns, "sqrt, an array, every exponent", &any, |x| slew_sqrt(x), f64::sqrt);
    over(turns, "sqrt, an array, near 1", &ones, |x| slew_sqrt(x), f64::sqrt);
    waiting(turns, "sqrt, each waiting for the one before", |x| slew_sqrt(x), f64::sqrt, |x| x + 1.5);
    let words: Vec<(u64, u64)> = (0..1024).map(|_| (random.word() >> random.below(64), random.word())).collect();
    let whole = |(hi, lo): (u64, u64)| (u128::from(hi) << 64 | u128::from(lo)).isqrt() as u64;
    over(turns, "isqrt of two words, Rust u128::isqrt", &words, |(hi, lo)| slew_isqrt(hi, lo), whole);
    over(turns, "sin up to 1,000", &far, |x| given(x, |x, a| slew_sin(x, a)), f64::sin);
    over(turns, "sin up to 2", &small, |x| given(x, |x, a| slew_sin(x, a)), f64::sin);
    over(turns, "cos up to 1,000", &far, |x| given(x, |x, a| slew_cos(x, a)), f64::cos);
    over(turns, "cos up to 2", &small, |x| given(x, |x, a| slew_cos(x, a)), f64::cos);
    let both = |x: f64| {
        let mut answer = [0.0; 2];
        slew_sin_cos(x, &mut answer);
        answer[0] + answer[1]
    };
    over(turns, "sin and cos of one argument up to 1,000", &far, both, |x| x.sin() + x.cos());
    over(turns, "sin and cos of one argument up to 2", &small, both, |x| x.sin() + x.cos());
    for (name, inputs) in [("acos", &arcs), ("acos, angles up to 0.1", &slight), ("acos, angles up to 1", &middle), ("acos, angles up to pi/2", &quarter)] {
        over(turns, name, inputs, |x| given(x, |x, a| slew_acos(x, a)), f64::acos);
    }
}

/// Forming the normal equations and eliminating, as one iteration does it.
fn systems(turns: u32) {
    head("normal equations and elimination, unknowns / residuals, nanoseconds; no angles in them");
    for (n, m) in [(49, 28), (49, 79), (65, 28), (129, 28), (193, 28), (193, 79)] {
        let mut random = Random::new(11);
        let mut system = drive::systems::system(&mut random, n, m);
        (system.jac, system.lambda) = ((0..n * m).map(|_| random.tame()).collect(), 1.0e-2);
        let jac: Vec<Vec<f64>> = system.jac.chunks(n).map(<[f64]>::to_vec).collect();
        let (mut room, mut step) = (drive::systems::room(&system), vec![0.0; n]);
        let mut ours = || {
            assert!(slew_damped_step(&mut room, m, &system.r, system.lambda, &mut step));
            black_box(&step);
        };
        let mut rust = || {
            let (mut a, mut g) = scvx::normal(&jac, &system.r, n, system.lambda);
            assert!(scvx::eliminate(&mut a, &mut g));
            black_box(&g);
        };
        let [b, a] = measured(turns, [&mut rust, &mut ours]);
        line(&format!("{n} / {m}"), NANOSECONDS, a.least, Some(b), None);
    }
}

/// A problem of one kind of actuators that runs to its end, with its decision.
fn problem(family: Family) -> (Plan, [f64; 193]) {
    let mut random = Random::new(13);
    let mut flat = drive::maps::Flat { counts: [0; 11], numbers: [0.0; 100] };
    flat.counts[..3].copy_from_slice(&[family.wheels, family.thrusters, family.cmgs]);
    flat.numbers.iter_mut().for_each(|x| *x = 0.2 + random.unit());
    flat.numbers[96..].copy_from_slice(&[0.95, 1.0, 0.5, 1.0e-9]);
    let mut b = [0.0; 37];
    b[..8].copy_from_slice(&[1.0, 0.0, 0.0, 0.0, 0.8, 0.6, 0.0, 0.0]);
    b[8..17].copy_from_slice(&[2.0, 0.1, -0.2, 0.1, 3.0, 0.05, -0.2, 0.05, 4.0]);
    b[17..29].copy_from_slice(&[0.5, 0.5, 0.5, 0.5, 1.0, 0.1, 0.1, if family.pointing { 0.1 } else { 0.0 }, 0.1, 0.1, 1.0e-5, 1.0e-6]);
    let mut z: [f64; 193] = std::array::from_fn(|_| 0.02 * random.tame());
    z[0] = 20.0;
    (Plan { flat, body: b, limited: false, seed: None, lent: 0, fill: 0.0 }, z)
}

/// One call of ours over the numbers of a body: a refusal's number.
type Call<'a> = &'a mut dyn FnMut(&[f64; 37]) -> usize;

/// Two lines: ours as a user calls it (it takes the declared problem, checks and prepares it, runs, and writes its numbers), and without what the call costs
/// with an inertia that check 6 refuses, the last one before a run. The Rust has its problem prepared and its decision in place.
fn beside(turns: u32, name: &str, alone: &str, body: &[f64; 37], ours: Call<'_>, rust: &mut dyn FnMut()) {
    let mut bent = *body;
    bent[16] = -1.0;
    assert_eq!((ours(body), ours(&bent)), (0, 6), "{name} runs to its end");
    let ours = std::cell::RefCell::new(ours);
    let rust = std::cell::RefCell::new(rust);
    let [with_ours, platform, whole, refused] = measured(
        turns,
        [
            &mut || (rust.borrow_mut())(),
            &mut || unaltered(&mut || (rust.borrow_mut())()),
            &mut || assert_eq!((ours.borrow_mut())(black_box(body)), 0),
            &mut || assert_eq!((ours.borrow_mut())(black_box(&bent)), 6),
        ],
    );
    line(&format!("{name}, whole call"), NANOSECONDS, whole.least, Some(with_ours), Some(platform));
    line(&format!("{name}, {alone}"), NANOSECONDS, whole.least - refused.least, Some(with_ours), Some(platform));
}

/// A checked task of the Rust's and its decision kept.
fn prepared(plan: &Plan, z: &[f64; 193]) -> (Task, scvx::Kept) {
    let task = drive::runs::checked(&plan.flat, &plan.body, plan.limited).unwrap_or_else(|_| panic!("a sound problem"));
    let kept = scvx::keep(&task, &z[..1 + 16 * task.map.control_dim()]);
    (task, kept)
}

fn runs(turns: u32) {
    head("a forward run, nanoseconds");
    for family in FAMILIES.into_iter().filter(|f| !f.pointing) {
        let (plan, z) = problem(family);
        let (task, kept) = prepared(&plan, &z);
        let (mut nodes, mut defect, mut place, mut begun) = ([[0.0; 22]; 17], 0.0, 0, 0);
        let mut ours = |body: &[f64; 37]| {
            let flat = &plan.flat;
            let number = slew_reconstruct(&flat.counts, &flat.numbers, body, false, black_box(&z), &mut nodes, &mut defect, &mut place, &mut begun);
            black_box(&nodes);
            number
        };
        beside(turns, family.name, "the run alone", &plan.body, &mut ours, &mut || assert!(black_box(scvx::run_end(&task, &kept)).is_finite()));
    }
}

fn residuals(turns: u32) {
    head("residuals of a decision, its forward run in them, nanoseconds");
    for family in FAMILIES {
        let (plan, z) = problem(family);
        let (task, kept) = prepared(&plan, &z);
        let (mut out, mut count, mut place, mut begun) = ([0.0; 79], 0, 0, 0);
        let mut ours = |body: &[f64; 37]| {
            let flat = &plan.flat;
            let number = slew_residuals(&flat.counts, &flat.numbers, body, false, black_box(&z), &mut out, &mut count, &mut place, &mut begun);
            black_box(&out);
            number
        };
        beside(turns, family.name, "without its checks", &plan.body, &mut ours, &mut || assert!(black_box(scvx::length_kept(&task, &kept)).is_finite()));
    }
}

/// Five problems of a family in which a path is found.
fn found(family: Family) -> Vec<Plan> {
    drawn(family).filter(|plan| by_rust(plan, false).number == 0).take(5).collect()
}

/// How many of 1,000 plans each family has in the mix.
const MIX: [usize; 6] = [300, 100, 250, 150, 50, 150];

/// A mix of 1,000 plans as one figure, those that end in a refusal of the search or of the end checks too: each once on each side.
fn mix(_: u32) {
    head("1,000 whole plans of a mix, seconds");
    let mut sums = [0.0; 3];
    for (family, count) in FAMILIES.into_iter().zip(MIX) {
        for plan in drawn(family).filter(|plan| begun(plan).is_ok()).take(count) {
            let (task, duration, rates, torques) = begun(&plan).unwrap_or_else(|_| panic!("a problem with a seed"));
            let mut ws = vec![0.0; plan.lent];
            let mut out = Planned { counts: [0; 5], duration: 0.0, max_defect: 0.0, z: [0.0; 193], nodes: [[0.0; 22]; 17], held: [0; 12] };
            let solve = || drop(black_box(scvx::seeded(&task, duration, &rates, &torques)));
            let mut ours = || {
                black_box(slew_plan_numbers(&plan.flat, &plan.body, plan.limited, &mut ws, black_box(&mut out)));
            };
            sums[0] += seconds(&mut { solve }, 1);
            sums[1] += seconds(&mut || unaltered(&mut { solve }), 1);
            sums[2] += seconds(&mut ours, 1);
        }
    }
    let once = |time: f64| Some(Span { least: time, most: time });
    line("300 of 3 controls, 100 with pointing, 250 of 4 wheels, 150 of 8, 50 of 12 thrusters, 150 of the pyramid", 1.0, sums[2], once(sums[0]), once(sums[1]));
}

/// Whole plans by turns: ours as a user calls it (checks, profile, seed, search, end checks, the workspace cleared after it, 374 numbers written); the Rust's
/// `solve` on a prepared problem with its seed in place.
fn plans(turns: u32) {
    println!("\nThe lent workspace was cleared before each plan: every call leaves it all zeros. The mean of five problems, the least of {turns} turns each.");
    head("a whole plan, milliseconds");
    for family in FAMILIES {
        let mut sums = [Span { least: 0.0, most: 0.0 }; 3];
        for plan in found(family) {
            let (task, duration, rates, torques) = begun(&plan).unwrap_or_else(|_| panic!("a problem that was planned"));
            let mut ws = vec![0.0; plan.lent];
            let mut out = Planned { counts: [0; 5], duration: 0.0, max_defect: 0.0, z: [0.0; 193], nodes: [[0.0; 22]; 17], held: [0; 12] };
            let solve = || drop(black_box(scvx::seeded(&task, duration, &rates, &torques)));
            let mut ours = || assert_eq!(slew_plan_numbers(&plan.flat, &plan.body, plan.limited, &mut ws, black_box(&mut out)), 0);
            let spans = measured(turns, [&mut { solve }, &mut || unaltered(&mut { solve }), &mut ours]);
            for (sum, span) in sums.iter_mut().zip(spans) {
                *sum = Span { least: sum.least + span.least / 5.0, most: sum.most + span.most / 5.0 };
            }
        }
        let [with_ours, platform, ours] = sums;
        line(family.name, MILLISECONDS, ours.least, Some(with_ours), Some(platform));
    }
    phases();
}

/// Where the Rust's time goes in the same problems, with our angles.
fn phases() {
    println!("\n| the Rust's time in a plan, percent | forward runs | residuals | normal matrix | elimination | other |\n|---|---|---|---|---|---|");
    for family in FAMILIES {
        let mut spent = [0; 5];
        for plan in found(family) {
            let tally = by_rust(&plan, true).tally;
            (0..5).for_each(|k| spent[k] += tally.spent[k]);
        }
        let all: u64 = spent.iter().sum();
        let share = |k: usize| 100.0 * spent[k] as f64 / all as f64;
        println!("| {} | {:.0} | {:.0} | {:.0} | {:.0} | {:.0} |", family.name, share(1), share(2), share(3), share(4), share(0));
    }
}

/// Samples of a path, one call each and in one call, beside the Rust's `densify` of the whole list.
fn samples(turns: u32) {
    head("a dense sample of a path's list, nanoseconds");
    let plan = found(FAMILIES[0]).swap_remove(0);
    let (nodes, _) = by_rust(&plan, false).path.expect("a path");
    let mut words = drive::words::Words::default();
    drive::runs::put_nodes(&nodes, &mut words);
    let mut reader = drive::words::Reader(&words.0);
    let rows: [[f64; 22]; 17] = std::array::from_fn(|_| reader.a());
    let mut j = [0.0; 9];
    j.copy_from_slice(&plan.body[8..17]);
    let kept = scvx::keep_path(&nodes);
    let (requested, mut count) = (5000, 0);
    assert_eq!(slew_sample_count(nodes.duration, requested, 1.0e-6, &mut count), 0);
    quatopsy_schema::set_tolerances(plan.body[27], plan.body[28]);
    let mut ours = || {
        let (mut out, mut place) = ([0.0; 14], 0);
        for index in 0..count {
            let number = slew_sample_path(&j, plan.body[27], nodes.duration, &rows, requested, 1.0e-6, index, &mut out, &mut place);
            assert_eq!(number, 0);
            black_box(&out);
        }
    };
    let mut list = vec![[0.0; 14]; count];
    let mut ours_whole = || {
        let (mut written, mut place) = (0, 0);
        let number = slew_sample_list(&j, plan.body[27], nodes.duration, &rows, requested, 1.0e-6, &mut list, &mut written, &mut place);
        assert_eq!((number, written), (0, count));
        black_box(&list);
    };
    let rust = || assert!(black_box(scvx::dense_kept(drive::shapes::rows(j), &kept, requested, 1.0e-6)).is_finite());
    let [with_ours, platform, ours, whole] = measured(turns, [&mut { rust }, &mut || unaltered(&mut { rust }), &mut ours, &mut ours_whole]);
    line(&format!("one of {count}, one call each"), NANOSECONDS * count as f64, ours.least, Some(with_ours), Some(platform));
    line(&format!("one of {count}, all in one call"), NANOSECONDS * count as f64, whole.least, Some(with_ours), Some(platform));
    line("all of them in one call, microseconds", MICROSECONDS, whole.least, Some(with_ours), Some(platform));
}

/// Byte planes by the port's loops: plane by plane.
fn encode_planes(column: &[u64], out: &mut [u8]) {
    let n = column.len();
    for j in 0..8 {
        let mut previous = 0;
        for i in 0..n {
            out[j * n + i] = ((column[i] ^ previous) >> (8 * (7 - j))) as u8;
            previous = column[i];
        }
    }
}

/// And back: word by word.
fn decode_planes(bytes: &[u8], out: &mut [u64]) {
    let n = bytes.len() / 8;
    let mut previous = 0;
    for i in 0..n {
        let word = (0..8).fold(0, |w, j| w << 8 | u64::from(bytes[j * n + i]));
        previous ^= word;
        out[i] = previous;
    }
}

/// Both ways on columns of the most words, of the samples of an example, and of a path's nodes; then the same as bytes of a column in a second.
fn planes(turns: u32) {
    head("byte planes of a column, nanoseconds; the Rust's are the same loops");
    let mut told = String::new();
    for n in [4096, 419, 17] {
        let mut random = Random::new(19);
        let column: Vec<u64> = (0..n).map(|_| random.word()).collect();
        let (mut bytes, mut own, mut back, mut again) = (vec![0; 8 * n], vec![0; 8 * n], vec![0; n], vec![0; n]);
        assert_eq!((slew_encode_planes(&column, &mut bytes), slew_decode_planes(&bytes, &mut back)), (0, 0));
        let lent = bytes.clone();
        let encode = measured(turns, [&mut || encode_planes(black_box(&column), black_box(&mut own)), &mut || {
            assert_eq!(slew_encode_planes(black_box(&column), black_box(&mut bytes)), 0);
        }]);
        let decode = measured(turns, [&mut || decode_planes(black_box(&lent), black_box(&mut again)), &mut || {
            assert_eq!(slew_decode_planes(black_box(&lent), black_box(&mut back)), 0);
        }]);
        assert!(own == bytes && again == back && back == column, "the loops agree");
        for (name, [rust, ours]) in [("encode", encode), ("decode", decode)] {
            line(&format!("{name} {n} words"), NANOSECONDS, ours.least, None, Some(rust));
            let rate = |seconds: f64| 8.0e-9 * n as f64 / seconds;
            told += &format!("| {name} {n} words | {:.2} | {:.2} |\n", rate(ours.least), rate(rust.least));
        }
    }
    print!("\n| byte planes, GB/s | ours | Rust |\n|---|---|---|\n{told}");
}

/// The worst case of an order for ten tiles: nearly equal times, every placement made. The Rust is the search of order.rs.
fn orders(turns: u32) {
    println!("\n| an order for ten tiles, milliseconds | ours | Rust | ratio | spread |\n|---|---|---|---|---|");
    let tiles = drive::order::worst();
    let (mut order, mut told) = ([0; 10], [0; 4]);
    let mut ours = || {
        assert_eq!(slew_order(black_box(10), black_box(&tiles.times), tiles.budget, &mut order, &mut told), 0);
        black_box(&told);
    };
    let mut rust = || drop(black_box(drive::order::by_search(black_box(&tiles))));
    let [rust, ours] = measured(turns, [&mut rust, &mut ours]);
    let (a, b) = (ours.least / MILLISECONDS, rust.least / MILLISECONDS);
    println!("| {} placements | {a:.2} | {b:.2} | {:.2} | {:.2} |", drive::order::most(10), a / b, rust.most / rust.least);
}

/// The turns of every start.
fn region(turns: u32) {
    head("drive against draught, every start, microseconds; no angles in it");
    let mut out = [0; 2193];
    let mut ours = || {
        slew_region(&mut out);
        black_box(&out);
    };
    let mut rust = || {
        black_box(drive::region::filled());
    };
    let [rust, ours] = measured(turns, [&mut rust, &mut ours]);
    line("the region of 2,193 starts", MICROSECONDS, ours.least, Some(rust), None);
}

fn main() {
    let mut args = std::env::args().skip(1).peekable();
    let part = args.next_if(|word| word.parse::<u32>().is_err());
    let turns = args.next().map_or(11, |n| n.parse().expect("TURNS is a number"));
    type Part = (&'static str, fn(u32), u32);
    // a plan takes long: a third of the turns
    let parts: [Part; 10] = [
        ("leaves", leaves, turns),
        ("runs", runs, turns),
        ("residuals", residuals, turns),
        ("systems", systems, turns),
        ("samples", samples, turns),
        ("planes", planes, turns),
        ("orders", orders, turns),
        ("region", region, turns),
        ("plans", plans, turns.div_ceil(3)),
        ("mix", mix, 1),
    ];
    let chosen: Vec<&Part> = parts.iter().filter(|(name, _, _)| part.as_ref().is_none_or(|word| word == name)).collect();
    if chosen.is_empty() {
        eprintln!("usage: bench [leaves | runs | residuals | systems | samples | planes | orders | region | plans | mix] [TURNS]");
        std::process::exit(2);
    }
    println!("The least of {turns} turns in the processor's time. Ratios: ours over the Rust's, below 1 ours is faster.");
    println!("Spread: the most over the least of the Rust's own times, the machine's noise. Buffers hold what the call before left there, unless it is said.");
    chosen.iter().for_each(|(_, of, turns)| of(*turns));
}
