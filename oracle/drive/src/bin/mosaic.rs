//! mosaic [COUNT] [--seed N] [--legs]: as a laboratory uses the planner, thousands of plans in a row with one lent workspace, then as many legs of mosaics (with --legs these alone). Problems of every size and kind,
//! refusals among them. Each answer must be, bit for bit, that of a second call with a fresh workspace, and each leg's that of the planner for that leg alone; the lent numbers must be
//! left as promised; a call allocates nothing, and the process does not grow. Each call runs on a painted stack, so that its depth is known. Exit status 1 where one of these fails.
//! At last the processor's time of legs over that of the same slews as plans, by turns, the middle of fifteen.

use drive::ffi::{Cursor, Planned, slew_mosaic_next, slew_plan_eigenaxis_numbers, slew_plan_from_numbers, slew_plan_numbers};
use drive::mosaics::{self, BY_SEARCH, GENTLY, Mosaic, leg_of};
use drive::plans::{self, Plan};
use drive::random::Random;
use std::alloc::{GlobalAlloc, Layout, System};
use std::ffi::c_void;
use std::process::ExitCode;
use std::sync::atomic::{AtomicU64, Ordering};

/// The system's allocator, counting.
struct Counting;
static ALLOCATIONS: AtomicU64 = AtomicU64::new(0);

unsafe impl GlobalAlloc for Counting {
    unsafe fn alloc(&self, layout: Layout) -> *mut u8 {
        ALLOCATIONS.fetch_add(1, Ordering::Relaxed);
        unsafe { System.alloc(layout) }
    }
    unsafe fn dealloc(&self, at: *mut u8, layout: Layout) {
        unsafe { System.dealloc(at, layout) }
    }
}

#[global_allocator]
static COUNTING: Counting = Counting;

/// The planner's answer: its number and what it fills.
struct Answer {
    number: usize,
    out: Planned,
}

fn blank() -> Answer {
    Answer { number: 77, out: Planned { counts: [77; 5], duration: 1.0, max_defect: 1.0, z: [1.0; 193], nodes: [[1.0; 22]; 17], held: [77; 12] } }
}

fn plan_into(plan: &Plan, ws: &mut [f64], answer: &mut Answer) {
    answer.number = match &plan.seed {
        None => slew_plan_numbers(&plan.flat, &plan.body, plan.limited, ws, &mut answer.out),
        Some(seed) => slew_plan_from_numbers(&plan.flat, &plan.body, plan.limited, seed, ws, &mut answer.out),
    };
}

/// The plan of one leg alone, by its way.
fn alone_into(leg: &Plan, way: usize, ws: &mut [f64], answer: &mut Answer) {
    if way == BY_SEARCH {
        return plan_into(leg, ws, answer);
    }
    answer.number = slew_plan_eigenaxis_numbers(&leg.flat, &leg.body, leg.limited, way == GENTLY, ws, &mut answer.out);
}

fn same(a: &Answer, b: &Answer) -> bool {
    let bits = |x: &Answer| -> Vec<u64> {
        let floats = x.out.z.iter().chain(x.out.nodes.iter().flatten()).chain([&x.out.duration, &x.out.max_defect]);
        floats.map(|f| f.to_bits()).chain(x.out.counts.iter().chain(&x.out.held).map(|n| *n as u64)).chain([x.number as u64]).collect()
    };
    bits(a) == bits(b)
}

/// A call to make on the painted stack, or none; what it allocated.
struct Job<'a> {
    call: Option<&'a mut dyn FnMut()>,
    allocations: u64,
}

extern "C" fn work(job: *mut c_void) -> *mut c_void {
    // the caller waits for this thread and touches the job after it
    let job = unsafe { &mut *job.cast::<Job<'_>>() };
    if let Some(call) = &mut job.call {
        let before = ALLOCATIONS.load(Ordering::Relaxed);
        call();
        job.allocations = ALLOCATIONS.load(Ordering::Relaxed) - before;
    }
    std::ptr::null_mut()
}

unsafe extern "C" {
    fn pthread_attr_init(attributes: &mut [u64; 7]) -> i32;
    fn pthread_attr_setstack(attributes: &mut [u64; 7], at: *mut c_void, size: usize) -> i32;
    fn pthread_create(thread: &mut u64, attributes: &[u64; 7], of: extern "C" fn(*mut c_void) -> *mut c_void, job: *mut c_void) -> i32;
    fn pthread_join(thread: u64, answer: *mut *mut c_void) -> i32;
    fn clock_gettime(clock: i32, time: &mut [i64; 2]) -> i32;
}

const PAINT: u64 = 0xA5A5_5A5A_C3C3_3C3C;
/// Words of the painted stack: a mebibyte.
const STACK: usize = 131_072;

/// A page of words, for the stack's alignment.
#[repr(C, align(4096))]
#[derive(Clone, Copy)]
struct Page([u64; 512]);

/// Runs the job on this stack; how many bytes of it were written.
fn depth(stack: &mut [Page], job: &mut Job<'_>) -> usize {
    stack.fill(Page([PAINT; 512]));
    let (mut attributes, mut thread) = ([0; 7], 0);
    // an x86-64 Linux thread's attributes are 56 bytes; the stack outlives the thread, which is waited for
    unsafe {
        assert_eq!(pthread_attr_init(&mut attributes), 0);
        assert_eq!(pthread_attr_setstack(&mut attributes, stack.as_mut_ptr().cast(), STACK * 8), 0);
        assert_eq!(pthread_create(&mut thread, &attributes, work, std::ptr::from_mut(job).cast()), 0);
        assert_eq!(pthread_join(thread, std::ptr::null_mut()), 0);
    }
    let kept = stack.iter().flat_map(|page| page.0).take_while(|word| *word == PAINT).count();
    assert!(kept > 0, "the stack is deep enough");
    (STACK - kept) * 8
}

/// Resident kilobytes of this process.
fn resident() -> u64 {
    let status = std::fs::read_to_string("/proc/self/status").expect("Linux");
    let line = status.lines().find(|line| line.starts_with("VmRSS:")).expect("a line VmRSS");
    line.split_whitespace().nth(1).and_then(|n| n.parse().ok()).expect("a number")
}

/// A plan of any kind; the wide ones, which cost most, in one of six.
fn drawn(r: &mut Random) -> Plan {
    loop {
        let plan = plans::any(r);
        if plan.flat.width() <= 4 || r.one_in(6) {
            return plan;
        }
    }
}

/// The largest workspace that a search needs: 12 controls with pointing.
const LARGEST: usize = 193 * (193 + 79 + 6) + 4 * 79;

/// What is seen over all plans.
#[derive(Default)]
struct Seen {
    plans: u64,
    numbers: [u64; 32],
    widths: [u64; 13],
    resized: u64,
    runs: u64,
    allocations: u64,
    deepest: usize,
    other_answers: u64,
    other_workspaces: u64,
}

/// The lent numbers after a call: as they were where no run began, else zeros; past them nothing is touched.
fn left_well(before: &[f64], after: &[f64], lent: usize, runs: usize) -> bool {
    let alike = |a: &[f64], b: &[f64]| a.iter().zip(b).all(|(x, y)| x.to_bits() == y.to_bits());
    let part = if runs == 0 { alike(&before[..lent], &after[..lent]) } else { after[..lent].iter().all(|x| x.to_bits() == 0) };
    part && alike(&before[lent..], &after[lent..])
}

/// What one plan uses again and again: the lent workspace, what stood in it before the call, the painted stack, its depth with no call.
struct Bench {
    lent: Vec<f64>,
    before: Vec<f64>,
    stack: Vec<Page>,
    idle: usize,
}

fn one(plan: &Plan, b: &mut Bench, seen: &mut Seen) {
    let lent = plan.lent.min(LARGEST);
    b.before.copy_from_slice(&b.lent);
    let mut answer = blank();
    let mut call = || plan_into(plan, &mut b.lent[..lent], &mut answer);
    let mut job = Job { call: Some(&mut call), allocations: 0 };
    let deep = depth(&mut b.stack, &mut job);
    seen.allocations += job.allocations;
    seen.deepest = seen.deepest.max(deep.saturating_sub(b.idle));
    let mut fresh = blank();
    plan_into(plan, &mut vec![0.0; lent], &mut fresh);
    seen.plans += 1;
    seen.numbers[answer.number.min(31)] += 1;
    seen.runs += answer.out.counts[1] as u64;
    seen.widths[plan.flat.width().min(12)] += u64::from(answer.out.counts[1] > 0);
    seen.other_answers += u64::from(!same(&answer, &fresh));
    seen.other_workspaces += u64::from(!left_well(&b.before, &b.lent, lent, answer.out.counts[1]));
}

/// A leg on the lent workspace, beside the plan of that leg alone with a fresh one; the cursor moves on.
fn leg(m: &Mosaic, k: usize, cursor: &mut Cursor, b: &mut Bench, seen: &mut Seen) {
    let lent = m.plan.lent.min(LARGEST);
    let alone = leg_of(&m.plan, m.tiles[k], m.tiles[k + 1], &cursor.sums[1..]);
    b.before.copy_from_slice(&b.lent);
    let (mut answer, mut fresh) = (blank(), blank());
    let mut call = || answer.number = slew_mosaic_next(&m.plan.flat, &m.plan.body, m.plan.limited, m.way, &m.tiles[k], &m.tiles[k + 1], cursor, &mut b.lent[..lent], &mut answer.out);
    let mut job = Job { call: Some(&mut call), allocations: 0 };
    let deep = depth(&mut b.stack, &mut job);
    seen.allocations += job.allocations;
    seen.deepest = seen.deepest.max(deep.saturating_sub(b.idle));
    alone_into(&alone, m.way, &mut vec![0.0; lent], &mut fresh);
    seen.plans += 1;
    seen.numbers[answer.number.min(31)] += 1;
    seen.runs += answer.out.counts[1] as u64;
    seen.widths[m.plan.flat.width().min(12)] += u64::from(answer.out.counts[1] > 0);
    seen.other_answers += u64::from(!same(&answer, &fresh));
    seen.other_workspaces += u64::from(!left_well(&b.before, &b.lent, lent, answer.out.counts[1]));
}

fn begun(m: &Mosaic) -> Cursor {
    let mut cursor = Cursor { counts: [0; 5], sums: [0.0; 9] };
    cursor.sums[1..].copy_from_slice(&m.plan.body[29..]);
    cursor
}

/// Mosaics one after another, until there were so many legs.
fn legs(count: u64, random: &mut Random, b: &mut Bench) -> bool {
    let (mut seen, mut sizes, mut drawn) = (Seen::default(), Vec::new(), 0);
    while seen.plans < count {
        let m = mosaics::any(random);
        if m.way > GENTLY || !(2..=64).contains(&m.tiles.len()) {
            continue;
        }
        drawn += 1;
        let mut cursor = begun(&m);
        for k in 0..m.tiles.len() - 1 {
            if (sizes.is_empty() && seen.plans >= (count / 20).min(200)) || (sizes.len() == 1 && seen.plans >= count / 2) {
                sizes.push(resident());
            }
            leg(&m, k, &mut cursor, b, &mut seen);
            if cursor.counts[2] != 0 {
                break;
            }
        }
    }
    sizes.push(resident());
    sizes.resize(3, 0);
    println!("\nlegs of {drawn} mosaics:");
    told(&seen, &sizes)
}

/// Seconds of the processor that this process has had: what runs beside it does not count.
fn seconds() -> f64 {
    let mut t = [0i64; 2];
    // CLOCK_PROCESS_CPUTIME_ID; a timespec of x86-64 Linux is two 64-bit numbers
    assert_eq!(unsafe { clock_gettime(2, &mut t) }, 0);
    t[0] as f64 + t[1] as f64 * 1.0e-9
}

/// The time of a mosaic's legs over that of the same slews as plans, by turns.
fn ratio(random: &mut Random) {
    let m = loop {
        let m = mosaics::any(random);
        let mut cursor = begun(&m);
        let mut ws = vec![0.0; m.plan.lent];
        let mut out = blank();
        let whole = m.way <= GENTLY && (2..=64).contains(&m.tiles.len()) && m.tiles.windows(2).all(|t| slew_mosaic_next(&m.plan.flat, &m.plan.body, m.plan.limited, m.way, &t[0], &t[1], &mut cursor, &mut ws, &mut out.out) == 0);
        if whole && m.tiles.len() > 16 && cursor.counts[1] > 20_000 {
            break m;
        }
    };
    let (mut ws, mut out, mut alone) = (vec![0.0; m.plan.lent], blank(), Vec::new());
    let mut ratios: Vec<f64> = (0..15)
        .map(|_| {
            let (mut cursor, at) = (begun(&m), seconds());
            let mut started = Vec::new();
            for t in m.tiles.windows(2) {
                started.push(cursor.sums);
                slew_mosaic_next(&m.plan.flat, &m.plan.body, m.plan.limited, m.way, &t[0], &t[1], &mut cursor, &mut ws, &mut out.out);
            }
            let legs = seconds() - at;
            if alone.is_empty() {
                alone = m.tiles.windows(2).zip(&started).map(|(t, s)| leg_of(&m.plan, t[0], t[1], &s[1..])).collect();
            }
            let at = seconds();
            alone.iter().for_each(|plan| alone_into(plan, m.way, &mut ws, &mut out));
            legs / (seconds() - at)
        })
        .collect();
    ratios.sort_by(f64::total_cmp);
    println!("\n{} legs over the same slews as plans, fifteen times: {:.3} to {:.3}, the middle {:.3}", m.tiles.len() - 1, ratios[0], ratios[14], ratios[7]);
}

fn told(seen: &Seen, sizes: &[u64]) -> bool {
    let list = |counts: &[u64]| (1..counts.len()).filter(|n| counts[*n] > 0).map(|n| format!("{} ({n})", counts[n])).collect::<Vec<_>>().join(", ");
    println!("{} plans with one lent workspace of {LARGEST} numbers: {} paths; refused, by number: {}", seen.plans, seen.numbers[0], list(&seen.numbers));
    println!("searches by controls a row: {}; another size than the plan before in {}; {} forward runs in all", list(&seen.widths), seen.resized, seen.runs);
    println!("answers that differ from a fresh workspace's: {}; workspaces not left as promised: {}", seen.other_answers, seen.other_workspaces);
    println!("allocations during a call, in all: {}; deepest stack of a call: {} bytes", seen.allocations, seen.deepest);
    println!("resident kilobytes before, in the middle, after: {}, {}, {}", sizes[0], sizes[1], sizes[2]);
    // 1 MiB is less than a tenth of a kilobyte a plan
    let grown = sizes[2] > sizes[0] + 1024;
    seen.other_answers == 0 && seen.other_workspaces == 0 && seen.allocations == 0 && !grown
}

/// Plans of every kind, one after another.
fn plans_in_a_row(count: u64, random: &mut Random, b: &mut Bench) -> bool {
    let (mut seen, mut sizes, mut last) = (Seen::default(), Vec::new(), 0);
    let warm = (count / 20).min(200);
    for k in 0..count {
        if k == warm || k == count / 2 {
            sizes.push(resident());
        }
        // now and then the caller has used the numbers for something else
        if random.one_in(8) {
            b.lent.fill(random.hostile());
        }
        let plan = drawn(random);
        seen.resized += u64::from(plan.lent != last);
        last = plan.lent;
        one(&plan, b, &mut seen);
    }
    sizes.push(resident());
    sizes.resize(3, 0);
    told(&seen, &sizes)
}

fn options() -> Result<(u64, u64, bool), String> {
    let (mut count, mut seed, mut alone) = (10_000, 1, false);
    let mut args = std::env::args().skip(1);
    while let Some(arg) = args.next() {
        let number = |text: String| text.parse::<u64>().map_err(|_| format!("{text} is not a number\nusage: mosaic [COUNT] [--seed N] [--legs]"));
        if arg == "--seed" {
            seed = number(args.next().unwrap_or_default())?;
        } else if arg == "--legs" {
            alone = true;
        } else {
            count = number(arg)?;
        }
    }
    Ok((count, seed, alone))
}

fn main() -> ExitCode {
    let (count, seed, alone) = match options() {
        Ok(options) => options,
        Err(text) => {
            eprintln!("{text}");
            return ExitCode::from(2);
        }
    };
    let mut random = Random::new(seed);
    let mut bench = Bench { lent: vec![f64::NAN; LARGEST], before: vec![1.0; LARGEST], stack: vec![Page([PAINT; 512]); STACK / 512], idle: 0 };
    bench.idle = depth(&mut bench.stack, &mut Job { call: None, allocations: 0 });
    let plans = alone || plans_in_a_row(count, &mut random, &mut bench);
    let legs = legs(count, &mut random, &mut bench);
    ratio(&mut random);
    if plans && legs { ExitCode::SUCCESS } else { ExitCode::FAILURE }
}
