//! limits [ROWS] [--seed N]: the laws of controls held to their limits (crate limit_laws), each tried bit for bit on rows through `slew_project_controls`; first
//! wrong laws and a wrong projection, which must be noticed. Then the two inputs at which the rounded product of quaternions lacks the exact laws (crate
//! quat_laws). Exit status 1 where a law is broken or a wrong one is not noticed.

use drive::ffi::{slew_project_controls, slew_quat_dot, slew_quat_mul};
use drive::maps::{self, Flat};
use drive::random::Random;
use std::process::ExitCode;

/// The widest row: 8 wheels, 12 thrusters, 4 gimbal rates, and a few numbers more.
const MOST: usize = 28;
/// Rows on which a wrong version must be noticed.
const SOON: u64 = 100_000;

/// The actuators with their limits, and the box that stands where there are none.
#[derive(Clone)]
struct Limits {
    flat: Flat,
    of_box: [f64; 3],
}

impl Limits {
    /// Where control i's limit stands: a place of the box, or of the actuators' numbers.
    fn place(&self, i: usize) -> (bool, usize) {
        let (wheels, thrusters) = (self.flat.counts[0], self.flat.counts[1]);
        match i {
            _ if self.flat.empty() => (true, i),
            _ if i < wheels => (false, 24 + i),
            _ if i < wheels + thrusters => (false, 84 + i - wheels),
            _ => (false, 98),
        }
    }

    fn limit(&self, i: usize) -> f64 {
        let (boxed, k) = self.place(i);
        if boxed { self.of_box[k] } else { self.flat.numbers[k] }
    }

    fn set(&mut self, i: usize, limit: f64) {
        let (boxed, k) = self.place(i);
        *(if boxed { &mut self.of_box[k] } else { &mut self.flat.numbers[k] }) = limit;
    }

    /// Each limit by a rule from this one's and the other's.
    fn joined(&self, other: &Limits, rule: fn(f64, f64) -> f64) -> Limits {
        let mut out = self.clone();
        (0..self.flat.width()).for_each(|i| out.set(i, rule(self.limit(i), other.limit(i))));
        out
    }
}

#[derive(Clone, Copy)]
struct Row {
    at: [f64; MOST],
    len: usize,
}

impl Row {
    fn numbers(&self) -> &[f64] {
        &self.at[..self.len]
    }

    fn same(&self, other: &Row) -> bool {
        self.numbers().iter().map(|x| x.to_bits()).eq(other.numbers().iter().map(|x| x.to_bits()))
    }

    fn negated(&self) -> Row {
        Row { at: self.at.map(|x| -x), len: self.len }
    }
}

type Projection = fn(&Limits, Row) -> Row;

/// The port's.
fn project(limits: &Limits, mut row: Row) -> Row {
    slew_project_controls(&limits.flat.counts, &limits.flat.numbers, &mut row.at[..row.len], &limits.of_box);
    row
}

/// A wrong one: the lower end is +limit, so that every control becomes its limit.
fn lower_end_plus(limits: &Limits, mut row: Row) -> Row {
    let width = limits.flat.width().min(row.len);
    (0..width).for_each(|i| row.at[i] = limits.limit(i));
    row
}

/// Two rows of limits for the same actuators, and two rows of controls of which no number of the first is above the second's, where both are numbers.
struct Case {
    ours: Limits,
    lab: Limits,
    low: Row,
    high: Row,
}

fn limit(r: &mut Random, endless: bool) -> f64 {
    match r.below(8) {
        0 if endless => f64::INFINITY,
        1 => f64::from_bits(1 + r.below(1 << 52)),
        2 => f64::from_bits(f64::MIN_POSITIVE.to_bits() + r.below(5) - 2),
        3 => f64::from_bits(f64::MAX.to_bits() - r.below(4)),
        4 => f64::from_bits(1 + r.below(f64::MAX.to_bits())),
        _ => 0.001 + r.unit(),
    }
}

/// A finite control: zeros, subnormals, the largest, any, or about a limit.
fn control(r: &mut Random, limit: f64) -> f64 {
    let size = match r.below(9) {
        0 => 0.0,
        1 => f64::from_bits(r.below(1 << 52)),
        2 => f64::from_bits(f64::MAX.to_bits() - r.below(4)),
        3 => f64::from_bits(r.below(f64::MAX.to_bits() + 1)),
        4 => limit,
        5 => f64::from_bits((limit.to_bits() + r.below(5)).saturating_sub(2)),
        _ => 2.0 * r.unit(),
    };
    let size = if size.is_finite() { size } else { f64::MAX };
    if r.one_in(2) { size } else { -size }
}

/// As wide as the actuators ask in most cases; else longer, by any numbers, or shorter.
fn length(r: &mut Random, width: usize) -> usize {
    match r.below(8) {
        0 => width + 1 + r.below(4) as usize,
        1 => r.below(width as u64 + 1) as usize,
        _ => width,
    }
}

fn case(r: &mut Random) -> Case {
    let kinds = if r.one_in(3) { (0, 0, 0) } else { maps::kinds(r) };
    let mut ours = Limits { flat: maps::sound_of(r, kinds), of_box: [1.0; 3] };
    let mut lab = ours.clone();
    let width = ours.flat.width();
    let len = length(r, width);
    let (mut low, mut high) = (Row { at: [0.0; MOST], len }, Row { at: [0.0; MOST], len });
    for i in 0..width {
        let l = limit(r, ours.flat.empty());
        let k = if r.one_in(4) { l } else { limit(r, ours.flat.empty()) };
        ours.set(i, l);
        lab.set(i, k);
    }
    for i in 0..len {
        let (x, y) = if i < width {
            let about = if r.one_in(2) { ours.limit(i) } else { lab.limit(i) };
            (control(r, about), control(r, about))
        } else {
            (r.any(), r.any())
        };
        (low.at[i], high.at[i]) = if y < x { (y, x) } else { (x, y) };
    }
    Case { ours, lab, low, high }
}

/// A law: does it hold of the case, for this projection?
type Law = fn(&Case, Projection) -> bool;

fn twice(c: &Case, p: Projection) -> bool {
    let once = p(&c.ours, c.low);
    p(&c.ours, once).same(&once)
}

fn nested(c: &Case, p: Projection) -> bool {
    p(&c.lab, p(&c.ours, c.low)).same(&p(&c.ours.joined(&c.lab, f64::min), c.low))
}

fn negated(c: &Case, p: Projection) -> bool {
    p(&c.ours, c.low.negated()).same(&p(&c.ours, c.low).negated())
}

fn by_places(c: &Case, p: Projection, before: fn(f64, f64) -> bool, after: fn(f64, f64) -> bool) -> bool {
    let (low, high) = (p(&c.ours, c.low), p(&c.ours, c.high));
    (0..c.low.len).all(|i| !before(c.low.at[i], c.high.at[i]) || after(low.at[i], high.at[i]))
}

fn in_order(c: &Case, p: Projection) -> bool {
    by_places(c, p, |x, y| x <= y, |x, y| x <= y)
}

const LAWS: [(&str, Law); 4] = [("project-twice", twice), ("project-nested", nested), ("project-neg", negated), ("project-mono", in_order)];

/// Laws that are wrong, and a projection that breaks a right one.
const WRONG: [(&str, Law, Projection); 5] = [
    ("the second time to the lab's limits", |c, p| p(&c.lab, p(&c.ours, c.low)).same(&p(&c.ours, c.low)), project),
    ("the larger limit for the smaller", |c, p| p(&c.lab, p(&c.ours, c.low)).same(&p(&c.ours.joined(&c.lab, f64::max), c.low)), project),
    ("the sign lost", |c, p| p(&c.ours, c.low.negated()).same(&p(&c.ours, c.low)), project),
    ("a larger control held to a larger one", |c, p| by_places(c, p, |x, y| x < y, |x, y| x < y), project),
    ("the lower end +limit, by project-neg", negated, lower_end_plus),
];

/// What the rows had in them.
#[derive(Default)]
struct Met {
    controls: u64,
    held: u64,
    zeros: u64,
    subnormal: u64,
    largest: u64,
    endless: u64,
    other_length: u64,
}

impl Met {
    fn count(&mut self, c: &Case) {
        let width = c.ours.flat.width();
        let after = project(&c.ours, c.low);
        for i in 0..width.min(c.low.len) {
            let x = c.low.at[i];
            self.controls += 1;
            self.held += u64::from(after.at[i].to_bits() != x.to_bits());
            self.zeros += u64::from(x == 0.0);
            self.subnormal += u64::from(x.is_subnormal() || c.ours.limit(i).is_subnormal());
            self.largest += u64::from(x.abs() == f64::MAX || c.ours.limit(i) == f64::MAX);
            self.endless += u64::from(c.ours.limit(i).is_infinite() || c.lab.limit(i).is_infinite());
        }
        self.other_length += u64::from(c.low.len != width);
    }

    fn show(&self) {
        println!("controls {}, of them held {}; zero {}", self.controls, self.held, self.zeros);
        println!("subnormal or with such a limit {}, largest or with such a limit {}, with an infinite limit {}", self.subnormal, self.largest, self.endless);
        println!("rows longer or shorter than their actuators ask: {}", self.other_length);
    }
}

/// Each wrong version at the first row that shows it.
fn notice(seed: u64) -> bool {
    let mut all = true;
    for (name, law, projection) in WRONG {
        let mut r = Random::new(seed);
        let row = (1..=SOON).find(|_| !law(&case(&mut r), projection));
        match row {
            Some(row) => println!("wrong on purpose: {name}: noticed at row {row}"),
            None => println!("wrong on purpose: {name}: NOT noticed in {SOON} rows"),
        }
        all &= row.is_some();
    }
    all
}

/// The laws on so many rows; prints the first row that breaks each.
fn hold(rows: u64, seed: u64) -> bool {
    let (mut r, mut met, mut broken) = (Random::new(seed), Met::default(), [0u64; LAWS.len()]);
    for row in 1..=rows {
        let c = case(&mut r);
        met.count(&c);
        for (count, (name, law)) in broken.iter_mut().zip(LAWS) {
            if !law(&c, project) {
                *count += 1;
                if *count == 1 {
                    println!("{name} is broken at row {row}: counts {:?}, controls {:?}", &c.ours.flat.counts[..3], c.low.numbers());
                }
            }
        }
    }
    LAWS.iter().zip(broken).for_each(|((name, _), count)| println!("{name}: {rows} rows, broken {count}"));
    met.show();
    broken == [0; LAWS.len()]
}

/// The inputs of quat_laws `Rounded`, and what they must give.
fn rounded() -> bool {
    let scalar = |x: f64| [x, 0.0, 0.0, 0.0];
    let times = |p: &[f64; 4], q: &[f64; 4]| {
        let mut out = [0.0; 4];
        slew_quat_mul(p, q, &mut out);
        out
    };
    let (a, b, c) = (scalar(0.1), scalar(0.2), scalar(0.3));
    let (left, right) = (times(&times(&a, &b), &c), times(&a, &times(&b, &c)));
    let (whole, parts) = (slew_quat_dot(&times(&a, &c), &times(&a, &c)), slew_quat_dot(&a, &a) * slew_quat_dot(&c, &c));
    println!("the rounded product: (a b) c is {}, a (b c) is {}; the squared length of a c is {whole}, the product of the squared lengths {parts}", left[0], right[0]);
    let bits = [left[0], right[0], whole, parts].map(f64::to_bits);
    bits == [0x3f78_9374_bc6a_7efb, 0x3f78_9374_bc6a_7efa, 0x3f4d_7dbf_487f_cb92, 0x3f4d_7dbf_487f_cb94] && left[1..] == [0.0; 3] && right[1..] == [0.0; 3]
}

fn options() -> Option<(u64, u64)> {
    let (mut rows, mut seed) = (10_000_000, 1);
    let mut args = std::env::args().skip(1);
    while let Some(arg) = args.next() {
        match arg.as_str() {
            "--seed" => seed = args.next()?.parse().ok()?,
            _ => rows = arg.parse().ok()?,
        }
    }
    Some((rows, seed))
}

fn main() -> ExitCode {
    let Some((rows, seed)) = options() else {
        eprintln!("usage: limits [ROWS] [--seed N]");
        return ExitCode::from(2);
    };
    let right = [notice(seed), hold(rows, seed), rounded()];
    ExitCode::from(u8::from(right != [true; 3]))
}
