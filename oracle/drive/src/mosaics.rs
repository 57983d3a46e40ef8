//! Whole mosaics, by the search and by eigenaxis plans: the port's, whole and leg by leg, beside legs chained through the published `solve`, for eigenaxis plans from the seed and ladder written apart;
//! and the port's cut at every inner tile.

use crate::eigenaxis;
use crate::ffi::{Cursor, Lent, Planned, slew_mosaic, slew_mosaic_next};
use crate::plans::{Family, Found, Plan, by_rust, tame};
use crate::problems::{about, family, log_uniform, times};
use crate::random::Random;
use crate::runs::put_nodes;
use crate::words::{Entry, Reader, Words};

/// The number of a way: the search, eigenaxis plans, gentle ones. Another number is none.
pub const BY_SEARCH: usize = 0;
pub const BY_EIGENAXIS: usize = 1;
pub const GENTLY: usize = 2;

/// A mosaic: a plan whose attitudes are not read, the way, the tiles, and how many rows are lent.
#[derive(Clone)]
pub struct Mosaic {
    pub plan: Plan,
    pub way: usize,
    pub tiles: Vec<[f64; 4]>,
    pub rows: usize,
}

impl Mosaic {
    fn put(&self, w: &mut Words) {
        self.plan.put(w);
        w.n(self.way as u64);
        w.n(self.tiles.len() as u64);
        w.n(self.rows as u64);
        self.tiles.iter().for_each(|q| w.all(q));
    }

    fn take(i: &[u64]) -> Self {
        let mut r = Reader(i);
        let (plan, way, count, rows) = (Plan::take(&mut r), r.n() as usize, r.n() as usize, r.n() as usize);
        Mosaic { plan, way, tiles: (0..count).map(|_| r.a()).collect(), rows }
    }
}

/// Families whose legs are planned in a few runs where the weights are 0; wide rows seldom.
fn chosen(r: &mut Random) -> Family {
    match r.below(12) {
        0..=4 => family("none", 0, 0, 0, false),
        5..=7 => family("wheels", 3 + r.below(2) as usize, 0, 0, false),
        8 => family("wheels", 5 + r.below(4) as usize, 0, 0, false),
        9 => family("thrusters", 0, 3 + r.below(4) as usize, 0, false),
        10 => family("pyramid", 0, 0, 1, false),
        _ => family("none", 0, 0, 0, true),
    }
}

/// The axis of the turn from one attitude to another.
fn axis_of(a: [f64; 4], b: [f64; 4]) -> [f64; 3] {
    let q = times([a[0], -a[1], -a[2], -a[3]], b);
    [q[1], q[2], q[3]]
}

/// The next tile: about the axis, or seldom one that a leg is refused at.
fn tile(r: &mut Random, last: [f64; 4], axis: [f64; 3], odd: u64) -> [f64; 4] {
    let angle = log_uniform(r, 0.01, 2.8);
    let next = times(last, about(axis, if r.one_in(2) { angle } else { -angle }));
    if !r.one_in(odd) {
        return next;
    }
    match r.below(6) {
        0 => last,
        1 => times(last, about(axis, std::f64::consts::PI)),
        2 => next.map(|x| 1.5 * x),
        3 => [f64::NAN, 0.0, 0.0, 0.0],
        4 => times(last, about(std::array::from_fn(|_| r.tame()), angle)),
        _ => [0.0; 4],
    }
}

/// A mosaic of any kind: 2 to 64 tiles, few of them in three of four; seldom another count, too few rows, or a number that is no way.
pub fn any(r: &mut Random) -> Mosaic {
    let f = chosen(r);
    let mut plan = tame(r, f);
    plan.lent = if r.one_in(40) { plan.room() - 1 } else { plan.room() + r.below(3) as usize };
    if !r.one_in(8) {
        plan.body[21..27].fill(0.0);
    }
    let axis = axis_of(std::array::from_fn(|k| plan.body[k]), std::array::from_fn(|k| plan.body[4 + k]));
    let many = if r.one_in(4) { 2 + r.below(63) } else { 2 + r.below(7) } as usize;
    let count = if r.one_in(30) { [0, 1, 65, 66, 200][r.below(5) as usize] } else { many };
    let odd = [40, 400, 8][r.below(3) as usize];
    let mut tiles: Vec<[f64; 4]> = Vec::with_capacity(count);
    for k in 0..count {
        let next = if k == 0 { std::array::from_fn(|i| plan.body[i]) } else { tile(r, tiles[k - 1], axis, odd) };
        tiles.push(next);
    }
    if r.one_in(8) {
        // wheels that fill up: the momentum is over its limit some legs later
        plan.flat.numbers[32..40].iter_mut().for_each(|x| *x *= 0.02);
    }
    let legs = count.saturating_sub(1);
    let rows = if r.one_in(30) { r.below(legs as u64 + 1) as usize } else { legs + r.below(3) as usize };
    plan.body[..8].fill(r.hostile());
    let way = if r.one_in(30) { [3, 77, usize::MAX][r.below(3) as usize] } else { r.below(3) as usize };
    Mosaic { plan, way, tiles, rows }
}

/// The problem of a leg: its attitudes and the momenta that its wheels start with.
pub fn leg_of(plan: &Plan, from: [f64; 4], to: [f64; 4], momenta: &[f64]) -> Plan {
    let mut leg = plan.clone();
    leg.body[..4].copy_from_slice(&from);
    leg.body[4..8].copy_from_slice(&to);
    leg.body[29..].copy_from_slice(momenta);
    leg
}

/// How a mosaic ended: index, sums, refusal.
fn put_end(o: &mut Words, counts: [u64; 5], sums: &[f64]) {
    let [index, runs, number, place, refused] = counts;
    o.placed(number, place);
    [index, runs, refused].iter().for_each(|n| o.n(*n));
    o.all(sums);
}

/// A leg by its way, through the published `solve`.
fn leg_by_rust(leg: &Plan, way: usize) -> Found {
    if way == BY_SEARCH { by_rust(leg, false) } else { eigenaxis::by_rust(leg, way == GENTLY) }
}

/// 99 for no way, 23, 99 for too few rows, then the legs in turn, each from the momenta of node 16 of the leg before.
fn chained(i: &[u64], o: &mut Words) -> bool {
    let m = Mosaic::take(i);
    let (mut duration, mut runs, mut index) = (0.0, 0, 0);
    let mut momenta = m.plan.body[29..].to_vec();
    let (mut end, mut legs, mut held) = ((0, 0, 0), Words::default(), Words::default());
    let count = m.tiles.len();
    if m.way > GENTLY {
        end = (99, 0, 0);
    } else if !(2..=64).contains(&count) {
        end = (23, 0, 0);
    } else if m.rows < count - 1 {
        end = (99, 0, 0);
    } else {
        for pair in m.tiles.windows(2) {
            let found = leg_by_rust(&leg_of(&m.plan, pair[0], pair[1], &momenta), m.way);
            let Some((nodes, decision)) = &found.path else {
                end = (found.number, found.place, found.tally.runs);
                break;
            };
            [found.tally.runs, found.controls as u64, found.wheels as u64, u64::from(nodes.iterations)].iter().for_each(|n| legs.n(*n));
            legs.f(nodes.duration);
            legs.f(nodes.defect);
            legs.all(decision);
            (decision.len()..193).for_each(|_| legs.f(0.0));
            put_nodes(nodes, &mut legs);
            found.tally.held[..12].iter().for_each(|n| held.n(*n));
            momenta = (0..8).map(|j| nodes.wheels[16].get(j).copied().unwrap_or(0.0)).collect();
            duration += nodes.duration;
            runs += found.tally.runs;
            index += 1;
        }
    }
    let sums: Vec<f64> = [duration].into_iter().chain(momenta).collect();
    put_end(o, [index, runs, end.0, end.1, end.2], &sums);
    o.n(1);
    o.n(1);
    o.0.extend(legs.0);
    o.0.extend(held.0);
    o.met(["legs answered by the search", "legs answered by eigenaxis", "legs answered by eigenaxis, gently", "no way"][m.way.min(3)], index.max(u64::from(m.way > GENTLY)));
    o.met("mosaics whole", u64::from(end.0 == 0));
    o.met("refused past the first leg", u64::from(end.0 != 0 && index > 0));
    o.met("of more than 32 tiles", u64::from(count > 32 && count <= 64));
    o.met("legs with turning wheels", if m.plan.flat.counts[0] > 0 { index } else { 0 });
    true
}

/// The port's whole mosaic; whether what was lent besides is as promised.
fn whole(m: &Mosaic) -> (Cursor, Lent, bool) {
    let mut lent = Lent::of(m.rows);
    let mut ws = vec![m.plan.fill; m.plan.lent];
    let mut cursor = Cursor { counts: [77; 5], sums: [7.0; 9] };
    let number = slew_mosaic(&m.plan.flat, &m.plan.body, m.plan.limited, m.way, &m.tiles, &mut lent, &mut ws, &mut cursor);
    let [index, runs, told, _, refused] = cursor.counts;
    let left = if runs + refused == 0 { m.plan.fill.to_bits() } else { 0 };
    let kept = ws.iter().all(|x| x.to_bits() == left) && number == told && lent.untouched_from(index);
    (cursor, lent, kept)
}

/// The port's mosaic leg by leg: the cursor, whether each leg is the whole mosaic's row and the refused one is told as the cursor has it, and each leg's counts of held
/// controls.
fn one_by_one(m: &Mosaic, rows: &Lent) -> (Cursor, bool, Vec<[usize; 12]>) {
    let mut cursor = Cursor { counts: [0; 5], sums: [0.0; 9] };
    cursor.sums[1..].copy_from_slice(&m.plan.body[29..]);
    let (mut same, mut ws, mut held) = (true, vec![m.plan.fill; m.plan.lent], Vec::new());
    for (k, pair) in m.tiles.windows(2).enumerate() {
        let mut leg = Planned { counts: [77; 5], duration: 1.0, max_defect: 1.0, z: [1.0; 193], nodes: [[1.0; 22]; 17], held: [77; 12] };
        let ended = cursor.counts[2] != 0;
        let number = slew_mosaic_next(&m.plan.flat, &m.plan.body, m.plan.limited, m.way, &pair[0], &pair[1], &mut cursor, &mut ws, &mut leg);
        if number == 0 {
            held.push(leg.held);
        }
        same &= if number == 0 { rows.is_leg(k, &leg) } else { number == cursor.counts[2] && leg.counts[1] == if ended { 0 } else { cursor.counts[4] } };
    }
    (cursor, same, held)
}

/// Whether a leg by no way is 99 with 0 runs, and leaves the cursor and the workspace.
fn stays(m: &Mosaic) -> bool {
    let start = Cursor { counts: [3, 9, 0, 0, 0], sums: std::array::from_fn(|k| k as f64) };
    let (mut cursor, mut ws) = (start.clone(), vec![m.plan.fill; m.plan.lent]);
    let mut leg = Planned { counts: [77; 5], duration: 1.0, max_defect: 1.0, z: [1.0; 193], nodes: [[1.0; 22]; 17], held: [77; 12] };
    let number = slew_mosaic_next(&m.plan.flat, &m.plan.body, m.plan.limited, m.way, &[1.0, 0.0, 0.0, 0.0], &[0.0, 1.0, 0.0, 0.0], &mut cursor, &mut ws, &mut leg);
    number == 99 && leg.counts == [0; 5] && cursor.same(&start) && ws.iter().all(|x| x.to_bits() == m.plan.fill.to_bits())
}

fn by_port(i: &[u64], o: &mut Words) {
    let m = Mosaic::take(i);
    let (cursor, lent, kept) = whole(&m);
    put_end(o, cursor.counts.map(|n| n as u64), &cursor.sums);
    o.n(u64::from(kept));
    // 23 and 99 are the whole mosaic's own; leg by leg no way is 99 too, and the cursor stays
    let (each, held) = if matches!(cursor.counts[2], 23 | 99) {
        (m.way <= GENTLY || stays(&m), Vec::new())
    } else {
        let (other, same, held) = one_by_one(&m, &lent);
        (same && other.same(&cursor), held)
    };
    o.n(u64::from(each));
    lent.put(cursor.counts[0], o);
    held.iter().flatten().for_each(|n| o.n(*n as u64));
}

/// Every cut at an inner tile: the first half, the second from its last momenta, and the whole; a word for each, 1 where they are as proved.
fn cuts_by_port(i: &[u64], o: &mut Words) {
    let m = Mosaic::take(i);
    let (all, rows, _) = whole(&m);
    (1..m.tiles.len().saturating_sub(1)).for_each(|c| o.n(u64::from(cut(&m, c, &all, &rows))));
}

fn cut(m: &Mosaic, c: usize, all: &Cursor, rows: &Lent) -> bool {
    let first = Mosaic { tiles: m.tiles[..=c].to_vec(), ..m.clone() };
    let (one, left, _) = whole(&first);
    if one.counts[2] != 0 {
        return one.same(all) && left.same(rows, 0, 0, one.counts[0]);
    }
    let mut second = Mosaic { tiles: m.tiles[c..].to_vec(), ..m.clone() };
    second.plan.body[29..].copy_from_slice(&one.sums[1..]);
    let (two, right, _) = whole(&second);
    let mut joined = two.clone();
    joined.counts[0] += one.counts[0];
    joined.counts[1] += one.counts[1];
    joined.sums[0] = (0..two.counts[0]).fold(one.sums[0], |d, k| d + right.times[k][0]);
    joined.same(all) && left.same(rows, 0, 0, c) && right.same(rows, 0, c, two.counts[0])
}

/// A mosaic of the right count with a way and rows enough.
fn sound(r: &mut Random, w: &mut Words) {
    loop {
        let m = any(r);
        if m.way <= GENTLY && (3..=64).contains(&m.tiles.len()) && m.rows + 1 >= m.tiles.len() {
            return m.put(w);
        }
    }
}

fn cuts_expected(i: &[u64], o: &mut Words) -> bool {
    let inner = Mosaic::take(i).tiles.len().saturating_sub(2);
    (0..inner).for_each(|_| o.n(1));
    o.met("cuts", inner as u64);
    true
}

/// Mosaics whole and leg by leg, and cut.
pub const MOSAICS: [Entry; 2] = [
    Entry::new(310, "mosaics", [100, 2_500, 0], |r, w| any(r).put(w), by_port, chained),
    Entry::new(311, "mosaics cut", [20, 250, 0], sound, cuts_by_port, cuts_expected),
];
