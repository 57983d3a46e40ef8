//! An order for the tiles: `slew_order` beside every order there is, and beside a search written apart in Rust.

use crate::ffi::*;
use crate::random::Random;
use crate::words::{Entry, Reader, Words};

/// The highest time that is no refusal.
pub const LONGEST: u32 = 10_000_000;

/// A table with its budget, row after row. The count of tiles is as declared: the list may have another length.
pub struct Tiles {
    pub tiles: usize,
    pub budget: u64,
    pub times: Vec<u32>,
}

/// What an order's search gives.
#[derive(Clone, PartialEq, Eq, Debug)]
pub struct Found {
    pub order: Vec<usize>,
    pub cost: u64,
    pub placed: u64,
    pub exhausted: bool,
    pub floor: u64,
}

impl Tiles {
    fn put(&self, w: &mut Words) {
        w.n(self.tiles as u64);
        w.n(self.budget);
        w.n(self.times.len() as u64);
        self.times.iter().for_each(|t| w.n(u64::from(*t)));
    }

    fn take(i: &[u64]) -> Self {
        let mut r = Reader(i);
        let (tiles, budget, count) = (r.n() as usize, r.n(), r.n());
        Tiles { tiles, budget, times: (0..count).map(|_| r.n() as u32).collect() }
    }

    fn time(&self, from: usize, to: usize) -> u64 {
        u64::from(self.times[from * self.tiles + to])
    }

    /// Refusal 25.
    fn refused(&self) -> bool {
        let n = self.tiles;
        let pairs = || (0..n).flat_map(|i| (0..n).map(move |j| (i, j))).filter(|(i, j)| i != j);
        !(1..=10).contains(&n) || self.times.len() != n * n || pairs().any(|(i, j)| !(1..=u64::from(LONGEST)).contains(&self.time(i, j)))
    }

    fn cost(&self, order: &[usize]) -> u64 {
        order.windows(2).map(|leg| self.time(leg[0], leg[1])).sum()
    }

    /// The sum over tiles other than 0 of the least time into each.
    fn floor(&self) -> u64 {
        (1..self.tiles).map(|to| (0..self.tiles).filter(|from| *from != to).map(|from| self.time(from, to)).min().expect("two tiles")).sum()
    }

    fn straight(&self) -> Found {
        let order: Vec<usize> = (0..self.tiles).collect();
        Found { cost: self.cost(&order), order, placed: 0, exhausted: false, floor: self.floor() }
    }
}

/// All orders that start at tile 0, in the order in which ascending tile numbers at each place give them.
fn all_orders(tiles: usize) -> Vec<Vec<usize>> {
    let mut orders = vec![vec![0]];
    for _ in 1..tiles {
        orders = orders.iter().flat_map(|o| (1..tiles).filter(|x| !o.contains(x)).map(move |x| [o.as_slice(), &[x]].concat())).collect();
    }
    orders
}

/// By every order there is, one after another, with no search in it: of each the legs are walked that the order before did not have, up to the drop. A part that
/// was dropped is met again at the next order that begins so, and is then not placed again.
pub fn by_all_orders(t: &Tiles) -> Found {
    let mut found = t.straight();
    let mut walked: Vec<usize> = vec![0];
    let mut dropped = false;
    for order in all_orders(t.tiles) {
        let same = order.iter().zip(&walked).take_while(|(a, b)| a == b).count();
        if dropped && same == walked.len() {
            continue;
        }
        walked.truncate(same);
        dropped = false;
        for place in same..t.tiles {
            if found.placed == t.budget {
                found.exhausted = true;
                return found;
            }
            found.placed += 1;
            walked.push(order[place]);
            if t.cost(&walked) >= found.cost {
                dropped = true;
                break;
            }
        }
        if !dropped && t.tiles > 1 {
            (found.cost, found.order) = (t.cost(&order), order.clone());
        }
    }
    found
}

/// The search as one would write it in Rust: recursion, the tiles placed as bits. The bench runs it too.
pub struct Search<'a> {
    tiles: usize,
    times: &'a [u32],
    budget: u64,
    path: [usize; 10],
    best: [usize; 10],
    cost: u64,
    placed: u64,
    exhausted: bool,
}

impl Search<'_> {
    fn visit(&mut self, count: usize, seen: u32, cost: u64) {
        if count == self.tiles {
            (self.best, self.cost) = (self.path, cost);
            return;
        }
        let row = self.path[count - 1] * self.tiles;
        for tile in 0..self.tiles {
            if seen >> tile & 1 == 1 {
                continue;
            }
            if self.placed >= self.budget {
                self.exhausted = true;
                return;
            }
            self.placed += 1;
            let further = cost + u64::from(self.times[row + tile]);
            if further >= self.cost {
                continue;
            }
            self.path[count] = tile;
            self.visit(count + 1, seen | 1 << tile, further);
            if self.exhausted {
                return;
            }
        }
    }
}

/// The same search, run from the order 0, 1, 2 and so on.
pub fn by_search(t: &Tiles) -> Found {
    let first = t.straight();
    let mut best = [0; 10];
    best[..t.tiles].copy_from_slice(&first.order);
    let mut search = Search { tiles: t.tiles, times: &t.times, budget: t.budget, path: [0; 10], best, cost: first.cost, placed: 0, exhausted: false };
    if t.tiles > 1 {
        search.visit(1, 1, 0);
    }
    let Search { best, cost, placed, exhausted, .. } = search;
    Found { order: best[..t.tiles].to_vec(), cost, placed, exhausted, floor: first.floor }
}

/// A number or 0, the ten places, cost, placed, used up, floor: zeros beside a refusal.
fn told(o: &mut Words, refused: bool, found: Option<&Found>) {
    o.number(if refused { 25 } else { 0 });
    let Some(found) = found.filter(|_| !refused) else {
        (0..14).for_each(|_| o.n(0));
        return;
    };
    (0..10).for_each(|k| o.n(found.order.get(k).map_or(0, |x| *x as u64)));
    [found.cost, found.placed, u64::from(found.exhausted), found.floor].iter().for_each(|x| o.n(*x));
}

fn by_port(i: &[u64], o: &mut Words) {
    let t = Tiles::take(i);
    // what is lent is filled, so that what is not written shows
    let (mut order, mut answer) = ([77; 10], [77; 4]);
    let number = slew_order(t.tiles, &t.times, t.budget, &mut order, &mut answer);
    o.number(number as u64);
    order.iter().for_each(|x| o.n(*x as u64));
    answer.iter().for_each(|x| o.n(*x));
}

fn beside(i: &[u64], o: &mut Words, of: fn(&Tiles) -> Found) -> bool {
    let t = Tiles::take(i);
    let refused = t.refused();
    let found = (!refused).then(|| of(&t));
    told(o, refused, found.as_ref());
    if let Some(found) = &found {
        o.met("budget used up", u64::from(found.exhausted));
        o.met("at the floor", u64::from(found.cost == found.floor));
        o.met("not 0, 1, 2 ..", u64::from(found.order.iter().enumerate().any(|(k, x)| k != *x)));
    }
    true
}

fn all_beside(i: &[u64], o: &mut Words) -> bool {
    beside(i, o, by_all_orders)
}

fn search_beside(i: &[u64], o: &mut Words) -> bool {
    beside(i, o, by_search)
}

/// All placements there can be of so many tiles.
pub fn most(tiles: u64) -> u64 {
    (1..tiles).fold(0, |sum, left| left * (sum + 1))
}

/// Table number k of those with so many tiles and times of 1 to `top`, each at every budget from 0 to one more than can be placed. The counter goes round.
fn counted(k: u64, tiles: usize, top: u32) -> Tiles {
    let budgets = most(tiles as u64) + 2;
    let (mut rest, mut times) = (k / budgets, vec![0; tiles * tiles]);
    for i in 0..tiles {
        for j in (0..tiles).filter(|j| *j != i) {
            times[i * tiles + j] = 1 + (rest % u64::from(top)) as u32;
            rest /= u64::from(top);
        }
    }
    Tiles { tiles, budget: k % budgets, times }
}

/// How many cases that makes.
const fn cases(tables: u64, budgets: u64) -> u64 {
    tables * budgets
}

/// All of them, one after another, whatever the seed.
fn next_counted(tiles: usize, top: u32, w: &mut Words) {
    use std::sync::atomic::{AtomicU64, Ordering};
    static AT: [AtomicU64; 2] = [const { AtomicU64::new(0) }; 2];
    let k = AT[tiles - 3].fetch_add(1, Ordering::Relaxed);
    counted(k, tiles, top).put(w);
}

/// Times of several kinds: any, few values (ties), nearly equal (slews of like length), one tile far off, the ends of the range, the diagonal hostile.
fn times(r: &mut Random, n: usize) -> Vec<u32> {
    let kind = r.below(6);
    let mut times: Vec<u32> = (0..n * n)
        .map(|_| match kind {
            0 => 1 + r.below(u64::from(LONGEST)) as u32,
            1 => 1 + r.below(3) as u32,
            2 => 9_000 + r.below(5) as u32,
            3 => [1, 2, LONGEST - 1, LONGEST][r.below(4) as usize],
            _ => 1 + r.below(100) as u32,
        })
        .collect();
    if kind == 4 {
        let far = r.below(n as u64) as usize;
        (0..n).for_each(|k| (times[far * n + k], times[k * n + far]) = (5_000_000, 5_000_000));
    }
    (0..n).for_each(|k| times[k * n + k] = [0, 1, u32::MAX, r.below(200) as u32][r.below(4) as usize]);
    times
}

fn budget(r: &mut Random, n: u64) -> u64 {
    match r.below(4) {
        0 => r.below(most(n) + 2),
        1 => r.below(2 * n * n + 1),
        2 => [0, 1, most(n), most(n) + 1, u64::MAX][r.below(5) as usize],
        _ => u64::MAX - r.below(3),
    }
}

fn up_to(r: &mut Random, largest: u64, w: &mut Words) {
    let n = 1 + r.below(largest);
    Tiles { tiles: n as usize, budget: budget(r, n), times: times(r, n as usize) }.put(w);
}

fn ten(r: &mut Random, w: &mut Words) {
    Tiles { tiles: 10, budget: budget(r, 10), times: times(r, 10) }.put(w);
}

/// Refusal 25 and what lies just beside it: no tile, 11, tables too long or too short, one time outside, or on the diagonal only.
fn spoilt(r: &mut Random, w: &mut Words) {
    let n = 1 + r.below(6) as usize;
    let mut t = Tiles { tiles: n, budget: budget(r, n as u64), times: times(r, n) };
    match r.below(6) {
        0 => t.tiles = [0, 11, 12, usize::MAX, 1 << 32][r.below(5) as usize],
        1 => t.times.push(1),
        2 => drop(t.times.pop()),
        3 => t = Tiles { tiles: 11, budget: 5, times: times(r, 11) },
        _ => {
            let at = r.below((n * n) as u64) as usize;
            t.times[at] = [0, LONGEST, LONGEST + 1, u32::MAX][r.below(4) as usize];
        }
    }
    t.put(w);
}

const SMALL_3: u64 = cases(729, 6);
const SMALL_4: u64 = cases(4_096, 17);

pub const ORDERS: [Entry; 5] = [
    Entry::new(500, "orders of 3 tiles, all", [SMALL_3, SMALL_3, 0], |_, w| next_counted(3, 3, w), by_port, all_beside),
    Entry::new(501, "orders of 4 tiles, all", [SMALL_4, SMALL_4, 0], |_, w| next_counted(4, 2, w), by_port, all_beside),
    Entry::new(502, "orders of up to 7 tiles", [100_000, 1_000_000, 0], |r, w| up_to(r, 7, w), by_port, all_beside),
    Entry::new(503, "orders of 10 tiles", [1_000, 10_000, 0], ten, by_port, search_beside),
    Entry::new(504, "tables refused", [50_000, 2_000_000, 0], spoilt, by_port, all_beside),
];

/// Ten tiles at nearly equal times, with which every placement that there can be is made.
pub fn worst() -> Tiles {
    let mut random = Random::new(19);
    let mut drawn = std::iter::repeat_with(|| Tiles { tiles: 10, budget: u64::MAX, times: (0..100).map(|_| 9_000 + random.below(5) as u32).collect() });
    drawn.find(|t| by_search(t).placed == most(10)).expect("such a table")
}
