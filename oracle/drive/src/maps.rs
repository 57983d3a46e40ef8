//! Actuators as the C interface takes them: eleven counts and a hundred numbers, as given by a user and as prepared alike.
//!
//! Counts: wheels, thrusters, a pyramid (0 or 1), and for each of eight wheels whether it has a power limit (0 or 1).
//! Numbers: eight wheel axes, torques, momenta, powers; twelve thruster axes, torques; the pyramid's skew, momentum, rate, smallest determinant.

use crate::random::Random;
use crate::words::{Reader, Words};
use quatopsy_plan::probe::{Given, GivenThruster, GivenWheel};

#[derive(Clone)]
pub struct Flat {
    pub counts: [usize; 11],
    pub numbers: [f64; 100],
}

impl Flat {
    pub fn put(&self, w: &mut Words) {
        self.counts.iter().for_each(|n| w.n(*n as u64));
        w.all(&self.numbers);
    }

    pub fn take(r: &mut Reader<'_>) -> Self {
        Flat { counts: std::array::from_fn(|_| r.n() as usize), numbers: r.a() }
    }

    fn three(&self, at: usize) -> [f64; 3] {
        [self.numbers[at], self.numbers[at + 1], self.numbers[at + 2]]
    }

    /// As the Rust has it; a count past the tables repeats the last one, so that the list is as long as it says.
    pub fn given(&self) -> Given {
        let wheel = |k: usize| {
            let k = k.min(7);
            let power = (self.counts[3 + k] != 0).then_some(self.numbers[40 + k]);
            GivenWheel(self.three(3 * k), self.numbers[24 + k], self.numbers[32 + k], power)
        };
        let thruster = |k: usize| GivenThruster(self.three(48 + 3 * k.min(11)), self.numbers[84 + k.min(11)]);
        Given {
            wheels: (0..self.counts[0].min(100)).map(wheel).collect(),
            thrusters: (0..self.counts[1].min(100)).map(thruster).collect(),
            cmgs: (self.counts[2] != 0).then(|| std::array::from_fn(|k| self.numbers[96 + k])),
        }
    }

    /// From the Rust's own lists, with zeros past them.
    pub fn of(given: &Given) -> Self {
        let mut flat = Flat { counts: [0; 11], numbers: [0.0; 100] };
        flat.counts[0] = given.wheels.len();
        flat.counts[1] = given.thrusters.len();
        for (k, wheel) in given.wheels.iter().enumerate().take(8) {
            flat.numbers[3 * k..3 * k + 3].copy_from_slice(&wheel.0);
            flat.numbers[24 + k] = wheel.1;
            flat.numbers[32 + k] = wheel.2;
            if let Some(power) = wheel.3 {
                flat.counts[3 + k] = 1;
                flat.numbers[40 + k] = power;
            }
        }
        for (k, thruster) in given.thrusters.iter().enumerate().take(12) {
            flat.numbers[48 + 3 * k..51 + 3 * k].copy_from_slice(&thruster.0);
            flat.numbers[84 + k] = thruster.1;
        }
        if let Some(cmg) = given.cmgs {
            flat.counts[2] = 1;
            flat.numbers[96..].copy_from_slice(&cmg);
        }
        flat
    }

    /// Without wheel, thruster or pyramid (kind 0, 1, 2) number k; false where there is none.
    pub fn remove(&mut self, kind: usize, k: usize) -> bool {
        let count = self.counts[kind];
        if k >= count || count > [8, 12, 1][kind] {
            return false;
        }
        self.counts[kind] -= 1;
        match kind {
            0 => {
                self.numbers.copy_within(3 * k + 3..24, 3 * k);
                [24, 32, 40].iter().for_each(|first| self.numbers.copy_within(first + k + 1..first + 8, first + k));
                self.counts.copy_within(k + 4..11, k + 3);
            }
            1 => {
                self.numbers.copy_within(51 + 3 * k..84, 48 + 3 * k);
                self.numbers.copy_within(85 + k..96, 84 + k);
            }
            _ => {}
        }
        true
    }

    pub fn empty(&self) -> bool {
        self.counts[0] == 0 && self.counts[1] == 0 && self.counts[2] == 0
    }

    pub fn width(&self) -> usize {
        if self.empty() { 3 } else { self.counts[0] + self.counts[1] + 4 * self.counts[2] }
    }
}

/// Which actuators: none, wheels, thrusters, a pyramid, or some of each.
pub fn kinds(r: &mut Random) -> (usize, usize, usize) {
    match r.below(10) {
        0 => (0, 0, 0),
        1..=3 => (1 + r.below(8) as usize, 0, 0),
        4 | 5 => (0, 1 + r.below(12) as usize, 0),
        6 | 7 => (0, 0, 1),
        _ => (r.below(9) as usize, r.below(13) as usize, r.below(2) as usize),
    }
}

/// Actuators that `prepare` takes.
pub fn sound(r: &mut Random) -> Flat {
    let kinds = kinds(r);
    sound_of(r, kinds)
}

/// The same with so many wheels, thrusters, pyramids.
pub fn sound_of(r: &mut Random, (wheels, thrusters, cmgs): (usize, usize, usize)) -> Flat {
    let mut flat = Flat { counts: [0; 11], numbers: [0.0; 100] };
    flat.counts[..3].copy_from_slice(&[wheels, thrusters, cmgs]);
    for k in 0..wheels {
        let axis = if r.one_in(3) { [[1.0, 0.0, 0.0], [0.0, 1.0, 0.0], [0.0, 0.0, 1.0]][k % 3] } else { std::array::from_fn(|_| r.tame()) };
        flat.numbers[3 * k..3 * k + 3].copy_from_slice(&axis);
        flat.numbers[24 + k] = 0.01 + r.unit();
        flat.numbers[32 + k] = 0.5 + 10.0 * r.unit();
        flat.counts[3 + k] = r.below(2) as usize;
        flat.numbers[40 + k] = if flat.counts[3 + k] == 1 { 0.05 + 5.0 * r.unit() } else { 0.0 };
    }
    for k in 0..thrusters {
        let axis: [f64; 3] = std::array::from_fn(|_| r.tame());
        flat.numbers[48 + 3 * k..51 + 3 * k].copy_from_slice(&axis);
        flat.numbers[84 + k] = 0.01 + r.unit();
    }
    if cmgs == 1 {
        flat.numbers[96..].copy_from_slice(&[0.1 + 1.4 * r.unit(), 0.1 + r.unit(), 0.05 + r.unit(), 1.0e-3]);
    }
    flat
}

/// Sound ones with a number or two spoilt, or numbers of any kind, or too long a list.
pub fn hostile(r: &mut Random) -> Flat {
    let mut flat = sound(r);
    match r.below(6) {
        0 => {}
        1 => flat.numbers = r.numbers(),
        2 => {
            flat.counts[0] = [9, 100, 8, 7][r.below(4) as usize];
            flat.counts[1] = [13, 100, 12, 0][r.below(4) as usize];
        }
        3 => flat.numbers[96 + r.below(4) as usize] = [0.0, 1.6, -1.0, 1.5999999999999999, f64::NAN, 5e-324][r.below(6) as usize],
        _ => {
            for _ in 0..=r.below(2) {
                let at = r.below(100) as usize;
                flat.numbers[at] = r.hostile();
            }
        }
    }
    flat
}
