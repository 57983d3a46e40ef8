//! Inputs: random, and hostile (NaN, infinities, signed zeros, subnormals, every exponent, thresholds and their neighbours).

pub struct Random(u64);

const SPECIAL: [f64; 34] = [
    0.0, -0.0, 1.0, -1.0, f64::INFINITY, f64::NEG_INFINITY, f64::NAN, f64::MIN_POSITIVE, -f64::MIN_POSITIVE, 5e-324, -5e-324, f64::MAX,
    f64::MIN, 0.5, -0.5, 2.0, -2.0, 1.0e-18, -1.0e-18, 1.0e-16, -1.0e-16, 1.0e-15, 1.0e-12, -1.0e-12, 1.0e-9, 1.0e-6, 1.0e-3, 1024.0,
    -1024.0, 1.6, 1.0e154, -1.0e154, 1.0e-160, 4503599627370496.5,
];

impl Random {
    pub fn new(seed: u64) -> Self {
        Random(seed)
    }

    /// The inputs of one round of a function: the seed and both numbers scattered first, so that no two rounds share a stretch.
    pub fn of_round(seed: u64, function: u32, round: u64) -> Self {
        Random(Random(seed).word() ^ Random(u64::from(function) << 32 ^ round).word())
    }

    /// 64 random bits (splitmix64).
    pub fn word(&mut self) -> u64 {
        self.0 = self.0.wrapping_add(0x9E37_79B9_7F4A_7C15);
        let mut z = self.0;
        z = (z ^ (z >> 30)).wrapping_mul(0xBF58_476D_1CE4_E5B9);
        z = (z ^ (z >> 27)).wrapping_mul(0x94D0_49BB_1331_11EB);
        z ^ (z >> 31)
    }

    pub fn below(&mut self, n: u64) -> u64 {
        ((u128::from(self.word()) * u128::from(n)) >> 64) as u64
    }

    pub fn one_in(&mut self, n: u64) -> bool {
        self.below(n) == 0
    }

    /// Any pattern of bits: every exponent alike.
    pub fn any(&mut self) -> f64 {
        f64::from_bits(self.word())
    }

    /// From 0 to 1.
    pub fn unit(&mut self) -> f64 {
        (self.word() >> 11) as f64 / (1u64 << 53) as f64
    }

    /// From -2 to 2.
    pub fn tame(&mut self) -> f64 {
        self.unit() * 4.0 - 2.0
    }

    /// A few steps of the last place away from x.
    pub fn near(&mut self, x: f64) -> f64 {
        f64::from_bits(x.to_bits().wrapping_add(self.below(9)).wrapping_sub(4))
    }

    pub fn special(&mut self) -> f64 {
        let x = SPECIAL[self.below(SPECIAL.len() as u64) as usize];
        if self.one_in(2) { x } else { self.near(x) }
    }

    /// A number of a hostile input.
    pub fn hostile(&mut self) -> f64 {
        match self.below(6) {
            0 | 1 => self.special(),
            2 => self.any(),
            3 => self.below(7) as f64 - 3.0,
            4 => self.tame() * (2.0f64).powi(self.below(80) as i32 - 40),
            _ => self.tame(),
        }
    }

    /// n numbers, hostile in one case of three.
    pub fn numbers<const N: usize>(&mut self) -> [f64; N] {
        let mut out = [0.0; N];
        let hostile = self.one_in(3);
        let exponent = self.below(40) as i32 - 20;
        for x in &mut out {
            *x = if hostile { self.hostile() } else { self.tame() * (2.0f64).powi(exponent) };
        }
        out
    }

    /// A quaternion of length near 1, or anything.
    pub fn attitude(&mut self) -> [f64; 4] {
        if self.one_in(6) {
            return self.numbers();
        }
        let mut q = [self.tame(), self.tame(), self.tame(), self.tame()];
        match self.below(8) {
            0 => q[0] *= 1.0e-7,
            1 => q = [q[0], q[1] * 1.0e-9, q[2] * 1.0e-9, q[3] * 1.0e-9],
            2 => q = [q[0], 0.0, 0.0, 0.0],
            3 => q = [q[0], q[1] * 1.0e-17, 0.0, -0.0],
            _ => {}
        }
        let n = (q[0] * q[0] + q[1] * q[1] + q[2] * q[2] + q[3] * q[3]).sqrt();
        let n = if self.one_in(4) { n * (1.0 + self.tame() * 1.0e-6) } else { n };
        q.map(|x| x / n)
    }

    /// A symmetric positive definite tensor, one near singular, one that is not symmetric, or anything; by rows.
    pub fn tensor(&mut self) -> [f64; 9] {
        if self.one_in(5) {
            return self.numbers();
        }
        let b: [f64; 9] = std::array::from_fn(|_| self.tame());
        let mut j = [0.0; 9];
        for i in 0..3 {
            for k in 0..3 {
                j[3 * i + k] = (0..3).map(|l| b[3 * i + l] * b[3 * k + l]).sum();
            }
        }
        for i in 0..3 {
            j[4 * i] += self.unit();
        }
        match self.below(8) {
            0 => j[1] += 1.0e-12 * self.tame(),
            1 => j = [j[0], j[1], j[2], 2.0 * j[0], 2.0 * j[1], 2.0 * j[2], j[6], j[7], j[8]],
            2 => j = [j[0], j[1], j[2], j[0], self.near(j[1]), j[2], j[6], j[7], j[8]],
            3 => j = j.map(|x| x * 1.0e-6),
            4 => j = [j[0], 0.0, 0.0, 0.0, j[4], 0.0, 0.0, 0.0, j[8]],
            _ => {}
        }
        j
    }

    /// An axis that `unit3` takes, or one near its limits, or anything.
    pub fn axis(&mut self) -> [f64; 3] {
        match self.below(8) {
            0 => self.numbers(),
            1 => [1.0, 0.0, 0.0],
            2 => {
                let v: [f64; 3] = std::array::from_fn(|_| self.tame());
                v.map(|x| x * 1.0e-18)
            }
            _ => std::array::from_fn(|_| self.tame()),
        }
    }

    /// Times, limits: above 0, or hostile.
    pub fn positive(&mut self) -> f64 {
        match self.below(8) {
            0 => self.hostile(),
            1 => self.hostile().abs(),
            _ => self.unit() * (10.0f64).powi(self.below(7) as i32 - 3),
        }
    }
}
