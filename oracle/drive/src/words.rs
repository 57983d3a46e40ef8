//! A case as words: what goes in and what comes out, floats by their bits. A NaN has one pattern here, so that any matches any.

pub const NAN: u64 = 0x7FF8_0000_0000_0000;

pub fn bits(x: f64) -> u64 {
    if x.is_nan() { NAN } else { x.to_bits() }
}

/// What the table counts of an answer besides: the refusal's number (0: given) and place, and the branches met.
#[derive(Default, Clone, Debug)]
pub struct Seen {
    pub refusal: Option<(u64, u64)>,
    pub branches: Vec<(&'static str, u64)>,
}

/// The words, and what the table counts of them.
#[derive(Default, Clone, Debug)]
pub struct Words(pub Vec<u64>, pub Seen);

impl Words {
    pub fn n(&mut self, x: u64) {
        self.0.push(x);
    }
    pub fn f(&mut self, x: f64) {
        self.0.push(bits(x));
    }
    pub fn all(&mut self, v: &[f64]) {
        v.iter().for_each(|x| self.f(*x));
    }
    /// A refusal's number, 0 for an answer that is given, where no place is told.
    pub fn number(&mut self, number: u64) {
        self.n(number);
        self.1.refusal = Some((number, 0));
    }
    /// A refusal's number and place.
    pub fn placed(&mut self, number: u64, place: u64) {
        self.n(number);
        self.n(place);
        self.1.refusal = Some((number, place));
    }
    /// A branch was met so many times: no word of the answer.
    pub fn met(&mut self, branch: &'static str, times: u64) {
        self.1.branches.push((branch, times));
    }
    /// A refusal's number, or 0 and what was given.
    pub fn given(&mut self, number: u64, v: &[f64]) {
        self.number(number);
        if number == 0 {
            self.all(v);
        }
    }
}

/// Reads a case's inputs in turn.
pub struct Reader<'a>(pub &'a [u64]);

impl Reader<'_> {
    pub fn n(&mut self) -> u64 {
        let (first, rest) = self.0.split_first().expect("an input");
        self.0 = rest;
        *first
    }
    pub fn f(&mut self) -> f64 {
        f64::from_bits(self.n())
    }
    pub fn a<const N: usize>(&mut self) -> [f64; N] {
        std::array::from_fn(|_| self.f())
    }
    pub fn list(&mut self, n: usize) -> Vec<f64> {
        (0..n).map(|_| self.f()).collect()
    }
}

/// One function compared. `rust` answers false where the Rust has no answer: the case does not count.
pub struct Entry {
    pub number: u32,
    pub name: &'static str,
    pub quick: u64,
    pub full: u64,
    /// Cases that are stored for the test program.
    pub kept: u64,
    pub make: fn(&mut crate::random::Random, &mut Words),
    pub ours: fn(&[u64], &mut Words),
    pub rust: fn(&[u64], &mut Words) -> bool,
}

impl Entry {
    /// With its inputs of a quick run, of a full run, and kept.
    pub const fn new(
        number: u32,
        name: &'static str,
        [quick, full, kept]: [u64; 3],
        make: fn(&mut crate::random::Random, &mut Words),
        ours: fn(&[u64], &mut Words),
        rust: fn(&[u64], &mut Words) -> bool,
    ) -> Self {
        Entry { number, name, quick, full, kept, make, ours, rust }
    }

    /// The Rust's answer, with no angle outside left over from the one before; false where it has none.
    pub fn by_rust(&self, inputs: &[u64], o: &mut Words) -> bool {
        libm::outside_at();
        (self.rust)(inputs, o)
    }

    /// Whether a case begins with declared actuators (maps.rs).
    pub fn declares(&self) -> bool {
        matches!(self.number, 100..=108 | 200..=202 | 300..=303 | 310..=311 | 340 | 460..=462)
    }

    /// Whether words may be taken out of a case: texts, a byte a word.
    pub fn cuts(&self) -> bool {
        (400..410).contains(&self.number)
    }
}

/// The number and place that the specification gives to a refusal of the Rust.
pub fn refusal(text: &str) -> (u64, u64) {
    const TABLE: [(&str, u64, u64); 30] = [
        ("planner quaternion", 5, 0),
        ("3x3 matrix is not invertible", 6, 0),
        ("inertia tensor is not symmetric", 6, 0),
        ("planner axis must be", 3, 0),
        ("planner supports at most 8", 1, 0),
        ("planner supports at most 12", 1, 1),
        ("wheel max_", 2, 0),
        ("thruster max_", 2, 0),
        ("CMG skew_rad", 2, 0),
        ("CMG wheel_momentum_nms", 2, 0),
        ("CMG max_gimbal_rate_rad_s", 2, 0),
        ("CMG singularity_eps", 2, 0),
        ("planner refuses a zero-angle", 7, 0),
        ("planner could not form a positive", 7, 0),
        ("planner refuses a near-pi", 7, 1),
        ("torque box cannot accelerate", 7, 2),
        ("slew-rate limit produced an invalid", 7, 2),
        ("slew_rate_limit_rad_s must be", 4, 0),
        ("planner needs three independent", 8, 0),
        ("body-torque control has the wrong width", 8, 0),
        ("collocation seed", 10, 0),
        ("CMG pyramid is singular", 12, 0),
        ("wheel power exceeds", 13, 0),
        ("collocation did not meet the terminal attitude", 14, 0),
        ("collocation did not meet the rest", 15, 0),
        ("collocation dynamics defects", 16, 0),
        ("collocation net body torque", 17, 0),
        ("collocation body rate", 18, 0),
        ("collocation stored momentum", 19, 0),
        ("planner would exceed the sample limit", 20, 0),
    ];
    let found = TABLE.iter().find(|(head, _, _)| text.starts_with(head));
    found.map_or((99, 0), |(_, number, place)| (*number, *place))
}
