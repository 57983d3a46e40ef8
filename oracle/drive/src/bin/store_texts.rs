//! store_texts FILE: writes the texts that the crate replay_texts runs, with the answers of the published Rust read and written by texts.rs.
//!
//! A case: a line of the kind (1 a plan, 2 from a caller's seed, 3 a dense sample; 16 more: the answer is wrong on purpose), the text's bytes, the words, the
//! answer's bytes; a line of the words; the text; the answer; a line feed. Numbers are hexadecimal. No case crosses a multiple of 65,536 bytes: empty lines fill up.

use drive::damage::{self, EXAMPLE, example_of, example_with, filled, text_of};
use drive::plans::begun;
use drive::problems::{self, FAMILIES, Family, Plan, family};
use drive::pulses::pulse;
use drive::random::Random;
use drive::texts::{answer_text, float_text, found, read, sampled};
use drive::words::bits;
use std::collections::{BTreeMap, BTreeSet};
use std::process::ExitCode;

/// What is lent in every case.
const LENT: usize = 8_000;

const BLOCK: usize = 65_536;

/// Added to a kind where the answer is wrong on purpose; of so many cases of a kind one is stored so besides.
const WRONG: u64 = 16;
const OF: u64 = 20;

const WHEEL: &str = "\n  (wheel 3FF 0 0 3FF 3FF none)";

/// The bytes so far, which texts are among them, how many answers there are by kind, number and place, how many of each kind, and how many are wrong on purpose.
#[derive(Default)]
struct Store {
    bytes: Vec<u8>,
    plans: BTreeSet<Vec<u8>>,
    met: BTreeMap<(u64, u64, u64), u64>,
    put: [u64; 4],
    wrong: u64,
}

fn line_of(words: &[u64]) -> String {
    words.iter().map(|word| format!("{word:x}")).collect::<Vec<String>>().join(" ")
}

/// An answer that is wrong in one byte, of which the k-th is another digit, the last missing, or one too many.
fn wrong(answer: &[u8], k: u64) -> Vec<u8> {
    let digits: Vec<usize> = (0..answer.len()).filter(|at| answer[*at].is_ascii_digit()).collect();
    let mut other = answer.to_vec();
    match k % 4 {
        0 => other.truncate(answer.len() - 1),
        1 => other.push(b'1'),
        _ => {
            let at = digits[(k as usize * 7_919) % digits.len()];
            other[at] = if other[at] == b'7' { b'6' } else { b'7' };
        }
    }
    other
}

impl Store {
    /// A case, and now and then the same with a wrong answer.
    fn put(&mut self, kind: u64, text: &[u8], words: &[u64], answer: &[u8]) {
        self.put_case(kind, text, words, answer);
        self.put[kind as usize] += 1;
        if self.put[kind as usize] % OF == 0 {
            self.put_case(kind + WRONG, text, words, &wrong(answer, self.put[kind as usize] / OF));
            self.wrong += 1;
        }
    }

    fn put_case(&mut self, kind: u64, text: &[u8], words: &[u64], answer: &[u8]) {
        let head = line_of(&[kind, text.len() as u64, words.len() as u64, answer.len() as u64]);
        let case = [head.as_bytes(), b"\n", line_of(words).as_bytes(), b"\n", text, answer, b"\n"].concat();
        assert!(case.len() <= BLOCK, "a case fits a block");
        while self.bytes.len() % BLOCK + case.len() > BLOCK {
            self.bytes.push(b'\n');
        }
        self.bytes.extend(case);
    }

    /// A plan's answer, unless the text is there already, or as many of its number and place as are wanted.
    fn plan(&mut self, text: &[u8], most: u64) {
        let (found, _) = found(text, None, LENT);
        let met = self.met.entry((1, found.number, found.place)).or_default();
        if *met < most && self.plans.insert(text.to_vec()) {
            *met += 1;
            self.put(1, text, &[], answer_text(&found).as_bytes());
        }
    }

    /// The same from a caller's seed; a path as often as it is wanted, a refusal once at each place or as often as that.
    fn from(&mut self, text: &[u8], seed: &[f64], paths: u64, refusals: u64) {
        let (found, _) = found(text, Some(seed), LENT);
        let met = self.met.entry((2, found.number, found.place)).or_default();
        if *met < if found.number == 0 { paths } else { refusals } {
            *met += 1;
            let words: Vec<u64> = seed.iter().map(|x| bits(*x)).collect();
            self.put(2, text, &words, answer_text(&found).as_bytes());
        }
    }

    fn sample(&mut self, text: &[u8], requested: usize, alpha: f64, index: usize) {
        let (number, numbers, _) = sampled(text, LENT, requested, alpha, index);
        let place = if number == 0 { 0 } else { numbers[0] as u64 };
        *self.met.entry((3, number, place)).or_default() += 1;
        let answer: Vec<u64> = std::iter::once(number).chain(numbers.iter().map(|x| bits(*x))).collect();
        self.put(3, text, &[requested as u64, bits(alpha), index as u64], line_of(&answer).as_bytes());
    }
}

/// The program's examples; the answers beside them must be ours.
fn examples(store: &mut Store) -> std::io::Result<()> {
    let mut paths: Vec<_> = std::fs::read_dir("examples")?.collect::<Result<Vec<_>, _>>()?.into_iter().map(|entry| entry.path()).collect();
    paths.sort();
    for path in paths.iter().filter(|path| path.extension().is_some_and(|end| end == "slew")) {
        let text = std::fs::read(path)?;
        let answer = std::fs::read(path.with_extension("answer"))?;
        assert!(answer_text(&found(&text, None, LENT).0).as_bytes() == answer, "{} has another answer", path.display());
        store.plan(&text, u64::MAX);
    }
    Ok(())
}

/// Families that fit what is lent, each with how many paths are stored.
const FIT: [(Family, usize); 7] = [
    (FAMILIES[0], 10),
    (FAMILIES[1], 6),
    (FAMILIES[2], 6),
    (FAMILIES[5], 6),
    (family("3 wheels", 3, 0, 0, false), 5),
    (family("3 thrusters", 0, 3, 0, false), 4),
    (family("4 thrusters", 0, 4, 0, false), 3),
];

/// Families for which it is too little.
const LARGER: [Family; 6] = [
    FAMILIES[3],
    FAMILIES[4],
    family("5 wheels", 5, 0, 0, false),
    family("5 thrusters", 0, 5, 0, false),
    family("4 + pointing", 4, 0, 0, true),
    family("pyramid + pointing", 0, 0, 1, true),
];

/// Whole plans with a path; their texts.
fn paths(store: &mut Store, r: &mut Random) -> Vec<Vec<u8>> {
    let mut texts = Vec::new();
    for (family, count) in FIT {
        let enough = texts.len() + count;
        while texts.len() < enough {
            let text = text_of(&problems::tame(r, family));
            if found(&text, None, LENT).0.number == 0 {
                store.plan(&text, u64::MAX);
                texts.push(text);
            }
        }
    }
    for family in LARGER {
        store.plan(&text_of(&problems::tame(r, family)), 6);
    }
    texts
}

/// A plan with a seed, if it fits what is lent.
fn seeded(store: &mut Store, plan: &Plan, paths: u64, refusals: u64) {
    if let Some(seed) = plan.seed.as_ref().filter(|_| plan.room() <= LENT) {
        let numbers = [&[seed.duration][..], &seed.rates, &seed.torques].concat();
        store.from(&text_of(plan), &numbers, paths, refusals);
    }
}

/// Callers' seeds: paths, refusals at every place that a pulse finds, other counts, and a text that is refused before its seed is looked at.
fn seeds(store: &mut Store, r: &mut Random) {
    for _ in 0..500 {
        seeded(store, &problems::any(r), 14, 2);
    }
    for _ in 0..5_000 {
        seeded(store, &pulse(r), 16, 1);
    }
    let text = text_of(&problems::tame(r, FAMILIES[0]));
    for count in [0, 1, 102, 104] {
        store.from(&text, &vec![1.0; count], 99, 99);
    }
    store.from(&text, &[f64::NAN; 103], 99, 99);
    store.from(b"", &[1.0; 103], 99, 99);
    store.from(example_with(WHEEL).as_bytes(), &[1.0; 3], 99, 99);
}

/// Samples of paths: the first, the last, inside, past the end; counts asked for, decided by the rate, too many. Samples of what is refused.
fn samples(store: &mut Store, r: &mut Random, texts: &[Vec<u8>]) {
    for (k, text) in texts.iter().enumerate() {
        let duration = found(text, None, LENT).0.path.map_or(1.0, |(nodes, _)| nodes.duration);
        // a rate that asks for about 1,000 samples, and more than a request of 100
        let alpha = 1.5 / duration;
        match k % 8 {
            0 => [(1, 0), (17, 16), (17, 17)].iter().for_each(|(n, at)| store.sample(text, *n, 0.0, *at)),
            1 => [(100_000, 0), (100_000, 99_999), (100_000, 1 + r.below(99_998) as usize)].iter().for_each(|(n, at)| store.sample(text, *n, 0.001, *at)),
            2 => (0..3).for_each(|_| store.sample(text, 100, alpha, r.below(900) as usize)),
            3 => [usize::MAX, 100_001].iter().for_each(|n| store.sample(text, *n, 0.0, 0)),
            4 => [f64::NAN, -1.0, f64::INFINITY].iter().for_each(|a| store.sample(text, 1, *a, 5)),
            5 => store.sample(text, 1, 1.0e6, usize::MAX),
            6 => (1..16).step_by(6).for_each(|at| store.sample(text, 17, 0.0, at)),
            _ => store.sample(text, 1, alpha, 100_000),
        }
    }
    let refused = [&b""[..], EXAMPLE.as_bytes(), &filled(4_096), &filled(4_097), &EXAMPLE.as_bytes()[..40]];
    refused.iter().for_each(|text| store.sample(text, 17, 0.0, 0));
}

/// A number of one actuator outside its range, then an axis that is none, at every place.
fn actuator_places(store: &mut Store) {
    let lines = |form: &str, count: usize, at: usize, other: &str| -> String {
        (0..count).map(|k| format!("\n  ({})", if k == at { other } else { form })).collect()
    };
    for at in 0..8 {
        for spoilt in ["wheel 3FF 0 0 3FF 0 none", "wheel 0 0 0 3FF 3FF none", "wheel 3FF 0 0 3FF 3FF 7FF"] {
            store.plan(example_with(&lines("wheel 3FF 0 0 3FF 3FF none", 8, at, spoilt)).as_bytes(), 2);
        }
    }
    // a start at its limit, then one that is over it by its last place, infinite or no number, at every wheel; and other counts of starts than of wheels
    let eight = lines("wheel 3FF 0 0 3FF 3FF none", 8, 99, "");
    for at in 0..8 {
        for over in ["BFF0000000000001", "7FF", "7FF8"] {
            let starts: String = (0..8).map(|k| format!(" {}", if k == at { over } else { "BFF" })).collect();
            store.plan(example_of(&starts, &eight).as_bytes(), 3);
        }
    }
    for count in [0, 7, 8, 9, 40] {
        store.plan(example_of(&" 8".repeat(count), &eight).as_bytes(), 9);
    }
    for at in 0..12 {
        for spoilt in ["thruster 3FF 0 0 8", "thruster 0 0 0 3FF"] {
            store.plan(example_with(&lines("thruster 3FF 0 0 3FF", 12, at, spoilt)).as_bytes(), 1);
        }
    }
    for spoilt in ["cmg 0 3FF 3FF 3FF", "cmg 3FF 3FF 3FF 7FF8", "cmg 3FF999999999999A 3FF 3FF 3FF"] {
        store.plan(example_with(&format!("\n  ({spoilt})")).as_bytes(), 3);
    }
    store.plan(example_with(&lines("wheel 3FF 0 0 3FF 3FF none", 9, 99, "")).as_bytes(), 2);
    store.plan(example_with(&lines("thruster 3FF 0 0 3FF", 13, 99, "")).as_bytes(), 2);
}

/// Each number and place that plans of any kind meet, twice.
fn refusals(store: &mut Store, r: &mut Random) {
    for _ in 0..1_500 {
        let mut plan = problems::any(r);
        (plan.seed, plan.lent) = (None, LENT);
        let place = begun(&plan).err().unwrap_or((9, 0));
        if plan.room() <= LENT && r.one_in(2) || store.met.get(&(1, place.0, place.1)).is_none_or(|met| *met < 2) {
            store.plan(&text_of(&plan), 2);
        }
    }
    let turning = |text: &str| text.replace("(qf 3FF 0 0 0)", "(qf 3FE6A09E667F3BCD 0 0 3FE6A09E667F3BCC)");
    let light = EXAMPLE.replace("(inertia 3FF 0 0 0 3FF 0 0 0 3FF)", "(inertia 3EE 0 0 0 3EE 0 0 0 3EE)");
    let texts = [
        // three wheels of one axis: no allocation
        turning(&example_with(&WHEEL.repeat(3))),
        // an acceleration that is not finite
        turning(&light).replace("(limit 3FF 3FF 3FF)", "(limit 7FE 7FE 7FE)"),
        // a duration that is not finite
        turning(EXAMPLE).replace("(limit 3FF 3FF 3FF)", &format!("(limit {0} {0} {0})", float_text(5e-324))),
    ];
    texts.iter().for_each(|text| store.plan(text.as_bytes(), 2));
    // so heavy a body that the defect is refused
    for _ in 0..20 {
        let mut plan = problems::tame(r, FAMILIES[0]);
        let scale = 1.0e15 * (1.0 + r.unit());
        plan.body[8..20].iter_mut().for_each(|x| *x *= scale);
        store.plan(&text_of(&plan), 2);
    }
}

/// Damaged texts: every byte's in great steps, several at once, lengths near the limit.
fn damaged(store: &mut Store, r: &mut Random) {
    for n in 4_094..4_100 {
        store.plan(&filled(n), u64::MAX);
    }
    let step = damage::turns() / 160;
    for k in 0..160 {
        let text = damage::in_turn(k * step + r.below(step));
        store.plan(&text, 40);
    }
    for _ in 0..40 {
        let text = damage::listed(r);
        store.plan(&text, 60);
    }
    for _ in 0..160 {
        let case = damage::spoilt(r);
        if read(&case.text).is_err() && case.text.len() < 5_000 {
            store.plan(&case.text, 30);
        }
    }
}

fn main() -> ExitCode {
    let Some(file) = std::env::args().nth(1) else {
        eprintln!("usage: store_texts FILE");
        return ExitCode::from(2);
    };
    let (mut store, mut r) = (Store::default(), Random::new(9));
    if let Err(err) = examples(&mut store) {
        eprintln!("examples: {err}");
        return ExitCode::from(2);
    }
    let texts = paths(&mut store, &mut r);
    seeds(&mut store, &mut r);
    samples(&mut store, &mut r, &texts);
    actuator_places(&mut store);
    refusals(&mut store, &mut r);
    damaged(&mut store, &mut r);
    if let Err(err) = std::fs::write(&file, &store.bytes) {
        eprintln!("{file}: {err}");
        return ExitCode::from(2);
    }
    for ((kind, number, place), count) in &store.met {
        println!("kind {kind} number {number} place {place}: {count}");
    }
    println!("{} cases, {} wrong answers on purpose, {} bytes, in {file}", store.met.values().sum::<u64>(), store.wrong, store.bytes.len());
    ExitCode::SUCCESS
}
