//! Texts for the comparison: good ones of every family, written otherwise, damaged byte by byte, line by line and word by word, too long ones, random bytes.

use crate::problems::{self, Plan};
use crate::pulses::pulse;
use crate::random::Random;
use crate::texts::{BUFFER, LONGEST, Problem, problem_text};

/// What is asked of a text: its plan, its plan from a caller's seed, a dense sample.
#[derive(Clone, Debug, PartialEq)]
pub enum Asked {
    Plan,
    From(Vec<f64>),
    Sample { requested: usize, alpha: f64, index: usize },
}

impl Asked {
    /// The entry that answers it.
    pub fn entry(&self) -> &'static str {
        match self {
            Asked::Plan => "slew_plan",
            Asked::From(_) => "slew_plan_from",
            Asked::Sample { .. } => "slew_sample",
        }
    }
}

/// A text with what is asked of it, how many numbers are lent and what stands in them, and the room of the buffer for the answer.
#[derive(Clone, Debug)]
pub struct Case {
    pub text: Vec<u8>,
    pub asked: Asked,
    pub lent: usize,
    pub fill: f64,
    pub room: usize,
}

/// The specification's example.
pub const EXAMPLE: &str = concat!(
    "(problem\n",
    " (q0 3FF 0 0 0)\n",
    " (qf 3FF 0 0 0)\n",
    " (inertia 3FF 0 0 0 3FF 0 0 0 3FF)\n",
    " (limit 3FF 3FF 3FF)\n",
    " (slew none)\n",
    " (weights 3FF 0 0 0 0 0)\n",
    " (tolerance 3EB 3EB)\n",
    " (momenta)\n",
    " (actuators))\n",
);

/// Its first eight lines end here.
const HEAD: usize = EXAMPLE.len() - " (momenta)\n (actuators))\n".len();

/// The example with these momenta, as they follow `(momenta`, and these actuators, as they follow `(actuators`.
pub fn example_of(momenta: &str, actuators: &str) -> String {
    format!("{} (momenta{momenta})\n (actuators{actuators}))\n", &EXAMPLE[..HEAD])
}

/// The example with other actuators, and a momentum of 0 a wheel.
pub fn example_with(actuators: &str) -> String {
    example_of(&" 0".repeat(actuators.matches("(wheel").count()), actuators)
}

/// The texts that are damaged at every byte: each form of a line stands in one of them.
pub fn bases() -> [String; 4] {
    [
        EXAMPLE.to_string(),
        EXAMPLE.replace("none", "3FC999999999999A").replace("(qf 3FF 0 0 0)", "(qf 3FE6A09E667F3BCD 0 0 BFE6A09E667F3BCC)"),
        example_of(" 3FE 8", "\n  (wheel 3FF 0 0 3FF 3FF none)\n  (wheel 0 3FF 8 3FF 3FF 401)\n  (thruster 3FF 0 BFF 3FF)\n  (cmg 3FE 3FF 3FF 3F5)"),
        example_with("\n  (thruster 3FF 0 0 3FF)\n  (thruster 0 3FF 0 3FF)\n  (thruster 0 0 3FF 3FF)"),
    ]
}

/// Bytes of the form in wrong places, and bytes near them.
const BYTES: [u8; 30] = *b"\0\t\n\x0B\r ()01789AFGafgx+-.;[_o~\x80\xFF";

/// How many damages a byte has in turn: cut off from here, dropped, doubled, its case turned, another in its place, another before it.
const EACH: usize = 4 + 2 * BYTES.len();

/// Damage k of all that the bases have, in turn; k goes round.
pub fn in_turn(k: u64) -> Vec<u8> {
    let bases = bases();
    let all: usize = bases.iter().map(|base| base.len() * EACH).sum();
    let mut k = (k % all as u64) as usize;
    for base in bases {
        let here = base.len() * EACH;
        if k < here {
            return at_byte(base.as_bytes(), k / EACH, k % EACH);
        }
        k -= here;
    }
    Vec::new()
}

/// How many there are in turn.
pub fn turns() -> u64 {
    bases().iter().map(|base| (base.len() * EACH) as u64).sum()
}

/// One of a byte's damages.
fn at_byte(text: &[u8], at: usize, damage: usize) -> Vec<u8> {
    let mut text = text.to_vec();
    match damage {
        0 => text.truncate(at),
        1 => drop(text.remove(at)),
        2 => text.insert(at, text[at]),
        3 => text[at] ^= 0x20,
        _ if damage < 4 + BYTES.len() => text[at] = BYTES[damage - 4],
        _ => text.insert(at, BYTES[damage - 4 - BYTES.len()]),
    }
    text
}

/// The text of a plan's problem.
pub fn text_of(plan: &Plan) -> Vec<u8> {
    problem_text(&Problem { flat: plan.flat.clone(), body: plan.body, limited: plan.limited }).into_bytes()
}

/// Actuators' lines of any kinds, in any order or in the right one; one momentum a wheel, or another count.
pub fn listed(r: &mut Random) -> Vec<u8> {
    const FORMS: [&str; 4] = ["(wheel 3FF 0 0 3FF 3FF none)", "(wheel 0 3FF 0 3FF 3FF 401)", "(thruster 0 0 3FF 3FF)", "(cmg 3FE 3FF 3FF 3F5)"];
    let mut picked: Vec<usize> = (0..pick(r, 6)).map(|_| pick(r, 4)).collect();
    if r.one_in(2) {
        picked.sort();
    }
    let wheels = picked.iter().filter(|k| **k < 2).count();
    let count = if r.one_in(4) { (wheels + pick(r, 3)).saturating_sub(1) } else { wheels };
    example_of(&" 8".repeat(count), &picked.iter().map(|k| format!("\n  {}", FORMS[*k])).collect::<String>()).into_bytes()
}

/// A place in a list of n.
fn pick(r: &mut Random, n: usize) -> usize {
    r.below(n.max(1) as u64) as usize
}

/// Lines dropped, doubled, exchanged, cut, ended otherwise, moved in.
fn line_damaged(r: &mut Random, text: &[u8]) -> Vec<u8> {
    let mut lines: Vec<Vec<u8>> = text.split_inclusive(|byte| *byte == b'\n').map(<[u8]>::to_vec).collect();
    if lines.is_empty() {
        return b"\n".to_vec();
    }
    let (at, other) = (pick(r, lines.len()), pick(r, lines.len()));
    match r.below(10) {
        0 => drop(lines.remove(at)),
        1 => lines.insert(at, lines[at].clone()),
        2 => lines.swap(at, other),
        3 => lines.insert(at, lines[other].clone()),
        4 => lines.insert(at, b"\n".to_vec()),
        5 => drop(lines[at].pop()),
        6 => lines[at].insert(0, b' '),
        7 => ended(&mut lines[at], b" \n"),
        8 => ended(&mut lines[at], b"\r\n"),
        _ => lines.iter_mut().for_each(|line| ended(line, b"\r\n")),
    }
    lines.concat()
}

/// Another end of a line.
fn ended(line: &mut Vec<u8>, end: &[u8]) {
    if line.last() == Some(&b'\n') {
        line.pop();
    }
    line.extend_from_slice(end);
}

/// A word in place of another: digits dropped, put to it, more than 16, in small letters, none; any float at all.
fn word_damaged(r: &mut Random, text: &[u8]) -> Vec<u8> {
    let mut words: Vec<Vec<u8>> = text.split_inclusive(|byte| *byte == b' ').map(<[u8]>::to_vec).collect();
    let at = pick(r, words.len());
    let Some(word) = words.get_mut(at) else { return b" ".to_vec() };
    let digits = word.iter().take_while(|byte| byte.is_ascii_hexdigit()).count();
    let tail = word.split_off(digits);
    match r.below(10) {
        0 => drop(word.pop()),
        1 => word.push(b'0'),
        2 => word.push(BYTES[pick(r, BYTES.len())]),
        3 => word.resize(16, b'1'),
        4 => word.resize(17, b'1'),
        5 => word.make_ascii_lowercase(),
        6 => *word = crate::texts::float_text(r.hostile()).into_bytes(),
        7 => *word = [&b"0"[..], b"00", b"none", b"NaN", b"1.0", b"-1", b"7FF8", b"FFF", b"8", b"000000000000001"][pick(r, 10)].to_vec(),
        8 => *word = crate::texts::float_text(r.any()).into_bytes(),
        _ => word.insert(0, b'0'),
    }
    word.extend_from_slice(&tail);
    words.concat()
}

/// Blanks and brackets: doubled, turned to tabs, all of them.
fn form_damaged(r: &mut Random, text: &[u8]) -> Vec<u8> {
    let text = String::from_utf8_lossy(text).into_owned();
    let (from, to) = [(" ", "  "), (" ", "\t"), ("\n", "\r\n"), ("\n", ""), ("(", "["), (")", ""), ("))", ")"), (")", "))"), ("0", ""), ("F", "f")][pick(r, 10)];
    if r.one_in(2) { text.replace(from, to) } else { text.replacen(from, to, 1 + pick(r, 8)) }.into_bytes()
}

/// The same problem, written otherwise: blanks before words, digits in either case, zeros behind a float's digits, up to 16; none, a few or all of them.
pub fn loosened(r: &mut Random, text: &[u8]) -> Vec<u8> {
    let often = [2, 8, 64][pick(r, 3)];
    let mut out = Vec::with_capacity(2 * text.len());
    for line in text.split_inclusive(|byte| *byte == b'\n') {
        let indent = line.iter().take_while(|byte| **byte == b' ').count();
        out.extend_from_slice(&line[..indent]);
        line[indent..].split_inclusive(|byte| *byte == b' ').for_each(|word| loosened_word(r, word, often, &mut out));
    }
    out
}

/// A word with the blank behind it, if one stands there: only a float's digits change, and a blank gets others beside it.
fn loosened_word(r: &mut Random, word: &[u8], often: u64, out: &mut Vec<u8>) {
    let digits = word.iter().take_while(|byte| byte.is_ascii_hexdigit()).count();
    let is_float = digits > 0 && !word[digits..].iter().any(u8::is_ascii_alphanumeric);
    for byte in &word[..digits] {
        out.push(if is_float && r.one_in(often) { byte.to_ascii_lowercase() } else { *byte });
    }
    if is_float && r.one_in(often) {
        out.resize(out.len() + pick(r, 17 - digits.min(16)), b'0');
    }
    out.extend_from_slice(&word[digits..]);
    if word.ends_with(b" ") && r.one_in(often) {
        out.resize(out.len() + pick(r, 4), b' ');
    }
}

/// A right form of exactly n bytes, for any n that its lines reach: wheels that no list holds, the last ones with more digits.
pub fn filled(n: usize) -> Vec<u8> {
    const WHEEL: &str = "\n  (wheel 0 0 0 0 0 none)";
    let short = example_with("").len();
    let each = WHEEL.len() + " 0".len();
    let count = n.saturating_sub(short) / each;
    let missing = n.saturating_sub(short + count * each);
    let zeros: String = (0..2).map(|k| format!(" 0{}", "1".repeat(missing.saturating_sub(15 * k).min(15)))).collect();
    let longer = WHEEL.replacen(" 0 0", &zeros, 1);
    let lines = if count == 0 { String::new() } else { WHEEL.repeat(count - 1) + &longer };
    example_with(&lines).into_bytes()
}

/// Near the longest that a text may be: a right form, or one with blanks, line feeds or anything behind.
fn long(r: &mut Random, text: &[u8]) -> Vec<u8> {
    let n = LONGEST - 2 + pick(r, 5);
    match r.below(3) {
        0 => filled(n),
        1 => {
            let mut text = text.to_vec();
            text.resize(n, [b' ', b'\n', 0, b'0'][pick(r, 4)]);
            text
        }
        _ => (0..n + pick(r, 5000)).map(|_| r.word() as u8).collect(),
    }
}

/// Bytes of any kind, or those of the form alone.
fn noise(r: &mut Random) -> Vec<u8> {
    let n = pick(r, 400);
    let any = r.one_in(2);
    (0..n).map(|_| if any { r.word() as u8 } else { EXAMPLE.as_bytes()[pick(r, EXAMPLE.len())] }).collect()
}

/// One damage of any kind.
fn damaged(r: &mut Random, text: &[u8]) -> Vec<u8> {
    match r.below(20) {
        0..=5 if !text.is_empty() => {
            let (at, damage) = (pick(r, text.len()), pick(r, EACH));
            at_byte(text, at, damage)
        }
        0..=9 => line_damaged(r, text),
        10..=14 => word_damaged(r, text),
        15..=17 => form_damaged(r, text),
        18 => long(r, text),
        _ if r.one_in(4) => noise(r),
        _ => [text, &[BYTES[pick(r, BYTES.len())]]].concat(),
    }
}

/// A caller's seed beside a text: of the plan's own, of another count, or of any numbers.
fn seed_numbers(r: &mut Random, plan: &Plan) -> Vec<f64> {
    match &plan.seed {
        Some(seed) => [&[seed.duration][..], &seed.rates, &seed.torques].concat(),
        None => {
            let n = [103, 103, 0, 1, 102, 104, 206][pick(r, 7)];
            (0..n).map(|_| if r.one_in(8) { r.hostile() } else { 0.01 + r.unit() }).collect()
        }
    }
}

fn sample(r: &mut Random) -> Asked {
    let requested = [1, 17, 100, 1_000, 100_000, 100_001, usize::MAX, 0][pick(r, 8)];
    let alpha = if r.one_in(4) { r.hostile() } else { 2.0 * r.unit() };
    let index = match r.below(6) {
        0 => 0,
        1 => requested.saturating_sub(1),
        2 => requested,
        3 => r.word() as usize,
        _ => pick(r, requested.min(100_000)),
    };
    Asked::Sample { requested, alpha, index }
}

/// A plan with a seed is asked for from it in one of two.
fn asked(r: &mut Random, plan: &Plan) -> Asked {
    match r.below(6) {
        0 => Asked::From(seed_numbers(r, plan)),
        1 => sample(r),
        2 | 3 if plan.seed.is_some() => Asked::From(seed_numbers(r, plan)),
        _ => Asked::Plan,
    }
}

/// The buffer for an answer: as long as it must be, one less, or another.
fn room(r: &mut Random, asked: &Asked) -> usize {
    let least = if matches!(asked, Asked::Sample { .. }) { 14 } else { BUFFER };
    match r.below(40) {
        0 => least - 1,
        1 => pick(r, least),
        2 | 3 => least + 1 + pick(r, 100),
        _ => least,
    }
}

fn case(r: &mut Random, text: Vec<u8>, asked: Asked, lent: usize) -> Case {
    let fill = [f64::NAN, 0.0, r.hostile(), 1.0][pick(r, 4)];
    let room = room(r, &asked);
    Case { text, asked, lent, fill, room }
}

/// Fewer numbers than any search needs, so that what is good all the same ends with a 9.
fn little(r: &mut Random) -> usize {
    if r.one_in(2) { 0 } else { pick(r, 100) }
}

/// Damage k in turn.
pub fn turn(r: &mut Random, k: u64) -> Case {
    let lent = little(r);
    Case { room: BUFFER, ..case(r, in_turn(k), Asked::Plan, lent) }
}

/// A good text, damaged up to three times; too little is lent for a run.
pub fn spoilt(r: &mut Random) -> Case {
    let plan = problems::any(r);
    let mut text = if r.one_in(8) { listed(r) } else { text_of(&plan) };
    if r.one_in(2) {
        text = loosened(r, &text);
    }
    for _ in 0..r.below(4) {
        text = damaged(r, &text);
    }
    let (asked, lent) = (asked(r, &plan), little(r));
    case(r, text, asked, lent)
}

/// A good text, damaged in one of eight; enough is lent in most. One in three is a pulse from its seed, which ends early.
pub fn whole(r: &mut Random) -> Case {
    let pulsed = r.one_in(3);
    let plan = if pulsed { pulse(r) } else { problems::any(r) };
    let mut text = text_of(&plan);
    if r.one_in(4) {
        text = loosened(r, &text);
    }
    if r.one_in(8) {
        text = word_damaged(r, &text);
    }
    let asked = if pulsed { Asked::From(seed_numbers(r, &plan)) } else { asked(r, &plan) };
    case(r, text, asked, plan.lent)
}
