//! The specification's text, read and written apart from the port; and the comparison of the entries over texts with that reader, the published Rust and that writer.

use crate::damage::{self, Asked, Case};
use crate::ffi::{slew_plan, slew_plan_from, slew_sample};
use crate::maps::Flat;
use crate::plans::{self, Found, Plan, Seed};
use crate::samples::{Track, rows};
use crate::words::{Entry, Reader, Words, bits};
use quatopsy_plan::probe::{Given, GivenThruster, GivenWheel};
use quatopsy_plan::tally::Tally;
use std::sync::atomic::{AtomicU64, Ordering};

/// The most bytes that a text may have.
pub const LONGEST: usize = 4_096;

/// The fewest bytes of a buffer that an answer is written to.
pub const BUFFER: usize = 16_384;

/// A problem as a text tells it: actuators, then the body's numbers in the text's order, the wheels' start momenta last, and whether the slew is limited.
#[derive(Clone)]
pub struct Problem {
    pub flat: Flat,
    pub body: [f64; 37],
    pub limited: bool,
}

/// The lines after `(problem`, each with how many floats it has; the body's numbers stand in this order. Then comes the line of the start momenta, one a wheel.
const FIELDS: [(&str, usize); 7] = [("q0", 4), ("qf", 4), ("inertia", 9), ("limit", 3), ("slew", 1), ("weights", 6), ("tolerance", 2)];

// ---- the reader

/// The words of a line `HEAD word .. wordTAIL`: one blank or more before each, none behind the last.
fn words_of<'a>(line: &'a [u8], head: &str, tail: &str) -> Option<Vec<&'a [u8]>> {
    let inner = line.strip_prefix(head.as_bytes())?.strip_suffix(tail.as_bytes())?.strip_prefix(b" ")?;
    if inner.ends_with(b" ") || inner.is_empty() {
        return None;
    }
    Some(inner.split(|byte| *byte == b' ').filter(|word| !word.is_empty()).collect())
}

/// 1 to 16 digits in either case; those that are not written are zeros.
fn float(word: &[u8]) -> Option<f64> {
    if word.is_empty() || word.len() > 16 {
        return None;
    }
    let mut pattern = 0u64;
    for (k, digit) in word.iter().enumerate() {
        let value = char::from(*digit).to_digit(16)?;
        pattern |= u64::from(value) << (60 - 4 * k);
    }
    Some(f64::from_bits(pattern))
}

/// Exactly n floats.
fn floats(words: &[&[u8]], n: usize) -> Option<Vec<f64>> {
    if words.len() == n { words.iter().map(|word| float(word)).collect() } else { None }
}

/// A float, or `none`.
fn optional(word: &[u8]) -> Option<Option<f64>> {
    if word == b"none" { Some(None) } else { float(word).map(Some) }
}

/// A line of the body: its numbers, and whether it has any (only a slew may say `none`, which stands as a zero).
fn field(line: &[u8], name: &str, count: usize) -> Option<(Vec<f64>, bool)> {
    let words = words_of(line, &format!(" ({name}"), ")\n")?;
    if name == "slew" && words == [b"none"] {
        return Some((vec![0.0], false));
    }
    Some((floats(&words, count)?, true))
}

/// The line of the start momenta: any number of floats.
fn momenta(line: &[u8]) -> Option<Vec<f64>> {
    if line == b" (momenta)\n" {
        return Some(Vec::new());
    }
    words_of(line, " (momenta", ")\n")?.iter().map(|word| float(word)).collect()
}

/// An actuator's line, put to the others; whether it is the last.
fn actuator(line: &[u8], given: &mut Given) -> Option<bool> {
    let (line, last) = match line.strip_suffix(b")))\n") {
        Some(rest) => (rest, true),
        None => (line.strip_suffix(b")\n")?, false),
    };
    let later = !given.thrusters.is_empty() || given.cmgs.is_some();
    if let Some(words) = words_of(line, "  (wheel", "").filter(|_| !later) {
        let (power, numbers) = words.split_last()?;
        let v = floats(numbers, 5)?;
        given.wheels.push(GivenWheel([v[0], v[1], v[2]], v[3], v[4], optional(power)?));
    } else if let Some(words) = words_of(line, "  (thruster", "").filter(|_| given.cmgs.is_none()) {
        let v = floats(&words, 4)?;
        given.thrusters.push(GivenThruster([v[0], v[1], v[2]], v[3]));
    } else {
        let v = floats(&words_of(line, "  (cmg", "").filter(|_| given.cmgs.is_none())?, 4)?;
        given.cmgs = Some([v[0], v[1], v[2], v[3]]);
    }
    Some(last)
}

/// The problem that a text tells, or the place of refusal 21: the first line that is wrong or missing, from 1, and 0 of a text that is too long.
pub fn read(text: &[u8]) -> Result<Problem, u64> {
    if text.len() > LONGEST {
        return Err(0);
    }
    let mut number = 0;
    let mut lines = text.split_inclusive(|byte| *byte == b'\n');
    let mut next = || {
        number += 1;
        (lines.next().unwrap_or_default(), number)
    };
    let (line, at) = next();
    (line == b"(problem\n").then_some(()).ok_or(at)?;
    let (mut body, mut limited) = (Vec::new(), false);
    for (name, count) in FIELDS {
        let (line, at) = next();
        let (numbers, told) = field(line, name, count).ok_or(at)?;
        limited |= name == "slew" && told;
        body.extend(numbers);
    }
    let (line, at) = next();
    let starts = momenta(line).ok_or(at)?;
    body.extend((0..8).map(|k| starts.get(k).copied().unwrap_or(0.0)));
    let (line, at) = next();
    let mut given = Given::default();
    let mut last = line == b" (actuators))\n";
    if !last && line != b" (actuators\n" {
        return Err(at);
    }
    while !last {
        let (line, at) = next();
        last = actuator(line, &mut given).ok_or(at)?;
    }
    let (line, at) = next();
    if !line.is_empty() {
        return Err(at);
    }
    // the count is judged last
    if starts.len() != given.wheels.len() {
        return Err(9);
    }
    Ok(Problem { flat: Flat::of(&given), body: body.try_into().expect("37 numbers"), limited })
}

// ---- the writer

/// A float: its bits, top digit first, trailing zeros dropped but one digit kept.
pub fn float_text(x: f64) -> String {
    let digits = format!("{:016X}", bits(x));
    let kept = digits.trim_end_matches('0');
    if kept.is_empty() { "0".to_string() } else { kept.to_string() }
}

fn floats_text(v: &[f64]) -> String {
    v.iter().map(|x| float_text(*x)).collect::<Vec<String>>().join(" ")
}

fn optional_text(x: Option<f64>) -> String {
    x.map_or("none".to_string(), float_text)
}

/// A bracket of forms, a line each.
fn bracket(name: &str, forms: &[String]) -> String {
    format!("({name}\n {})\n", forms.join("\n "))
}

/// A problem's text. Of a list that is too long every actuator is written.
pub fn problem_text(p: &Problem) -> String {
    let mut forms = Vec::new();
    let mut rest = &p.body[..];
    for (name, count) in FIELDS {
        let (numbers, after) = rest.split_at(count);
        rest = after;
        let values = if name == "slew" && !p.limited { optional_text(None) } else { floats_text(numbers) };
        forms.push(format!("({name} {values})"));
    }
    let given = p.flat.given();
    let starts: String = (0..given.wheels.len()).map(|k| format!(" {}", float_text(rest.get(k).copied().unwrap_or(0.0)))).collect();
    forms.push(format!("(momenta{starts})"));
    let wheels = given.wheels.iter().map(|w| format!("(wheel {} {} {})", floats_text(&w.0), floats_text(&[w.1, w.2]), optional_text(w.3)));
    let thrusters = given.thrusters.iter().map(|t| format!("(thruster {} {})", floats_text(&t.0), float_text(t.1)));
    let cmgs = given.cmgs.iter().map(|c| format!("(cmg {})", floats_text(c)));
    let actuators: String = wheels.chain(thrusters).chain(cmgs).map(|form| format!("\n  {form}")).collect();
    forms.push(format!("(actuators{actuators})"));
    bracket("problem", &forms)
}

/// What is printed of an answer.
pub fn answer_text(found: &Found) -> String {
    let runs = found.tally.runs;
    let Some((nodes, decision)) = &found.path else {
        return bracket("refused", &[format!("(number {})", found.number), format!("(place {})", found.place), format!("(runs {runs})")]);
    };
    let mut forms = vec![format!("(runs {runs})"), format!("(iterations {})", nodes.iterations), format!("(duration {})", float_text(nodes.duration))];
    forms.extend(decision[1..].chunks(found.controls).map(|row| format!("(row {})", floats_text(row))));
    for k in 0..17 {
        let parts = [&[nodes.times[k]][..], &nodes.quats[k], &nodes.omegas[k], &nodes.torques[k], &nodes.momenta[k], &nodes.wheels[k]];
        forms.push(format!("(node {})", floats_text(&parts.concat())));
    }
    bracket("path", &forms)
}

// ---- the published Rust's answer

/// A text's plan by the published Rust, in so many numbers lent: its own seed or a caller's, of which another count than 1 + 51 + 51 has no nodes. With the
/// problem, where the text tells one.
pub fn found(text: &[u8], seed: Option<&[f64]>, lent: usize) -> (Found, Option<Problem>) {
    let problem = match read(text) {
        Ok(problem) => problem,
        Err(line) => return (plans::refused(21, line, Tally::default()), None),
    };
    let seed = seed.map(|v| match v.len() {
        103 => Seed { duration: v[0], rates: v[1..52].to_vec(), torques: v[52..].to_vec() },
        _ => Seed { duration: 0.0, rates: Vec::new(), torques: Vec::new() },
    });
    let plan = Plan { flat: problem.flat.clone(), body: problem.body, limited: problem.limited, seed, lent, fill: 0.0 };
    (plans::by_rust(&plan, false), Some(problem))
}

/// What `slew_sample` answers: the refusal's number with its place and runs, or 0 with a sample.
pub fn sampled(text: &[u8], lent: usize, requested: usize, alpha: f64, index: usize) -> (u64, Vec<f64>, u64) {
    let (found, problem) = found(text, None, lent);
    let (Some((nodes, _)), Some(problem)) = (&found.path, problem) else {
        return (found.number, vec![found.place as f64, found.tally.runs as f64], found.tally.runs);
    };
    let mut inertia = [0.0; 9];
    inertia.copy_from_slice(&problem.body[8..17]);
    let track = Track { inertia, tolerance: problem.body[27], duration: nodes.duration, nodes: rows(nodes), requested, alpha };
    let mut o = Words::default();
    track.rust(index, &mut o);
    let numbers = if o.0[0] == 0 { o.0[2..].iter().map(|word| f64::from_bits(*word)).collect() } else { vec![o.0[1] as f64, 0.0] };
    (o.0[0], numbers, found.tally.runs)
}

// ---- the comparison

/// What stands in a buffer before a call.
const MARK: u8 = 0xA5;

/// More than any case lends.
const MOST: usize = 1 << 20;

impl Case {
    /// The head (asked, lent, fill, room, how many words of a seed or sample, those words), then the text to the end, a byte a word.
    pub fn put(&self, w: &mut Words) {
        let (kind, words) = match &self.asked {
            Asked::Plan => (0, Vec::new()),
            Asked::From(seed) => (1, seed.iter().map(|x| bits(*x)).collect()),
            Asked::Sample { requested, alpha, index } => (2, vec![*requested as u64, bits(*alpha), *index as u64]),
        };
        [kind, self.lent as u64, bits(self.fill), self.room as u64, words.len() as u64].iter().chain(&words).for_each(|n| w.n(*n));
        self.text.iter().for_each(|byte| w.n(u64::from(*byte)));
    }

    /// Sizes are held to what can be lent, since a search for a smaller case takes words out anywhere.
    pub fn take(r: &mut Reader<'_>) -> Self {
        let size = |r: &mut Reader<'_>| (r.n() as usize).min(MOST);
        let (kind, lent, fill, room, count) = (r.n(), size(r), r.f(), size(r), size(r));
        let words: Vec<u64> = (0..count).map(|_| r.n()).collect();
        let asked = match (kind, &words[..]) {
            (2, [requested, alpha, index]) => Asked::Sample { requested: *requested as usize, alpha: f64::from_bits(*alpha), index: *index as usize },
            (1, _) => Asked::From(words.iter().map(|word| f64::from_bits(*word)).collect()),
            _ => Asked::Plan,
        };
        Case { text: r.0.iter().map(|word| *word as u8).collect(), asked, lent, fill, room }
    }
}

/// Bytes as a person reads them, those that do not print by their numbers.
fn readable(bytes: &[u8]) -> String {
    bytes.escape_ascii().to_string().replace("\\n", "\\n\n")
}

/// A case as a person reads it.
pub fn shown(i: &[u64]) -> String {
    let Case { text, asked, lent, fill, room } = Case::take(&mut Reader(i));
    format!("{asked:?}, {lent} numbers lent that are {fill:e}, room for {room}, a text of {} bytes:\n{}", text.len(), readable(&text))
}

/// Its answer, by the words of `After`.
pub fn answer_shown(words: &Words) -> String {
    let [answer, count, rest @ ..] = &words.0[..] else { return "nothing".to_string() };
    let (written, after) = rest.split_at(*count as usize);
    let text = if written.iter().all(|word| *word < 256) { readable(&written.iter().map(|word| *word as u8).collect::<Vec<u8>>()) } else { format!("{written:x?}") };
    format!("{answer}, {count} written, then {after:x?}:\n{text}")
}

/// What is left of a lent workspace: the one pattern that all its numbers have.
fn left(ws: &[f64], fill: f64) -> Option<u64> {
    let first = ws.first().map_or(bits(fill), |x| bits(*x));
    ws.iter().all(|x| bits(*x) == first).then_some(first)
}

/// What a call leaves: its answer, the bytes or numbers written, whether the rest of the buffer is as it was, the workspace.
struct After {
    answer: u64,
    written: Vec<u64>,
    untouched: bool,
    left: Option<u64>,
}

impl After {
    fn put(&self, o: &mut Words) {
        o.n(self.answer);
        o.n(self.written.len() as u64);
        o.0.extend(&self.written);
        o.n(u64::from(self.untouched));
        o.n(u64::from(self.left.is_some()));
        o.n(self.left.unwrap_or(0));
    }
}

fn sample_by_port(case: &Case, requested: usize, alpha: f64, index: usize) -> After {
    let mark = f64::from_bits(u64::from_le_bytes([MARK; 8]));
    let (mut ws, mut out) = (vec![case.fill; case.lent], vec![mark; case.room]);
    let answer = slew_sample(&case.text, &mut ws, requested, alpha, index, &mut out);
    let count = match answer {
        0 => 14,
        99 => 0,
        _ => 2,
    };
    let (written, rest) = out.split_at(count.min(case.room));
    let untouched = rest.iter().all(|x| x.to_bits() == mark.to_bits());
    After { answer, written: written.iter().map(|x| bits(*x)).collect(), untouched, left: left(&ws, case.fill) }
}

fn plan_by_port(case: &Case) -> After {
    let (mut ws, mut out) = (vec![case.fill; case.lent], vec![MARK; case.room]);
    let count = match &case.asked {
        Asked::From(seed) => slew_plan_from(&case.text, seed, &mut ws, &mut out),
        _ => slew_plan(&case.text, &mut ws, &mut out),
    };
    let (written, rest) = out.split_at(count.min(case.room));
    let untouched = rest.iter().all(|byte| *byte == MARK);
    After { answer: count as u64, written: written.iter().map(|byte| u64::from(*byte)).collect(), untouched, left: left(&ws, case.fill) }
}

fn by_port(i: &[u64], o: &mut Words) {
    let case = Case::take(&mut Reader(i));
    match case.asked {
        Asked::Sample { requested, alpha, index } => sample_by_port(&case, requested, alpha, index).put(o),
        _ => plan_by_port(&case).put(o),
    }
}

/// What is due where the buffer has room: the answer, what is written, the runs begun; with the refusal's number and place.
type Due = (u64, Vec<u64>, u64, (u64, u64));

fn sample_due(case: &Case, requested: usize, alpha: f64, index: usize) -> Due {
    let (number, numbers, runs) = sampled(&case.text, case.lent, requested, alpha, index);
    let place = if number == 0 { 0 } else { numbers[0] as u64 };
    (number, numbers.iter().map(|x| bits(*x)).collect(), runs, (number, place))
}

fn plan_due(case: &Case) -> Due {
    let seed = if let Asked::From(seed) = &case.asked { Some(&seed[..]) } else { None };
    let (found, _) = found(&case.text, seed, case.lent);
    let written: Vec<u64> = answer_text(&found).bytes().map(u64::from).collect();
    (written.len() as u64, written, found.tally.runs, (found.number, found.place))
}

/// A buffer that is too short gets nothing, and no run begins: it counts as 99.
fn by_rust(i: &[u64], o: &mut Words) -> bool {
    let case = Case::take(&mut Reader(i));
    let (answer, written, runs, refusal) = match case.asked {
        Asked::Sample { .. } if case.room < 14 => (99, Vec::new(), 0, (99, 0)),
        Asked::Sample { requested, alpha, index } => sample_due(&case, requested, alpha, index),
        _ if case.room < BUFFER => (0, Vec::new(), 0, (99, 0)),
        _ => plan_due(&case),
    };
    let left = Some(if runs == 0 { bits(case.fill) } else { 0 });
    After { answer, written, untouched: true, left }.put(o);
    o.1.refusal = Some(refusal);
    o.met(case.asked.entry(), 1);
    true
}

/// Damages in turn, so that none is left out.
static TURN: AtomicU64 = AtomicU64::new(0);

/// Each byte of a few texts damaged in turn; good texts damaged in every way; whole plans. In the first two too little is lent for a run.
pub const TEXTS: [Entry; 3] = [
    Entry::new(400, "texts, every byte", [60_000, 120_000, 0], |r, w| damage::turn(r, TURN.fetch_add(1, Ordering::Relaxed)).put(w), by_port, by_rust),
    Entry::new(401, "texts, spoilt", [60_000, 1_000_000, 0], |r, w| damage::spoilt(r).put(w), by_port, by_rust),
    Entry::new(402, "texts, whole plans", [300, 10_000, 0], |r, w| damage::whole(r).put(w), by_port, by_rust),
];
