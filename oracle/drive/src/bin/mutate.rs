//! mutate [--seed N] [--only WORD]: for each deliberate fault of the published files, whether the comparison notices it, by which entry, after how many inputs.
//!
//! A fault is on while the Rust answers, and off while inputs are made. Each entry is tried a little first, then those that reached the fault, or all if none
//! did, four times as far in each round, as far as `oracle/compare` tries them (a twentieth of that where an argument says that it can never show). Exit
//! status 1 if a fault stays unnoticed that has no argument, or one that has an argument is noticed.

use drive::random::Random;
use drive::words::{Entry, Words};
use drive::{courses, edges, plans, runs, samples, shapes, systems};
use quatopsy_plan::faults;
use quatopsy_plan::mutations::{FAULTS, Fault};
use std::panic::{AssertUnwindSafe, catch_unwind};
use std::process::ExitCode;

/// Inputs that an entry is tried with: first, and at most.
fn effort(entry: &Entry) -> (u64, u64) {
    (if entry.quick < 1000 { 8 } else { 200 }, entry.quick)
}

/// Whole plans first answered by the port are kept, since they cost the most: inputs and answer, by the entry's number.
#[derive(Default)]
struct Kept(std::collections::HashMap<(u32, u64), (Words, Words)>);

/// One entry under a fault: how far it was tried, and whether the fault was reached.
struct Course {
    entry: &'static Entry,
    random: Random,
    tried: u64,
    reached: bool,
}

fn case(entry: &Entry, random: &mut Random) -> (Words, Words) {
    let (mut inputs, mut ours) = (Words::default(), Words::default());
    (entry.make)(random, &mut inputs);
    (entry.ours)(&inputs.0, &mut ours);
    (inputs, ours)
}

/// Whether the Rust with this fault answers as the port does; a panic is no answer.
fn same(entry: &Entry, fault: Option<usize>, (inputs, ours): &(Words, Words)) -> bool {
    let mut rust = Words::default();
    faults::set(fault);
    let answered = catch_unwind(AssertUnwindSafe(|| entry.by_rust(&inputs.0, &mut rust)));
    faults::set(None);
    answered.is_ok_and(|counts| !counts || rust.0 == ours.0)
}

impl Course {
    fn new(entry: &'static Entry, seed: u64) -> Self {
        Course { entry, random: Random::new(seed ^ u64::from(entry.number) << 32), tried: 0, reached: false }
    }

    fn next(&mut self, fault: Option<usize>, seed: u64, kept: &mut Kept) -> bool {
        let at = self.tried;
        self.tried += 1;
        let entry = self.entry;
        let same = if entry.quick < 1000 {
            let random = &mut Random::new((seed ^ u64::from(entry.number) << 32).wrapping_add(at << 20));
            same(entry, fault, kept.0.entry((entry.number, at)).or_insert_with(|| case(entry, random)))
        } else {
            same(entry, fault, &case(entry, &mut self.random))
        };
        self.reached |= faults::was_reached();
        same
    }

    /// Tries on to this many inputs; whether a mismatch was seen.
    fn up_to(&mut self, most: u64, fault: Option<usize>, seed: u64, kept: &mut Kept) -> bool {
        while self.tried < most {
            if !self.next(fault, seed, kept) {
                return true;
            }
        }
        false
    }
}

/// Every entry that can reach the published files; whole plans last.
fn entries() -> Vec<&'static Entry> {
    let tables = shapes::SHAPES.iter().chain(&courses::COURSES).chain(&runs::RUNS).chain(&systems::SYSTEMS).chain(&samples::SAMPLES);
    tables.chain(&edges::EDGES).chain(&plans::EARLY).chain(&edges::PLANS_AT_EDGES).chain(&plans::PLANS).collect()
}

/// The entry that notices and after how many inputs, or none; whether the fault was reached at all.
fn noticed(entries: &[&'static Entry], fault: Option<usize>, seed: u64, kept: &mut Kept) -> (Option<(&'static str, u64)>, bool) {
    let mut courses: Vec<Course> = entries.iter().map(|entry| Course::new(entry, seed)).collect();
    for course in &mut courses {
        if course.up_to(effort(course.entry).0, fault, seed, kept) {
            return (Some((course.entry.name, course.tried)), true);
        }
    }
    let Some(number) = fault else { return (None, false) };
    let share = if FAULTS[number].hidden.is_some() { 20 } else { 1 };
    let reached = courses.iter().any(|c| c.reached);
    for round in 1..6 {
        for course in courses.iter_mut().filter(|c| c.reached || !reached) {
            let (first, most) = effort(course.entry);
            if course.up_to((first << (2 * round)).min(most / share), fault, seed, kept) {
                return (Some((course.entry.name, course.tried)), true);
            }
        }
    }
    (None, courses.iter().any(|c| c.reached))
}

/// One line of the table; whether it is as it should be.
fn told(fault: &Fault, found: Option<(&str, u64)>, reached: bool) -> bool {
    let seen = match (found, fault.hidden) {
        (Some((entry, inputs)), None) => format!("{entry}, input {inputs}"),
        (Some((entry, inputs)), Some(_)) => format!("{entry}, input {inputs}, **against its argument**"),
        (None, Some(_)) => "no: it can never show".to_string(),
        (None, None) if reached => "**no**, though reached".to_string(),
        (None, None) => "**no**, never reached".to_string(),
    };
    println!("| {} `{}` | {} | {seen} |", fault.file, fault.function, fault.name);
    found.is_some() != fault.hidden.is_some()
}

fn options() -> Result<(u64, Option<String>), String> {
    let (mut seed, mut only) = (1, None);
    let mut args = std::env::args().skip(1);
    while let Some(arg) = args.next() {
        let value = args.next().ok_or(format!("{arg} wants a value"))?;
        match arg.as_str() {
            "--seed" => seed = value.parse().map_err(|_| "the seed is a number".to_string())?,
            "--only" => only = Some(value),
            _ => return Err(format!("unknown option {arg}\nusage: mutate [--seed N] [--only WORD]")),
        }
    }
    Ok((seed, only))
}

fn main() -> ExitCode {
    let (seed, only) = match options() {
        Ok(options) => options,
        Err(text) => {
            eprintln!("{text}");
            return ExitCode::from(2);
        }
    };
    std::panic::set_hook(Box::new(|_| {}));
    let (entries, mut kept) = (entries(), Kept::default());
    if let (Some((entry, inputs)), _) = noticed(&entries, None, seed, &mut kept) {
        eprintln!("with no fault on, {entry} has a mismatch at input {inputs}");
        return ExitCode::from(2);
    }
    println!("| function | fault | noticed by |\n|---|---|---|");
    let chosen = |fault: &Fault| only.as_ref().is_none_or(|word| format!("{} {} {}", fault.file, fault.function, fault.name).contains(word));
    let (mut count, mut seen, mut right) = (0, 0, true);
    for (number, fault) in FAULTS.iter().enumerate().filter(|(_, fault)| chosen(fault)) {
        let (found, reached) = noticed(&entries, Some(number), seed, &mut kept);
        right &= told(fault, found, reached);
        (count, seen) = (count + 1, seen + u64::from(found.is_some()));
    }
    for fault in FAULTS.iter().filter(|fault| chosen(fault)) {
        let Some(hidden) = fault.hidden else { continue };
        println!("\n`{}`, {}: {hidden}", fault.function, fault.name);
    }
    println!("\n{seen} of {count} faults noticed");
    if right { ExitCode::SUCCESS } else { ExitCode::FAILURE }
}
