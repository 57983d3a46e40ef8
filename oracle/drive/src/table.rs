//! The table of a comparison: a row for each function, with the refusals and branches that were met.

use crate::libraries::Library;
use crate::plans::REACHED;
use crate::words::{Entry, Seen};
use std::collections::BTreeMap;
use std::fmt::Write as _;

/// Places above this one are counted together.
const PLACES: u64 = 20;

/// What was compared of one function.
pub struct Row {
    pub library: &'static Library,
    pub entry: &'static Entry,
    pub rounds: u64,
    pub inputs: u64,
    /// Inputs for which the Rust has no answer.
    pub skipped: u64,
    pub wrong: u64,
    pub seconds: f64,
    refusals: BTreeMap<(u64, u64), u64>,
    branches: Vec<(&'static str, u64)>,
}

impl Row {
    pub fn new(library: &'static Library, entry: &'static Entry) -> Self {
        Row { library, entry, rounds: 0, inputs: 0, skipped: 0, wrong: 0, seconds: 0.0, refusals: BTreeMap::new(), branches: Vec::new() }
    }

    /// Counts what was seen of an answer.
    pub fn see(&mut self, seen: &Seen) {
        if let Some((number, place)) = seen.refusal {
            *self.refusals.entry((number, place.min(PLACES + 1))).or_default() += 1;
        }
        for (branch, times) in &seen.branches {
            match self.branches.iter_mut().find(|(name, _)| name == branch) {
                Some((_, count)) => *count += times,
                None => self.branches.push((branch, *times)),
            }
        }
    }

    fn lines(&self, text: &mut String) {
        let Row { inputs, skipped, wrong, seconds, .. } = self;
        writeln!(text, "{:28} {inputs:>12} {skipped:>10} {wrong:>10} {seconds:>9.1}", self.entry.name).expect("a string");
        if !self.refusals.is_empty() {
            let told: Vec<String> = self.refusals.iter().map(|((number, place), count)| format!("{}: {count}", named(*number, *place))).collect();
            writeln!(text, "    {}", told.join(", ")).expect("a string");
        }
        if !self.branches.is_empty() {
            let told: Vec<String> = self.branches.iter().map(|(name, count)| format!("{name} {count}")).collect();
            writeln!(text, "    {}", told.join(", ")).expect("a string");
        }
    }
}

/// A refusal by its number and place; 0 is an answer.
fn named(number: u64, place: u64) -> String {
    match (number, place) {
        (0, _) => "given".to_string(),
        (_, place) if place > PLACES => format!("{number}:above {PLACES}"),
        _ => format!("{number}:{place}"),
    }
}

/// Refusals of a whole plan that none of the rows met. A row alone is not asked for them all.
fn not_met(rows: &[Row]) -> Vec<String> {
    let plans: Vec<&Row> = rows.iter().filter(|row| row.library.plans).collect();
    let each = REACHED.iter().flat_map(|(number, first, last)| (*first..=*last).map(|place| (*number, place)));
    let missing = each.filter(|key| plans.iter().all(|row| !row.refusals.contains_key(key)));
    if plans.len() < 2 { Vec::new() } else { missing.map(|(number, place)| named(number, place)).collect() }
}

/// All rows, the totals, and how the table was made.
pub fn text(rows: &[Row], how: &str) -> String {
    let mut text = format!("{:28} {:>12} {:>10} {:>10} {:>9}\n", "function", "inputs", "skipped", "mismatches", "seconds");
    text.push_str("    number:place of the refusals met, branches met\n");
    rows.iter().filter(|row| row.inputs > 0).for_each(|row| row.lines(&mut text));
    let sum = |of: fn(&Row) -> u64| rows.iter().map(of).sum::<u64>();
    let (inputs, skipped, wrong) = (sum(|row| row.inputs), sum(|row| row.skipped), sum(|row| row.wrong));
    let seconds: f64 = rows.iter().map(|row| row.seconds).sum();
    writeln!(text, "{:28} {inputs:>12} {skipped:>10} {wrong:>10} {seconds:>9.1}", "total").expect("a string");
    let missing = not_met(rows);
    if !missing.is_empty() {
        writeln!(text, "refusals of whole plans not met: {}", missing.join(", ")).expect("a string");
    }
    writeln!(text, "{how}").expect("a string");
    text
}
