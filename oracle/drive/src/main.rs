//! compare [--minutes M] [--seed N] [--only NAME] [--store FILE] [--full]: each function of the port beside the Rust's, bit for bit.

use drive::libraries::{LIBRARIES, Library};
use drive::random::Random;
use drive::shrink::{self, Answers};
use drive::store;
use drive::table::{self, Row};
use drive::texts;
use drive::words::{Entry, Words};
use std::process::ExitCode;
use std::time::{Duration, Instant};

const USAGE: &str = "usage: compare [--minutes M] [--seed N] [--only NAME] [--store FILE] [--full]";

/// How often the table so far goes to standard error.
const PARTIAL: Duration = Duration::from_secs(600);

#[derive(Default)]
struct Options {
    minutes: Option<f64>,
    full: bool,
    seed: u64,
    only: Option<String>,
    store: Option<String>,
}

fn number<T: std::str::FromStr>(text: &str) -> Result<T, String> {
    text.parse().map_err(|_| format!("{text} is no number"))
}

/// Above 0, and no NaN: the run must end.
fn minutes(text: &str) -> Result<f64, String> {
    number(text).and_then(|x: f64| if x > 0.0 { Ok(x) } else { Err(format!("{text} minutes are not above 0")) })
}

fn options() -> Result<Options, String> {
    let mut options = Options { seed: 1, ..Options::default() };
    let mut args = std::env::args().skip(1);
    while let Some(arg) = args.next() {
        let mut value = || args.next().ok_or(format!("{arg} wants a value"));
        match arg.as_str() {
            "--minutes" => options.minutes = Some(minutes(&value()?)?),
            "--full" => options.full = true,
            "--seed" => options.seed = number(&value()?)?,
            "--only" => options.only = Some(value()?),
            "--store" => options.store = Some(value()?),
            _ => return Err(format!("unknown option {arg}")),
        }
    }
    Ok(options)
}

/// The functions asked for, by their own name or their library's.
fn chosen(only: Option<&str>) -> Vec<(&'static Library, &'static Entry)> {
    const ALL: &[Library] = &LIBRARIES;
    let each = ALL.iter().flat_map(|library| library.entries.iter().map(move |entry| (library, entry)));
    each.filter(|(library, entry)| only.is_none_or(|name| entry.name == name || library.name == name)).collect()
}

/// The input's words that are not 0, and the words of both answers that differ.
fn show(entry: &Entry, inputs: &[u64], answers: &Answers) {
    if entry.cuts() {
        return show_texts(inputs, answers);
    }
    let told = |w: Option<&u64>| w.map_or("nothing".to_string(), |w| format!("{w:x} ({:e})", f64::from_bits(*w)));
    println!("{} ({}): the answers differ. The smallest input found has {} words, 0 but for these:", entry.name, entry.number, inputs.len());
    for (k, word) in inputs.iter().enumerate().filter(|(_, word)| **word != 0) {
        println!("  word {k}: {}", told(Some(word)));
    }
    let (Some(ours), Some(rust)) = (&answers.ours, &answers.rust) else {
        println!("  ours panics: {}, the Rust panics: {}", answers.ours.is_none(), answers.rust.is_none());
        return;
    };
    println!("  ours has {} words, the Rust {}", ours.0.len(), rust.0.len());
    let differ: Vec<usize> = (0..ours.0.len().max(rust.0.len())).filter(|k| ours.0.get(*k) != rust.0.get(*k)).collect();
    for k in differ.iter().take(8) {
        println!("  word {k}: ours {}, the Rust {}", told(ours.0.get(*k)), told(rust.0.get(*k)));
    }
    if differ.len() > 8 {
        println!("  and {} words more", differ.len() - 8);
    }
}

/// The same of texts.
fn show_texts(inputs: &[u64], answers: &Answers) {
    let told = |answer: &Option<Words>| answer.as_ref().map_or("a panic".to_string(), texts::answer_shown);
    println!("texts: the answers differ. The smallest one found:\n{}\nours: {}\nthe Rust: {}", texts::shown(inputs), told(&answers.ours), told(&answers.rust));
}

/// One round of a function: a hundredth of a quick run, with inputs of this round's own.
fn round(row: &mut Row, seed: u64) {
    let start = Instant::now();
    let mut random = Random::of_round(seed, row.entry.number, row.rounds);
    for _ in 0..(row.entry.quick / 100).max(1) {
        let mut inputs = Words::default();
        (row.entry.make)(&mut random, &mut inputs);
        row.inputs += 1;
        let Some(answers) = Answers::of(row.entry, &inputs.0) else {
            row.skipped += 1;
            continue;
        };
        if let Some(rust) = &answers.rust {
            row.see(&rust.1);
        }
        row.wrong += u64::from(!answers.agree());
        if row.wrong == 1 && !answers.agree() {
            let (smallest, answers) = shrink::smallest(row.entry, &inputs.0).unwrap_or((inputs.0, answers));
            show(row.entry, &smallest, &answers);
        }
    }
    row.rounds += 1;
    row.seconds += start.elapsed().as_secs_f64();
}

/// The row whose turn it is: the one that has had the least of its share, or the first that has not had its inputs.
fn next<'a>(rows: &'a mut [Row], options: &Options, start: Instant) -> Option<&'a mut Row> {
    let Some(minutes) = options.minutes else {
        return rows.iter_mut().find(|row| row.inputs < if options.full { row.entry.full } else { row.entry.quick });
    };
    if start.elapsed().as_secs_f64() >= 60.0 * minutes {
        return None;
    }
    let had = |row: &Row| row.seconds * row.library.entries.len() as f64 / f64::from(row.library.share);
    rows.iter_mut().min_by(|a, b| had(a).total_cmp(&had(b)))
}

/// Compares until the time or the inputs are over; whether no answer differed.
fn compare(rows: &mut [Row], options: &Options) -> bool {
    let start = Instant::now();
    let mut told = start;
    let args: Vec<String> = std::env::args().skip(1).map(|arg| if arg.contains(' ') { format!("\"{arg}\"") } else { arg }).collect();
    let how = || format!("seed {}, {:.1} minutes: oracle/compare {}", options.seed, start.elapsed().as_secs_f64() / 60.0, args.join(" "));
    while let Some(row) = next(rows, options, start) {
        round(row, options.seed);
        if told.elapsed() >= PARTIAL {
            told = Instant::now();
            eprintln!("so far:\n{}", table::text(rows, &how()));
        }
    }
    print!("{}", table::text(rows, &how()));
    rows.iter().all(|row| row.wrong == 0)
}

fn main() -> ExitCode {
    let options = match options() {
        Ok(options) => options,
        Err(text) => {
            eprintln!("{text}\n{USAGE}");
            return ExitCode::from(2);
        }
    };
    let chosen = chosen(options.only.as_deref());
    if chosen.is_empty() {
        eprintln!("no function of that name");
        return ExitCode::from(2);
    }
    if let Some(path) = &options.store {
        let stored = store::store(&chosen, path, options.seed);
        stored.as_ref().map_or_else(|err| eprintln!("{path}: {err}"), |cases| println!("{cases} cases stored in {path}"));
        return if stored.is_ok() { ExitCode::SUCCESS } else { ExitCode::from(2) };
    }
    let mut rows: Vec<Row> = chosen.iter().map(|(library, entry)| Row::new(library, entry)).collect();
    if compare(&mut rows, &options) { ExitCode::SUCCESS } else { ExitCode::FAILURE }
}
