//! store_region FOLDER: the region as the program slew_region prints it, and the letters that the test program region_cases writes, both by the comparison's minimax.

use drive::region::{ANGLES, NONE, RATES, outcome, region, reply};
use std::fmt::Write as _;

const STARTS: [(i64, i64); 11] = [(64, 0), (-64, 0), (36, 8), (5, 0), (0, 3), (10, -3), (0, 0), (4, -2), (64, 8), (65, 0), (0, -9)];

const REPLIES: [(i64, i64, u64, i64); 14] = [
    (64, 0, 16, -2),
    (64, 0, 17, -2),
    (64, 0, 17, -1),
    (64, 8, 64, -2),
    (64, 8, 64, 2),
    (0, 0, 5, 0),
    (10, -3, 3, 1),
    (10, -3, 4, -2),
    (0, 0, 0, 0),
    (5, 0, 65, 0),
    (5, 0, 1, 3),
    (-64, 0, 16, 2),
    (36, 8, 24, -2),
    (20, 3, 5, 0),
];

/// The first choice as 0 to 4, H home, X held off, O outside.
fn start_letter(angle: i64, rate: i64) -> char {
    match outcome(angle, rate) {
        None => 'O',
        Some((0, _)) => 'H',
        Some((NONE, _)) => 'X',
        Some((_, choice)) => char::from(b'0' + (choice as i64 + 2) as u8),
    }
}

/// The reply as a to c, - none, O outside.
fn reply_letter((angle, rate, left, choice): (i64, i64, u64, i64)) -> char {
    match reply(angle, rate, left, choice) {
        None => 'O',
        Some(NONE) => '-',
        Some(reply) => char::from(b'a' + (reply as i64 + 1) as u8),
    }
}

fn region_text() -> String {
    let mut text = "(region".to_string();
    for (angle, turns) in ANGLES.zip(region().chunks(RATES.count())) {
        write!(text, "\n (angle {angle}").expect("a string");
        turns.iter().for_each(|n| write!(text, " {n}").expect("a string"));
        text.push(')');
    }
    text + ")\n"
}

fn main() {
    let folder = std::env::args().nth(1).expect("usage: store_region FOLDER, the folder of the crates");
    let letters: String = STARTS.iter().map(|(a, r)| start_letter(*a, *r)).chain(['\n']).chain(REPLIES.map(reply_letter)).chain(['\n']).collect();
    for (name, text) in [("slew_region", region_text()), ("region_cases", letters)] {
        std::fs::write(format!("{folder}/{name}/stdout"), text).unwrap_or_else(|err| panic!("{name}: {err}"));
    }
}
