//! What is compared: the libraries, each with its functions and its share of the time of `--minutes`.

use crate::words::Entry;
use crate::{board, canonical, courses, edges, leaves, mosaics, order, planes, plans, region, runs, samples, series, shapes, systems, texts};

pub struct Library {
    pub name: &'static str,
    pub share: u32,
    pub entries: &'static [Entry],
    /// Whether its answers are those of whole plans.
    pub plans: bool,
}

const fn library(name: &'static str, entries: &'static [Entry]) -> Library {
    Library { name, share: 1, entries, plans: false }
}

/// Each has the same share; whole plans have as much as all the others.
pub const LIBRARIES: [Library; 19] = [
    library("floats", &leaves::LEAVES),
    library("angles", &leaves::ANGLES),
    library("series", &series::SERIES),
    library("geometry", &shapes::SHAPES),
    library("profile", &courses::COURSES),
    library("runs", &runs::RUNS),
    library("elimination", &systems::SYSTEMS),
    library("edges", &edges::EDGES),
    Library { name: "whole plans", share: 13, entries: &plans::PLANS, plans: true },
    Library { name: "plans at edges", share: 2, entries: &edges::PLANS_AT_EDGES, plans: true },
    Library { name: "early ends", share: 1, entries: &plans::EARLY, plans: true },
    library("mosaics", &mosaics::MOSAICS),
    library("dense samples", &samples::SAMPLES),
    library("drive board", &board::BOARD),
    library("texts", &texts::TEXTS),
    library("canonical texts", &canonical::CANONICAL),
    library("byte planes", &planes::PLANES),
    library("orders", &order::ORDERS),
    library("drive against draught", &region::REGION),
];
