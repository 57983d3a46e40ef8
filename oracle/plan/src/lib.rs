//! The published planner's parts that are ported, as published, with doors to what is private there.
#![allow(dead_code, unused_imports, clippy::all)]
#![cfg_attr(feature = "faults", allow(unused_parens))]

include!(concat!(env!("OUT_DIR"), "/root.rs"));

#[cfg(feature = "faults")]
pub mod faults;
#[cfg(feature = "faults")]
pub mod mutations;
pub mod law;
pub mod probe;
pub mod starts;
pub mod tally;
