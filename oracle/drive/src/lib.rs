//! The comparison of the port with the published Rust: inputs, both answers, counts.

pub mod ffi;
pub mod random;
pub mod recipes;
pub mod words;

pub mod board;
pub mod canonical;
pub mod courses;
pub mod damage;
pub mod edges;
pub mod eigenaxis;
pub mod leaves;
pub mod libraries;
pub mod maps;
pub mod means;
pub mod mosaics;
pub mod planes;
pub mod order;
pub mod plans;
pub mod problems;
pub mod pulses;
pub mod region;
pub mod runs;
pub mod samples;
pub mod series;
pub mod shapes;
pub mod shrink;
pub mod store;
pub mod systems;
pub mod table;
pub mod texts;
