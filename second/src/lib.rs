//! The independent second program, written from docs/RULES.md and docs/FORMATS.md alone.
//!
//! The first group of modules is the rules of docs/RULES.md, the second the
//! replay script, the third the comparison with another replay program, the
//! fourth histories of a gate.

pub mod bitmap;
pub mod build;
pub mod desk;
pub mod kind;
pub mod layout;
pub mod machine;
pub mod occurrences;
pub mod reading;
pub mod refusal;
pub mod set;
pub mod table;

pub mod replay;
pub mod script;
pub mod words;

pub mod differ;
pub mod generate;
pub mod mutate;
pub mod report;
pub mod rng;
pub mod shrink;
pub mod tally;

pub mod gate;
pub mod histories;
