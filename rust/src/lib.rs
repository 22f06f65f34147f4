//! Goosedawn seen from Rust.
//!
//! * [`contract`]: the tables of a contract and of an output type by itself, as they are handed in.
//! * [`engine`]: the five operations, the comparing of two documents, the merging of two output types and the examining of
//!   lists of kinds as a trait, and their answers. The seam at which an implementation is plugged in.
//! * [`model`]: an independent, plain implementation of these.
//! * [`library`]: the proved library, called through its C functions.
//! * [`script`]: scripts of questions, played on any engine.
//! * [`generator`]: random contracts, documents, rows, pairs of buffers, pairs of output types and lists of kinds, valid and
//!   damaged, from a seed.
//! * [`counters`]: contracts that count, with as many kinds as wanted, or with all of them at one slot.
//! * [`stays`]: contracts with stay rules, which take many rounds or are written without them too.
//! * [`trees`]: all trees up to a height, and the heights of those that rows stand for.
//! * [`comparison`]: two engines asked the same random questions.
//! * [`timing`]: how long two engines take for the same question.

pub mod comparison;
pub mod contract;
pub mod counters;
pub mod engine;
pub mod generator;
pub mod library;
pub mod model;
pub mod script;
pub mod stays;
pub mod timing;
pub mod trees;
