//! Jobs, the oracle's answers to them, and comparisons with the port.

pub mod comparison;
pub mod generator;
pub mod guarded;
pub mod layer_inputs;
pub mod leaf_inputs;
pub mod lent;
pub mod noticed;
pub mod recorded;
pub mod refusals;
pub mod rng;
pub mod tables;
pub mod tally;
pub mod worked;
