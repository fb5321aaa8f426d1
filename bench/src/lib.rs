//! The trigger core once more, in plain Rust and without proofs: something to compare the proved library with, call by
//! call, and to measure it against.

pub mod book;
//pub mod cases;
pub mod condition;
//pub mod generate;
pub mod kinds;
mod making;
pub mod market;
#[cfg(feature = "proved")]
pub mod proved;
pub mod records;
//pub mod tally;
pub mod values;
pub mod wire;

#[cfg(test)]
mod tests {}

pub use wire::{Run, run};
