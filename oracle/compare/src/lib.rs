//! Compares the original rules with the proved library: for every call the answer and every byte of the output are known, from
//! the model where it is refused, and from the originals where it is granted.

pub mod comparison;
pub mod damage;
pub mod exhaustive;
pub mod generator;
#[cfg(feature = "driver")]
pub mod other_sets;
pub mod random;
pub mod record;
pub mod rng;
pub mod runs;

pub use comparison::{Comparison, Difference, Tally};
