//! Kinds 6 and 7.

pub mod sort;
pub mod sort_preserving_merge;
