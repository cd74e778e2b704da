//! Stand-in for what the three rules use of `datafusion-common`.

pub mod config;
pub mod error;
pub mod stats;
pub mod tree_node;
pub mod utils;

pub use error::{DataFusionError, Result};

/// A constant in a window's frame. The rules tell apart only whether it is an unsigned number that is there.
#[derive(Clone, Debug, PartialEq)]
pub enum ScalarValue {
    Null,
    Int64(Option<i64>),
    UInt64(Option<u64>),
}
