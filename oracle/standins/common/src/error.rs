//! Errors. No stand-in makes one; the rules only hand them on.

use std::fmt;

#[derive(Debug)]
pub enum DataFusionError {
    Internal(String),
}

impl fmt::Display for DataFusionError {
    fn fmt(&self, f: &mut fmt::Formatter<'_>) -> fmt::Result {
        let Self::Internal(message) = self;
        write!(f, "internal error: {message}")
    }
}

impl std::error::Error for DataFusionError {}

pub type Result<T, E = DataFusionError> = std::result::Result<T, E>;
