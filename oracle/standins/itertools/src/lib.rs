//! Stand-in for the one call that the rule about aggregates makes of `itertools`.

/// There was not exactly one item.
#[derive(Debug)]
pub struct ExactlyOneError;

pub trait Itertools: Iterator {
    /// The only item.
    fn exactly_one(mut self) -> Result<Self::Item, ExactlyOneError>
    where
        Self: Sized,
    {
        match (self.next(), self.next()) {
            (Some(only), None) => Ok(only),
            _ => Err(ExactlyOneError),
        }
    }
}

impl<I: Iterator> Itertools for I {}
