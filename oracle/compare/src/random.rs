//! Random plans, small and large.

use cells::sets::OperatorSet;

use crate::comparison::{Comparison, Difference};
use crate::generator::random_plan;
use crate::rng::Rng;

/// The most cells of a small plan.
const SMALL: usize = 12;

/// How many plans are drawn.
#[derive(Clone, Copy)]
pub struct Amount {
    /// Plans of up to 12 cells.
    pub small: usize,
    /// Plans of up to `most` cells.
    pub large: usize,
    pub most: usize,
}

/// Compares plans that are drawn under the set `drawn_under`. That is mostly the set that they are compared under.
pub fn compare(
    comparison: &mut Comparison,
    drawn_under: &OperatorSet,
    rng: &mut Rng,
    amount: Amount,
) -> Result<(), Box<Difference>> {
    let Amount { small, large, most } = amount;
    for _ in 0..small {
        let size = 1 + rng.below(SMALL);
        comparison.every_rule(&random_plan(drawn_under, rng, size))?;
    }
    for place in 0..large {
        // Some have exactly as many cells as a call takes.
        let size = if place % 16 == 0 { most } else { SMALL + 1 + rng.below(most - SMALL) };
        comparison.every_rule(&random_plan(drawn_under, rng, size))?;
    }
    Ok(())
}
