//! Runs: what a granted call left goes into the next call.

use cells::Rule;
use cells::records::{RECORD, pack};

use crate::comparison::{Comparison, Difference};
use crate::generator::random_plan;
use crate::rng::Rng;

/// The most calls of a run.
const CALLS: usize = 8;

/// Compares `runs` runs on plans of up to `most` cells. Answers how many calls got what an earlier call had left.
pub fn compare(comparison: &mut Comparison, rng: &mut Rng, runs: usize, most: usize) -> Result<u64, Box<Difference>> {
    let mut on_results = 0;
    for run in 0..runs {
        let most = if run % 50 == 0 { most } else { 20 };
        let size = 1 + rng.below(most);
        let mut plan = pack(&random_plan(comparison.set(), rng, size)).expect("the plan can be packed");
        let mut granted = 0;
        for _ in 0..1 + rng.below(CALLS) {
            let rule = rng.pick(&Rule::ALL);
            on_results += u64::from(granted > 0);
            if let Some(left) = comparison.bytes(rule, &plan, room(rng, plan.len()))? {
                plan = pack(&left).expect("what was granted can be packed");
                granted += 1;
            }
        }
    }
    Ok(on_results)
}

/// Enough room, mostly.
fn room(rng: &mut Rng, plan_len: usize) -> usize {
    let asked = plan_len * 2;
    match rng.below(12) {
        0 => asked.saturating_sub(1),
        1 => asked + rng.below(5 * RECORD),
        _ => asked,
    }
}
