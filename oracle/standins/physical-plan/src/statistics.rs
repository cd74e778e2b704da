//! Row counts. An exact count is known of a node that is known empty, and of no other.

use datafusion_common::Result;
use datafusion_common::stats::{Precision, Statistics};

use crate::execution_plan::ExecutionPlan;

#[derive(Debug, Default)]
pub struct StatisticsArgs;

impl StatisticsArgs {
    pub fn new() -> Self {
        Self
    }
}

#[derive(Debug, Default)]
pub struct StatisticsContext;

impl StatisticsContext {
    pub fn new() -> Self {
        Self
    }

    pub fn compute(&self, plan: &dyn ExecutionPlan, _args: &StatisticsArgs) -> Result<Statistics> {
        let known_empty = plan.properties().known_empty;
        let num_rows = if known_empty { Precision::Exact(0) } else { Precision::Absent };
        Ok(Statistics { num_rows })
    }
}
