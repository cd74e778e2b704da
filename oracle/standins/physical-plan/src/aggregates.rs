//! Kind 9: an aggregate of each partition. Limits do not pass, it takes no fetch, and it is never known empty.

use std::sync::Arc;

use datafusion_common::Result;

use crate::execution_plan::{ExecutionPlan, PlanProperties, only_child};

/// The hint: how many groups suffice.
#[derive(Clone, Copy, Debug, PartialEq, Eq)]
pub struct LimitOptions {
    limit: usize,
}

impl LimitOptions {
    pub fn new(limit: usize) -> Self {
        Self { limit }
    }

    pub fn limit(&self) -> usize {
        self.limit
    }
}

/// The group key, by its number: two are equal where their numbers are.
#[derive(Clone, Copy, Debug, PartialEq, Eq)]
pub struct PhysicalGroupBy {
    pub number: u32,
}

#[derive(Clone, Debug)]
pub struct AggregateExec {
    input: Arc<dyn ExecutionPlan>,
    group_by: PhysicalGroupBy,
    plain_distinct: bool,
    limit_options: Option<LimitOptions>,
    parameter: u16,
    properties: PlanProperties,
}

impl AggregateExec {
    pub fn new(input: Arc<dyn ExecutionPlan>, group_by: PhysicalGroupBy, plain_distinct: bool, parameter: u16) -> Self {
        let properties = PlanProperties { known_empty: false, ..PlanProperties::of_input(&input) };
        Self { input, group_by, plain_distinct, limit_options: None, parameter, properties }
    }

    pub fn with_new_limit_options(&self, limit_options: Option<LimitOptions>) -> Self {
        Self { limit_options, ..self.clone() }
    }

    pub fn limit_options(&self) -> Option<LimitOptions> {
        self.limit_options
    }

    pub fn group_expr(&self) -> &PhysicalGroupBy {
        &self.group_by
    }

    /// Assumed: this is what the operator set calls plain distinct.
    pub fn is_unordered_unfiltered_group_by_distinct(&self) -> bool {
        self.plain_distinct
    }

    pub fn parameter(&self) -> u16 {
        self.parameter
    }
}

impl ExecutionPlan for AggregateExec {
    fn properties(&self) -> &PlanProperties {
        &self.properties
    }

    fn children(&self) -> Vec<&Arc<dyn ExecutionPlan>> {
        vec![&self.input]
    }

    fn with_new_children(self: Arc<Self>, children: Vec<Arc<dyn ExecutionPlan>>) -> Result<Arc<dyn ExecutionPlan>> {
        let aggregate = Self::new(only_child(children), self.group_by, self.plain_distinct, self.parameter);
        Ok(Arc::new(aggregate.with_new_limit_options(self.limit_options)))
    }
}
