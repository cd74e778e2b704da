//! Kind 4: makes each row from the row at its place. Limits pass.

use std::sync::Arc;

use datafusion_common::Result;

use crate::execution_plan::{CardinalityEffect, ExecutionPlan, PlanProperties, only_child};

#[derive(Debug)]
pub struct ProjectionExec {
    input: Arc<dyn ExecutionPlan>,
    parameter: u16,
    properties: PlanProperties,
}

impl ProjectionExec {
    pub fn new(input: Arc<dyn ExecutionPlan>, parameter: u16) -> Self {
        let properties = PlanProperties::of_input(&input);
        Self { input, parameter, properties }
    }

    pub fn input(&self) -> &Arc<dyn ExecutionPlan> {
        &self.input
    }

    pub fn parameter(&self) -> u16 {
        self.parameter
    }
}

impl ExecutionPlan for ProjectionExec {
    fn properties(&self) -> &PlanProperties {
        &self.properties
    }

    fn children(&self) -> Vec<&Arc<dyn ExecutionPlan>> {
        vec![&self.input]
    }

    fn with_new_children(self: Arc<Self>, children: Vec<Arc<dyn ExecutionPlan>>) -> Result<Arc<dyn ExecutionPlan>> {
        Ok(Arc::new(Self::new(only_child(children), self.parameter)))
    }

    fn supports_limit_pushdown(&self) -> bool {
        true
    }

    fn cardinality_effect(&self) -> CardinalityEffect {
        CardinalityEffect::Equal
    }
}
