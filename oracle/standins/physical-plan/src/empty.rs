//! Kind 0: no rows, in one partition.

use std::sync::Arc;

use datafusion_common::Result;

use crate::execution_plan::{ExecutionPlan, PlanProperties};

#[derive(Debug)]
pub struct EmptyExec {
    properties: PlanProperties,
}

impl EmptyExec {
    pub fn new() -> Self {
        Self { properties: PlanProperties::new(1, true) }
    }
}

impl Default for EmptyExec {
    fn default() -> Self {
        Self::new()
    }
}

impl ExecutionPlan for EmptyExec {
    fn properties(&self) -> &PlanProperties {
        &self.properties
    }

    fn children(&self) -> Vec<&Arc<dyn ExecutionPlan>> {
        Vec::new()
    }

    fn with_new_children(self: Arc<Self>, _children: Vec<Arc<dyn ExecutionPlan>>) -> Result<Arc<dyn ExecutionPlan>> {
        Ok(self)
    }
}
