//! Kind 1: one row, in one partition. It is not known empty; that it has one row the rule knows by itself.

use std::sync::Arc;

use datafusion_common::Result;

use crate::execution_plan::{ExecutionPlan, PlanProperties};

#[derive(Debug)]
pub struct PlaceholderRowExec {
    properties: PlanProperties,
}

impl PlaceholderRowExec {
    pub fn new() -> Self {
        Self { properties: PlanProperties::new(1, false) }
    }
}

impl Default for PlaceholderRowExec {
    fn default() -> Self {
        Self::new()
    }
}

impl ExecutionPlan for PlaceholderRowExec {
    fn properties(&self) -> &PlanProperties {
        &self.properties
    }

    fn children(&self) -> Vec<&Arc<dyn ExecutionPlan>> {
        Vec::new()
    }

    fn with_new_children(self: Arc<Self>, _children: Vec<Arc<dyn ExecutionPlan>>) -> Result<Arc<dyn ExecutionPlan>> {
        Ok(self)
    }
}
